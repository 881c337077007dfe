/* `users`: the other users as which processes of the command have connected. */
#define _GNU_SOURCE
#include "peers.h"

#include <stddef.h>
#include <unistd.h>

#include "descendants.h"
#include "say.h"

/* How many other users are remembered, and how many that are refused have a line. */
enum { MAX_USERS = 16, MAX_LINES = 8 };

static uid_t users[MAX_USERS]; /* as which the command's processes have connected */
static size_t user_count, refused;

static bool is_remembered(uid_t user)
{
    for (size_t i = 0; i < user_count; i++)
        if (users[i] == user)
            return true;
    return false;
}

static void remember(uid_t user)
{
    if (user_count < MAX_USERS && !is_remembered(user))
        users[user_count++] = user;
}

enum peer peer_judge(const struct ucred *peer, bool knows_secret)
{
    if (peer->uid == getuid() || peer->uid == 0)
        return PEER_OURS;
    enum kinship kinship = knows_secret ? KINSHIP_OURS : descendants_kinship(peer->pid);
    if (kinship == KINSHIP_NONE)
        return PEER_STRANGER;
    /* Of one that is gone only the user is known: the command has others of this user, or it hasn't. */
    if (kinship == KINSHIP_UNKNOWN && !is_remembered(peer->uid) && !descendants_have_user(peer->uid))
        return PEER_UNKNOWN;
    remember(peer->uid);
    return PEER_OURS;
}

enum peer peer_judge_asker(const struct ucred *peer)
{
    bool is_of_user = peer->uid == getuid() || peer->uid == 0;
    switch (descendants_kinship(peer->pid)) {
    case KINSHIP_OURS:
        if (!is_of_user)
            remember(peer->uid);
        return PEER_OURS;
    case KINSHIP_UNKNOWN:
        return is_of_user ? PEER_OURS : PEER_STRANGER;
    default:
        return is_of_user ? PEER_OTHERS : PEER_STRANGER;
    }
}

void peer_say_refused(const struct ucred *peer)
{
    if (refused++ < MAX_LINES)
        say("asancol: a connection was refused: process %d of user %u was not started by this command", (int)peer->pid,
            (unsigned)peer->uid);
}

void peers_say_rest(void)
{
    if (refused > MAX_LINES)
        say("asancol: %zu more connections were refused", refused - MAX_LINES);
}
