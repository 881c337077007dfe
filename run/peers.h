/* Whose the processes are that connect. Let in is who knows the secret of the socket's path. The abstract name is
   anybody's to use: by that, processes of our user and of root are let in, and what the command has started, whoever
   that is by now.

   Called: peer_judge and peers_say_rest by loop.c, peer_judge_asker by asking.c, peer_say_refused by both; in the one
   thread of asancol-run; no lock. */
#ifndef ASANCOL_RUN_PEERS_H
#define ASANCOL_RUN_PEERS_H

#include <stdbool.h>
#include <sys/socket.h>

enum peer {
    PEER_OURS,
    PEER_STRANGER, /* another user's, and not the command's */
    PEER_UNKNOWN,  /* another user's, and gone before it was seen who has started it */
    PEER_OTHERS    /* our user's or root's, and not the command's: another run's, whose mark is the same */
};

struct ucred;
enum peer peer_judge(const struct ucred *peer, bool knows_secret);
/* Of one that has found the run by its mark alone, and waits for an answer. */
enum peer peer_judge_asker(const struct ucred *peer);
/* A line that it is refused; after some of them they are only counted. */
void peer_say_refused(const struct ucred *peer);
/* A line with how many were only counted. */
void peers_say_rest(void);

#endif
