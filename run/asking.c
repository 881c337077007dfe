/* An array of connections that have not asked yet, each with its deadline; and one of those that have asked for their
   reports, which have to wait for their checkers. */
#define _GNU_SOURCE
#include "asking.h"

#include <errno.h>
#include <string.h>
#include <sys/socket.h>
#include <unistd.h>

#include "command.h"
#include "common/hub_name.h"
#include "common/text.h"
#include "marks.h"
#include "peers.h"
#include "serving.h"
#include "say.h"
#include "showing.h"

/* How many seconds one may have connected and not asked. */
static const double PATIENCE = 1;

static struct asker {
    int connection;
    struct ucred peer;
    double until;
} askers[ASKING_MOST];
static size_t count;

static struct {
    int connection;
    pid_t number;
} waiting[ASKING_WAITING];
static size_t waiting_count;

double asking_polls(struct pollfd *polls, double seconds)
{
    for (size_t i = 0; i < HUB_LISTENERS; i++)
        polls[i] = (struct pollfd){count < ASKING_MOST ? hub_asked()[i] : -1, POLLIN, 0};
    for (size_t i = 0; i < ASKING_MOST; i++)
        polls[HUB_LISTENERS + i] = (struct pollfd){i < count ? askers[i].connection : -1, POLLIN, 0};
    return count > 0 && seconds > PATIENCE ? PATIENCE : seconds;
}

static bool is_request(const char *text, const char *word)
{
    size_t length = strlen(word);
    return begins_with(text, word) && (text[length] == 0 || text[length] == '\n');
}

static void answer(const struct asker *asker, const char *text, size_t length)
{
    /* A socket that nobody has sent to takes so much at once. */
    if (send(asker->connection, text, length, MSG_NOSIGNAL | MSG_DONTWAIT) < 0)
        return;
}

static bool has_hung_up(int connection)
{
    struct pollfd end = {connection, 0, 0};
    return poll(&end, 1, 0) > 0;
}

/* Keeps one that wants its report. Nobody asks any more for that of a process that is gone. */
static void keep_waiting(struct asker *asker)
{
    for (size_t i = waiting_count; i-- > 0;) {
        if (!has_hung_up(waiting[i].connection))
            continue;
        close(waiting[i].connection);
        waiting[i] = waiting[--waiting_count];
    }
    if (waiting_count == ASKING_WAITING)
        return;
    waiting[waiting_count].connection = asker->connection;
    waiting[waiting_count++].number = asker->peer.pid;
    asker->connection = -1;
}

/* Who is not known to be ours gets no settings; and of another user's process that is not, its word is refused with a
   line. */
static void take_request(struct asker *asker, char *text)
{
    size_t length;
    const char *settings = command_settings(&length);
    if (is_request(text, ASK_STATUS)) {
        if (serving_take(asker->peer.pid, text + strlen(ASK_STATUS), asker->connection))
            asker->connection = -1; /* it is kept there */
        else
            answer(asker, "-", 1); /* one of the same number elsewhere keeps its status */
        return;
    }
    enum peer whose = peer_judge_asker(&asker->peer);
    if (is_request(text, ASK_SETTINGS) && whose == PEER_OURS)
        answer(asker, settings, length);
    if (is_request(text, ASK_REPORT) && whose == PEER_OURS)
        keep_waiting(asker);
    if (is_request(text, ASK_SHOW) && whose == PEER_OURS
        && showing_take(asker->peer.pid, text + strlen(ASK_SHOW), asker->connection))
        asker->connection = -1;
    if (!is_request(text, ASK_UNSEEN) || whose == PEER_OTHERS)
        return;
    if (whose != PEER_OURS) {
        peer_say_refused(&asker->peer);
        return;
    }
    marks_take_word(asker->peer.pid, text + strlen(ASK_UNSEEN));
    answer(asker, "", 1);
}

/* Answers whether it has asked, or is gone, or had its time. */
static bool is_over(struct asker *asker, bool is_ready)
{
    char text[ASK_MOST + 1];
    if (!is_ready)
        return now() >= asker->until;
    ssize_t length = recv(asker->connection, text, ASK_MOST, MSG_DONTWAIT);
    if (length > 0) {
        text[length] = 0;
        take_request(asker, text);
    }
    return length >= 0 || errno != EAGAIN;
}

void asking_take(const struct pollfd *polls)
{
    size_t before = count;
    count = 0;
    for (size_t i = 0; i < before; i++) {
        if (!is_over(&askers[i], polls[HUB_LISTENERS + i].revents != 0))
            askers[count++] = askers[i];
        else if (askers[i].connection >= 0)
            close(askers[i].connection);
    }
    for (size_t i = 0; i < HUB_LISTENERS; i++) {
        while (polls[i].revents != 0 && count < ASKING_MOST) {
            struct asker asker = {.until = now() + PATIENCE};
            asker.connection = hub_accept(hub_asked()[i], &asker.peer);
            if (asker.connection < 0)
                break;
            askers[count++] = asker;
        }
    }
}

bool asking_is_any(void)
{
    struct pollfd polls[ASKING_POLLS];
    asking_polls(polls, 0);
    return count > 0 || poll(polls, HUB_LISTENERS, 0) > 0;
}

static int take_waiting(pid_t number)
{
    for (size_t i = 0; i < waiting_count; i++) {
        int connection = waiting[i].connection;
        if (waiting[i].number != number)
            continue;
        waiting[i] = waiting[--waiting_count];
        return connection;
    }
    return -1;
}

/* It has asked before its recording ended, so its question is there, perhaps behind others. */
int asking_of(pid_t number)
{
    enum { TURNS = 100 };
    int connection = take_waiting(number);
    for (int turn = 0; connection < 0 && turn < TURNS; turn++) {
        struct pollfd polls[ASKING_POLLS];
        asking_polls(polls, 0);
        if (poll(polls, ASKING_POLLS, 0) <= 0)
            break;
        asking_take(polls);
        connection = take_waiting(number);
    }
    return connection;
}

size_t asking_held(void)
{
    return waiting_count;
}
