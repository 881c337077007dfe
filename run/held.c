/* A list in the order of time, and an epoll that tells of each once. */
#define _GNU_SOURCE
#include "held.h"

#include <math.h>
#include <stdlib.h>
#include <sys/epoll.h>
#include <unistd.h>

#include "checkers.h"
#include "say.h"
#include "shared.h"
#include "verdict.h"

/* How many seconds one may live without a checker. */
static const double PATIENCE = 0.2;
/* The most events that are taken in one call. */
enum { EVENTS = 64 };

struct held {
    struct segment *segment;
    double until;
    struct held *next, **link; /* what points to it */
};

static int events = -1; /* an epoll, which tells of each that sends or ends, once */
static struct held *oldest, **end = &oldest;

void held_begin(void)
{
    events = epoll_create1(EPOLL_CLOEXEC);
}

struct pollfd held_poll(void)
{
    return (struct pollfd){events, POLLIN, 0};
}

double held_due(void)
{
    return oldest != NULL ? oldest->until : INFINITY;
}

/* Adds it at the end, with its time. False: it cannot be watched. */
static bool add(struct segment *segment)
{
    struct held *made = must(malloc(sizeof *made));
    struct epoll_event event = {.events = EPOLLIN | EPOLLRDHUP | EPOLLET, .data.ptr = made};
    if (epoll_ctl(events, EPOLL_CTL_ADD, segment->connection, &event) != 0) {
        free(made);
        return false;
    }
    *made = (struct held){segment, now() + PATIENCE, NULL, end};
    *end = made;
    end = &made->next;
    return true;
}

static void drop(struct held *held)
{
    epoll_ctl(events, EPOLL_CTL_DEL, held->segment->connection, NULL);
    *held->link = held->next;
    if (held->next != NULL)
        held->next->link = held->link;
    else
        end = held->link;
    free(held);
}

/* Whether it has ended, so that it is checked with others. All that it has sent is here then. */
static bool is_shared(struct segment *segment)
{
    return verdict_is_at_end(segment) && shared_take(segment);
}

bool held_take(struct segment *segment)
{
    if (events < 0 || segment->is_alone)
        return false;
    bool has_ended = segment_has_hung_up(segment); /* before what it has sent is looked at */
    if (!checker_can_wait(segment))
        return false;
    return has_ended ? is_shared(segment) : add(segment);
}

/* Looks at one of which there is news, or whose time has come. */
static void look(struct held *held, bool has_ended)
{
    struct segment *segment = held->segment;
    bool can_wait = checker_can_wait(segment);
    if (can_wait && !has_ended && now() < held->until)
        return;
    drop(held);
    if (!can_wait || !has_ended || !is_shared(segment))
        shared_add_alone(segment);
}

void held_look(bool is_ready)
{
    struct epoll_event found[EVENTS];
    int count = is_ready ? EVENTS : 0;
    while (count == EVENTS) {
        count = epoll_wait(events, found, EVENTS, 0);
        for (int i = 0; i < count; i++)
            look(found[i].data.ptr, found[i].events & (EPOLLRDHUP | EPOLLHUP | EPOLLERR));
    }
    while (oldest != NULL && now() >= oldest->until)
        look(oldest, segment_has_hung_up(oldest->segment));
}
