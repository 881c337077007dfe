/* An epoll tells which connections have sent something; these are in a list, `ready`, in the order in which that was
   seen. */
#define _GNU_SOURCE
#include "arrivals.h"

#include <sys/epoll.h>

/* The most that are found in one call. */
enum { MOST_FOUND = 64 };

static int watched = -1;      /* an epoll */
static struct segment *only;  /* without one, the connection that waits; or null */
static struct segment *ready; /* the first; the others by next_waiting */
static struct segment **ready_end = &ready;

void arrivals_begin(void)
{
    watched = epoll_create1(EPOLL_CLOEXEC);
}

void arrivals_add_ready(struct segment *segment)
{
    segment->next_waiting = NULL;
    *ready_end = segment;
    ready_end = &segment->next_waiting;
}

void arrivals_add(struct segment *segment)
{
    struct epoll_event event = {.events = EPOLLIN, .data.ptr = segment};
    if (watched < 0 && only == NULL)
        only = segment;
    else if (epoll_ctl(watched, EPOLL_CTL_ADD, segment->connection, &event) != 0)
        arrivals_add_ready(segment); /* no memory: its checker waits in its place */
}

struct pollfd arrivals_poll(void)
{
    return (struct pollfd){only != NULL ? only->connection : watched, POLLIN, 0};
}

void arrivals_find(void)
{
    struct epoll_event found[MOST_FOUND];
    int count = MOST_FOUND;
    if (only != NULL)
        arrivals_add_ready(only);
    only = NULL;
    while (watched >= 0 && count == MOST_FOUND) {
        count = epoll_wait(watched, found, MOST_FOUND, 0);
        for (int i = 0; i < count; i++) {
            struct segment *segment = found[i].data.ptr;
            epoll_ctl(watched, EPOLL_CTL_DEL, segment->connection, NULL);
            arrivals_add_ready(segment);
        }
    }
}

struct segment *arrivals_next(void)
{
    struct segment *next = ready;
    if (next == NULL)
        return NULL;
    ready = next->next_waiting;
    if (ready == NULL)
        ready_end = &ready;
    return next;
}

bool arrivals_are_ready(void)
{
    return ready != NULL;
}
