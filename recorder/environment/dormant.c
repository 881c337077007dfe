/* A pointer that is written once, and a sign in a forked child; each before there is another thread. */
#define _GNU_SOURCE
#include "environment/dormant.h"

#include <errno.h>
#include <stddef.h>
#include <string.h>
#include <sys/un.h>

#include "base/descriptors.h"
#include "base/system.h"
#include "common/hub_name.h"

enum { ASLEEP, WOKEN, SERVED };

static struct dormant *run;
static bool has_passed;

void dormant_begin(struct dormant *shared)
{
    run = shared;
}

/* Sends this end of a pair over that connection. */
static long pass(int connection, int end)
{
    char byte = OWN_PASSES;
    struct iovec piece = {&byte, 1};
    union {
        struct cmsghdr header;
        char room[CMSG_SPACE(sizeof(int))];
    } control = {0};
    struct msghdr message = {
        .msg_iov = &piece, .msg_iovlen = 1, .msg_control = &control, .msg_controllen = sizeof control.room};
    control.header = (struct cmsghdr){CMSG_LEN(sizeof end), SOL_SOCKET, SCM_RIGHTS};
    memcpy(CMSG_DATA(&control.header), &end, sizeof end);
    return system_sendmsg(connection, &message, MSG_NOSIGNAL);
}

bool dormant_has_passed(void)
{
    return has_passed;
}

int dormant_connect(void)
{
    int ends[2], connection = run != NULL ? descriptor_kept(KEPT_RUN) : -1;
    if (connection < 0)
        return -ENOTCONN;
    long result = system_call4(SYS_socketpair, AF_UNIX, SOCK_STREAM | SOCK_CLOEXEC | SOCK_NONBLOCK, 0, (long)ends);
    if (result != 0)
        return (int)result;
    result = pass(connection, ends[1]);
    system_close(ends[1]);
    has_passed |= result > 0;
    if (result > 0)
        return ends[0];
    system_close(ends[0]);
    return result < 0 ? (int)result : -EPIPE;
}

bool dormant_is_there(void)
{
    return run != NULL;
}

bool dormant_is_asleep(void)
{
    return run != NULL && atomic_load(&run->is_awake) == ASLEEP;
}

void dormant_wake(void)
{
    uint32_t asleep = ASLEEP;
    if (run != NULL)
        atomic_compare_exchange_strong(&run->is_awake, &asleep, WOKEN);
}

void dormant_await(void)
{
    enum { MOST_MS = 500 };
    for (int waited_ms = 0; run != NULL && atomic_load(&run->is_awake) != SERVED && waited_ms < MOST_MS; waited_ms++)
        system_poll(NULL, 0, 1);
}

void dormant_is_served(struct dormant *shared)
{
    atomic_store(&shared->is_awake, SERVED);
}

void dormant_note_fork(void)
{
    if (run != NULL)
        atomic_fetch_add(&run->forking, 1);
}

void dormant_note_forked(void)
{
    if (run != NULL)
        atomic_fetch_sub(&run->forking, 1);
}

void dormant_note_lost(void)
{
    if (run != NULL)
        atomic_store(&run->is_lost, 1);
}

bool dormant_has_lost(void)
{
    return run != NULL && atomic_load(&run->is_lost) != 0;
}

void dormant_note_exec(bool becomes)
{
    if (run != NULL)
        atomic_store(&run->becomes, becomes);
}
