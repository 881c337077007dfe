/* An attempt that fails for the process's limit is repeated once under the highest limit allowed, and the limit is
   restored. `kept` has the numbers of those that are kept, each with its identity: the process may close one by a call
   of the system, and open another file with its number. */
#define _GNU_SOURCE
#include "base/descriptors.h"

#include <errno.h>
#include <fcntl.h>
#include <limits.h>
#include <stdatomic.h>
#include <stdbool.h>
#include <string.h>
#include <sys/resource.h>
#include <sys/un.h>

#include "base/self.h"
#include "base/system.h"

/* Whether to try again, after an attempt that has made this: once, with the limit as high as it may be. Afterwards it
   is as before, which is zeros at first. */
static bool tries_again(struct rlimit *before, int made)
{
    if (before->rlim_max != 0) {
        system_setrlimit(RLIMIT_NOFILE, before);
        return false;
    }
    if (made != -EMFILE || system_getrlimit(RLIMIT_NOFILE, before) != 0)
        return false;
    struct rlimit higher = {before->rlim_max, before->rlim_max};
    return before->rlim_cur < before->rlim_max && system_setrlimit(RLIMIT_NOFILE, &higher) == 0;
}

int descriptor_of_file(const char *path, int flags)
{
    struct rlimit before = {0};
    int made;
    do
        made = system_open(path, flags, 0);
    while (tries_again(&before, made));
    return made;
}

int descriptor_of_socket(int type)
{
    struct rlimit before = {0};
    int made;
    do
        made = system_socket(AF_UNIX, type, 0);
    while (tries_again(&before, made));
    return made;
}

int descriptor_of_memory(const char *name, unsigned flags)
{
    struct rlimit before = {0};
    int made;
    do
        made = system_memfd_create(name, flags);
    while (tries_again(&before, made));
    return made;
}

/* Those that are kept. The number is set last, and taken away first. */
static struct {
    _Atomic int number; /* and one more; 0: none */
    _Atomic dev_t device;
    _Atomic ino_t node;
} kept[DESCRIPTORS_KEPT];

/* Past all numbers that the process itself may have, if its own limit alone says which. The system's table of
   descriptors is to stay small. */
static int move_past(int descriptor, const struct rlimit *limit)
{
    enum { LARGEST = 4096, ROOM = 8 };
    if (limit->rlim_cur > LARGEST || limit->rlim_cur >= limit->rlim_max)
        return -1;
    struct rlimit higher = {limit->rlim_cur + ROOM, limit->rlim_max};
    if (higher.rlim_cur > higher.rlim_max)
        higher.rlim_cur = higher.rlim_max;
    if (system_setrlimit(RLIMIT_NOFILE, &higher) != 0)
        return -1;
    int moved = system_fcntl(descriptor, F_DUPFD_CLOEXEC, (int)limit->rlim_cur);
    system_setrlimit(RLIMIT_NOFILE, limit);
    return moved;
}

int descriptor_moved_up(int descriptor)
{
    struct rlimit limit;
    int least = 512, moved = -1;
    if (system_getrlimit(RLIMIT_NOFILE, &limit) == 0) {
        moved = move_past(descriptor, &limit);
        least = limit.rlim_cur <= 1024 ? (int)(limit.rlim_cur / 4 * 3) : least;
    }
    if (moved < 0)
        moved = system_fcntl(descriptor, F_DUPFD_CLOEXEC, least);
    if (moved < 0)
        return descriptor;
    system_close(descriptor);
    return moved;
}

int descriptor_past(int descriptor)
{
    struct rlimit before = {0};
    int made;
    do
        made = system_fcntl(descriptor, F_DUPFD_CLOEXEC, descriptor + 1);
    while (tries_again(&before, made == -EINVAL ? -EMFILE : made)); /* EINVAL: the limit is no greater */
    return made;
}

void descriptor_keep(enum descriptor_kept which, int descriptor, const struct stat *identity)
{
    atomic_store(&kept[which].number, 0);
    atomic_store(&kept[which].device, identity->st_dev);
    atomic_store(&kept[which].node, identity->st_ino);
    atomic_store(&kept[which].number, descriptor + 1);
}

void descriptor_drop(enum descriptor_kept which)
{
    atomic_store(&kept[which].number, 0);
}

/* In a child of vfork, or in one that is not recorded, they are those of its parent. */
static bool is_kept(int descriptor, int which)
{
    struct stat seen;
    return recorder_is_own_process() && system_fstat(descriptor, &seen) == 0
           && seen.st_dev == atomic_load(&kept[which].device) && seen.st_ino == atomic_load(&kept[which].node);
}

int descriptor_kept(enum descriptor_kept which)
{
    int descriptor = atomic_load(&kept[which].number) - 1;
    return descriptor >= 0 && is_kept(descriptor, (int)which) ? descriptor : -1;
}

int descriptor_shown(int descriptor)
{
    for (int i = 0; i < DESCRIPTORS_KEPT; i++)
        if (UNLIKELY(descriptor == atomic_load_explicit(&kept[i].number, memory_order_relaxed) - 1) && descriptor >= 0
            && is_kept(descriptor, i))
            return -1;
    return descriptor;
}

int descriptor_hidden_from(int descriptor)
{
    int least = INT_MAX;
    for (int i = 0; i < DESCRIPTORS_KEPT; i++) {
        int number = atomic_load_explicit(&kept[i].number, memory_order_relaxed) - 1;
        if (number >= 0 && number >= descriptor && number < least)
            least = number;
    }
    return least;
}

/* The descriptor that comes with one byte; -1: none. */
static int receive(int socket)
{
    char byte;
    struct iovec piece = {&byte, 1};
    union {
        struct cmsghdr header;
        char room[CMSG_SPACE(sizeof(int))];
    } control = {0};
    struct msghdr message = {
        .msg_iov = &piece, .msg_iovlen = 1, .msg_control = &control, .msg_controllen = sizeof control};
    int received = -1;
    if (system_recvmsg(socket, &message, MSG_DONTWAIT | MSG_CMSG_CLOEXEC) == 1
        && message.msg_controllen >= CMSG_LEN(sizeof received) && control.header.cmsg_type == SCM_RIGHTS)
        memcpy(&received, CMSG_DATA(&control.header), sizeof received);
    return received;
}

/* There is no second attempt: what has found no room is gone. */
int descriptor_of_message(int socket)
{
    struct rlimit before = {0};
    tries_again(&before, -EMFILE);
    int received = receive(socket);
    tries_again(&before, received);
    return received;
}
