/* The first 8 KiB are mapped, read-only, of a memory that is sealed against shrinking; those of a file are copied. The
   process may write there at any time: each number is read once, and bounded here or by whoever uses it. */
#define _GNU_SOURCE
#include "side.h"

#include <fcntl.h>
#include <stdbool.h>
#include <stdlib.h>
#include <string.h>
#include <sys/mman.h>
#include <sys/resource.h>
#include <sys/socket.h>
#include <sys/stat.h>
#include <unistd.h>

/* How many descriptors one message may bring: the memory, and files of modules. */
enum { MAX_RECEIVED = 1 + SIDE_FILES };
/* So much of it is mapped: all before the modules. */
enum { SIDE_MAPPED = SIDE_MAPS };

int side_receive(int connection, struct modules *modules)
{
    char bytes[HEADER_LENGTH];
    union {
        char room[CMSG_SPACE(MAX_RECEIVED * sizeof(int))];
        struct cmsghdr align;
    } control;
    struct iovec piece = {bytes, sizeof bytes};
    struct msghdr message = {
        .msg_iov = &piece, .msg_iovlen = 1, .msg_control = &control, .msg_controllen = sizeof control};
    int received[MAX_RECEIVED];
    if (recvmsg(connection, &message, MSG_PEEK | MSG_DONTWAIT | MSG_CMSG_CLOEXEC) < 0)
        return -1;
    struct cmsghdr *header = CMSG_FIRSTHDR(&message);
    if (header == NULL || header->cmsg_level != SOL_SOCKET || header->cmsg_type != SCM_RIGHTS)
        return -1;
    size_t count = (header->cmsg_len - CMSG_LEN(0)) / sizeof(int);
    if (count == 0 || count > MAX_RECEIVED)
        return -1;
    memcpy(received, CMSG_DATA(header), count * sizeof(int));
    modules_take(modules, received + 1, count - 1);
    return received[0];
}

/* Sparse, with the seals that side_map asks for; or -1. A limit on files would end us by a signal. */
static int make_memory(void)
{
    struct rlimit limit;
    if (getrlimit(RLIMIT_FSIZE, &limit) != 0 || limit.rlim_cur < SIDE_ROOM)
        return -1;
    int memory = memfd_create(SIDE_MEMORY, MFD_CLOEXEC | MFD_ALLOW_SEALING);
    if (memory < 0
        || (ftruncate(memory, (off_t)SIDE_ROOM) == 0
            && fcntl(memory, F_ADD_SEALS, F_SEAL_SHRINK | F_SEAL_GROW | F_SEAL_SEAL) == 0))
        return memory;
    close(memory);
    return -1;
}

/* A byte, and with it a descriptor unless that is -1. */
static void send_answer(int connection, int memory)
{
    char byte = 0;
    struct iovec piece = {&byte, 1};
    union {
        char room[CMSG_SPACE(sizeof memory)];
        struct cmsghdr header;
    } control = {.header = {CMSG_LEN(sizeof memory), SOL_SOCKET, SCM_RIGHTS}};
    struct msghdr message = {.msg_iov = &piece, .msg_iovlen = 1};
    if (memory >= 0) {
        message.msg_control = &control;
        message.msg_controllen = sizeof control.room;
        memcpy(CMSG_DATA(&control.header), &memory, sizeof memory);
    }
    sendmsg(connection, &message, MSG_NOSIGNAL | MSG_DONTWAIT);
}

bool side_answer(int connection, int *error)
{
    unsigned char question[SIDE_QUESTION];
    ssize_t length = recv(connection, question, sizeof question, MSG_PEEK | MSG_DONTWAIT);
    if (length != sizeof question || question[0] != SIDE_ASKS)
        return false;
    recv(connection, question, sizeof question, MSG_DONTWAIT);
    int memory = make_memory();
    send_answer(connection, memory);
    if (memory >= 0)
        close(memory);
    *error = question[1];
    return true;
}

const struct side *side_map(int descriptor)
{
    struct stat seen;
    int seals = fcntl(descriptor, F_GET_SEALS);
    if (seals < 0 || !(seals & F_SEAL_SHRINK) || fstat(descriptor, &seen) != 0
        || seen.st_size < SIDE_MAPPED)
        return NULL;
    void *memory = mmap(NULL, SIDE_MAPPED, PROT_READ, MAP_SHARED, descriptor, 0);
    if (memory == MAP_FAILED)
        return NULL;
    if (is_side_header(((const struct side *)memory)->header))
        return memory;
    munmap(memory, SIDE_MAPPED);
    return NULL;
}

const struct side *side_read(const char *path)
{
    void *memory = mmap(NULL, SIDE_MAPPED, PROT_READ | PROT_WRITE, MAP_PRIVATE | MAP_ANONYMOUS, -1, 0);
    int descriptor = open(path, O_RDONLY | O_CLOEXEC | O_NONBLOCK);
    bool is_read = memory != MAP_FAILED && descriptor >= 0
                   && pread(descriptor, memory, SIDE_MAPPED, 0) == SIDE_MAPPED
                   && is_side_header(((const struct side *)memory)->header);
    if (descriptor >= 0)
        close(descriptor);
    if (is_read)
        return memory;
    if (memory != MAP_FAILED)
        munmap(memory, SIDE_MAPPED);
    return NULL;
}

void side_unmap(const struct side *side)
{
    if (side != NULL)
        munmap((void *)(uintptr_t)side, SIDE_MAPPED);
}

uint64_t side_quarantine(const struct side *side)
{
    uint64_t held = *(const volatile uint64_t *)&side->quarantine; /* once: the process may write there */
    return held < MAX_QUARANTINE ? held : MAX_QUARANTINE;
}

uint32_t side_entries(const struct side *side)
{
    uint32_t entries = *(const volatile uint32_t *)&side->fault_count;
    return entries < SIDE_FAULTS ? entries : SIDE_FAULTS;
}

struct side_settings side_settings(const struct side *side)
{
    struct side_settings settings; /* once: the process may write there */
    memcpy(&settings, (const unsigned char *)side + SIDE_SETTINGS, sizeof settings);
    return settings;
}

size_t side_children(const struct side *side, pid_t *children)
{
    const unsigned char *bytes = (const unsigned char *)side;
    const volatile struct side_progress *progress = (const volatile void *)(bytes + SIDE_PROGRESS);
    uint64_t noted = progress->noted_children;
    size_t count = noted < SIDE_CHILDREN ? (size_t)noted : SIDE_CHILDREN;
    for (size_t i = 0; i < count; i++)
        children[i] = (pid_t)progress->children[i];
    return count;
}

struct side_progress side_progress(const struct side *side)
{
    const unsigned char *bytes = (const unsigned char *)side;
    const volatile struct side_progress *progress = (const volatile void *)(bytes + SIDE_PROGRESS);
    return (struct side_progress){progress->needed,
                                  progress->segment,
                                  progress->stated,
                                  progress->noted,
                                  progress->forks,
                                  progress->of_parent,
                                  progress->of_parent_started,
                                  progress->becomes,
                                  progress->calls,
                                  progress->starts,
                                  progress->has_begun,
                                  progress->findings,
                                  progress->findings_lost,
                                  progress->leaks,
                                  progress->leaks_missed,
                                  progress->left_good,
                                  progress->inside,
                                  progress->closed_off,
                                  progress->sender,
                                  progress->skipped,
                                  0,
                                  {0},
                                  progress->used_again};
}
