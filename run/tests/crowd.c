/* A crowd of processes that speak to a hub as recorded ones do which end well, but cost nearly nothing.

   usage: crowd COUNT [together | silent]

   They come one after another, a few at once. With `together` all of them are there before the first one ends; with
   `silent` they connect and say nothing. */
#define _GNU_SOURCE
#include <fcntl.h>
#include <stdbool.h>
#include <stdio.h>
#include <stdlib.h>
#include <string.h>
#include <sys/mman.h>
#include <sys/socket.h>
#include <sys/un.h>
#include <sys/wait.h>
#include <time.h>
#include <unistd.h>

#include "common/format.h"

enum { AT_ONCE = 16 };

static void need(bool holds, const char *what)
{
    if (holds)
        return;
    perror(what);
    _exit(1);
}

static int connect_to_hub(void)
{
    struct sockaddr_un name = {.sun_family = AF_UNIX};
    const char *hub = getenv("ASANCOL_HUB");
    need(hub != NULL && strlen(hub) < sizeof name.sun_path, "ASANCOL_HUB");
    strcpy(name.sun_path, hub);
    int made = socket(AF_UNIX, SOCK_STREAM, 0);
    need(made >= 0 && connect(made, (struct sockaddr *)&name, sizeof name) == 0, "connect");
    return made;
}

/* The side memory of a process that has begun, and has nothing to say. */
static int make_side(void)
{
    struct timespec time;
    struct side_progress progress = {.needed = 1, .has_begun = 1};
    struct side_settings settings = {.is_lean = 1};
    static struct side side = {.header = SIDE_HEADER, .has_checks = 1, .quarantine = QUARANTINE_BOUND, .argv = "crowd"};
    clock_gettime(CLOCK_REALTIME, &time);
    side.started = (uint64_t)time.tv_sec * 1000000000 + (uint64_t)time.tv_nsec;
    side.process = (uint32_t)getpid();
    side.parent = (uint32_t)getppid();
    int made = memfd_create(SIDE_MEMORY, MFD_CLOEXEC | MFD_ALLOW_SEALING);
    need(made >= 0 && ftruncate(made, SIDE_ROOM) == 0 && fcntl(made, F_ADD_SEALS, F_SEAL_SHRINK) == 0, "memory");
    need(pwrite(made, &side, sizeof side, 0) == sizeof side
             && pwrite(made, &progress, sizeof progress, SIDE_PROGRESS) == sizeof progress
             && pwrite(made, &settings, sizeof settings, SIDE_SETTINGS) == sizeof settings,
         "memory");
    return made;
}

static void send_header(int hub, int side)
{
    char header[] = HEADER;
    struct iovec piece = {header, HEADER_LENGTH};
    union {
        char room[CMSG_SPACE(sizeof side)];
        struct cmsghdr header;
    } control = {.header = {CMSG_LEN(sizeof side), SOL_SOCKET, SCM_RIGHTS}};
    struct msghdr message = {
        .msg_iov = &piece, .msg_iovlen = 1, .msg_control = &control, .msg_controllen = sizeof control.room};
    memcpy(CMSG_DATA(&control.header), &side, sizeof side);
    need(sendmsg(hub, &message, MSG_NOSIGNAL) == HEADER_LENGTH, "sendmsg");
}

/* One of the crowd. It ends once nobody writes to the pipe any more. */
static void live(int until, bool is_silent)
{
    const uint32_t ending = ENDING_EXIT;
    const char close_it = CODE_CLOSE;
    char byte;
    int hub = connect_to_hub();
    if (is_silent)
        _exit(0);
    int side = make_side();
    send_header(hub, side);
    while (until >= 0 && read(until, &byte, 1) > 0)
        ;
    need(pwrite(side, &ending, sizeof ending, offsetof(struct side, ending)) == sizeof ending, "the ending");
    need(send(hub, &close_it, sizeof close_it, MSG_NOSIGNAL) == sizeof close_it, "the close");
    _exit(0);
}

int main(int count, char **argv)
{
    int ends[2] = {-1, -1}, status, failed = 0;
    bool is_together = count > 2 && strcmp(argv[2], "together") == 0;
    bool is_silent = count > 2 && strcmp(argv[2], "silent") == 0;
    long left = count > 1 ? atol(argv[1]) : 0, live_now = 0;
    need(!is_together || pipe(ends) == 0, "pipe");
    while (left > 0 || live_now > 0) {
        if (left > 0 && (is_together || live_now < AT_ONCE)) {
            pid_t child = fork();
            need(child >= 0, "fork");
            if (child == 0) {
                close(ends[1]);
                live(ends[0], is_silent);
            }
            left--;
            live_now++;
            if (left == 0 && is_together) {
                sleep(1); /* the last of them connect */
                close(ends[1]);
            }
            continue;
        }
        need(wait(&status) > 0, "wait");
        failed += status != 0;
        live_now--;
    }
    if (failed > 0)
        fprintf(stderr, "crowd: %d failed\n", failed);
    return failed > 0;
}
