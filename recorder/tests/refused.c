/* Calls with a pointer that the system refuses, of each row of calls.def (refused.py writes cases.h). For each line of
   standard input, which has the numbers of a case and of a pointer, it prints what the call has answered; the case is
   called in a child of its own, or else here. */
#define _GNU_SOURCE
#include <errno.h>
#include <fcntl.h>
#include <signal.h>
#include <stdbool.h>
#include <stdint.h>
#include <stdio.h>
#include <stdlib.h>
#include <string.h>
#include <sys/mman.h>
#include <sys/socket.h>
#include <sys/time.h>
#include <sys/wait.h>
#include <unistd.h>

enum { PAGE = 4096, ROOM = 1 << 13, GOODS = 8, LETTERS = 4, MOST_MICROSECONDS = 300000 };

static int folder = AT_FDCWD, file, sockets[2];
static _Alignas(64) char goods[GOODS][ROOM];

static char *pages; /* a page, and one without access behind it */

static void *bad_pointer(int number)
{
    const uintptr_t no_access = (uintptr_t)pages + PAGE, half = (uintptr_t)1 << 62, end = (uintptr_t)1 << 47;
    const uintptr_t shadow = 0x7fff8000, stated = (uintptr_t)1 << 46; /* where the recorder has its maps */
    const uintptr_t all[] = {8, no_access, half, no_access - LETTERS, -(uintptr_t)LETTERS, end, shadow, stated};
    return (void *)all[number];
}

/* A call may close its own. */
static FILE *fresh_stream(void)
{
    return fopen("stream", "w+");
}

typedef long function();

#include "cases.h"

static void print_of(int number, int which)
{
    char line[200];
    memset(pages, 'a', PAGE);
    memset(goods, 0, sizeof goods);
    if (ftruncate(file, 0) != 0 || lseek(file, 0, SEEK_SET) != 0)
        _exit(3);
    void *bad = bad_pointer(which);
    errno = 0;
    long result = cases[number].call(bad);
    int error = errno;
    const char *shown = !cases[number].is_pointer ? "" : result == 0 ? "null " : "pointer ";
    result = cases[number].is_pointer ? 0 : cases[number].is_int ? (int)result : result;
    int length = snprintf(line, sizeof line, "%d %d %s%ld %d\n", number, which, shown, result, error);
    if (write(STDOUT_FILENO, line, (size_t)length) != length)
        _exit(3);
}

static void print_of_child(int number, int which)
{
    int status = 0;
    pid_t child = fork();
    if (child == 0) {
        setitimer(ITIMER_REAL, &(struct itimerval){.it_value.tv_usec = MOST_MICROSECONDS}, NULL);
        print_of(number, which);
        _exit(0);
    }
    waitpid(child, &status, 0);
    if (WIFSIGNALED(status)) {
        printf("%d %d signal %d\n", number, which, WTERMSIG(status));
        fflush(stdout);
    }
}

int main(int count, char **argv)
{
    static char text[1 << 20];
    bool of_child = count > 1 && strcmp(argv[1], "child") == 0;
    size_t length = fread(text, 1, sizeof text - 1, stdin);
    text[length] = 0;
    file = open("file", O_RDWR | O_CREAT | O_CLOEXEC, 0600);
    pages = mmap(NULL, 2 * PAGE, PROT_READ | PROT_WRITE, MAP_PRIVATE | MAP_ANONYMOUS, -1, 0);
    if (file < 0 || pages == MAP_FAILED || mprotect(pages + PAGE, PAGE, PROT_NONE) != 0
        || socketpair(AF_UNIX, SOCK_DGRAM | SOCK_NONBLOCK | SOCK_CLOEXEC, 0, sockets) != 0)
        return 2;
    int number, which, used;
    for (char *at = text; sscanf(at, "%d %d\n%n", &number, &which, &used) == 2; at += used)
        if (of_child)
            print_of_child(number, which);
        else
            print_of(number, which);
    return 0;
}
