/* Overflows by functions that _FORTIFY_SOURCE knows: each of two blocks, of an array in the frame and of a global. The
   C library ends the process at most of them: here SIGABRT leads to the next, but with `fortified dies` the first is
   the end. `fortified good` does the same in bounds. */
#define _GNU_SOURCE
#include <poll.h>
#include <setjmp.h>
#include <signal.h>
#include <stdbool.h>
#include <stdio.h>
#include <stdlib.h>
#include <string.h>
#include <sys/mman.h>
#include <sys/socket.h>
#include <unistd.h>
#include <wchar.h>

enum { ROOM = 12 };
static const char text[] = "abcdefghijklmnopqrstuvwxyz";
static volatile size_t room = ROOM, most = 20;
static const char *volatile word = "abcdefghijklmnopqrs";
static const wchar_t *volatile wide = L"abcd";
static FILE *stream;
static int file, pair[2];
static sigjmp_buf next;

static void go_on(int number)
{
    siglongjmp(next, number);
}

static void renew(void)
{
    if (stream != NULL)
        fclose(stream);
    lseek(file, 0, SEEK_SET);
    stream = fdopen(dup(file), "r");
    send(pair[1], text, sizeof text, 0);
}

/* `p` is the memory, of 12 bytes, and `w` the same. */
#define USES(number, use)                                                                                              \
    __attribute__((noinline)) static void of_block_##number(void)                                                      \
    {                                                                                                                  \
        char *p = malloc(ROOM);                                                                                        \
        wchar_t *w = (wchar_t *)(void *)p;                                                                             \
        (void)w, p[0] = 0, w[0] = 0, use;                                                                              \
        __asm__ volatile("# %0" : : "r"(p) : "memory");                                                                \
    }                                                                                                                  \
    __attribute__((noinline)) static void of_later_##number(void)                                                      \
    {                                                                                                                  \
        char *p = malloc(room);                                                                                        \
        wchar_t *w = (wchar_t *)(void *)p;                                                                             \
        (void)w, p[0] = 0, w[0] = 0, use;                                                                              \
        __asm__ volatile("# %0" : : "r"(p) : "memory");                                                                \
    }                                                                                                                  \
    __attribute__((noinline)) static void of_frame_##number(void)                                                      \
    {                                                                                                                  \
        _Alignas(8) char p[ROOM];                                                                                      \
        wchar_t *w = (wchar_t *)(void *)p;                                                                             \
        (void)w, p[0] = 0, w[0] = 0, use;                                                                              \
        __asm__ volatile("# %0" : : "r"(p) : "memory");                                                                \
    }                                                                                                                  \
    __attribute__((noinline)) static void of_global_##number(void)                                                     \
    {                                                                                                                  \
        static _Alignas(8) char p[ROOM];                                                                               \
        wchar_t *w = (wchar_t *)(void *)p;                                                                             \
        (void)w, p[0] = 0, w[0] = 0, use;                                                                              \
        __asm__ volatile("# %0" : : "r"(p) : "memory");                                                                \
    }                                                                                                                  \
    static void (*const of_##number[])(void) = {of_block_##number, of_later_##number, of_frame_##number,               \
                                                of_global_##number};

USES(0, sprintf(p, "%s", word))
USES(1, memcpy(p, text, most))
USES(2, memmove(p, text, most))
USES(3, mempcpy(p, text, most))
USES(4, memset(p, 1, most))
USES(5, explicit_bzero(p, most))
USES(6, strcpy(p, word))
USES(7, stpcpy(p, word))
USES(8, strncpy(p, word, most))
USES(9, stpncpy(p, word, most))
USES(10, strcat(p, word))
USES(11, strncat(p, word, most))
USES(12, snprintf(p, most, "%.19s", word))
USES(13, read(file, p, most))
USES(14, pread(file, p, most, 0))
USES(15, recv(pair[0], p, most, 0))
USES(16, recvfrom(pair[0], p, most, 0, NULL, NULL))
USES(17, fread(p, 1, most, stream))
USES(18, fread_unlocked(p, 1, most, stream))
USES(19, fgets(p, (int)most, stream))
USES(20, fgets_unlocked(p, (int)most, stream))
USES(21, readlink("/proc/self/exe", p, most))
USES(22, readlinkat(0, "/proc/self/exe", p, most))
USES(23, confstr(_CS_PATH, p, most))
USES(24, poll((struct pollfd *)p, most / sizeof(struct pollfd), 0))
USES(25, wmemcpy(w, wide, most / 4))
USES(26, wmemset(w, 'a', most / 4))
USES(27, wcscpy(w, wide))
USES(28, wcsncpy(w, wide, most / 4))
USES(29, wcscat(w, wide))
USES(30, swprintf(w, most / 4, L"%ls", wide))
USES(31, fgetws(w, (int)most / 4, stream))
USES(32, mbstowcs(w, word, most / 4))
USES(33, wcpcpy(w, wide))

typedef void (*uses)(void);
static const uses *const all[] = {
    of_0, of_1, of_2, of_3, of_4, of_5, of_6, of_7, of_8, of_9, of_10, of_11, of_12, of_13, of_14, of_15,
    of_16, of_17, of_18, of_19, of_20, of_21, of_22, of_23, of_24, of_25, of_26, of_27, of_28, of_29, of_30,
    of_31, of_32, of_33};

int main(int count, char **argv)
{
    static volatile size_t i, j;
    bool is_good = count > 1 && strcmp(argv[1], "good") == 0;
    if (is_good) {
        most = ROOM;
        word = "abcdefghijk";
        wide = L"ab";
    }
    struct sigaction action = {.sa_handler = go_on};
    if (is_good || count == 1)
        sigaction(SIGABRT, &action, NULL);
    file = memfd_create("text", 0);
    if (write(file, text, sizeof text) < 0 || socketpair(AF_UNIX, SOCK_DGRAM, 0, pair) != 0)
        return 9;
    for (i = 0; i < sizeof all / sizeof *all; i++)
        for (j = 0; j < 4; j++) {
            renew();
            if (sigsetjmp(next, 1) == 0)
                all[i][j]();
        }
    return 0;
}
