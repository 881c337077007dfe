/* Situations of correct programs, each of which says what it saw: `alone NAME` runs one. What it says has nothing in it
   that differs from one run to the next, such as a process's number or an address. */
#ifndef ALONE_H
#define ALONE_H

#include <errno.h>
#include <pthread.h>
#include <stddef.h>
#include <stdio.h>
#include <stdlib.h>
#include <string.h>
#include <sys/types.h>
#include <unistd.h>

#ifdef __cplusplus
extern "C" {
#endif

struct situation {
    const char *file; /* its group */
    const char *name;
    void (*run)(void);
};

/* A situation: its name, and then its body. */
#define SITUATION(name)                                                                                                \
    static void name(void);                                                                                            \
    __attribute__((section("situations"), used, aligned(8))) static const struct situation name##_row = {__FILE__,     \
                                                                                                         #name, name}; \
    static void name(void)

/* Writes a line to standard output at once. */
void say(const char *format, ...) __attribute__((format(printf, 1, 2)));

/* Says what a call has returned, with its errno if that is not 0: it is 0 before. */
#define TELL(call) (errno = 0, say_result(#call, (long)(call)))
void say_result(const char *call, long result);
/* Says whether it is 0 or null, -1, or another value, with its errno. */
#define TELL_KIND(call) (errno = 0, say_kind(#call, (long)(call)))
void say_kind(const char *call, long result);

/* Says how a child has ended, after it did. */
void say_end(const char *who, pid_t child);
/* Says what a status of wait means. */
void say_status(const char *who, int status);

/* Hides a value from the optimizer. */
void *hide(void *value);

/* Waits until a thread is asleep in a system call. */
void wait_asleep(pid_t thread);
/* Starts a thread, and ends the program if that fails. */
pthread_t begin(void *(*run)(void *), void *argument);

/* Runs another situation in the place of this program. */
void become(const char *name);

/* Says a line of a file in /proc, or those that begin with one of the words, which end with a null pointer. */
void say_lines(const char *path, const char *const *words);

/* What main does. */
int situations_main(int count, char **argv);

/* The first situation's row, and the end of the last. */
extern const struct situation __start_situations[], __stop_situations[];

#ifdef __cplusplus
}
#endif

#endif
