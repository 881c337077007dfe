/* A hash table by number, with the role and the owner of each. */
#define _GNU_SOURCE
#include "children.h"

#include <errno.h>
#include <fcntl.h>
#include <signal.h>
#include <stdio.h>
#include <stdlib.h>
#include <string.h>
#include <sys/wait.h>
#include <unistd.h>

#include "say.h"

extern char **environ;

struct child {
    pid_t number;
    enum role role;
    void *owner;
    struct child *next;
};

enum { BUCKETS = 4096 };
static struct child *buckets[BUCKETS];
static sigset_t mask;  /* of the started program */
static bool pipes_end; /* SIGPIPE ends the started program, though it is ignored here */
static char **checkers_environment;
static int checkers_errors = STDERR_FILENO;

/* Makes the environment of the checkers: this one, and huge pages for the shadow, unless it says something of them. */
static void make_environment(void)
{
    static const char name[] = "GLIBC_TUNABLES=", huge[] = "glibc.malloc.hugetlb=1";
    const char *tunables = getenv("GLIBC_TUNABLES");
    size_t count = 0;
    while (environ[count] != NULL)
        count++;
    char **made = must(calloc(count + 2, sizeof *made));
    size_t kept = 0;
    for (size_t i = 0; i < count; i++)
        if (tunables == NULL || strstr(tunables, "hugetlb") != NULL || strncmp(environ[i], name, sizeof name - 1) != 0)
            made[kept++] = environ[i];
    if (tunables == NULL || strstr(tunables, "hugetlb") == NULL) {
        bool is_more = tunables != NULL && *tunables != 0;
        size_t room = sizeof name + sizeof huge + (is_more ? strlen(tunables) : 0);
        made[kept] = must(malloc(room));
        snprintf(made[kept], room, "%s%s%s%s", name, is_more ? tunables : "", is_more ? ":" : "", huge);
    }
    checkers_environment = made;
}

void children_begin(void)
{
    make_environment();
    struct sigaction action;
    sigprocmask(SIG_SETMASK, NULL, &mask);
    /* A report may go to a terminal whose foreground is the command: stty tostop must not hold it. */
    sigaddset(&mask, SIGTTOU);
    pipes_end = sigaction(SIGPIPE, NULL, &action) == 0 && action.sa_handler == SIG_DFL;
}

void children_hide_errors(void)
{
    int null = open("/dev/null", O_WRONLY | O_CLOEXEC);
    if (null >= 0)
        checkers_errors = null;
}

static struct child **bucket(pid_t number)
{
    return &buckets[(unsigned)number % BUCKETS];
}

static void add(pid_t number, enum role role, void *owner)
{
    struct child *made = must(malloc(sizeof *made));
    *made = (struct child){number, role, owner, *bucket(number)};
    *bucket(number) = made;
}

/* Gives a descriptor to the program, under this number. */
static bool give(int from, int to)
{
    return from == to ? fcntl(to, F_SETFD, 0) == 0 : dup2(from, to) == to;
}

/* What the child does before it becomes the program: in the memory of its parent, which waits. No signal has a handler
   here, so the system gives each its default action that is not ignored. Answers an error. */
static int become(const struct start *start, char **environment, int errors)
{
    const struct sigaction usual = {.sa_handler = SIG_DFL};
    /* Ctrl-C at the terminal ends the command, and not its check. */
    bool is_ready = setpgid(0, 0) == 0 && give(start->input, STDIN_FILENO) && give(start->output, STDOUT_FILENO)
                    && give(errors, STDERR_FILENO);
    for (size_t i = 0; is_ready && i < start->passed_count; i++)
        is_ready = give(start->passed[i], start->passed[i]);
    if (is_ready && (!pipes_end || sigaction(SIGPIPE, &usual, NULL) == 0) && sigprocmask(SIG_SETMASK, &mask, NULL) == 0)
        execve(start->program, (char *const *)(uintptr_t)start->argv, environment);
    return errno;
}

/* Not by posix_spawn, which asks for the action of each signal. */
pid_t child_start(const struct start *start)
{
    bool checks = start->role == ROLE_CHECKER || start->role == ROLE_SHARED;
    char **environment = checks ? checkers_environment : environ;
    volatile int error = 0;
    pid_t child = vfork();
    if (child == 0) {
        error = become(start, environment, checks ? checkers_errors : STDERR_FILENO);
        _exit(NOT_FOUND);
    }
    if (child < 0)
        return 0;
    if (error != 0) {
        waitpid(child, NULL, 0);
        errno = error;
        return 0;
    }
    add(child, start->role, start->owner);
    return child;
}

bool child_take(pid_t number, enum role *role, void **owner)
{
    for (struct child **at = bucket(number); *at != NULL; at = &(*at)->next) {
        struct child *found = *at;
        if (found->number == number) {
            *role = found->role;
            *owner = found->owner;
            *at = found->next;
            free(found);
            return true;
        }
    }
    return false;
}

bool child_is_ours(pid_t number)
{
    for (const struct child *at = *bucket(number); at != NULL; at = at->next)
        if (at->number == number)
            return true;
    return false;
}
