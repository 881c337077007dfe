/* Limits of resources. */
#define _GNU_SOURCE
#include <fcntl.h>
#include <grp.h>
#include <signal.h>
#include <sys/mman.h>
#include <sys/resource.h>
#include <sys/stat.h>
#include <sys/wait.h>

#include "alone.h"

static void limit(int which, rlim_t value)
{
    struct rlimit both = {value, value};
    say("limit: %d", setrlimit((__rlimit_resource_t)which, &both));
}

static void note(int number)
{
    say("handler of %s", sigabbrev_np(number));
}

SITUATION(limit_of_files_sizes)
{
    int file = open("file", O_WRONLY | O_CREAT, 0600);
    limit(RLIMIT_FSIZE, 10);
    signal(SIGXFSZ, note);
    TELL(write(file, "0123456789abcdef", 16));
    TELL(write(file, "0123456789abcdef", 16));
    TELL(ftruncate(file, 100));
    signal(SIGXFSZ, SIG_IGN);
    TELL(write(file, "x", 1));
    pid_t child = fork();
    if (child == 0)
        exit(5);
    say_end("child", child);
    signal(SIGXFSZ, SIG_DFL);
    TELL(write(file, "x", 1));
}

SITUATION(limit_of_no_files)
{
    limit(RLIMIT_FSIZE, 0);
    free(hide(malloc(100)));
    pid_t child = fork();
    if (child == 0)
        become("nothing");
    say_end("child", child);
}

SITUATION(limit_of_no_cores)
{
    limit(RLIMIT_CORE, 0);
    abort();
}

SITUATION(limit_of_processor_time)
{
    struct rlimit one = {1, 2};
    signal(SIGXCPU, note);
    say("limit: %d", setrlimit(RLIMIT_CPU, &one));
    become("nothing");
}

SITUATION(limit_of_processes)
{
    limit(RLIMIT_NPROC, 1);
    if (getuid() == 0 && (setgroups(0, NULL) || setresuid(54321, 54321, 54321)))
        say("another user is not to be had");
    pthread_t other;
    TELL(pthread_create(&other, NULL, hide, NULL));
    TELL(fork());
    TELL(vfork());
    TELL(system("exit 3"));
    TELL_KIND(popen("exit 3", "r"));
}

SITUATION(limit_of_locked_memory)
{
    limit(RLIMIT_MEMLOCK, 0);
    if (getuid() == 0 && setresuid(54321, 54321, 54321))
        say("another user is not to be had");
    static char page[8192];
    TELL(mlock(page, sizeof page));
    TELL(mlockall(MCL_CURRENT));
    TELL(munlockall());
}

SITUATION(limit_of_stack_inherited)
{
    struct rlimit small = {512 * 1024, RLIM_INFINITY};
    TELL(setrlimit(RLIMIT_STACK, &small));
    become("stack_after_exec");
}

SITUATION(stack_after_exec)
{
    pthread_attr_t attributes;
    size_t size;
    struct rlimit now;
    TELL(getrlimit(RLIMIT_STACK, &now));
    say("%ld", (long)now.rlim_cur);
    pthread_attr_init(&attributes);
    pthread_attr_getstacksize(&attributes, &size);
    say("%zu", size);
    TELL(pthread_getattr_np(pthread_self(), &attributes));
    pthread_attr_getstacksize(&attributes, &size);
    say("%d", now.rlim_cur == RLIM_INFINITY || (size > now.rlim_cur / 2 && size <= now.rlim_cur));
    pthread_attr_destroy(&attributes);
    pthread_t other;
    TELL(pthread_create(&other, NULL, hide, NULL));
    TELL(pthread_join(other, NULL));
    char *volatile used = __builtin_alloca(300 * 1024);
    memset(used, 1, 300 * 1024);
}

SITUATION(limit_of_unlimited_stack)
{
    struct rlimit none = {RLIM_INFINITY, RLIM_INFINITY};
    TELL(setrlimit(RLIMIT_STACK, &none));
    become("stack_after_exec");
}
