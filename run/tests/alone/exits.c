/* The ways in which a program ends, and what it still does then. */
#define _GNU_SOURCE
#include <assert.h>
#include <err.h>
#include <error.h>
#include <fcntl.h>
#include <sched.h>
#include <setjmp.h>
#include <signal.h>
#include <stdatomic.h>
#include <sys/resource.h>
#include <sys/syscall.h>
#include <sys/wait.h>
#include <time.h>

#include "alone.h"

static void says_first(void)
{
    say("the first handler");
}

static void says_second(void)
{
    say("the second handler");
}

static void says_status(int status, void *word)
{
    say("%s: %d", (char *)word, status);
}

static void register_more(void)
{
    atexit(says_first);
    say("registered in a handler");
}

SITUATION(exit_handlers)
{
    TELL(atexit(says_first));
    TELL(atexit(register_more));
    TELL(on_exit(says_status, (char *)"status"));
    TELL(at_quick_exit(says_second));
    exit(300);
}

SITUATION(exit_quickly)
{
    TELL(atexit(says_first));
    TELL(at_quick_exit(says_second));
    fputs("never flushed", stdout);
    quick_exit(-1);
}

SITUATION(exit_at_once)
{
    atexit(says_first);
    fputs("never flushed", stdout);
    _Exit(41);
}

SITUATION(exit_by_system_call)
{
    atexit(says_first);
    syscall(SYS_exit_group, 43);
}

SITUATION(exit_of_first_thread_by_system_call)
{
    syscall(SYS_exit, 44);
}

static void *goes_on(void *it)
{
    wait_asleep(getpid());
    say("goes on");
    return it;
}

SITUATION(exit_of_main_thread)
{
    atexit(says_first);
    begin(goes_on, NULL);
    pthread_exit(NULL);
}

SITUATION(exit_of_main_thread_by_system_call)
{
    atexit(says_first);
    begin(goes_on, NULL);
    syscall(SYS_exit, 0);
}

static void exits_again(void)
{
    say("exits again");
    exit(45);
}

SITUATION(exit_in_exit_handler)
{
    atexit(says_first);
    atexit(exits_again);
    exit(1);
}

static void leaves(void)
{
    say("leaves");
    _exit(46);
}

SITUATION(exit_at_once_in_exit_handler)
{
    atexit(says_first);
    atexit(leaves);
    fputs("never flushed", stdout);
}

static void exits_quickly(void)
{
    quick_exit(47);
}

SITUATION(exit_quickly_in_exit_handler)
{
    at_quick_exit(says_second);
    atexit(exits_quickly);
    exit(1);
}

static void forks(void)
{
    pid_t child = fork();
    if (child == 0)
        say("a child in a handler");
    else
        say_end("child", child);
}

SITUATION(exit_forks)
{
    atexit(says_first);
    atexit(forks);
    exit(3);
}

static void allocates(void)
{
    for (size_t i = 1; i < 3000; i++)
        free(hide(malloc(i)));
    say("allocated");
}

SITUATION(exit_allocates)
{
    atexit(allocates);
}

static void raises(void)
{
    say("raises");
    raise(SIGTERM);
}

SITUATION(exit_raises)
{
    atexit(raises);
    exit(3);
}

static void exits_in_handler(int number)
{
    exit(number);
}

SITUATION(exit_in_signal_handler)
{
    atexit(says_first);
    signal(SIGUSR1, exits_in_handler);
    raise(SIGUSR1);
}

static void leaves_in_handler(int number)
{
    _exit(number);
}

SITUATION(exit_at_once_in_signal_handler)
{
    atexit(says_first);
    signal(SIGALRM, leaves_in_handler);
    ualarm(3000, 0);
    for (size_t i = 0;; i++)
        free(hide(malloc(i % 4000)));
}

static void *exits_as(void *it)
{
    exit((int)(size_t)it);
    return it;
}

SITUATION(exit_twice_at_once)
{
    begin(exits_as, (void *)9);
    exit(9);
}

static pthread_key_t key;

static void ends_key(void *it)
{
    say("a key's destructor: %d", (int)(size_t)it);
    exit(51);
}

static void *has_key(void *it)
{
    pthread_setspecific(key, (void *)7);
    return it;
}

SITUATION(exit_in_key_destructor)
{
    TELL(pthread_key_create(&key, ends_key));
    pthread_join(begin(has_key, NULL), NULL);
}

static atomic_int passed;

static void *ends_last(void *it)
{
    wait_asleep(getpid());
    atomic_store(&passed, 1);
    return it;
}

SITUATION(exit_by_last_thread)
{
    atexit(says_first);
    begin(ends_last, NULL);
    begin(ends_last, NULL);
    pthread_exit(NULL);
}

static void returns(int number)
{
    say("handler of %s", sigabbrev_np(number));
}

SITUATION(abort_with_handler)
{
    signal(SIGABRT, returns);
    abort();
}

SITUATION(abort_ignored)
{
    signal(SIGABRT, SIG_IGN);
    abort();
}

SITUATION(abort_blocked)
{
    sigset_t set;
    sigemptyset(&set);
    sigaddset(&set, SIGABRT);
    sigprocmask(SIG_BLOCK, &set, NULL);
    abort();
}

static sigjmp_buf back;

static void jumps(int number)
{
    siglongjmp(back, number);
}

SITUATION(abort_left_by_jump)
{
    signal(SIGABRT, jumps);
    for (volatile int i = 0; i < 3; i++)
        if (sigsetjmp(back, 1) == 0)
            abort();
    say("still here");
}

SITUATION(abort_of_assert)
{
    errno = 0;
    assert(hide(NULL) != NULL);
}

SITUATION(exit_of_err)
{
    errno = ENOENT;
    warn("a warning of %s", "this");
    warnx("and %d", 2);
    errno = EACCES;
    err(5, "the end");
}

SITUATION(exit_of_error)
{
    error(0, ENOENT, "first");
    fputs("output", stdout);
    error_at_line(6, 0, "file", 7, "last");
}

SITUATION(exit_flushes)
{
    FILE *file = fopen("kept", "w");
    fputs("some text", file);
    fputs("to output", stdout);
    fputs("to error", stderr);
    tmpfile();
    exit(0);
}

SITUATION(exit_without_output)
{
    fputs("lost", stdout);
    close(1);
}

SITUATION(exit_into_closed_pipe)
{
    int ends[2];
    TELL(pipe(ends));
    fflush(stdout);
    dup2(ends[1], 1);
    close(ends[0]);
    fputs("into nothing", stdout);
}

SITUATION(exit_to_full_device)
{
    int full = open("/dev/full", O_WRONLY);
    dup2(full, 1);
    fputs("into nothing", stdout);
    errno = 0;
    int result = fclose(stdout);
    fprintf(stderr, "fclose = %d, errno %d\n", result, errno);
    exit(result ? 1 : 0);
}

SITUATION(end_by_pipe)
{
    int ends[2];
    TELL(pipe(ends));
    close(ends[0]);
    TELL(write(ends[1], "x", 1));
}

SITUATION(end_by_alarm)
{
    ualarm(1000, 0);
    pause();
}

SITUATION(end_by_kill)
{
    raise(SIGKILL);
}

SITUATION(end_by_fault)
{
    *(volatile int *)hide((void *)8) = 1;
}

SITUATION(end_by_real_time_signal)
{
    raise(SIGRTMIN + 2);
}

SITUATION(end_by_each_signal)
{
    for (int number = 1; number <= 64; number++) {
        pid_t child = fork();
        if (child == 0) {
            struct rlimit none = {0, 0};
            setrlimit(RLIMIT_CORE, &none);
            if (number != SIGSTOP && number != SIGTSTP && number != SIGTTIN && number != SIGTTOU)
                raise(number);
            _exit(100);
        }
        char who[32];
        snprintf(who, sizeof who, "signal %d", number);
        say_end(who, child);
    }
}

static void *dies(void *it)
{
    pthread_kill(pthread_self(), (int)(size_t)it);
    return it;
}

SITUATION(end_of_thread_by_each_signal)
{
    static const int numbers[] = {SIGHUP,  SIGINT,    SIGQUIT, SIGILL, SIGABRT, SIGFPE,  SIGSEGV,
                                  SIGPIPE, SIGTERM,   SIGUSR1, SIGBUS, SIGSYS,  SIGTRAP, SIGXCPU,
                                  SIGXFSZ, SIGVTALRM, SIGPROF, SIGIO,  SIGPWR};
    for (size_t i = 0; i < sizeof numbers / sizeof *numbers; i++) {
        pid_t child = fork();
        if (child == 0) {
            struct rlimit none = {0, 0};
            setrlimit(RLIMIT_CORE, &none);
            pthread_join(begin(dies, (void *)(size_t)numbers[i]), NULL);
            _exit(100);
        }
        say_end(sigabbrev_np(numbers[i]), child);
    }
}

SITUATION(end_of_children_in_all_ways)
{
    for (int i = 0; i < 6; i++) {
        pid_t child = fork();
        if (child == 0) {
            atexit(says_first);
            at_quick_exit(says_second);
            switch (i) {
            case 0:
                exit(10);
            case 1:
                _exit(11);
            case 2:
                quick_exit(12);
            case 3:
                syscall(SYS_exit_group, 13);
                break;
            case 4:
                syscall(SYS_exit, 14);
                break;
            default:
                pthread_exit(NULL);
            }
        }
        say_end("child", child);
    }
}

SITUATION(end_with_default_after_handler)
{
    struct sigaction once = {.sa_handler = returns, .sa_flags = (int)SA_RESETHAND};
    sigaction(SIGTERM, &once, NULL);
    raise(SIGTERM);
    say("once more");
    raise(SIGTERM);
}
__attribute__((destructor)) static void last(void)
{
    if (getenv("ALONE_LAST"))
        say("a destructor");
}

SITUATION(exit_destructors)
{
    setenv("ALONE_LAST", "1", 1);
    atexit(says_first);
}

SITUATION(exit_quickly_without_destructors)
{
    setenv("ALONE_LAST", "1", 1);
    atexit(says_first);
    quick_exit(0);
}
