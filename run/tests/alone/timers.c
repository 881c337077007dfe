/* Timers, and calls that sleep. */
#define _GNU_SOURCE
#include <fcntl.h>
#include <poll.h>
#include <signal.h>
#include <stdatomic.h>
#include <sys/prctl.h>
#include <sys/resource.h>
#include <sys/syscall.h>
#include <sys/time.h>
#include <sys/timerfd.h>
#include <sys/times.h>
#include <sys/wait.h>
#include <time.h>

#include "alone.h"

static volatile sig_atomic_t count;

static void count_it(int number)
{
    (void)number;
    count++;
}

SITUATION(alarms)
{
    signal(SIGALRM, count_it);
    TELL(alarm(1000));
    TELL(alarm(500));
    TELL(alarm(0));
    TELL(alarm(0));
    TELL(ualarm(2000, 0));
    TELL(pause());
    say("%d", (int)count);
    alarm(700);
    pid_t child = fork();
    if (child == 0) {
        TELL(alarm(0));
        _exit(0);
    }
    waitpid(child, NULL, 0);
    become("alarm_after_exec");
}

SITUATION(alarm_after_exec)
{
    unsigned left = alarm(0);
    say("%d", left > 600 && left <= 700);
}

SITUATION(interval_timers)
{
    static const int which[] = {ITIMER_REAL, ITIMER_VIRTUAL, ITIMER_PROF};
    static const int numbers[] = {SIGALRM, SIGVTALRM, SIGPROF};
    for (int i = 0; i < 3; i++) {
        struct itimerval often = {{0, 1000}, {0, 1000}}, none = {{0, 0}, {0, 0}}, was;
        TELL(getitimer(which[i], &was));
        say("%ld %ld", was.it_value.tv_sec, was.it_value.tv_usec);
        signal(numbers[i], count_it);
        count = 0;
        TELL(setitimer(which[i], &often, NULL));
        while (count < 5)
            free(hide(malloc(300)));
        TELL(setitimer(which[i], &none, &was));
        say("%ld", (long)was.it_interval.tv_usec);
        signal(numbers[i], SIG_DFL);
    }
    struct itimerval bad = {{0, 0}, {0, 2000000}};
    TELL(setitimer(ITIMER_REAL, &bad, NULL));
    TELL(setitimer(77, &bad, NULL));
}

static atomic_int called;

static void call_it(union sigval value)
{
    atomic_fetch_add(&called, value.sival_int);
}

SITUATION(posix_timers)
{
    timer_t timer;
    sigset_t set;
    siginfo_t info;
    sigemptyset(&set);
    sigaddset(&set, SIGRTMIN + 4);
    sigprocmask(SIG_BLOCK, &set, NULL);
    struct sigevent event = {
        .sigev_notify = SIGEV_SIGNAL, .sigev_signo = SIGRTMIN + 4, .sigev_value = {.sival_int = 6}};
    struct itimerspec soon = {.it_value = {0, 1000}}, often = {{0, 100000}, {0, 100000}}, was;
    TELL(timer_create(CLOCK_MONOTONIC, &event, &timer));
    say("%ld", (long)timer);
    TELL(timer_settime(timer, 0, &soon, NULL));
    TELL(sigwaitinfo(&set, &info));
    say("%d %d %d", info.si_code == SI_TIMER, info.si_value.sival_int, info.si_overrun);
    TELL(timer_settime(timer, 0, &often, &was));
    usleep(5000);
    TELL(sigwaitinfo(&set, &info));
    say("%d", timer_getoverrun(timer) > 5);
    TELL(timer_delete(timer));
    TELL(syscall(SYS_timer_delete, 5));
    event = (struct sigevent){
        .sigev_notify = SIGEV_THREAD, .sigev_notify_function = call_it, .sigev_value = {.sival_int = 3}};
    TELL(timer_create(CLOCK_REALTIME, &event, &timer));
    TELL(timer_settime(timer, 0, &soon, NULL));
    while (atomic_load(&called) == 0)
        usleep(500);
    say("%d", atomic_load(&called));
    TELL(timer_delete(timer));
    event = (struct sigevent){.sigev_notify = SIGEV_NONE};
    TELL(timer_create(CLOCK_PROCESS_CPUTIME_ID, &event, &timer));
    TELL(timer_create(99, &event, &timer));
}

SITUATION(timer_descriptors)
{
    unsigned long times = 0;
    struct itimerspec soon = {.it_value = {0, 1000}}, was;
    int timer = timerfd_create(CLOCK_MONOTONIC, TFD_NONBLOCK);
    say("%d", timer);
    TELL(read(timer, &times, sizeof times));
    TELL(timerfd_settime(timer, 0, &soon, NULL));
    struct pollfd asked = {.fd = timer, .events = POLLIN};
    TELL(poll(&asked, 1, 100000));
    TELL(read(timer, &times, sizeof times));
    say("%lu", times);
    TELL(timerfd_gettime(timer, &was));
    say("%ld", was.it_value.tv_nsec);
    TELL(timerfd_create(99, 0));
}

SITUATION(sleeps_refused)
{
    struct timespec bad = {0, 1000000000}, past = {1, 0}, none = {0, 0};
    TELL(nanosleep(&bad, NULL));
    TELL(clock_nanosleep(CLOCK_REALTIME, TIMER_ABSTIME, &past, NULL));
    TELL(clock_nanosleep(CLOCK_MONOTONIC, TIMER_ABSTIME, &bad, NULL));
    TELL(clock_nanosleep(99, 0, &none, NULL));
    TELL(nanosleep(&none, NULL));
    TELL(usleep(0));
    TELL(sleep(0));
    TELL(poll(NULL, 0, 0));
}

SITUATION(slack_of_timers)
{
    TELL(prctl(PR_GET_TIMERSLACK, 0, 0, 0, 0));
    TELL(prctl(PR_SET_TIMERSLACK, 7777, 0, 0, 0));
    TELL(prctl(PR_GET_TIMERSLACK, 0, 0, 0, 0));
    TELL(prctl(PR_SET_TIMERSLACK, 0, 0, 0, 0));
    TELL(prctl(PR_GET_TIMERSLACK, 0, 0, 0, 0));
}

SITUATION(sleep_is_whole)
{
    struct timespec before, after, rest = {0, 30000000};
    for (int i = 0; i < 3; i++) {
        clock_gettime(CLOCK_MONOTONIC, &before);
        TELL(nanosleep(&rest, NULL));
        clock_gettime(CLOCK_MONOTONIC, &after);
        long passed = (after.tv_sec - before.tv_sec) * 1000000000 + after.tv_nsec - before.tv_nsec;
        say("whole: %d", passed >= rest.tv_nsec);
    }
}

static void *sleeps_whole(void *it)
{
    struct timespec before, after, rest = {0, 50000000};
    clock_gettime(CLOCK_MONOTONIC, &before);
    TELL(nanosleep(&rest, NULL));
    clock_gettime(CLOCK_MONOTONIC, &after);
    long passed = (after.tv_sec - before.tv_sec) * 1000000000 + after.tv_nsec - before.tv_nsec;
    say("whole: %d", passed >= rest.tv_nsec);
    return it;
}

SITUATION(sleep_beside_forks)
{
    pthread_t other = begin(sleeps_whole, NULL);
    for (int i = 0; i < 10; i++) {
        pid_t child = fork();
        if (child == 0)
            exit(0);
        waitpid(child, NULL, 0);
    }
    pthread_join(other, NULL);
}

SITUATION(clocks)
{
    struct timespec value;
    for (int i = -1; i < 14; i++)
        TELL(clock_getres(i, &value));
    struct tms times_of;
    TELL(times(&times_of) == -1);
    struct rusage usage;
    TELL(getrusage(RUSAGE_CHILDREN, &usage));
    say("children took nothing: %d", usage.ru_maxrss == 0 && usage.ru_utime.tv_usec == 0);
    clockid_t clock;
    TELL(clock_getcpuclockid(getpid(), &clock));
    TELL(pthread_getcpuclockid(pthread_self(), &clock));
}
