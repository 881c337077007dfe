/* Handlers of signals, one way a run: `signals NAME`. The output is the same without the recorder. */
#define _GNU_SOURCE
#include <errno.h>
#include <pthread.h>
#include <signal.h>
#include <stdint.h>
#include <stdio.h>
#include <stdlib.h>
#include <string.h>
#include <sys/mman.h>
#include <sys/time.h>
#include <sys/wait.h>
#include <time.h>
#include <unistd.h>

#ifndef SS_AUTODISARM
#define SS_AUTODISARM (1U << 31)
#endif

enum { PAGE = 4096, TICKS = 300, MANY_TICKS = 3000 };

static void *hide(void *pointer)
{
    __asm__ volatile("" : "+r"(pointer) : : "memory");
    return pointer;
}

static void fail(const char *what)
{
    perror(what);
    exit(9);
}

static volatile sig_atomic_t ticks;

/* Handlers on a stack that the system takes away while they run: it is an array of a frame above all that they
   interrupt. */

static void allocate(int number)
{
    (void)number;
    for (size_t size = 8; size < 1 << 16; size *= 4)
        free(hide(malloc(size)));
    ticks++;
}

static void *wait_for_ticks(void *unused)
{
    while (ticks < TICKS)
        usleep(1000);
    return unused;
}

/* In the first thread alone: a timer's signal goes to any that does not block it. */
static void allocate_under_ticks(void)
{
    struct itimerval often = {{0, 50}, {0, 50}}, never = {{0, 0}, {0, 0}};
    signal(SIGALRM, SIG_IGN);
    if (sigaction(SIGALRM, &(struct sigaction){.sa_handler = allocate, .sa_flags = SA_ONSTACK}, NULL) != 0)
        fail("sigaction");
    setitimer(ITIMER_REAL, &often, NULL);
    while (ticks < TICKS)
        for (size_t size = 8; size < 1 << 18; size *= 4)
            free(hide(malloc(size)));
    setitimer(ITIMER_REAL, &never, NULL);
}

static void disarmed(void)
{
    char room[1 << 16];
    stack_t stack = {.ss_sp = hide(room), .ss_flags = (int)SS_AUTODISARM, .ss_size = sizeof room};
    if (sigaltstack(&stack, NULL) != 0)
        fail("sigaltstack");
    allocate_under_ticks();
}

static void disarmed_beside_a_thread(void)
{
    pthread_t other;
    sigset_t set;
    sigemptyset(&set);
    sigaddset(&set, SIGALRM);
    pthread_sigmask(SIG_BLOCK, &set, NULL);
    if (pthread_create(&other, NULL, wait_for_ticks, NULL) != 0)
        fail("pthread_create");
    pthread_sigmask(SIG_UNBLOCK, &set, NULL);
    disarmed();
    pthread_join(other, NULL);
}

/* What the calls answer that set a handler. */

static void one(int number)
{
    (void)number;
}

static void other(int number)
{
    (void)number;
}

static void with_info(int number, siginfo_t *info, void *context)
{
    (void)number, (void)info, (void)context;
}

static const char *name_of(sighandler_t handler)
{
    static const struct {
        sighandler_t handler;
        const char *name;
    } names[] = {{SIG_DFL, "default"}, {SIG_IGN, "ignored"}, {SIG_HOLD, "held"},
                 {SIG_ERR, "error"},   {one, "one"},         {other, "other"}};
    for (size_t i = 0; i < sizeof names / sizeof *names; i++)
        if (names[i].handler == handler)
            return names[i].name;
    return handler == (sighandler_t)(uintptr_t)with_info ? "with info" : "unknown";
}

/* Not declared to everybody. */
extern sighandler_t bsd_signal(int, sighandler_t);
extern sighandler_t sysv_signal(int, sighandler_t);

typedef sighandler_t set_handler(int, sighandler_t);

static void print_each(set_handler *set, int number, const sighandler_t *handlers, size_t count)
{
    for (size_t i = 0; i < count; i++)
        printf(" %s", name_of(set(number, handlers[i])));
}

static void print_answers(const char *name, set_handler *set, int number)
{
    static const sighandler_t handlers[] = {one, other, other, SIG_IGN, one, SIG_DFL, SIG_DFL, other};
    struct sigaction seen, info = {.sa_sigaction = with_info, .sa_flags = SA_SIGINFO};
    printf("%s %d:", name, number);
    print_each(set, number, handlers, sizeof handlers / sizeof *handlers);
    if (sigaction(number, NULL, &seen) == 0)
        printf("; %s %x %d,", name_of(seen.sa_handler), (unsigned)seen.sa_flags, sigismember(&seen.sa_mask, number));
    sigaction(number, &info, NULL);
    print_each(set, number, (const sighandler_t[]){one, SIG_DFL}, 2);
    puts(errno == 0 ? "" : " failed");
    errno = 0;
}

static void answers(void)
{
    static const int numbers[] = {SIGSEGV, SIGBUS, SIGFPE, SIGILL, SIGTERM, SIGUSR1, SIGCHLD, SIGKILL, 0, 65};
    static const sighandler_t held[] = {SIG_HOLD, SIG_HOLD, one, SIG_HOLD, SIG_DFL, SIG_DFL};
    for (size_t i = 0; i < sizeof numbers / sizeof *numbers; i++) {
        print_answers("signal", signal, numbers[i]);
        print_answers("ssignal", ssignal, numbers[i]);
        print_answers("bsd_signal", bsd_signal, numbers[i]);
        print_answers("sysv_signal", sysv_signal, numbers[i]);
        print_answers("sigset", sigset, numbers[i]);
        print_each(sigset, numbers[i], held, sizeof held / sizeof *held);
        puts("");
    }
}

/* What a handler is told that comes once: of faults, and of signals that are sent. */

static char *pages; /* without access, and behind the end of a file */
static pid_t first;

static void print_info(int number, siginfo_t *info, void *context)
{
    struct sigaction seen;
    sigaction(number, NULL, &seen);
    printf("%d %d, then %s", number, info->si_code, name_of(seen.sa_handler));
    if (info->si_code > 0 && (number == SIGSEGV || number == SIGBUS))
        printf(" at %lx", (uintptr_t)info->si_addr - ((uintptr_t)info->si_addr >= PAGE ? (uintptr_t)pages : 0));
    else if (info->si_code <= 0)
        printf(" by %s of user %d with %d", info->si_pid == first ? "itself" : "another", (int)info->si_uid,
               info->si_code == SI_QUEUE ? info->si_value.sival_int : 0);
    printf("%s\n", context == NULL ? " without a context" : "");
    fflush(stdout);
}

static void stores_nowhere(void)
{
    *(volatile char *)hide((char *)16) = 1;
}

static void stores_without_access(void)
{
    *(volatile char *)hide(pages + 9) = 1;
}

static void stores_behind_a_file(void)
{
    *(volatile char *)hide(pages + PAGE + 9) = 1;
}

static void stores_at_no_address(void)
{
    *(volatile char *)hide((char *)((uintptr_t)1 << 62)) = 1;
}

static void divides(void)
{
    volatile int number = 7, zero = 0;
    ticks = number / zero;
}

static void traps(void)
{
    __asm__ volatile("ud2");
}

static void raises(void)
{
    raise(SIGSEGV);
}

static void kills(void)
{
    kill(getpid(), SIGSEGV);
}

static void queues(void)
{
    sigqueue(getpid(), SIGSEGV, (union sigval){.sival_int = 7});
}

static void queues_another(void)
{
    sigqueue(getpid(), SIGBUS, (union sigval){.sival_int = 8});
}

static void is_sent_by_a_child(void)
{
    pid_t child = fork();
    if (child == 0) {
        kill(getppid(), SIGSEGV);
        _exit(0);
    }
    while (waitpid(child, NULL, 0) < 0 && errno == EINTR)
        ;
}

/* Twice: it meets the default then. */
static void meet_twice(void (*meet)(void))
{
    static const int numbers[] = {SIGSEGV, SIGBUS, SIGFPE, SIGILL};
    struct sigaction once = {.sa_sigaction = print_info, .sa_flags = SA_SIGINFO | (int)SA_RESETHAND};
    for (size_t i = 0; i < sizeof numbers / sizeof *numbers; i++)
        if (sigaction(numbers[i], &once, NULL) != 0)
            fail("sigaction");
    first = getpid();
    meet();
    meet();
}

static void told(void)
{
    static void (*const ways[])(void) = {stores_nowhere,
                                         stores_without_access,
                                         stores_behind_a_file,
                                         stores_at_no_address,
                                         divides,
                                         traps,
                                         raises,
                                         kills,
                                         queues,
                                         queues_another,
                                         is_sent_by_a_child};
    FILE *file = tmpfile();
    pages = mmap(NULL, (size_t)2 * PAGE, PROT_NONE, MAP_PRIVATE | MAP_ANONYMOUS, -1, 0);
    if (file == NULL || pages == MAP_FAILED
        || mmap(pages + PAGE, PAGE, PROT_WRITE, MAP_SHARED | MAP_FIXED, fileno(file), 0) == MAP_FAILED)
        fail("mmap");
    for (size_t i = 0; i < sizeof ways / sizeof *ways; i++) {
        int status = 0;
        pid_t child = fork();
        if (child == 0) {
            meet_twice(ways[i]);
            _exit(0);
        }
        if (child < 0 || waitpid(child, &status, 0) != child)
            fail("fork");
        printf("%zu %d\n", i, WIFSIGNALED(status) ? WTERMSIG(status) : -WEXITSTATUS(status));
        fflush(stdout);
    }
}

/* A handler that comes once, and is set again each time, of a signal that a timer sends while bad accesses are
   recorded. */

static void set_once(void);

static void on_timer(int number, siginfo_t *info, void *context)
{
    if (number != SIGSEGV || info->si_code != SI_TIMER || info->si_value.sival_int != 7 || context == NULL)
        _exit(8);
    ticks++;
    set_once();
}

static void set_once(void)
{
    struct sigaction once = {.sa_sigaction = on_timer, .sa_flags = SA_SIGINFO | (int)SA_RESETHAND};
    if (sigaction(SIGSEGV, &once, NULL) != 0)
        _exit(9);
}

static void once_while_recording(void)
{
    struct sigevent event = {.sigev_notify = SIGEV_SIGNAL, .sigev_signo = SIGSEGV, .sigev_value.sival_int = 7};
    struct itimerspec often = {{0, 50000}, {0, 50000}};
    timer_t timer;
    char *block = hide(malloc(8));
    set_once();
    if (timer_create(CLOCK_MONOTONIC, &event, &timer) != 0 || timer_settime(timer, 0, &often, NULL) != 0)
        fail("timer_create");
    while (ticks < MANY_TICKS)
        *(volatile char *)hide(block + 8) = 1;
    timer_delete(timer);
    free(block);
}

int main(int count, char **argv)
{
    static const struct {
        const char *name;
        void (*run)(void);
    } ways[] = {
        {"disarmed", disarmed}, {"disarmed_beside_a_thread", disarmed_beside_a_thread}, {"answers", answers},
        {"told", told},         {"once_while_recording", once_while_recording},
    };
    for (size_t i = 0; i < sizeof ways / sizeof *ways; i++)
        if (count > 1 && strcmp(argv[1], ways[i].name) == 0)
            ways[i].run();
    return 0;
}
