/* Stacks: of handlers, of threads, of contexts, and jumps between them. */
#define _GNU_SOURCE
#include <limits.h>
#include <setjmp.h>
#include <signal.h>
#include <stdint.h>
#include <sys/mman.h>
#include <sys/resource.h>
#include <sys/wait.h>
#include <ucontext.h>

#include "alone.h"

static void *stack_of(size_t size)
{
    return mmap(NULL, size, PROT_READ | PROT_WRITE, MAP_PRIVATE | MAP_ANONYMOUS | MAP_STACK, -1, 0);
}

SITUATION(handler_stack_asked)
{
    stack_t was;
    memset(&was, 7, sizeof was);
    TELL(sigaltstack(NULL, &was));
    say("%d %zu %d", was.ss_flags, was.ss_size, was.ss_sp == NULL);
}

static void *asks_for_stack(void *it)
{
    stack_t was;
    memset(&was, 7, sizeof was);
    TELL(sigaltstack(NULL, &was));
    say("%d %zu %d", was.ss_flags, was.ss_size, was.ss_sp == NULL);
    return it;
}

SITUATION(handler_stack_of_thread)
{
    stack_t own = {.ss_sp = stack_of(65536), .ss_size = 65536}, was;
    TELL(sigaltstack(&own, NULL));
    pthread_join(begin(asks_for_stack, NULL), NULL);
    TELL(sigaltstack(NULL, &was));
    say("%d %zu %d", was.ss_flags, was.ss_size, was.ss_sp == own.ss_sp);
    pid_t child = fork();
    if (child == 0) {
        TELL(sigaltstack(NULL, &was));
        say("%d %zu %d", was.ss_flags, was.ss_size, was.ss_sp == own.ss_sp);
        _exit(0);
    }
    say_end("child", child);
    own.ss_flags = SS_DISABLE;
    TELL(sigaltstack(&own, &was));
    say("%d %zu", was.ss_flags, was.ss_size);
    TELL(sigaltstack(NULL, &was));
    say("%d", was.ss_flags);
}

SITUATION(handler_stack_refused)
{
    stack_t bad = {.ss_sp = stack_of(65536), .ss_size = 100}, was;
    TELL(sigaltstack(&bad, NULL));
    bad.ss_size = 65536;
    bad.ss_flags = 0x777;
    TELL(sigaltstack(&bad, NULL));
    TELL(sigaltstack(NULL, &was));
    say("%d", was.ss_flags);
}

static char *low, *high;
static volatile int handled;

static void on_stack(int number)
{
    char here;
    stack_t now;
    sigaltstack(NULL, &now);
    stack_t other = now;
    other.ss_flags = 0;
    errno = 0;
    int result = sigaltstack(&other, NULL);
    say("%s: on it %d, flags %d, change %d %s", sigabbrev_np(number), &here >= low && &here < high, now.ss_flags,
        result, errno ? strerrorname_np(errno) : "");
    handled++;
}

static void handle_on_stack(int number, size_t size, int flags, void (*handler)(int))
{
    low = stack_of(size);
    high = low + size;
    stack_t own = {.ss_sp = low, .ss_size = size, .ss_flags = flags};
    TELL(sigaltstack(&own, NULL));
    struct sigaction action = {.sa_handler = handler, .sa_flags = SA_ONSTACK};
    sigaction(number, &action, NULL);
}

SITUATION(handlers_on_stacks)
{
    handle_on_stack(SIGUSR1, 65536, 0, on_stack);
    TELL(raise(SIGUSR1));
    handle_on_stack(SIGUSR1, 65536, (int)(1u << 31), on_stack);
    TELL(raise(SIGUSR1));
    handle_on_stack(SIGSEGV, 65536, 0, on_stack);
    TELL(raise(SIGSEGV));
    handle_on_stack(SIGFPE, 16384, 0, on_stack);
    TELL(raise(SIGFPE));
    struct sigaction action = {.sa_handler = on_stack};
    sigaction(SIGSEGV, &action, NULL);
    TELL(raise(SIGSEGV));
}

static void does_little(int number)
{
    (void)number;
    handled++;
}

SITUATION(smallest_handler_stack)
{
    size_t size = (size_t)sysconf(_SC_MINSIGSTKSZ) + 512;
    handle_on_stack(SIGUSR1, size, 0, does_little);
    TELL(raise(SIGUSR1));
    handle_on_stack(SIGSEGV, size, 0, does_little);
    TELL(raise(SIGSEGV));
    handle_on_stack(SIGTERM, size, 0, does_little);
    TELL(raise(SIGTERM));
    handle_on_stack(SIGFPE, size, 0, does_little);
    TELL(kill(getpid(), SIGFPE));
    say("%d", handled);
}

static sigjmp_buf back;

static void jumps_back(int number)
{
    siglongjmp(back, number);
}

static int descend(volatile char *above)
{
    volatile char here[512];
    here[0] = above[0];
    here[511] = 1;
    return descend(here) + here[0];
}

static void overflow_twice(void)
{
    for (volatile int i = 0; i < 3; i++) {
        int number = sigsetjmp(back, 1);
        if (number == 0) {
            volatile char first = 0;
            descend(&first);
        }
        say("overflow: %s", sigabbrev_np(number));
    }
}

SITUATION(overflow_caught)
{
    struct rlimit small = {1 << 20, RLIM_INFINITY};
    setrlimit(RLIMIT_STACK, &small);
    handle_on_stack(SIGSEGV, 65536, 0, jumps_back);
    overflow_twice();
}

static void *overflows(void *it)
{
    handle_on_stack(SIGSEGV, 65536, 0, jumps_back);
    overflow_twice();
    return it;
}

SITUATION(overflow_caught_in_thread)
{
    pthread_attr_t attributes;
    pthread_attr_init(&attributes);
    pthread_attr_setstacksize(&attributes, 256 * 1024);
    pthread_t other;
    int error = pthread_create(&other, &attributes, overflows, NULL);
    TELL(pthread_join(other, NULL));
    say("%d", error);
}

SITUATION(overflow_not_caught)
{
    struct rlimit small = {1 << 20, RLIM_INFINITY};
    setrlimit(RLIMIT_STACK, &small);
    pid_t child = fork();
    if (child == 0) {
        volatile char first = 0;
        descend(&first);
    }
    say_end("child", child);
    child = fork();
    if (child == 0) {
        signal(SIGSEGV, does_little); /* without a stack of its own */
        volatile char first = 0;
        descend(&first);
    }
    say_end("child", child);
}

static void *says_attributes(void *it)
{
    pthread_attr_t attributes;
    size_t size, guard;
    void *address;
    char here;
    int detached;
    TELL(pthread_getattr_np(pthread_self(), &attributes));
    TELL(pthread_attr_getstack(&attributes, &address, &size));
    TELL(pthread_attr_getguardsize(&attributes, &guard));
    TELL(pthread_attr_getdetachstate(&attributes, &detached));
    say("size %zu, guard %zu, inside %d, given %d, detached %d", size, guard,
        &here > (char *)address && &here < (char *)address + size, address == it, detached);
    pthread_attr_destroy(&attributes);
    return NULL;
}

SITUATION(stacks_of_threads)
{
    static const size_t sizes[] = {16384, 16385, 65536, 1 << 20, 64 << 20};
    pthread_t other;
    for (size_t i = 0; i < sizeof sizes / sizeof *sizes; i++) {
        pthread_attr_t attributes;
        TELL(pthread_attr_init(&attributes));
        TELL(pthread_attr_setstacksize(&attributes, sizes[i]));
        int error = pthread_create(&other, &attributes, says_attributes, NULL);
        if (error == 0)
            TELL(pthread_join(other, NULL));
        say("%zu: %d", sizes[i], error);
        TELL(pthread_attr_setguardsize(&attributes, 0));
        void *own = stack_of(1 << 20);
        TELL(pthread_attr_setstack(&attributes, own, 1 << 20));
        error = pthread_create(&other, &attributes, says_attributes, own);
        TELL(pthread_join(other, NULL));
        say("%d", error);
        pthread_attr_destroy(&attributes);
        munmap(own, 1 << 20);
    }
    pthread_attr_t attributes;
    pthread_attr_init(&attributes);
    TELL(pthread_attr_setstacksize(&attributes, 16383));
    say("%ld %ld", (long)PTHREAD_STACK_MIN, sysconf(_SC_THREAD_STACK_MIN));
    pthread_attr_destroy(&attributes);
    TELL(pthread_getattr_default_np(&attributes));
    size_t size;
    pthread_attr_getstacksize(&attributes, &size);
    say("%zu", size);
}

static void *uses_most(void *it)
{
    size_t size = (size_t)it;
    volatile char *used = __builtin_alloca(size);
    for (size_t i = 0; i < size; i += 512)
        used[i] = 1;
    return it;
}

SITUATION(stacks_used_to_the_end)
{
    pthread_attr_t attributes;
    pthread_attr_init(&attributes);
    static const size_t sizes[] = {65536, 1 << 20, 8 << 20};
    for (size_t i = 0; i < sizeof sizes / sizeof *sizes; i++) {
        pthread_t other;
        pthread_attr_setstacksize(&attributes, sizes[i]);
        TELL(pthread_create(&other, &attributes, uses_most, (void *)(sizes[i] - 32768)));
        TELL(pthread_join(other, NULL) == 0);
    }
    uses_most((void *)(7 << 20));
    say("used");
}

static ucontext_t first, second, third;
static int rounds;

static void ping(int number, int other)
{
    char text[100];
    for (int i = 0; i < 5; i++) {
        snprintf(text, sizeof text, "ping %d %d: %d", number, other, rounds++);
        say("%s", text);
        swapcontext(&second, &third);
    }
}

static void pong(int a, int b, int c, int d, int e, int f, int g, int h, int i, int j)
{
    say("pong %d %d %d %d %d %d %d %d %d %d", a, b, c, d, e, f, g, h, i, j);
    for (;;)
        swapcontext(&third, &second);
}

SITUATION(contexts)
{
    TELL(getcontext(&second));
    TELL(getcontext(&third));
    second.uc_stack = (stack_t){.ss_sp = stack_of(65536), .ss_size = 65536};
    third.uc_stack = (stack_t){.ss_sp = malloc(65536), .ss_size = 65536};
    second.uc_link = &first;
    makecontext(&second, (void (*)(void))(uintptr_t)ping, 2, 17, 18);
    makecontext(&third, (void (*)(void))(uintptr_t)pong, 10, 1, 2, 3, 4, 5, 6, 7, 8, 9, 10);
    TELL(swapcontext(&first, &second));
    free(third.uc_stack.ss_sp);
    say("%d", rounds);
    sigset_t set;
    sigemptyset(&set);
    sigaddset(&set, SIGUSR1);
    sigprocmask(SIG_BLOCK, &set, NULL);
    volatile int turn = 0;
    getcontext(&first);
    sigprocmask(SIG_SETMASK, NULL, &set);
    say("turn %d, blocked %d", turn, sigismember(&set, SIGUSR1));
    sigemptyset(&set);
    sigprocmask(SIG_SETMASK, &set, NULL);
    if (turn++ < 3)
        setcontext(&first);
}

static void ends(void)
{
    say("the last context");
}

static void *in_context(void *it)
{
    static ucontext_t only;
    getcontext(&only);
    only.uc_stack = (stack_t){.ss_sp = stack_of(65536), .ss_size = 65536};
    only.uc_link = NULL;
    makecontext(&only, ends, 0);
    setcontext(&only);
    return it;
}

SITUATION(last_context_of_thread)
{
    TELL(pthread_join(begin(in_context, NULL), NULL));
}

SITUATION(last_context)
{
    in_context(NULL);
}

static void many_arguments(int a, int b, int c, int d, int e, int f, int g, int h, int i, int j, int k, int l, int m,
                           int n, int o, int p, int q)
{
    say("%d", a + b + c + d + e + f + g + h + i + j + k + l + m + n + o + p + q);
}

SITUATION(context_with_arguments)
{
    getcontext(&second);
    second.uc_stack = (stack_t){.ss_sp = stack_of(65536), .ss_size = 65536};
    second.uc_link = &first;
    makecontext(&second, (void (*)(void))(uintptr_t)many_arguments, 17, 1, 2, 3, 4, 5, 6, 7, 8, 9, 10, 11, 12, 13, 14,
                15, 16, 17);
    TELL(swapcontext(&first, &second));
}

static jmp_buf from;

static __attribute__((noinline)) void jumps_from_deep(int depth)
{
    char text[64];
    snprintf(text, sizeof text, "%d", depth);
    if (depth == 0)
        longjmp(from, 5);
    jumps_from_deep(depth - 1);
    say("%s", text);
}

SITUATION(jumps)
{
    for (volatile int i = 0; i < 4; i++) {
        int value = setjmp(from);
        if (value == 0)
            jumps_from_deep(10);
        say("jumped with %d", value);
    }
    if (setjmp(from) == 0)
        longjmp(from, 0);
    sigset_t set;
    for (volatile int saves = 0; saves < 2; saves++) {
        sigemptyset(&set);
        sigprocmask(SIG_SETMASK, &set, NULL);
        int value = sigsetjmp(back, saves);
        sigprocmask(SIG_SETMASK, NULL, &set);
        say("%d, blocked %d", value, sigismember(&set, SIGUSR1));
        sigemptyset(&set);
        sigaddset(&set, SIGUSR1);
        sigprocmask(SIG_SETMASK, &set, NULL);
        if (value == 0)
            siglongjmp(back, 3);
    }
}

SITUATION(jumps_out_of_handlers)
{
    handle_on_stack(SIGUSR1, 65536, 0, jumps_back);
    signal(SIGUSR2, jumps_back);
    for (volatile int i = 0; i < 100; i++)
        if (sigsetjmp(back, 1) == 0)
            raise(i % 2 ? SIGUSR1 : SIGUSR2);
    stack_t now;
    TELL(sigaltstack(NULL, &now));
    say("%d", now.ss_flags);
}

static jmp_buf inside, outside;

static void coroutine(void)
{
    char text[64];
    for (int i = 0;; i++) {
        snprintf(text, sizeof text, "coroutine %d", i);
        say("%s", text);
        if (_setjmp(inside) == 0)
            _longjmp(outside, 1);
    }
}

SITUATION(coroutines_by_jumps)
{
    getcontext(&second);
    second.uc_stack = (stack_t){.ss_sp = malloc(65536), .ss_size = 65536};
    second.uc_link = NULL;
    makecontext(&second, coroutine, 0);
    for (volatile int i = 0; i < 5; i++)
        if (_setjmp(outside) == 0) {
            if (i == 0)
                setcontext(&second);
            else
                _longjmp(inside, 1);
        }
    free(second.uc_stack.ss_sp);
}

SITUATION(stack_with_a_guard)
{
    char *all = stack_of(20 * 4096);
    TELL(mprotect(all, 4096, PROT_NONE));
    TELL(mprotect(all + 19 * 4096, 4096, PROT_NONE));
    pthread_attr_t attributes;
    pthread_attr_init(&attributes);
    TELL(pthread_attr_setstack(&attributes, all + 4096, 18 * 4096));
    pthread_t other;
    TELL(pthread_create(&other, &attributes, uses_most, (void *)1024));
    TELL(pthread_join(other, NULL) == 0);
    TELL(munmap(all, 20 * 4096));
}

SITUATION(growing_stack)
{
    struct rlimit now;
    getrlimit(RLIMIT_STACK, &now);
    pid_t child = fork();
    if (child == 0) {
        volatile char *used = __builtin_alloca(6 << 20);
        used[0] = 1;
        used[3 << 20] = 1;
        _exit(0);
    }
    say_end("child", child);
}
