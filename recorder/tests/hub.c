/* Faults of every sort, and processes that end in every way, one a run: `hub NAME`. */
#define _GNU_SOURCE
#include <assert.h>
#include <dlfcn.h>
#include <errno.h>
#include <fcntl.h>
#include <pthread.h>
#include <setjmp.h>
#include <signal.h>
#include <stdbool.h>
#include <stdint.h>
#include <stdio.h>
#include <stdlib.h>
#include <string.h>
#include <sys/mman.h>
#include <sys/time.h>
#include <sys/wait.h>
#include <time.h>
#include <ucontext.h>
#include <unistd.h>

static volatile int sink;
int table[5];
static volatile char letters[3] = "ab";
static volatile int left, middle, right;

static void *hide(void *pointer)
{
    __asm__ volatile("" : "+r"(pointer) : : "memory");
    return pointer;
}

static void fail(const char *what)
{
    perror(what);
    exit(9);
}

__attribute__((noinline)) static char *make(size_t size)
{
    return hide(malloc(size));
}

__attribute__((noinline)) static void give_back(void *p)
{
    free(p);
}

__attribute__((noinline)) static void put(char *p, long offset)
{
    ((volatile char *)hide(p))[offset] = 1;
}

static void sleep_ms(long ms)
{
    struct timespec time = {ms / 1000, ms % 1000 * 1000000};
    while (nanosleep(&time, &time) != 0 && errno == EINTR)
        ;
}

/* Blocks. */

static void before(void)
{
    put(make(24), -3);
}

static void behind(void)
{
    put(make(24), 25);
}

static void inside_freed(void)
{
    char *p = make(24);
    give_back(p);
    put(p, 10);
}

static void twice(void)
{
    char *p = make(24);
    give_back(p);
    give_back(p);
}

static void large(void)
{
    char *p = make(1 << 20);
    put(p, 1 << 20);
    put(p, -20);
}

static void inside_free(void)
{
    char *p = make(24);
    give_back(p + 16);
}

/* A loop is one fault. */
static void loops(void)
{
    char *p = make(8);
    for (int i = 0; i < 100; i++)
        put(p, 8 + i % 8);
}

/* Stacks: one that ends in main, another one to the same place, a deep one, and one through the C library. */

__attribute__((noinline)) static void inner(void)
{
    put(make(24), 24);
}

__attribute__((noinline)) static void outer(void)
{
    inner();
}

__attribute__((noinline)) static void deep(int depth)
{
    if (depth == 0)
        inner();
    else
        deep(depth - 1);
}

static void calls(void)
{
    outer();
    inner();
    deep(40);
    put(hide(strdup("word")), 5);
}

/* Stacks through code without frame pointers. */

static char *watched;

__attribute__((noinline)) static int compare(const void *one, const void *other)
{
    put(watched, 24);
    return *(const int *)one - *(const int *)other;
}

static void sorts(void)
{
    int numbers[] = {2, 1};
    watched = make(24);
    qsort(numbers, 2, sizeof *numbers, compare);
}

__attribute__((noinline)) static char *make_text(void)
{
    char *text = NULL;
    if (asprintf(&text, "%s %d", "a text that is longer than most", 5) < 0)
        fail("asprintf");
    return hide(text);
}

static void makes_text(void)
{
    char *text = make_text();
    put(text, (long)strlen(text) + 1);
}

/* The library of the stream frees what it has allocated by itself. */
__attribute__((noinline)) static FILE *open_stream(void)
{
    return fopen("/dev/null", "r");
}

static void opens_stream(void)
{
    FILE *stream = hide(open_stream());
    put((char *)stream, -1);
    fclose(stream);
}

static void on_signal(int number)
{
    (void)number;
    put(watched, 24);
    give_back(make(8));
}

__attribute__((noinline)) static void raise_signal(void)
{
    raise(SIGUSR1);
}

static void handles(void)
{
    struct sigaction ours = {.sa_handler = on_signal};
    watched = make(24);
    sigaction(SIGUSR1, &ours, NULL);
    raise_signal();
}

static void handles_on_other_stack(void)
{
    stack_t stack = {.ss_sp = mmap(NULL, 1 << 16, PROT_READ | PROT_WRITE, MAP_PRIVATE | MAP_ANONYMOUS, -1, 0),
                     .ss_size = 1 << 16};
    struct sigaction ours = {.sa_handler = on_signal, .sa_flags = SA_ONSTACK};
    watched = make(24);
    sigaltstack(&stack, NULL);
    sigaction(SIGUSR1, &ours, NULL);
    raise_signal();
}

static ucontext_t caller, coroutine;

__attribute__((noinline)) static void run_coroutine(void)
{
    for (int i = 0; i < 2; i++) {
        put(make(24), 24);
        swapcontext(&coroutine, &caller);
    }
}

__attribute__((noinline)) static void run_on(char *stack, size_t size)
{
    getcontext(&coroutine);
    coroutine.uc_stack.ss_sp = stack;
    coroutine.uc_stack.ss_size = size;
    coroutine.uc_link = &caller;
    makecontext(&coroutine, run_coroutine, 0);
    for (int i = 0; i < 3; i++)
        swapcontext(&caller, &coroutine);
}

static void coroutine_of_program(void)
{
    static char room[1 << 16];
    run_on(room, sizeof room);
}

static void coroutine_in_block(void)
{
    run_on(make(1 << 16), 1 << 16);
}

static void coroutine_in_mapping(void)
{
    run_on(mmap(NULL, 1 << 16, PROT_READ | PROT_WRITE, MAP_PRIVATE | MAP_ANONYMOUS, -1, 0), 1 << 16);
}

/* Almost all of a stack is used. */
__attribute__((noinline)) static void go_down(const char *end)
{
    volatile char room[1000];
    room[0] = 1;
    if (room - end > 10000)
        go_down(end);
    else
        put(make(24), 24);
    room[1] = 1;
}

static void *uses_most(void *stack)
{
    go_down(stack);
    return NULL;
}

static void uses_most_of_stack(void)
{
    enum { SIZE = 1 << 16 };
    pthread_attr_t attributes;
    pthread_t thread;
    char *stack = mmap(NULL, SIZE, PROT_READ | PROT_WRITE, MAP_PRIVATE | MAP_ANONYMOUS, -1, 0);
    pthread_attr_init(&attributes);
    pthread_attr_setstack(&attributes, stack, SIZE);
    if (pthread_create(&thread, &attributes, uses_most, stack) != 0)
        fail("pthread_create");
    pthread_join(thread, NULL);
}

/* Variables. */

__attribute__((noinline)) static void on_stack(void)
{
    volatile char first[10], second[20];
    volatile int ten = 10;
    first[ten] = 1;
    second[ten + 11] = 1;
    second[ten - 13] = 1;
    (void)first, (void)second;
}

__attribute__((noinline)) static void after_scope(void)
{
    volatile char *kept;
    {
        volatile char inner[16];
        kept = inner;
        *kept = 1;
    }
    kept[3] = 1;
}

static void globals(void)
{
    volatile int five = 5;
    table[five] = 1;
    letters[five - 2] = 1;
    /* One of the others lies before it. */
    (&middle)[five - 6] = left + right;
}

static void frees_variables(void)
{
    volatile char local[32];
    free(hide((void *)local));
    free(hide(table));
}

/* Children. */

static void wait_for(pid_t child)
{
    int status;
    if (waitpid(child, &status, 0) != child || status != 0)
        fail("the child");
}

static void forks(void)
{
    char *p = make(24);
    pid_t child = fork();
    if (child == 0) {
        put(p, 24);
        give_back(p);
        put(p, 1);
        exit(0);
    }
    wait_for(child);
    give_back(p);
}

static void forks_after_fault(void)
{
    char *p = make(24);
    put(p, 24);
    pid_t child = fork();
    put(p, 25);
    if (child == 0)
        exit(0);
    wait_for(child);
}

static void forks_and_closes(void)
{
    char *p = make(24);
    pid_t child = fork();
    if (child == 0) {
        for (int i = 3; i < 2000; i++)
            close(i);
        execlp("true", "true", NULL);
        _exit(9);
    }
    wait_for(child);
    put(p, 24);
}

/* The child is in its parent's memory, but closes only its copies of the descriptors. */
static void vforks_and_closes(void)
{
    char *p = make(24);
    pid_t child = vfork();
    if (child == 0) {
        for (int i = 3; i < 2000; i++)
            close(i);
        for (int i = 0; i < 5; i++) {
            sleep_ms(10);
            put(p, 24);
        }
        _exit(0);
    }
    wait_for(child);
    sleep_ms(10);
    put(p, 24);
}

static void execs(void)
{
    put(make(8), 8);
    execl("/proc/self/exe", "hub", "behind", NULL);
    fail("exec");
}

static void execs_true(void)
{
    put(make(8), 8);
    execlp("true", "true", NULL);
    fail("exec");
}

static void execs_in_vain(void)
{
    put(make(8), 8);
    execl("/none", "none", NULL);
    put(make(8), 9);
}

static void execs_in_vain_at_limit(void)
{
    for (int i = 0; i < 200; i++)
        give_back(make(8));
    execl("/none", "none", NULL);
    kill(getpid(), SIGKILL);
}

static void execs_at_limit(void)
{
    for (int i = 0; i < 200; i++)
        give_back(make(8));
    execlp("true", "true", NULL);
}

/* Ends. */

static void terminates(void)
{
    put(make(8), 8);
    raise(SIGTERM);
}

static void aborts(void)
{
    put(make(8), 8);
    abort();
}

static void segfaults(void)
{
    put(make(8), 8);
    *(volatile int *)hide((void *)16) = 1;
}

static void segfaults_inside(void)
{
    sink = (int)strlen(hide((void *)16));
}

static void calls_nothing(void)
{
    ((void (*)(void))hide((void *)16))();
}

static void asserts(void)
{
    assert(hide(NULL) != NULL);
}

__attribute__((noinline)) static int uses_up(int depth)
{
    volatile char room[4000];
    room[0] = (char)depth;
    return uses_up(depth + 1) + room[0];
}

static void uses_up_stack(void)
{
    uses_up(0);
}

static void *uses_up_here(void *unused)
{
    (void)unused;
    uses_up(0);
    return NULL;
}

/* In a thread, with a stack of this size, or one that the program gives it; 0: as usual. */
static void uses_up_in_thread(size_t size, void *stack)
{
    pthread_attr_t settings;
    pthread_t thread;
    if (pthread_attr_init(&settings) != 0
        || (stack == NULL && size != 0 && pthread_attr_setstacksize(&settings, size) != 0)
        || (stack != NULL && pthread_attr_setstack(&settings, stack, size) != 0)
        || pthread_create(&thread, &settings, uses_up_here, NULL) != 0)
        fail("a thread");
    pthread_join(thread, NULL);
}

static void uses_up_second(void)
{
    uses_up_in_thread(0, NULL);
}

static void uses_up_small(void)
{
    uses_up_in_thread(1 << 16, NULL);
}

static void uses_up_own(void)
{
    enum { SIZE = 1 << 18, GUARD = 1 << 16 };
    char *stack = mmap(NULL, GUARD + SIZE, PROT_READ | PROT_WRITE, MAP_PRIVATE | MAP_ANONYMOUS, -1, 0);
    if (stack == MAP_FAILED || mprotect(stack, GUARD, PROT_NONE) != 0)
        fail("a stack");
    uses_up_in_thread(SIZE, stack + GUARD);
}

/* A handler of the program's, on the stack that it has given the thread, or on the one that the thread has. */

static char own_room[1 << 16];

static void ends_well(int number)
{
    char here;
    bool is_on_own = (uintptr_t)&here - (uintptr_t)own_room < sizeof own_room;
    _exit(number == SIGSEGV ? 7 + is_on_own : 6);
}

static void *gives_itself_a_stack(void *unused)
{
    stack_t own = {.ss_sp = own_room, .ss_size = sizeof own_room}, seen;
    if (sigaltstack(&own, NULL) != 0 || sigaltstack(NULL, &seen) != 0 || seen.ss_sp != own_room)
        fail("a stack for handlers");
    return uses_up_here(unused);
}

static void handles_used_up(void *run(void *))
{
    struct sigaction action = {.sa_handler = ends_well, .sa_flags = SA_ONSTACK};
    pthread_t thread;
    if (sigaction(SIGSEGV, &action, NULL) != 0 || pthread_create(&thread, NULL, run, NULL) != 0)
        fail("a thread");
    pthread_join(thread, NULL);
}

static void handles_on_given(void)
{
    handles_used_up(uses_up_here);
}

static void handles_on_own(void)
{
    handles_used_up(gives_itself_a_stack);
}

/* Handlers that leave their frames, by threads of which each has the stack of the one before for its handlers. */

static _Thread_local sigjmp_buf before_signal;

__attribute__((noinline)) static void jumps_over(int depth)
{
    volatile char room[40];
    for (size_t i = 0; i < sizeof room; i++)
        room[i] = 1;
    if (depth > 0)
        jumps_over(depth - 1);
    else
        siglongjmp(before_signal, room[3]);
}

static void jumps_away(int number)
{
    volatile char room[200];
    for (size_t i = 0; i < sizeof room; i++)
        room[i] = 1;
    jumps_over(number == SIGUSR1 ? 5 : 9);
}

static void *is_signalled(void *number)
{
    for (int i = 0; i < 3; i++)
        if (sigsetjmp(before_signal, 1) == 0)
            raise(*(const int *)number);
    return NULL;
}

static void jumps_in_threads(void)
{
    struct sigaction action = {.sa_handler = jumps_away, .sa_flags = SA_ONSTACK};
    static int numbers[] = {SIGUSR1, SIGUSR2};
    if (sigaction(SIGUSR1, &action, NULL) != 0 || sigaction(SIGUSR2, &action, NULL) != 0)
        fail("handlers");
    for (int i = 0; i < 20; i++) {
        pthread_t thread;
        if (pthread_create(&thread, NULL, is_signalled, &numbers[i % 2]) != 0 || pthread_join(thread, NULL) != 0)
            fail("a thread");
    }
}

static void ends_by__exit(void)
{
    put(make(8), 8);
    _exit(7);
}

static void aborts_at_exit(void)
{
    abort();
}

static void many(void)
{
    for (int i = 0; i < 200; i++)
        give_back(make(8));
}

/* All records have been sent when a kill comes. */

static void is_killed_after_fault(void)
{
    put(make(8), 8);
    sleep_ms(300);
    kill(getpid(), SIGKILL);
}

static void is_killed_after_a_while(void)
{
    char *first = make(8);
    sleep_ms(30);
    char *second = make(8);
    sleep_ms(300);
    sink = *first + *second;
    kill(getpid(), SIGKILL);
}

static void many_faults(void)
{
    char *p = make(8);
    for (int i = 0; i < 100000; i++)
        put(p, 8 + i % 8);
}

static void closes_all(void)
{
    put(make(8), 8);
    for (int i = 3; i < 2000; i++)
        close(i);
    for (int i = 0; i < 20000; i++)
        give_back(make(8));
}

static void keeps_descriptors(void)
{
    int first = open("/dev/null", O_RDONLY);
    int second = dup(first);
    if (first != 3 || second != 4)
        exit(8);
    put(make(8), 8);
}

static void keeps_errno(void)
{
    char *p = make(8);
    volatile char local[8];
    errno = 77;
    put(p, 8);
    put((char *)local, 8);
    put((char *)table, sizeof table);
    give_back(p + 1);
    if (errno != 77)
        exit(8);
}

static void sleeps(void)
{
    put(make(8), 8);
    sleep_ms(300000);
}

/* Threads, and signal handlers that interrupt anything. */

static void *faults_often(void *number)
{
    for (int i = 0; i < 3000; i++) {
        char *p = make(16);
        put(p, 16);
        volatile char local[10];
        put((char *)local, 10);
        give_back(p);
    }
    return number;
}

static void threads(void)
{
    pthread_t pair[2];
    for (int i = 0; i < 2; i++)
        if (pthread_create(&pair[i], NULL, faults_often, NULL) != 0)
            fail("pthread_create");
    for (int i = 0; i < 2; i++)
        pthread_join(pair[i], NULL);
}

static char *_Atomic victim;
static volatile sig_atomic_t ticks;

static void on_tick(int number)
{
    (void)number;
    put(victim, 24);
    put(victim, -1);
    ticks++;
}

static void handlers(void)
{
    struct sigaction ours = {.sa_handler = on_tick};
    struct itimerval often = {{0, 50}, {0, 50}}, never = {{0, 0}, {0, 0}};
    char *kept[64] = {0};
    victim = make(24);
    sigaction(SIGALRM, &ours, NULL);
    setitimer(ITIMER_REAL, &often, NULL);
    for (int i = 0; ticks < 2000; i++) {
        give_back(kept[i % 64]);
        kept[i % 64] = make((size_t)(i * 37 % 3000));
        put(kept[i % 64], -1);
    }
    setitimer(ITIMER_REAL, &never, NULL);
}

/* A library that is loaded later, whose globals are its own, and which is closed again. */
static void loads(void)
{
    void *library = dlopen("./libhub.so", RTLD_NOW);
    void (*of_library)(int) = library ? (void (*)(int))dlsym(library, "of_library") : NULL;
    if (of_library == NULL)
        fail("dlopen");
    of_library(4);
}

static void closes_library(void)
{
    loads();
    void *library = dlopen("./libhub.so", RTLD_NOW);
    dlclose(library);
    dlclose(library);
    library = dlopen("libm.so.6", RTLD_NOW);
    globals();
}

static void changes_root(void)
{
    if (chroot("empty") != 0 || chdir("/") != 0)
        fail("chroot");
    char *p = make(24);
    pid_t child = fork();
    if (child == 0) {
        put(p, 24);
        exit(0);
    }
    wait_for(child);
}

/* Leaves a list of the mappings, with what of it a core has, and where two texts are; and then the core. */
static void leaves_a_core(void)
{
    char text[4096], on_stack[32], *on_heap = make(32);
    int from = open("/proc/self/smaps", O_RDONLY), to = open("mapped", O_WRONLY | O_CREAT | O_TRUNC, 0600);
    ssize_t length;
    put(on_heap, 32);
    snprintf(on_heap, 32, "on-the-heap-%d", (int)getpid());
    snprintf(on_stack, sizeof on_stack, "on-the-stack-%d", (int)getpid());
    while ((length = read(from, text, sizeof text)) > 0)
        if (write(to, text, (size_t)length) != length)
            fail("mapped");
    dprintf(to, "at %zx %zx\n", (size_t)on_heap, (size_t)on_stack);
    abort();
}

#define NAMED(name)                                                                                                    \
    {                                                                                                                  \
        #name, name                                                                                                    \
    }

static const struct {
    const char *name;
    void (*run)(void);
} runs[] = {
    NAMED(before), NAMED(behind), NAMED(calls), NAMED(inside_freed), NAMED(twice), NAMED(large), NAMED(inside_free),
    NAMED(loops), NAMED(on_stack), NAMED(after_scope), NAMED(globals), NAMED(frees_variables), NAMED(forks),
    NAMED(forks_after_fault), NAMED(forks_and_closes), NAMED(vforks_and_closes), NAMED(execs),
    NAMED(execs_true), NAMED(execs_in_vain), NAMED(execs_in_vain_at_limit), NAMED(execs_at_limit),
    NAMED(terminates), NAMED(aborts), NAMED(segfaults), NAMED(segfaults_inside), NAMED(calls_nothing), NAMED(asserts),
    NAMED(uses_up_stack), NAMED(uses_up_second), NAMED(uses_up_small), NAMED(uses_up_own), NAMED(handles_on_given),
    NAMED(handles_on_own), NAMED(jumps_in_threads), NAMED(ends_by__exit), NAMED(many), NAMED(sorts), NAMED(makes_text),
    NAMED(opens_stream),
    NAMED(handles), NAMED(handles_on_other_stack), NAMED(coroutine_of_program), NAMED(coroutine_in_block),
    NAMED(coroutine_in_mapping), NAMED(uses_most_of_stack),
    NAMED(is_killed_after_fault), NAMED(is_killed_after_a_while), NAMED(many_faults), NAMED(closes_all),
    NAMED(keeps_descriptors), NAMED(keeps_errno), NAMED(sleeps), NAMED(threads), NAMED(handlers),
    NAMED(loads), NAMED(closes_library), NAMED(changes_root), NAMED(leaves_a_core),
};

int main(int count, char **argv)
{
    for (size_t i = 0; count > 1 && i < sizeof runs / sizeof *runs; i++) {
        if (strcmp(runs[i].name, argv[1]) != 0)
            continue;
        if (count > 2 && strcmp(argv[2], "at_exit") == 0)
            atexit(aborts_at_exit);
        runs[i].run();
        return 0;
    }
    return 2;
}
