/* What processes do besides touching memory, one a run: `lives NAME [WORD..]`. */
#define _GNU_SOURCE
#include <dlfcn.h>
#include <errno.h>
#include <fcntl.h>
#include <link.h>
#include <malloc.h>
#include <pthread.h>
#include <sched.h>
#include <setjmp.h>
#include <signal.h>
#include <stdatomic.h>
#include <stdint.h>
#include <stdio.h>
#include <stdlib.h>
#include <string.h>
#include <sys/mman.h>
#include <sys/resource.h>
#include <sys/syscall.h>
#include <sys/time.h>
#include <sys/wait.h>
#include <unistd.h>

static volatile int sink;

static void *hide(void *pointer)
{
    __asm__ volatile("" : "+r"(pointer) : : "memory");
    return pointer;
}

static void fail(const char *what)
{
    perror(what);
    exit(9);
}

/* One byte past a block: a mark that the trace shows this place. */
static void fault(void)
{
    char *p = hide(malloc(8));
    *(volatile char *)hide(p + 8) = 1;
    free(p);
}

static void ends_normally(void)
{
    fault();
}

static void ends_by__exit(void)
{
    fault();
    _exit(7);
}

static void ends_by_quick_exit(void)
{
    fault();
    quick_exit(7);
}

static void *ends_in_a_thread(void *unused)
{
    (void)unused;
    fault();
    exit(7);
}

static void exits_in_a_thread(void)
{
    pthread_t thread;
    pthread_create(&thread, NULL, ends_in_a_thread, NULL);
    pthread_join(thread, NULL);
}

static void leaves_its_first_thread(void)
{
    pthread_t thread;
    pthread_create(&thread, NULL, ends_in_a_thread, NULL);
    pthread_exit(NULL);
}

static void segfaults(void)
{
    fault();
    *(volatile int *)hide((void *)16) = 1;
}

static void aborts(void)
{
    fault();
    abort();
}

static void is_killed(void)
{
    fault();
    kill(getpid(), SIGKILL);
}

static void is_terminated(void)
{
    fault();
    raise(SIGTERM);
}

static void on_signal(int number)
{
    sink = number;
}

static sigjmp_buf place;

static void jump_out(int number)
{
    siglongjmp(place, number);
}

/* The program sees the default where it has set nothing. */
static void asks_for_handlers(void)
{
    struct sigaction seen, ours = {.sa_handler = on_signal};
    if (sigaction(SIGSEGV, NULL, &seen) != 0 || seen.sa_handler != SIG_DFL)
        exit(1);
    if (signal(SIGTERM, on_signal) != SIG_DFL || signal(SIGTERM, SIG_DFL) != on_signal)
        exit(2);
    if (signal(SIGTERM, SIG_IGN) != SIG_DFL || sigaction(SIGTERM, &ours, &seen) != 0 || seen.sa_handler != SIG_IGN)
        exit(3);
    raise(SIGTERM);
    if (sink != SIGTERM)
        exit(4);
}

static void recovers_from_a_fault(void)
{
    struct sigaction ours = {.sa_handler = jump_out, .sa_flags = SA_NODEFER};
    sigaction(SIGSEGV, &ours, NULL);
    for (int i = 0; i < 10; i++)
        if (sigsetjmp(place, 1) == 0)
            *(volatile int *)hide((void *)16) = 1;
    fault();
}

/* Handlers that allocate and jump, whatever they interrupt. */

static volatile sig_atomic_t ticks;
static char *_Atomic last;

static void on_tick(int number)
{
    (void)number;
    ticks++;
    char *p = hide(malloc(1 << 16));
    if (p == NULL)
        _exit(9);
    p[3] = 1;
    free(p);
}

static void start_ticking(void (*handler)(int))
{
    struct itimerval soon = {{0, 50}, {0, 50}};
    signal(SIGALRM, handler);
    setitimer(ITIMER_REAL, &soon, NULL);
}

static void stop_ticking(void)
{
    struct itimerval never = {{0, 0}, {0, 0}};
    setitimer(ITIMER_REAL, &never, NULL);
}

static void handlers_allocate(void)
{
    start_ticking(on_tick);
    while (ticks < 300) {
        char *p = hide(malloc(16));
        for (int i = 0; i < 16; i++)
            ((volatile char *)p)[i] = 1;
        free(p);
    }
    stop_ticking();
    fault();
}

static void handlers_jump(void)
{
    static volatile char *p;
    static volatile int jumps;
    p = hide(malloc(16));
    signal(SIGALRM, jump_out);
    while (jumps < 300) {
        if (sigsetjmp(place, 1) == 0) {
            struct itimerval once = {{0, 0}, {0, 50}};
            setitimer(ITIMER_REAL, &once, NULL);
            for (;;)
                p[7] = 1;
        }
        jumps++;
    }
    fault();
}

/* In more than one thread: a handler may come while its thread waits for another in the allocator. */
static void *allocates_under_ticks(void *unused)
{
    (void)unused;
    while (ticks < 300)
        free(hide(malloc(16)));
    return NULL;
}

static void handlers_allocate_in_threads(void)
{
    pthread_t threads[4];
    start_ticking(on_tick);
    for (int i = 0; i < 4; i++)
        if (pthread_create(&threads[i], NULL, allocates_under_ticks, NULL) != 0)
            fail("pthread_create");
    for (int i = 0; i < 4; i++)
        pthread_join(threads[i], NULL);
    stop_ticking();
    fault();
}

/* Threads. */

enum { THREADS = 8 };

static void *_Atomic mailbox[THREADS];

/* Allocates for another thread, and frees what others allocated. */
static void *exchange(void *number)
{
    unsigned state = (unsigned)(uintptr_t)number * 7919 + 1;
    for (int i = 0; i < 1000; i++) {
        state = state * 1103515245 + 12345;
        char *p = malloc(state / 65536 % 100 + 8);
        for (int j = 0; j < 8; j++)
            p[j] = (char)j;
        p = atomic_exchange(&mailbox[state / 65536 % THREADS], p);
        if (p != NULL) {
            sink = p[0] + p[7];
            free(p);
        }
    }
    return NULL;
}

static void threads_exchange(void)
{
    pthread_t threads[THREADS];
    for (uintptr_t i = 0; i < THREADS; i++)
        if (pthread_create(&threads[i], NULL, exchange, (void *)i) != 0)
            fail("pthread_create");
    for (int i = 0; i < THREADS; i++)
        pthread_join(threads[i], NULL);
    for (int i = 0; i < THREADS; i++)
        free(mailbox[i]);
    fault();
}

static void *allocate_one(void *unused)
{
    (void)unused;
    char *p = hide(malloc(100));
    p[99] = 1;
    free(p);
    return NULL;
}

static void many_threads(void)
{
    static pthread_t threads[4096];
    pthread_attr_t small;
    int made = 0;
    pthread_attr_init(&small);
    pthread_attr_setstacksize(&small, 65536);
    while (made < 4096 && pthread_create(&threads[made], &small, allocate_one, NULL) == 0)
        made++;
    for (int i = 0; i < made; i++)
        pthread_join(threads[i], NULL);
    fault();
}

static void *works_on(void *unused)
{
    for (;;)
        allocate_one(unused);
    return NULL;
}

/* Its other threads are in the middle of something when it ends. */
static void ends_with_threads(void)
{
    pthread_t thread;
    for (int i = 0; i < 3; i++)
        pthread_create(&thread, NULL, works_on, NULL);
    for (int i = 0; i < 1000; i++)
        allocate_one(NULL);
    fault();
}

static void *_Atomic busy_with;

/* Cancelled at a call only: no access is one, whatever the recorder then has to do. */
static void *works_until_cancelled(void *unused)
{
    char *p = hide(malloc(8));
    busy_with = p;
    for (;;) {
        for (int i = 0; i < 30000; i++)
            *(volatile char *)hide(p) = 1;
        pthread_testcancel();
    }
    return unused;
}

static void cancels_threads(void)
{
    for (int i = 0; i < 20; i++) {
        pthread_t thread;
        busy_with = NULL;
        if (pthread_create(&thread, NULL, works_until_cancelled, NULL) != 0)
            fail("pthread_create");
        while (busy_with == NULL)
            sched_yield();
        pthread_cancel(thread);
        pthread_join(thread, NULL);
        free(busy_with);
    }
    fault();
}

static pthread_barrier_t all_there;

static void *makes_many_events(void *unused)
{
    char local[8];
    pthread_barrier_wait(&all_there);
    for (int i = 0; i < 20000; i++)
        *(volatile char *)hide(local) = 1;
    return unused;
}

/* They come to a limit, or to the end of what a file has, all at once. */
static void many_events_in_threads(void)
{
    pthread_t threads[THREADS];
    pthread_barrier_init(&all_there, NULL, THREADS);
    for (int i = 0; i < THREADS; i++)
        if (pthread_create(&threads[i], NULL, makes_many_events, NULL) != 0)
            fail("pthread_create");
    for (int i = 0; i < THREADS; i++)
        pthread_join(threads[i], NULL);
}

/* Processes. */

static void wait_for(pid_t child)
{
    int status;
    if (child < 0 || waitpid(child, &status, 0) != child || status != 0)
        exit(9);
}

/* The child frees what its parent allocated, and uses what its parent freed. */
static void forks(void)
{
    char *kept = hide(malloc(10)), *freed = hide(malloc(20)), *large = hide(malloc(100000));
    free(freed);
    pid_t child = fork();
    if (child == 0) {
        kept[9] = 1;
        large[99999] = 1;
        sink = *(volatile char *)hide(freed + 1);
        free(kept);
        free(large);
        exit(0);
    }
    wait_for(child);
    kept[9] = 2;
    free(kept);
    free(large);
}

static void *fork_here(void *unused)
{
    (void)unused;
    for (int i = 0; i < 10; i++) {
        pid_t child = fork();
        if (child == 0) {
            allocate_one(NULL);
            _exit(0);
        }
        wait_for(child);
    }
    return NULL;
}

static void forks_in_a_thread(void)
{
    pthread_t busy, forking;
    for (int i = 0; i < 2; i++) {
        pthread_create(&busy, NULL, works_on, NULL);
        pthread_detach(busy);
    }
    pthread_create(&forking, NULL, fork_here, NULL);
    pthread_join(forking, NULL);
    fault();
}

/* Forks in a handler, whatever it interrupts. The child goes on where its parent was. */

static volatile sig_atomic_t made_by_handler;

static int visit_slowly(struct dl_phdr_info *module, size_t size, void *unused)
{
    (void)module, (void)size, (void)unused;
    for (volatile int i = 0; i < 100; i++)
        ;
    return 0;
}

static void *visit_modules(void *unused)
{
    for (;;)
        dl_iterate_phdr(visit_slowly, unused);
}

/* The children have the loader's lock as another thread had it when they were forked. */
static void forks_beside_the_loader(void)
{
    pthread_t thread;
    for (int i = 0; i < 4; i++)
        pthread_create(&thread, NULL, visit_modules, NULL);
    for (int i = 0; i < 50; i++) {
        int status = 0;
        pid_t child = fork();
        if (child == 0) {
            alarm(20);
            exit(fork() == 0 ? 0 : wait(&status) < 0 || status != 0);
        }
        if (waitpid(child, &status, 0) != child || status != 0)
            _exit(1);
    }
}

/* A thread has the loader's lock, and waits for the allocator, in the middle of which a handler of another thread ends
   the process, starts another program, forks, or leaves by a jump. */

static atomic_int has_begun, has_come;
static sigjmp_buf before_blocks;
static int way_out;

static void go_out(int number)
{
    int status = 0;
    atomic_store(&has_come, number);
    usleep(5000);
    if (way_out == 0)
        _exit(0);
    if (way_out == 1)
        execl("/bin/true", "true", NULL);
    if (way_out == 2)
        siglongjmp(before_blocks, 1);
    pid_t child = fork();
    if (child == 0)
        _exit(0);
    _exit(child < 0 || waitpid(child, &status, 0) != child || status != 0);
}

static void *allocate_on(void *unused)
{
    if (sigsetjmp(before_blocks, 1) != 0)
        _exit(0);
    for (;; atomic_store(&has_begun, 1))
        free(hide(malloc(24)));
    return unused;
}

static int wait_for_allocator(struct dl_phdr_info *module, size_t size, void *thread)
{
    (void)module, (void)size;
    pthread_kill(*(pthread_t *)thread, SIGUSR1);
    while (!atomic_load(&has_come))
        ;
    mallinfo2();
    return 1;
}

static void handlers_beside_the_loader(void)
{
    for (int i = 0; i < 40; i++) {
        int status;
        pid_t child = fork();
        if (child == 0) {
            pthread_t thread;
            alarm(20);
            way_out = i % 4;
            signal(SIGUSR1, go_out);
            pthread_create(&thread, NULL, allocate_on, NULL);
            while (!atomic_load(&has_begun))
                ;
            dl_iterate_phdr(wait_for_allocator, &thread);
            pthread_join(thread, NULL);
        }
        if (waitpid(child, &status, 0) != child || status != 0)
            _exit(1);
    }
}

static void fork_on_signal(int number)
{
    (void)number;
    if (made_by_handler < 0 || made_by_handler >= 50)
        return;
    pid_t child = fork();
    if (child == 0) {
        stop_ticking();
        made_by_handler = -1;
        return;
    }
    int status, before = errno;
    if (child < 0 || waitpid(child, &status, 0) != child || status != 0)
        _exit(9);
    errno = before;
    made_by_handler++;
}

static void forks_in_handlers(void)
{
    start_ticking(fork_on_signal);
    while (made_by_handler >= 0 && made_by_handler < 50) {
        char *p = hide(malloc(16));
        for (int i = 0; i < 16; i++)
            ((volatile char *)p)[i] = 1;
        free(p);
    }
    stop_ticking();
    for (int i = 0; i < 20; i++)
        free(hide(malloc(20)));
    fault();
}

/* A call of the system that nobody sees. */
static long call_by_hand(long number, long first, long second, long third)
{
    long result;
    __asm__ volatile("syscall"
                     : "=a"(result)
                     : "a"(number), "D"(first), "S"(second), "d"(third)
                     : "rcx", "r11", "memory");
    return result;
}

static void forks_by_the_system(void)
{
    char *p = hide(malloc(8));
    pid_t child = (pid_t)call_by_hand(SYS_fork, 0, 0, 0);
    if (child == 0) {
        p[7] = 1;
        free(p);
        _exit(0);
    }
    wait_for(child);
    p[7] = 1;
    free(p);
    fault();
}

static void forks_quietly(void)
{
    char *p = hide(malloc(8));
    pid_t child = _Fork();
    if (child == 0) {
        p[7] = 1;
        free(p);
        _exit(0);
    }
    wait_for(child);
    fault();
}

static int in_clone(void *block)
{
    free(block);
    return 0;
}

static void clones(void)
{
    char *stack = hide(malloc(1 << 16));
    pid_t child = clone(in_clone, stack + (1 << 16), SIGCHLD, hide(malloc(8)));
    wait_for(child);
    fault();
}

static void vforks(void)
{
    pid_t child = vfork();
    if (child == 0)
        _exit(0);
    wait_for(child);
    child = vfork();
    if (child == 0) {
        execl("/bin/true", "true", (char *)NULL);
        _exit(1);
    }
    wait_for(child);
    fault();
}

static char *own_path;

static void execs(void)
{
    fault();
    execl(own_path, own_path, "ends_normally", (char *)NULL);
    fail("execl");
}

static void execs_in_vain(void)
{
    char *argv[] = {"none", NULL};
    fault();
    if (execv("/nowhere/none", argv) != -1 || errno != ENOENT)
        exit(9);
    if (execlp("asancol-no-such-program", "none", (char *)NULL) != -1 || errno != ENOENT)
        exit(9);
    fault();
}

static __attribute__((noinline)) void store_below(char *at, unsigned path);

static __attribute__((noinline)) void store_left(char *at, unsigned path)
{
    store_below(at, path);
    sink = 1;
}

static __attribute__((noinline)) void store_right(char *at, unsigned path)
{
    store_below(at, path);
    sink = 2;
}

/* By a call for each bit of the path but the first, so each path has a stack of its own. */
static void store_below(char *at, unsigned path)
{
    if (path == 1)
        *at = 1;
    else if (path % 2 == 0)
        store_left(at, path / 2);
    else
        store_right(at, path / 2);
}

static _Atomic int has_tried_all;

static void *stores_by_many_stacks(void *block)
{
    for (unsigned path = 1 << 16; !has_tried_all; path++)
        store_below((char *)block + 8, path);
    return NULL;
}

/* A file that is no program: the system says so late. */
static void execs_in_vain_beside_faults(void)
{
    pthread_t thread;
    char *argv[] = {"no.program", NULL}, *block = hide(malloc(8));
    if (pthread_create(&thread, NULL, stores_by_many_stacks, block) != 0)
        fail("pthread_create");
    for (int i = 0; i < 1000; i++) {
        execv("./no.program", argv);
        if (errno != ENOEXEC)
            fail("execv");
        usleep(100);
    }
    has_tried_all = 1;
    pthread_join(thread, NULL);
    free(block);
}

/* By then the limit of events is long past. */
static void execs_after_much(void)
{
    char local[8];
    for (int i = 0; i < 1000; i++)
        *(volatile char *)hide(local) = 1;
    execl("/bin/true", "true", (char *)NULL);
    fail("execl");
}

static void spawns(void)
{
    fault();
    if (system("exit 3") != 3 << 8)
        exit(9);
    FILE *pipe = popen("echo word", "r");
    char line[16];
    if (pipe == NULL || fgets(line, sizeof line, pipe) == NULL || pclose(pipe) != 0)
        exit(9);
}

/* Limits and descriptors. */

static void closes_all(void)
{
    for (int i = 3; i < 4096; i++)
        close(i);
    /* The numbers are taken again, by files that nobody may touch. */
    for (int i = 0; i < 600; i++)
        if (open("victim", O_RDWR | O_CREAT, 0666) < 0)
            break;
    fault();
    for (int i = 0; i < 200000; i++)
        *(volatile char *)hide((int *)&sink) = 1;
}

static void counts_descriptors(void)
{
    if (open("/dev/null", O_RDONLY) != 3)
        exit(9);
}

static void closes_errors(void)
{
    close(2);
    if (open("victim", O_RDWR | O_CREAT, 0666) != 2)
        exit(9);
    for (int i = 0; i < 100; i++)
        fault();
}

static void set_limit(int what, rlim_t to)
{
    struct rlimit limit;
    getrlimit(what, &limit);
    limit.rlim_cur = to;
    if (setrlimit(what, &limit) != 0)
        fail("setrlimit");
}

static void writes_past_a_limit(void)
{
    set_limit(RLIMIT_FSIZE, 1 << 20);
    fault();
    for (int i = 0; i < 400000; i++)
        *(volatile char *)hide((int *)&sink) = 1;
}

/* What the recorder does at an access must not show: not even where it writes, waits or fails. */
static void keeps_errno(void)
{
    errno = 77;
    for (int i = 0; i < 300000; i++)
        *(volatile char *)hide((void *)&sink) = 1;
    if (errno != 77)
        exit(9);
    fault();
}

/* Somebody cuts its trace. */
static void loses_its_trace(void)
{
    fault();
    if (truncate("t.trace", 0) != 0)
        fail("truncate");
    for (int i = 0; i < 300000; i++)
        *(volatile char *)hide((void *)&sink) = 1;
}

static void loses_its_trace_at_the_end(void)
{
    fault();
    if (truncate("t.trace", 0) != 0)
        fail("truncate");
}

/* A table that is large and nearly empty takes no more memory than its used part. */
static void keeps_little(void)
{
    enum { MAX_KB = 100 << 10 };
    struct rusage before, after;
    getrusage(RUSAGE_SELF, &before);
    char *p = hide(calloc((size_t)1 << 30, 1));
    if (p == NULL)
        fail("calloc");
    p[0] = p[(size_t)1 << 29] = 1;
    if (getrusage(RUSAGE_SELF, &after) != 0 || after.ru_maxrss - before.ru_maxrss > MAX_KB)
        exit(9);
    free(p);
    /* Memory used before is zeros again. */
    p = hide(malloc(1 << 20));
    memset(p, 1, 1 << 20);
    free(p);
    p = hide(calloc(1 << 20, 1));
    for (int i = 0; i < 1 << 20; i++)
        if (p[i] != 0)
            exit(9);
    free(p);
}

/* More than a half of what it may have, in one block. */
static void fills_its_space(void)
{
    char *p = hide(malloc((size_t)600 << 20));
    if (p == NULL)
        fail("malloc");
    p[((size_t)600 << 20) - 1] = 1;
    free(p);
}

static void ends_by_another_signal(void)
{
    fault();
    raise(SIGRTMIN + 3);
}

/* Two thirds of what it may have, again and again: the quarantine must not be in its way. */
static void fills_its_memory(void)
{
    for (int i = 0; i < 40; i++) {
        char *p = malloc(40 << 20);
        if (p == NULL)
            fail("malloc");
        memset(hide(p), 1, 1000);
        free(p);
    }
}

static void many_events(void)
{
    for (int i = 0; i < 100000; i++)
        *(volatile char *)hide((int *)&sink) = 1;
    fault();
}

/* Past the greatest limit. */
static void twenty_million_events(void)
{
    fault();
    for (int i = 0; i < 20000000; i++)
        *(volatile char *)hide((int *)&sink) = 1;
}

static void many_frees(void)
{
    char *p = hide(malloc(64));
    for (int i = 0; i < 1000; i++)
        free(hide(malloc(1000)));
    free(p);
    for (int i = 0; i < 10; i++)
        free(hide(malloc(1000)));
    fault();
}

/* Before main, and at the end. */

static char *early;

__attribute__((constructor)) static void before_main(void)
{
    early = malloc(8);
    early[7] = 1;
}

static void at_the_end(void)
{
    early[7] = 2;
    free(early);
    early = NULL;
}

__attribute__((destructor)) static void after_all(void)
{
    if (early != NULL)
        free(early);
}

static void uses_exit_handlers(void)
{
    atexit(at_the_end);
    fault();
}

/* More than a record of a malloc can say. */
static void has_a_huge_block(void)
{
    size_t size = ((size_t)1 << 32) + 5;
    char *block = hide(malloc(size));
    volatile char *start = block;
    start[0] = start[size - 1] = 1;
    start[size] = 1;
    start[-1] = 1;
    free(block);
    start[size / 2] = 1;
    free(block);
}

static void loads_a_library(void)
{
    void *library = dlopen("./libplugin.so", RTLD_NOW);
    if (library == NULL) {
        fprintf(stderr, "%s\n", dlerror());
        exit(9);
    }
    char *(*make)(int) = (char *(*)(int))dlsym(library, "plugin_make");
    void (*spoil)(char *, int) = (void (*)(char *, int))dlsym(library, "plugin_spoil");
    int (*sees_default)(int) = (int (*)(int))dlsym(library, "plugin_sees_default");
    if (!sees_default(SIGTERM))
        exit(9);
    char *p = make(8);
    spoil(p, 8);
    free(p);
}

static const struct {
    const char *name;
    void (*run)(void);
} lives[] = {
#define LIFE(name) {#name, name}
    LIFE(ends_normally),
    LIFE(ends_by__exit),
    LIFE(ends_by_quick_exit),
    LIFE(exits_in_a_thread),
    LIFE(leaves_its_first_thread),
    LIFE(segfaults),
    LIFE(aborts),
    LIFE(is_killed),
    LIFE(is_terminated),
    LIFE(asks_for_handlers),
    LIFE(recovers_from_a_fault),
    LIFE(handlers_allocate),
    LIFE(handlers_jump),
    LIFE(handlers_allocate_in_threads),
    LIFE(cancels_threads),
    LIFE(many_events_in_threads),
    LIFE(forks_in_handlers),
    LIFE(execs_after_much),
    LIFE(keeps_errno),
    LIFE(loses_its_trace),
    LIFE(loses_its_trace_at_the_end),
    LIFE(keeps_little),
    LIFE(fills_its_space),
    LIFE(ends_by_another_signal),
    LIFE(threads_exchange),
    LIFE(many_threads),
    LIFE(ends_with_threads),
    LIFE(forks),
    LIFE(forks_in_a_thread),
    LIFE(forks_beside_the_loader),
    LIFE(handlers_beside_the_loader),
    LIFE(forks_by_the_system),
    LIFE(forks_quietly),
    LIFE(clones),
    LIFE(vforks),
    LIFE(execs),
    LIFE(execs_in_vain),
    LIFE(execs_in_vain_beside_faults),
    LIFE(spawns),
    LIFE(closes_all),
    LIFE(counts_descriptors),
    LIFE(closes_errors),
    LIFE(writes_past_a_limit),
    LIFE(fills_its_memory),
    LIFE(many_events),
    LIFE(twenty_million_events),
    LIFE(many_frees),
    LIFE(uses_exit_handlers),
    LIFE(loads_a_library),
    LIFE(has_a_huge_block),
};

/* Byte by byte: the events are then as many in each run. */
static int is_same(const char *one, const char *other)
{
    while (*one != 0 && *one == *other)
        one++, other++;
    return *one == *other;
}

int main(int count, char **argv)
{
    own_path = argv[0];
    for (size_t i = 0; i < sizeof lives / sizeof *lives; i++)
        if (count > 1 && is_same(argv[1], lives[i].name))
            return lives[i].run(), 0;
    return 99;
}
