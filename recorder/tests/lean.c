/* What lean recording has to state in the middle of something: a number of rounds and the name are the arguments. */
#define _GNU_SOURCE
#include <alloca.h>
#include <fcntl.h>
#include <pthread.h>
#include <sanitizer/asan_interface.h>
#include <setjmp.h>
#include <signal.h>
#include <stdint.h>
#include <stdio.h>
#include <stdlib.h>
#include <string.h>
#include <sys/resource.h>
#include <sys/time.h>
#include <sys/wait.h>
#include <ucontext.h>
#include <unistd.h>

static void *hide(void *pointer)
{
    __asm__ volatile("" : "+r"(pointer));
    return pointer;
}

static void store(char *at)
{
    *(volatile char *)hide(at) = 1;
}

static char *block;
static volatile sig_atomic_t ticks;

static void go_wrong(int number)
{
    (void)number;
    store(block + 8);
    ticks++;
}

/* A timer's handler goes wrong, whatever it interrupts: mostly the allocator. Says how often. */
static void handlers(int rounds)
{
    struct itimerval often = {{0, 500}, {0, 500}}, never = {{0, 0}, {0, 0}};
    block = hide(malloc(8));
    signal(SIGALRM, go_wrong);
    setitimer(ITIMER_REAL, &often, NULL);
    for (int i = 0; i < rounds; i++)
        free(hide(malloc((size_t)(i % 100))));
    setitimer(ITIMER_REAL, &never, NULL);
    printf("%d\n", (int)ticks);
}

/* The same while another thread allocates, too. */
static volatile sig_atomic_t has_ended;
static void *beside(void *of)
{
    while (!has_ended)
        free(hide(malloc(50)));
    return of;
}

static void threaded(int rounds)
{
    pthread_t thread;
    sigset_t alarm;
    sigemptyset(&alarm);
    sigaddset(&alarm, SIGALRM);
    pthread_sigmask(SIG_BLOCK, &alarm, NULL);
    pthread_create(&thread, NULL, beside, NULL);
    pthread_sigmask(SIG_UNBLOCK, &alarm, NULL);
    handlers(rounds);
    has_ended = 1;
    pthread_join(thread, NULL);
}

/* A timer's handler frees many blocks, whatever it interrupts: mostly the allocator. Each is freed again later. */

enum { MANY = 100 };
static void **batch;

static void free_batch(int number)
{
    (void)number;
    for (int i = 0; batch != NULL && i < MANY; i++)
        free(batch[i]);
    batch = NULL;
    ticks++;
}

static void frees(int rounds)
{
    struct itimerval soon = {{0, 0}, {0, 500}};
    void *blocks[MANY];
    signal(SIGALRM, free_batch);
    for (int round = 0; round < rounds; round++) {
        for (int i = 0; i < MANY; i++)
            blocks[i] = hide(malloc((size_t)i));
        batch = blocks;
        setitimer(ITIMER_REAL, &soon, NULL);
        while (ticks <= round)
            free(hide(malloc(40)));
        for (int i = 0; i < MANY; i++)
            free(hide(blocks[i]));
    }
}

/* A timer's handler jumps out of whatever it interrupts: mostly the allocator. */

static sigjmp_buf out;

static void jump_out(int number)
{
    (void)number;
    siglongjmp(out, 1);
}

static void jumps(int rounds)
{
    struct itimerval soon = {{0, 0}, {0, 300}};
    signal(SIGALRM, jump_out);
    for (volatile int i = 0; i < rounds; i++) {
        if (!sigsetjmp(out, 1)) {
            setitimer(ITIMER_REAL, &soon, NULL);
            for (;;)
                free(hide(malloc(40)));
        }
        char *block = hide(malloc(8));
        store(block + 8);
        free(block);
        free(hide(block));
    }
}

/* A timer's handler ends the process in the middle of the allocator, and an exit handler fails. */

static char *volatile freed_twice;

static void free_again(void)
{
    free(freed_twice);
}

static void end(int number)
{
    (void)number;
    exit(0);
}

static void exits(int rounds)
{
    struct itimerval soon = {{0, 0}, {0, 300 * rounds}};
    freed_twice = malloc(8);
    free(freed_twice);
    atexit(free_again);
    signal(SIGALRM, end);
    setitimer(ITIMER_REAL, &soon, NULL);
    for (;;)
        free(hide(malloc(40)));
}

/* Each round frees two blocks, of which nothing is known, and uses one once the next round has its memory, or none. */
static void turns(int rounds)
{
    for (int i = 0; i < rounds; i++) {
        char *one = hide(malloc((size_t)(8 + i % 2 * 8))), *other = hide(malloc(8));
        free(one);
        free(other);
        store(one);
        free(one);
        store(other + 40);
    }
}

/* A child of vfork goes wrong in its parent's memory, and so does the parent after it. */
static void vforks(int rounds)
{
    for (int i = 0; i < rounds; i++) {
        char *freed = hide(malloc(16));
        free(freed);
        pid_t child = vfork();
        if (child == 0) {
            store(freed);
            _exit(0);
        }
        store(freed + 1);
        waitpid(child, NULL, 0);
    }
}

/* A child of vfork frees a block again: one that is known to be live, and has left a small quarantine since. */
static void vfork_frees(int rounds)
{
    for (int i = 0; i < rounds; i++) {
        char *freed = hide(malloc(100));
        store(freed + 100);
        free(freed);
        for (int others = 0; others < 100; others++)
            free(hide(malloc(200)));
        pid_t child = vfork();
        if (child == 0) {
            free(hide(freed));
            _exit(0);
        }
        waitpid(child, NULL, 0);
        store(freed + 101);
    }
}

enum { STACK = 1 << 18 };

static void *go_wrong_on_stack(void *rounds)
{
    char local[8];
    for (int i = 0; i < *(int *)rounds; i++) {
        store(local + 8);
        store(block + STACK + 8);
        store(block - 1);
    }
    return NULL;
}

/* A thread whose stack is a block goes wrong on it and past the block. */
static void stacks(int rounds)
{
    pthread_attr_t attributes;
    pthread_t thread;
    block = hide(aligned_alloc(64, STACK));
    pthread_attr_init(&attributes);
    pthread_attr_setstack(&attributes, block, STACK);
    pthread_create(&thread, &attributes, go_wrong_on_stack, &rounds);
    pthread_join(thread, NULL);
}

enum { STEP = 50 };

/* Of small blocks one in fifty stays, so the pages of those that are freed can't go back to the system. */
static char **scatter(int rounds)
{
    char **kept = calloc((size_t)rounds / STEP + 1, sizeof *kept);
    for (int i = 0; i < rounds; i++) {
        char *one = hide(malloc(40));
        if (i % STEP == 0)
            kept[i / STEP] = one;
        else
            free(one);
    }
    return kept;
}

static void scattered(int rounds)
{
    free(scatter(rounds));
}

/* After that a child and its parent go wrong at some blocks that have stayed. */
static void wrong_after(int rounds)
{
    char **kept = scatter(rounds);
    pid_t child = fork();
    for (int i = 0; i < 20; i++)
        store(kept[i] + 40);
    if (child == 0)
        _exit(0);
    waitpid(child, NULL, 0);
}

/* No more memory from now on than this many megabytes. */
static void limit_memory(int megabytes)
{
    struct rlimit limit = {0, RLIM_INFINITY};
    char line[256];
    long kilobytes = 0;
    FILE *status = fopen("/proc/self/status", "r");
    while (fgets(line, sizeof line, status) != NULL)
        sscanf(line, "VmData: %ld", &kilobytes);
    fclose(status);
    limit.rlim_cur = ((rlim_t)kilobytes << 10) + ((rlim_t)megabytes << 20);
    setrlimit(RLIMIT_DATA, &limit);
}

/* Lets the process have this many MB more, and says how many blocks it then gets in memory of smaller ones that were
   freed. */
static void limited(int rounds)
{
    enum { LARGE = 40000 };
    char *last = NULL;
    limit_memory(rounds);
    for (int i = 0; i < rounds * 2000; i++)
        free(hide(malloc(1000)));
    int count = 0;
    for (char *one; (one = hide(malloc(LARGE))) != NULL; last = one, count++) {
        memset(one, 1, LARGE);
        memcpy(one, &last, sizeof last);
    }
    for (char *before; last != NULL; last = before) {
        memcpy(&before, last, sizeof before);
        free(last);
    }
    printf("%d\n", count);
}

/* As many blocks of a size as there is memory for, but no more than this many bytes, of zeros: how many megabytes. */
static long filled(size_t size, size_t most)
{
    char **last = NULL;
    size_t bytes = 0;
    for (char **one; bytes < most && (one = hide(calloc(size, 1))) != NULL; last = one, bytes += size) {
        if (one[0] != NULL || ((char *)one)[size - 1] != 0 || ((char *)one)[size / 2] != 0)
            puts("no zeros");
        memset(one, 1, size);
        one[0] = (char *)last;
    }
    for (char **before; last != NULL; last = before) {
        before = (char **)last[0];
        free(last);
    }
    return (long)(bytes >> 20);
}

/* No more memory than this many megabytes, most of which small blocks have had before. */
static void joined(int rounds)
{
    static const size_t sizes[] = {300000, 2000000, 20000000, 1000, 40000, 300000, 700000};
    size_t most = (size_t)rounds << 20;
    limit_memory(rounds);
    filled(32, most);
    filled(1000, most);
    for (size_t i = 0; i < sizeof sizes / sizeof *sizes; i++)
        printf("%ld ", filled(sizes[i], most));
}

/* A block that is larger than what a checker holds, in several places, and twice in one. */
static void large(int rounds)
{
    enum { LARGE = 300 << 20, FAR = 20 << 20 };
    for (int i = 0; i < rounds; i++) {
        volatile char *block = hide(malloc(LARGE));
        block[0] = block[LARGE - 1] = 1;
        (void)block[LARGE];
        free((void *)block);
        (void)block[0];
        (void)block[100];
        (void)block[FAR];
        (void)block[FAR + 8];
        (void)block[200];
        (void)block[LARGE - 1];
        (void)block[-1];
        free((void *)block);
        free((void *)block);
    }
}

/* The shadow. */

enum { SIZE = 84, PLACES = 7 };

void __asan_get_shadow_mapping(size_t *scale, size_t *offset);

/* By the system, since no code here is without checks. */
static void overwrite(char *at, unsigned char shade)
{
    static int memory = -1;
    size_t scale, offset;
    if (memory < 0)
        memory = open("/proc/self/mem", O_RDWR | O_CLOEXEC);
    __asan_get_shadow_mapping(&scale, &offset);
    if (pwrite(memory, &shade, 1, (off_t)(((uintptr_t)at >> scale) + offset)) != 1)
        abort();
}

/* Overwrites the shadow of one place of a block: in a redzone, of its first and last bytes, and of those that are met;
   and again once it is freed. Then goes wrong there, elsewhere in the block, or by a free. */
static void overwritten(int rounds)
{
    static const int at[PLACES] = {-32, -1, 0, SIZE - 1, SIZE + 4, SIZE + 32, 16};
    for (int i = 0; i < rounds * PLACES; i++) {
        char *live = hide(malloc(SIZE)), *freed = hide(malloc(SIZE)), *twice = hide(malloc(SIZE));
        int place = at[i % PLACES];
        overwrite(live + place, 0xfd);
        store(live + (place == 16 ? 16 : SIZE));
        free(freed);
        overwrite(freed + place, 3);
        store(freed + 20);
        free(twice);
        overwrite(twice + place, 0xf1);
        free(hide(twice));
    }
}

/* The process poisons and unpoisons the same itself, or says what its containers have. */
static void poisoned(int rounds)
{
    for (int i = 0; i < rounds; i++) {
        char *live = hide(malloc(SIZE)), *freed = hide(malloc(SIZE)), *array = hide(malloc(SIZE));
        free(freed);
        __asan_poison_memory_region(live, 20);
        __asan_unpoison_memory_region(live - 8, 8);
        __asan_unpoison_memory_region(live + SIZE, 4);
        __asan_unpoison_memory_region(freed, 19);
        __sanitizer_annotate_contiguous_container(array, array + SIZE, array + SIZE, array + 13);
        store(live + SIZE + 4);
        store(live + 4);
        store(freed + 20);
        store(array + 13);
        store(array + SIZE);
        free(hide(freed));
    }
}

/* Coroutines whose stacks are blocks: what each does next is drawn, and most of it is wrong. */

enum { FIBERS = 4, FIBER_STACK = 40000 };
static struct fiber {
    ucontext_t context;
    char *stack;
} fibers[FIBERS];
static ucontext_t outside;
static struct fiber *now;

static unsigned drawn(unsigned below)
{
    static uint64_t state = 88172645463325252u;
    state ^= state << 13;
    state ^= state >> 7;
    state ^= state << 17;
    return (unsigned)(state % below);
}

static void past_array(void)
{
    char local[21];
    store(hide(local));
    store((char *)hide(local) + 21 + drawn(8));
}

static void before_array(void)
{
    char local[21];
    store((char *)hide(local) - 1 - drawn(8));
}

static void past_alloca(void)
{
    unsigned size = 9 + drawn(30);
    char *local = hide(alloca(size));
    store(local + size - 1);
    store(local + size + drawn(8));
}

static void after_scope(void)
{
    char *kept;
    {
        char inner[32];
        kept = hide(inner);
    }
    store(kept + drawn(32));
}

static void beside_stack(void)
{
    unsigned far = drawn(32);
    store(drawn(2) == 0 ? now->stack - 1 - far : now->stack + FIBER_STACK + far);
}

static void beside_block(void)
{
    unsigned size = drawn(50), far = drawn(24);
    char *one = hide(malloc(size));
    store(one + size + far);
    free(one);
    store(one + drawn(size + 1));
    free(hide(one));
}

static void poisoned_part(void)
{
    __asan_poison_memory_region(now->stack + 8, 100);
    store(now->stack + 8 + drawn(100));
    __asan_unpoison_memory_region(now->stack + 8, 100);
    store(now->stack + drawn(200));
}

static void go_wrong_in_fiber(void)
{
    static void (*const mistakes[])(void) = {past_array,   before_array, past_alloca,  after_scope,
                                             beside_stack, beside_block, poisoned_part};
    for (;;) {
        mistakes[drawn(sizeof mistakes / sizeof *mistakes)]();
        swapcontext(&now->context, &outside);
    }
}

/* Its old stack is used once more. */
static void make_fiber(struct fiber *it)
{
    char *old = it->stack;
    free(old);
    if (old != NULL)
        store(old + drawn(FIBER_STACK));
    it->stack = hide(malloc(FIBER_STACK));
    getcontext(&it->context);
    it->context.uc_stack.ss_sp = it->stack;
    it->context.uc_stack.ss_size = FIBER_STACK;
    makecontext(&it->context, go_wrong_in_fiber, 0);
}

static void drawn_fibers(int rounds)
{
    for (int i = 0; i < rounds; i++) {
        now = &fibers[drawn(FIBERS)];
        if (now->stack == NULL || drawn(20) == 0)
            make_fiber(now);
        store(now->stack + drawn(FIBER_STACK));
        swapcontext(&outside, &now->context);
    }
}

static const struct {
    const char *name;
    void (*run)(int rounds);
} programs[] = {{"handlers", handlers},
                {"frees", frees},
                {"turns", turns},
                {"vforks", vforks},
                {"vfork_frees", vfork_frees},
                {"stacks", stacks},
                {"jumps", jumps},
                {"exits", exits},
                {"scattered", scattered},
                {"wrong_after", wrong_after},
                {"limited", limited},
                {"large", large},
                {"joined", joined},
                {"overwritten", overwritten},
                {"poisoned", poisoned},
                {"drawn_fibers", drawn_fibers},
                {"threaded", threaded}};

int main(int count, char **argv)
{
    int rounds = count == 3 ? atoi(argv[2]) : 0;
    for (size_t i = 0; rounds > 0 && i < sizeof programs / sizeof *programs; i++)
        if (strcmp(argv[1], programs[i].name) == 0)
            programs[i].run(rounds);
    return rounds > 0 ? 0 : 2;
}
