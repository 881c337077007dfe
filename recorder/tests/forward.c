/* What the allocator does when it goes forward. `forward WHAT [N]` makes bad accesses and frees, or none, and prints
   how many megabytes it had at most. */
#define _GNU_SOURCE
#include <limits.h>
#include <linux/capability.h>
#include <malloc.h>
#include <pthread.h>
#include <setjmp.h>
#include <signal.h>
#include <stdatomic.h>
#include <stdbool.h>
#include <stdint.h>
#include <stdio.h>
#include <stdlib.h>
#include <string.h>
#include <sys/mman.h>
#include <sys/resource.h>
#include <sys/syscall.h>
#include <sys/time.h>
#include <sys/wait.h>
#include <time.h>
#include <unistd.h>

enum { MOST_THREADS = 8 };

static void expect(bool holds, const char *what)
{
    if (holds)
        return;
    fprintf(stderr, "not as it should be: %s\n", what);
    _exit(3);
}

static _Thread_local uint64_t draws = 88172645463325252;

static size_t draw(size_t below)
{
    draws ^= draws << 13;
    draws ^= draws >> 7;
    return (draws ^= draws << 17) % below;
}

/* Mostly small. */
static size_t draw_size(void)
{
    size_t kind = draw(100);
    return kind < 80 ? 1 + draw(256) : kind < 99 ? 1 + draw(4096) : 1 + draw(100000);
}

static char *take(size_t size)
{
    char *block = malloc(size);
    expect(block != NULL, "the memory");
    block[0] = block[size - 1] = (char)size;
    __asm__ volatile("" : "+r"(block)); /* or a compiler omits blocks that are freed at once */
    return block;
}

static __attribute__((noinline)) void use(const char *at)
{
    (void)*(const volatile char *)at;
}

static void together(unsigned count, void *(*start)(void *))
{
    pthread_t threads[MOST_THREADS];
    for (uintptr_t i = 0; i < count; i++)
        expect(pthread_create(&threads[i], NULL, start, (void *)i) == 0, "a thread");
    for (unsigned i = 0; i < count; i++)
        pthread_join(threads[i], NULL);
}

/* This many bytes of mallocs and frees, with this many blocks live. */
static void churn(char **live, size_t count, size_t bytes)
{
    for (size_t done = 0, size; done < bytes; done += size) {
        char **place = &live[draw(count)];
        free(*place);
        *place = take(size = draw_size());
    }
}

static void free_all(char **live, size_t count)
{
    for (size_t i = 0; i < count; i++)
        free(live[i]);
}

/* Pointers that are freed in the middle of a run, and used at its end. */
static unsigned late_threads = 1;
enum { LATE = 1000, LATE_LIVE = 24000, MEGABYTE = 1 << 20 };

static void *late_run(void *of)
{
    size_t count = LATE_LIVE / late_threads, lates = LATE / late_threads;
    char **live = calloc(count, sizeof *live), *late[LATE];
    draws += (uintptr_t)of;
    for (size_t i = 0; i < count; i++)
        live[i] = take(draw_size());
    for (size_t i = 0; i < lates; i++) {
        churn(live, count, 20000);
        late[i] = take(draw_size());
    }
    for (size_t i = 0; i < lates; i++)
        free(late[i]);
    churn(live, count, (size_t)1500 * MEGABYTE / late_threads);
    for (size_t i = 0; i < lates; i++)
        use(late[i]);
    free_all(live, count);
    free(live);
    return NULL;
}

static void late(size_t threads)
{
    late_threads = (unsigned)threads;
    if (threads == 1)
        late_run(NULL);
    else
        together(late_threads, late_run);
}

/* A block that two threads free at once. */
static _Atomic unsigned turn;
static char *_Atomic both;

static void *twice_run(void *of)
{
    for (unsigned i = 0; i < 500; i++) {
        if (of == NULL)
            both = take(draw_size());
        atomic_fetch_add(&turn, 1);
        while (atomic_load(&turn) < 4 * i + 2)
            ;
        free(both);
        atomic_fetch_add(&turn, 1);
        while (atomic_load(&turn) < 4 * i + 4)
            ;
    }
    return NULL;
}

static void twice(size_t of)
{
    (void)of;
    together(2, twice_run);
}

/* One thread allocates, and another one frees. */
enum { ROOM = 1024, PASSED = 400000 };
static _Atomic(char *) passed[ROOM];

static void *pass_run(void *of)
{
    for (size_t i = 0; i < PASSED; i++) {
        _Atomic(char *) *place = &passed[i % ROOM];
        while ((atomic_load(place) == NULL) != (of == NULL))
            sched_yield();
        if (of == NULL)
            atomic_store(place, take(draw_size()));
        else
            free(atomic_exchange(place, NULL));
    }
    return NULL;
}

static void pass(size_t of)
{
    (void)of;
    together(2, pass_run);
}

static void loop(size_t of)
{
    static char *live[200];
    (void)of;
    for (size_t i = 0; i < 3000000; i++) {
        char **place = &live[draw(200)];
        free(*place);
        *place = take(draw_size() % 5000 + 1);
    }
    free_all(live, 200);
}

/* Blocks that all threads give each other; now and then one is moved. */
enum { GIVEN = 512 };
static _Atomic(char *) given[GIVEN];

static void *give_run(void *of)
{
    draws += (uintptr_t)of;
    for (size_t i = 0; i < 60000; i++) {
        _Atomic(char *) *place = &given[draw(GIVEN)];
        char *block = atomic_exchange(place, NULL);
        if (block != NULL && i % 4 == 0)
            block = realloc(block, 100 + draw_size());
        else
            free(block), block = take(draw_size());
        free(atomic_exchange(place, block));
    }
    return NULL;
}

static void give(size_t of)
{
    (void)of;
    together(4, give_run);
    for (size_t i = 0; i < GIVEN; i++)
        free(given[i]);
}

/* Children that use what their parent has freed, and go on by themselves. */
static _Atomic bool is_over;
static void *beside_run(void *of)
{
    char *live[50] = {NULL};
    draws += (uintptr_t)of;
    while (!is_over)
        churn(live, 50, 10000);
    free_all(live, 50);
    return NULL;
}

static void be_child(char **freed, size_t count)
{
    static char *live[50];
    churn(live, 50, 20 * MEGABYTE);
    for (size_t i = 0; i < count; i++)
        use(freed[i]);
    together(2, give_run);
    free_all(live, 50);
    _exit(0);
}

static void forks(size_t children)
{
    pthread_t threads[2];
    char *freed[100];
    for (uintptr_t i = 0; i < 2; i++)
        expect(pthread_create(&threads[i], NULL, beside_run, (void *)i) == 0, "a thread");
    for (size_t i = 0; i < 100; i++)
        freed[i] = take(draw_size());
    free_all(freed, 100);
    for (size_t i = 0; i < children; i++) {
        int status;
        pid_t child = fork();
        if (child == 0)
            be_child(freed, 100);
        expect(waitpid(child, &status, 0) == child && status == 0, "a child's end");
    }
    is_over = true;
    for (unsigned i = 0; i < 2; i++)
        pthread_join(threads[i], NULL);
}

/* Threads that end soon. What each leaves another one frees, and one in a hundred is used then. */
static void *short_run(void *of)
{
    char *live[10] = {NULL};
    (void)of;
    churn(live, 10, 3000);
    free_all(live, 10);
    return take(100);
}

static void shorts(size_t count)
{
    for (size_t i = 0; i < count; i += 4) {
        pthread_t threads[4];
        void *left;
        for (unsigned k = 0; k < 4; k++)
            expect(pthread_create(&threads[k], NULL, short_run, NULL) == 0, "a thread");
        for (unsigned k = 0; k < 4; k++) {
            pthread_join(threads[k], &left);
            free(left);
        }
        if (i % 100 == 0)
            use(left);
    }
}

/* Many threads at once, which then end: that takes no time for each two of them. */
static pthread_barrier_t all_there;
static void *alive_run(void *of)
{
    (void)of;
    char *block = take(100);
    pthread_barrier_wait(&all_there);
    free(block);
    return NULL;
}

static void alive(size_t count)
{
    enum { MOST_SECONDS = 8 };
    pthread_t *threads = calloc(count, sizeof *threads);
    pthread_attr_t small;
    pthread_attr_init(&small);
    pthread_attr_setstacksize(&small, 1 << 16);
    pthread_barrier_init(&all_there, NULL, (unsigned)count);
    for (size_t i = 0; i < count; i++)
        expect(pthread_create(&threads[i], &small, alive_run, NULL) == 0, "a thread");
    for (size_t i = 0; i < count; i++)
        pthread_join(threads[i], NULL);
    expect(clock() / CLOCKS_PER_SEC < MOST_SECONDS, "the time of the processors");
    free(threads);
}

/* Handlers that allocate and free in the middle of that. */
static char *_Atomic of_handler;
static void handle(int number)
{
    (void)number;
    char *block = take(1 + draw(300)), *zeros = calloc(1, 300);
    free(atomic_exchange(&of_handler, block));
    expect(zeros[0] == 0 && zeros[299] == 0, "zeros");
    free(zeros);
}

static void *handlers_run(void *of)
{
    static _Thread_local char *live[100];
    (void)of;
    churn(live, 100, 30 * MEGABYTE);
    free_all(live, 100);
    return NULL;
}

static void handlers(size_t threads)
{
    struct itimerval often = {{0, 200}, {0, 200}}, never = {0};
    signal(SIGPROF, handle);
    setitimer(ITIMER_PROF, &often, NULL);
    together((unsigned)threads, handlers_run);
    setitimer(ITIMER_PROF, &never, NULL);
}

/* What each call promises. */
static void calls(size_t of)
{
    (void)of;
    for (size_t size = 1; size < (size_t)3 << 20; size = size * 3 / 2 + 1) {
        char *zeros = calloc(size, 1);
        for (size_t i = 0; i < size; i++)
            expect(zeros[i] == 0, "zeros");
        memset(zeros, 1, size);
        free(zeros);
    }
    for (size_t alignment = 16; alignment <= (size_t)1 << 20; alignment *= 2)
        for (size_t times = 1; times < 4; times++) {
            char *block = aligned_alloc(alignment, times * alignment);
            expect(block != NULL && (uintptr_t)block % alignment == 0, "an alignment");
            memset(block, 1, times * alignment);
            free(block);
        }
    char *moved = take(1);
    for (size_t size = 2; size < (size_t)8 << 20; size += 1 + size / 5) {
        moved = realloc(moved, size);
        expect(moved[0] == 1 && malloc_usable_size(moved) == size, "a block that was moved");
        moved[size - 1] = 1;
    }
    for (size_t size = (size_t)8 << 20; size > 1; size /= 2)
        expect((moved = realloc(moved, size))[0] == 1, "a block that was moved back");
    free(moved);
    malloc_trim(0);
}

/* The first byte of a freed block, one in its middle and the last. */
static void sizes(size_t of)
{
    static const size_t all[] = {16000, 16384, 65536, 500000, 524288, 600000, 5 << 20, 40 << 20};
    static char *live[50];
    char *freed[sizeof all / sizeof *all];
    (void)of;
    for (size_t i = 0; i < sizeof all / sizeof *all; i++)
        free(freed[i] = take(all[i]));
    churn(live, 50, 100 * MEGABYTE);
    for (size_t i = 0; i < sizeof all / sizeof *all; i++) {
        use(freed[i]);
        use(freed[i] + all[i] / 2);
        use(freed[i] + all[i] - 1);
    }
    free_all(live, 50);
}

/* Blocks whose notes went back since: of a large one only those on its first region. */
static void forgotten(size_t of)
{
    size_t size = (size_t)40 << 20;
    char *large = take(size), *small = take(100), *middle = take(200000), *live = take(600000);
    (void)of;
    free(large);
    free(small);
    free(middle);
    for (size_t i = 0; i < 4000000; i++)
        free(take(32));
    for (size_t i = 0; i < size; i += size / 4)
        use(large + i);
    use(large + size - 1);
    use(small);
    use(middle);
    use(middle + 199999);
    free(live);
}

/* Frees addresses for good, in gigabytes. */
static void many(size_t gigabytes)
{
    char *freed = take(100);
    free(freed);
    for (size_t i = 0; i < gigabytes; i++)
        free(take((size_t)1 << 30));
    use(freed);
}

/* A block that can't be spelled in a record, and another one far from it. */
static void huge(size_t of)
{
    char *block = take((size_t)5 << 30), *other = take(100);
    (void)of;
    free(block);
    use(block + 1000);
    use(block + ((size_t)3 << 30));
    free(other);
}

/* No more addresses from the system: those of freed blocks are used again. */
static void limited(size_t of)
{
    static char *live[100];
    long pages;
    FILE *file = fopen("/proc/self/statm", "r");
    (void)of;
    expect(file != NULL && fscanf(file, "%ld", &pages) == 1 && fclose(file) == 0, "the addresses in use");
    rlim_t most = (rlim_t)pages * 4096 + (rlim_t)100 * MEGABYTE;
    expect(setrlimit(RLIMIT_AS, &(struct rlimit){most, most}) == 0, "the limit");
    for (size_t i = 0; i < 300000; i++) {
        char **place = &live[i * 7 % 100];
        free(*place);
        *place = take(i % 3000 == 1 ? 700000 : i % 50 == 0 ? 20000 + i % 30000 : 100 + i % 1500);
    }
    free_all(live, 100);
}

/* Memory that can't be given back. */
static void locked(size_t of)
{
    static char *live[50];
    char *freed = take(100);
    (void)of;
    if (mlockall(MCL_CURRENT | MCL_FUTURE) != 0)
        puts("not locked");
    churn(live, 50, 30 * MEGABYTE);
    free(freed);
    malloc_trim(0);
    use(freed);
    munlockall();
    churn(live, 50, 30 * MEGABYTE);
    free_all(live, 50);
}

/* A user who may lock little locks all that there is. */
static void locked_by_user(size_t of)
{
    struct __user_cap_header_struct header = {_LINUX_CAPABILITY_VERSION_3, 0};
    struct __user_cap_data_struct rights[_LINUX_CAPABILITY_U32S_3];
    (void)of;
    syscall(SYS_capget, &header, rights);
    rights[0].effective &= ~(1U << CAP_IPC_LOCK);
    expect(syscall(SYS_capset, &header, rights) == 0, "fewer rights");
    rlim_t most = (rlim_t)8 * MEGABYTE;
    expect(setrlimit(RLIMIT_MEMLOCK, &(struct rlimit){most, most}) == 0, "the limit");
    expect(mlockall(MCL_CURRENT) == 0, "that memory can be locked");
    locked(0);
}

/* A handler comes after each instruction of a malloc and a free, at one a time, and jumps out. The next allocation is a
   block as before. */
static sigjmp_buf before_call;
static volatile long steps_left;

static void step(int number)
{
    (void)number;
    if (--steps_left == 0)
        siglongjmp(before_call, 1);
}

static __attribute__((noinline)) void set_stepping(bool is_on)
{
    enum { TRAP_FLAG = 1 << 8 };
    unsigned long long flags = __builtin_ia32_readeflags_u64() & ~(unsigned long long)TRAP_FLAG;
    __builtin_ia32_writeeflags_u64(is_on ? flags | TRAP_FLAG : flags);
}

/* Of these calls one is gone through. */
static void go_through(volatile bool frees)
{
    char *block = frees ? take(40) : NULL;
    set_stepping(true);
    if (frees)
        free(block);
    else
        block = malloc(40);
    set_stepping(false);
    if (!frees)
        free(block);
}

static void stepped(size_t of)
{
    signal(SIGTRAP, step);
    for (volatile int frees = 0; frees < 2; frees++)
        for (volatile long at = 1, is_through = 0; !is_through; at++) {
            steps_left = LONG_MAX; /* once to its end, since it takes another way after a jump */
            go_through(frees);
            steps_left = at;
            if (sigsetjmp(before_call, 1) == 0) {
                go_through(frees);
                is_through = 1;
            }
        }
    signal(SIGTRAP, SIG_DFL);
    char *freed = take(100 + of);
    free(freed);
    use(freed);
}

/* An address that was handed out before, with few blocks live. */
static void distinct(size_t of)
{
    enum { ROOM = 1 << 21 };
    uintptr_t *seen = mmap(NULL, ROOM * sizeof *seen, PROT_READ | PROT_WRITE, MAP_PRIVATE | MAP_ANONYMOUS, -1, 0);
    char *live[64] = {NULL};
    (void)of;
    for (size_t volume = 0, i = 0; volume < (size_t)300 * MEGABYTE; i++) {
        size_t size = draw_size() % 8000 + 1;
        volume += size;
        free(live[i % 64]);
        uintptr_t block = (uintptr_t)(live[i % 64] = take(size)), at = block / 16 * UINT64_C(0x9e3779b97f4a7c15) >> 43;
        while (seen[at] != 0) {
            expect(seen[at] != block, "an address that was not handed out before");
            at = (at + 1) % ROOM;
        }
        seen[at] = block;
    }
    free_all(live, 64);
}

static const struct {
    const char *name;
    void (*run)(size_t of);
} all[] = {{"late", late},         {"twice", twice},         {"pass", pass},
           {"loop", loop},         {"give", give},           {"forks", forks},
           {"shorts", shorts},     {"calls", calls},         {"sizes", sizes},
           {"locked", locked},     {"forgotten", forgotten}, {"handlers", handlers},
           {"distinct", distinct}, {"limited", limited},     {"locked_by_user", locked_by_user},
           {"alive", alive},       {"stepped", stepped},     {"many", many},
           {"huge", huge}};

int main(int count, char **argv)
{
    struct rusage usage;
    for (size_t i = 0; count > 1 && i < sizeof all / sizeof *all; i++)
        if (strcmp(argv[1], all[i].name) == 0)
            all[i].run(count > 2 ? strtoul(argv[2], NULL, 10) : 0);
    getrusage(RUSAGE_SELF, &usage);
    printf("%ld\n", usage.ru_maxrss >> 10);
    return 0;
}
