/* Programs of many events, which go on in segment after segment. Each knows its bugs: a number of rounds and
   the name of a bug are its arguments. */
#include <pthread.h>
#include <signal.h>
#include <stdio.h>
#include <stdlib.h>
#include <string.h>
#include <sys/time.h>
#include <sys/wait.h>
#include <unistd.h>

extern void __asan_poison_memory_region(const volatile void *address, size_t size);
extern void __asan_unpoison_memory_region(const volatile void *address, size_t size);
extern void __asan_poison_intra_object_redzone(void *address, size_t size);
extern void __sanitizer_annotate_contiguous_container(const void *start, const void *end, const void *middle,
                                                      const void *new_middle);

enum { KEPT = 16, THREADS = 4 };

static void *hide(void *pointer)
{
    __asm__ volatile("" : "+r"(pointer));
    return pointer;
}

static void store(char *at)
{
    *(volatile char *)hide(at) = 1;
}

/* A block for one of a few that are kept. */
static void turn_over(char **kept, int round)
{
    int at = round * 7 % KEPT, size = 8 + round % 100;
    free(kept[at]);
    kept[at] = hide(malloc((size_t)size));
    memset(kept[at], round, (size_t)size);
}

static void free_all(char **kept)
{
    for (int i = 0; i < KEPT; i++)
        free(kept[i]);
}

/* At a round, one store past a block. */
static void blocks(int rounds, int bad)
{
    char *kept[KEPT] = {0};
    for (int i = 0; i < rounds; i++) {
        turn_over(kept, i);
        if (i == bad)
            store(kept[i * 7 % KEPT] + 8 + i % 100);
    }
    free_all(kept);
}

/* A block that has left the quarantine by then. */
static void long_ago(int rounds, int unused)
{
    (void)unused;
    char *freed = hide(malloc(5000));
    free(freed);
    blocks(rounds, -1);
    store(freed + 3);
}

static char global[10];

/* Redzones on the stack and of a global, and poison outside of blocks, in each segment. */
static void variables(int rounds, int every)
{
    static char pool[64];
    char *kept[KEPT] = {0}, local[11];
    for (int i = 0; i < rounds; i++) {
        turn_over(kept, i);
        __asan_poison_memory_region(pool + i % 2 * 32, 32);
        if (i % every == 0) {
            store(local + 11);
            store(local + 10);
            store(global + 10);
            store(global + 9);
            store(pool + i % 2 * 32 + i % 32);
        }
        __asan_unpoison_memory_region(pool, 64);
    }
    free_all(kept);
}

/* Poison in a block, again and again. */
static void poisons(int rounds, int every)
{
    char *block = hide(malloc(4096));
    for (int i = 0; i < rounds; i++) {
        char *at = block + i % 64 * 64;
        __asan_poison_memory_region(at, 64);
        if (i % every == 0)
            store(at + 1);
        __asan_unpoison_memory_region(at, 64);
        store(at + 1);
    }
    free(block);
}

/* What stands from the first segment on is found in the last one: a block that is held, its second free, a block that
   is live, and poison in it of each code. */
static void early(int rounds, int unused)
{
    (void)unused;
    char *freed = hide(malloc(24)), *live = hide(malloc(40)), *large = hide(malloc(100000));
    __asan_poison_memory_region(live + 8, 16);
    __asan_poison_memory_region(large + 50000, 4096);
    __asan_unpoison_memory_region(large + 51000, 8);
    __asan_poison_intra_object_redzone(large + 60000, 16);
    __sanitizer_annotate_contiguous_container(large + 70000, large + 70064, large + 70064, large + 70034);
    free(freed);
    poisons(rounds, rounds);
    store(freed + 3);
    free(freed);
    store(live + 40);
    store(live + 7);
    store(live + 8);
    store(live + 24);
    store(large + 50999);
    store(large + 51000);
    store(large + 59999);
    store(large + 60000);
    store(large + 60016);
    store(large + 70033);
    store(large + 70063);
    store(large + 70064);
    store(large + 100000);
    free(live);
    free(large);
}

/* More live blocks than half of the limit. */
static void many_live(int rounds, int unused)
{
    (void)unused;
    for (int i = 0; i < rounds; i++)
        hide(malloc(8));
}

/* Enough live blocks that only a part of the freed ones fit into a snapshot with them. */
static void live_and_held(int rounds, int live)
{
    for (int i = 0; i < live; i++)
        hide(malloc(16));
    for (int i = 0; i < rounds; i++)
        free(hide(malloc(16)));
}

static pthread_barrier_t start;
static int rounds_of_threads, bad_of_threads;

static void *turn_over_in_thread(void *number)
{
    pthread_barrier_wait(&start);
    blocks(rounds_of_threads, *(int *)number == 0 ? bad_of_threads : -1);
    return NULL;
}

static void threads(int rounds, int bad)
{
    static int numbers[THREADS] = {0, 1, 2, 3};
    pthread_t made[THREADS];
    rounds_of_threads = rounds;
    bad_of_threads = bad;
    pthread_barrier_init(&start, NULL, THREADS);
    for (int i = 0; i < THREADS; i++)
        pthread_create(&made[i], NULL, turn_over_in_thread, &numbers[i]);
    for (int i = 0; i < THREADS; i++)
        pthread_join(made[i], NULL);
}

/* Each thread makes bad accesses to its own variables, and poisons its own part of a block. */
static void *go_wrong_in_thread(void *number)
{
    char local[8], *block = hide(malloc(64));
    (void)number;
    pthread_barrier_wait(&start);
    for (int i = 0; i < rounds_of_threads; i++) {
        char *piece = hide(malloc(16));
        store(local + 8);
        __asan_poison_memory_region(block + 8, 16);
        store(block + 8);
        __asan_unpoison_memory_region(block + 8, 16);
        store(block + 8);
        free(piece);
        (void)*(volatile char *)hide(piece + 1);
    }
    free(block);
    return NULL;
}

static void wrong_threads(int rounds, int unused)
{
    pthread_t made[THREADS];
    (void)unused;
    rounds_of_threads = rounds;
    pthread_barrier_init(&start, NULL, THREADS);
    for (int i = 0; i < THREADS; i++)
        pthread_create(&made[i], NULL, go_wrong_in_thread, NULL);
    for (int i = 0; i < THREADS; i++)
        pthread_join(made[i], NULL);
}

static volatile sig_atomic_t ticks;

static void allocate_on_tick(int number)
{
    (void)number;
    char *piece = hide(malloc(10 + (size_t)ticks % 100));
    memset(piece, 1, 10);
    free(piece);
    ticks++;
}

/* A timer's handler allocates. */
static void handlers(int rounds, int bad)
{
    struct itimerval often = {{0, 100}, {0, 100}}, never = {{0, 0}, {0, 0}};
    signal(SIGALRM, allocate_on_tick);
    setitimer(ITIMER_REAL, &often, NULL);
    blocks(rounds, bad);
    setitimer(ITIMER_REAL, &never, NULL);
}

/* Children between: one that goes on by itself, and one that runs another program. */
static void children(int rounds, int bad)
{
    char *kept = hide(malloc(20)), *freed = hide(malloc(20));
    free(freed);
    blocks(rounds, -1);
    for (int i = 0; i < 2; i++) {
        pid_t child = fork();
        if (child == 0) {
            store(kept + 20);
            store(freed);
            blocks(rounds, bad);
            if (i == 1)
                execl("/bin/true", "true", (char *)NULL);
            exit(0);
        }
        int status;
        if (waitpid(child, &status, 0) != child || status != 0)
            exit(9);
    }
    execl("/no/such/program", "none", (char *)NULL);
    blocks(rounds, bad);
    free(kept);
}

static void is_killed(int rounds, int unused)
{
    (void)unused;
    blocks(rounds, -1);
    raise(SIGKILL);
}

/* Its hub can't be found any more. */
static void removes_hub(int rounds, int unused)
{
    (void)unused;
    if (unlink(getenv("ASANCOL_HUB")) != 0)
        exit(9);
    blocks(rounds, -1);
}

static const struct {
    const char *name;
    void (*run)(int rounds, int number);
} programs[] = {
    {"blocks", blocks}, {"early", early}, {"long_ago", long_ago}, {"variables", variables}, {"poisons", poisons},
    {"many_live", many_live}, {"live_and_held", live_and_held}, {"threads", threads}, {"wrong_threads", wrong_threads},
    {"handlers", handlers},
    {"children", children}, {"is_killed", is_killed}, {"removes_hub", removes_hub},
};

int main(int count, char **argv)
{
    for (size_t i = 0; count == 4 && i < sizeof programs / sizeof *programs; i++)
        if (strcmp(argv[1], programs[i].name) == 0) {
            programs[i].run(atoi(argv[2]), atoi(argv[3]));
            return 0;
        }
    return 99;
}
