/* What the soak records: each name is a way to live, and each bug is planted. */
#define _GNU_SOURCE
#include <pthread.h>
#include <sanitizer/asan_interface.h>
#include <signal.h>
#include <stdio.h>
#include <stdlib.h>
#include <string.h>
#include <sys/wait.h>
#include <unistd.h>

enum { BLOCKS = 64, THREADS = 4 };

static volatile char table[16];
static volatile int after = 16; /* the compilers do not know it */

static void work(long rounds)
{
    volatile char *blocks[BLOCKS] = {0};
    volatile char local[32];
    for (long i = 0; i < rounds; i++) {
        int at = (int)(i % BLOCKS);
        free((void *)blocks[at]);
        size_t size = 1 + (size_t)(i * 7 % 500);
        blocks[at] = malloc(size);
        blocks[at][size - 1] = local[i % 32] = table[i % 16] = 1;
    }
    for (int i = 0; i < BLOCKS; i++)
        free((void *)blocks[i]);
}

static void past_heap(void)
{
    volatile char *block = malloc(16);
    block[after] = 1;
    free((void *)block);
}

static void freed(void)
{
    char *volatile block = malloc(16);
    free(block);
    *(volatile char *)block = 1;
}

static void freed_twice(void)
{
    char *volatile block = malloc(16);
    free(block);
    free(block);
}

static void wild_free(void)
{
    char *volatile block = malloc(64), *volatile inside = block + 16;
    free(inside);
    free(block);
}

static void past_stack(void)
{
    volatile char local[16] = {0};
    local[after] = local[0];
}

static void past_global(void)
{
    table[after] = 1;
}

static void poisoned(void)
{
    volatile char *block = calloc(1, 64);
    __asan_poison_memory_region((void *)block, 64);
    block[after] = 1;
    __asan_unpoison_memory_region((void *)block, 64);
    free((void *)block);
}

static const struct {
    const char *name;
    void (*make)(void);
} bugs[] = {
    {"past_heap", past_heap},   {"freed", freed},           {"freed_twice", freed_twice}, {"wild_free", wild_free},
    {"past_stack", past_stack}, {"past_global", past_global}, {"poisoned", poisoned},
};

/* Makes the bug of this name; none has the name "-". */
static void make_bug(const char *name)
{
    for (size_t i = 0; i < sizeof bugs / sizeof *bugs; i++)
        if (strcmp(bugs[i].name, name) == 0)
            bugs[i].make();
}

static void *run_thread(void *bug)
{
    work(100);
    make_bug(bug);
    return NULL;
}

/* Threads, each with the bug. */
static void use_threads(char *bug)
{
    pthread_t threads[THREADS];
    for (int i = 0; i < THREADS; i++)
        pthread_create(&threads[i], NULL, run_thread, bug);
    for (int i = 0; i < THREADS; i++)
        pthread_join(threads[i], NULL);
}

/* Children, each with the bug; their numbers are printed. */
static void use_children(const char *bug, long count)
{
    for (long i = 0; i < count; i++) {
        pid_t child = fork();
        if (child == 0) {
            work(20);
            make_bug(bug);
            exit(0);
        }
        printf("%d\n", (int)child);
        fflush(stdout); /* or the next child has it too */
    }
    while (wait(NULL) > 0)
        ;
}

static void flood(long count)
{
    volatile char *block = malloc(16);
    for (long i = 0; i < count; i++)
        block[after] = 1;
    free((void *)block);
}

/* Works until it is killed. */
static void work_on(void)
{
    puts("ready");
    fflush(stdout);
    for (;;)
        work(1000);
}

/* WAY BUG [NUMBER] */
int main(int count, char **argv)
{
    if (count < 3)
        return 2;
    const char *way = argv[1];
    long number = count > 3 ? atol(argv[3]) : 0;
    work(20);
    if (strcmp(way, "threads") == 0)
        use_threads(argv[2]);
    else if (strcmp(way, "children") == 0)
        use_children(argv[2], number);
    else if (strcmp(way, "flood") == 0)
        flood(number);
    else
        make_bug(argv[2]);
    if (strcmp(way, "works") == 0)
        work(number);
    else if (strcmp(way, "works_on") == 0)
        work_on();
    else if (strcmp(way, "crashes") == 0)
        raise(SIGSEGV);
    else if (strcmp(way, "execs") == 0)
        execl("/proc/self/exe", argv[0], "works", argv[2], "50", (char *)NULL);
    return 0;
}
