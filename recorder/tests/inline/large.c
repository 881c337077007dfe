/* Larger than usual: `large NAME` answers as it does alone, which is printed, and then makes its mistakes. */
#define _GNU_SOURCE
#include <malloc.h>
#include <pthread.h>
#include <sanitizer/asan_interface.h>
#include <stdint.h>
#include <stdio.h>
#include <stdlib.h>
#include <string.h>
#include <sys/mman.h>
#include <ucontext.h>

static volatile int four = 4;

static void *map(size_t size)
{
    return mmap(NULL, size, PROT_READ | PROT_WRITE, MAP_PRIVATE | MAP_ANONYMOUS, -1, 0);
}

/* A thread whose static thread-local memory is larger than the rest of its stack, which lies between two regions that
   are poisoned: one access to each after it has begun, and after its end. */
#ifndef LOCAL_BYTES
#define LOCAL_BYTES 200000
#endif
static __thread char of_thread[LOCAL_BYTES];
enum { STACK = LOCAL_BYTES + (1 << 16), BESIDE = 1 << 18 };
static char *beside;

static void look_beside(void)
{
    ((volatile char *)beside)[BESIDE - 64 * four + 3] = 1;
    ((volatile char *)beside)[BESIDE + STACK + 3] = 1;
}

static void *fill_local(void *unused)
{
    volatile char local[5000];
    local[four] = of_thread[four] = 1;
    look_beside();
    return unused;
}

static void thread_local_memory(void)
{
    pthread_attr_t with;
    pthread_t thread;
    beside = map(2 * BESIDE + STACK);
    ASAN_POISON_MEMORY_REGION(beside, BESIDE);
    ASAN_POISON_MEMORY_REGION(beside + BESIDE + STACK, BESIDE);
    pthread_attr_init(&with);
    printf("%d\n", pthread_attr_setstack(&with, beside + BESIDE, STACK));
    printf("%d\n", pthread_create(&thread, &with, fill_local, NULL));
    pthread_join(thread, NULL);
    look_beside();
    for (char *it = beside + BESIDE; it < beside + BESIDE + STACK; it++)
        *(volatile char *)it = 1;
}

/* Blocks of great alignments: an overflow, and a use after free. */
static void alignments(void)
{
    for (int shift = 29; shift < 34; shift++) {
        void *found = NULL;
        size_t alignment = (size_t)1 << shift;
        printf("%d: %d", shift, posix_memalign(&found, alignment, 100));
        printf(" %d", found != NULL && (uintptr_t)found % alignment == 0);
        ((volatile char *)found)[25 * four - 1] = 1;
        ((volatile char *)found)[25 * four] = 1;
        printf(" %d\n", malloc_usable_size(found) >= 100);
        void *larger = realloc(found, 5000), *other = memalign(alignment, 1 << 20);
        void *third = memalign(alignment, 0);
        printf("%d %d %d\n", larger != NULL, (uintptr_t)other % alignment == 0, (uintptr_t)third % alignment == 0);
        memset(other, 1, 1 << 20);
        free(larger), free(other), free(third);
        ((volatile char *)other)[1 << 18] = 1;
    }
}

/* A context of many arguments. */
static ucontext_t chief, coroutine;

static void print_some(int a, int b, int c, int d, int e, int f, int g)
{
    printf("%d %d %d %d %d %d %d\n", a, b, c, d, e, f, g);
}

static void print_many(int a, int b, int c, int d, int e, int f, int g, int h, int i, int j, int k, int l, int m, int n,
                       int o, int p, int q, int r, int s, int t, int u, int v, int w, int x)
{
    volatile char local[20];
    print_some(a, b, c, d, e, f, g);
    print_some(h, i, j, k, l, m, n);
    print_some(o, p, q, r, s, t, u);
    print_some(v, w, x, 0, 0, 0, 0);
    local[5 * four] = 1;
}

static void make(void)
{
    getcontext(&coroutine);
    coroutine.uc_stack.ss_sp = map(1 << 16);
    coroutine.uc_stack.ss_size = 1 << 16;
    coroutine.uc_link = &chief;
}

static void arguments(void)
{
    make();
    makecontext(&coroutine, (void (*)(void))print_some, 7, 1, 2, 3, 4, 5, 6, 7);
    swapcontext(&chief, &coroutine);
    make();
    makecontext(&coroutine, (void (*)(void))print_many, 24, 1, 2, 3, 4, 5, 6, 7, 8, 9, 10, 11, 12, 13, 14, 15, 16, 17,
                18, 19, 20, 21, 22, 23, 24);
    swapcontext(&chief, &coroutine);
}

/* The last bytes below the shadow. */
static void below_the_shadow(void)
{
    size_t scale, shadow;
    __asan_get_shadow_mapping(&scale, &shadow);
    char *end = (char *)shadow, *page = end - 4096;
    int flags = MAP_PRIVATE | MAP_ANONYMOUS | MAP_FIXED_NOREPLACE;
    printf("%d\n", mmap(page, 4096, PROT_READ | PROT_WRITE, flags, -1, 0) == page);
    for (int size = 1; size <= 200; size++)
        memset(end - size, size, size);
    memcpy(page, end - 40, 40);
    printf("%d %d\n", end[-1], (int)strnlen(end - 50, 50));
    ASAN_POISON_MEMORY_REGION(end - 16, 16);
    memset(end - 50 * four, 0, 50 * four);
}

int main(int count, char **argv)
{
    static const struct {
        const char *name;
        void (*run)(void);
    } runs[] = {
        {"thread_local_memory", thread_local_memory},
        {"alignments", alignments},
        {"arguments", arguments},
        {"below_the_shadow", below_the_shadow},
    };
    setvbuf(stdout, NULL, _IONBF, 0);
    for (size_t i = 0; i < sizeof runs / sizeof *runs; i++)
        if (count > 1 && strcmp(argv[1], runs[i].name) == 0)
            return runs[i].run(), 0;
    return 99;
}
