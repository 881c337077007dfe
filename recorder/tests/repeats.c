/* Bad accesses where the same pointer was checked just before. Those of a line with BUG are reported; those with REPEAT
   only repeat a bad one, with nothing between. */
#include <pthread.h>
#include <stdatomic.h>
#include <stdio.h>
#include <stdlib.h>

#define APART __attribute__((noinline)) static

static atomic_int turn;
static atomic_long any;
static volatile int seen;
static volatile long sink;
static void *volatile hidden; /* so that no compiler knows what a block has */

static void *made(unsigned size)
{
    hidden = calloc(1, size);
    return hidden;
}

APART long wider(char *p, long *q)
{
    long x = *p;
    *q = 2;
    return x + *(long *)p; /* BUG */
}

APART long wider_store(char *p, long *q)
{
    *p = 1;
    long x = *q;
    *(int *)p = (int)x; /* BUG */
    return x;
}

APART long over_fence(long *p)
{
    long x = *p; /* BUG */
    atomic_thread_fence(memory_order_acquire);
    return x + *p; /* BUG */
}

APART long over_atomic(long *p)
{
    long x = *p; /* BUG */
    x += atomic_load_explicit(&any, memory_order_acquire);
    return x + *p; /* BUG */
}

APART long over_exchange(long *p)
{
    long x = *p; /* BUG */
    x += atomic_exchange(&any, x);
    return x + *p; /* BUG */
}

APART long over_asm(long *p)
{
    long x = *p; /* BUG */
    __asm__ volatile("" : : : "memory");
    return x + *p; /* BUG */
}

APART long in_branch(long *p)
{
    long x = *p; /* BUG */
    if (atomic_load_explicit(&any, memory_order_acquire) >= 0)
        x += *p; /* BUG */
    return x;
}

APART long repeated(long *p, long *q)
{
    long x = *p; /* BUG */
    *q = 1;
    return x + *p; /* REPEAT */
}

/* What another thread frees while one waits. */

static void *releases(void *block)
{
    while (atomic_load_explicit(&turn, memory_order_acquire) != 1)
        ;
    free(block);
    seen = 1;
    atomic_store_explicit(&turn, 2, memory_order_release);
    return NULL;
}

APART long by_acquire(long *p)
{
    long x = *p;
    atomic_store_explicit(&turn, 1, memory_order_release);
    while (atomic_load_explicit(&turn, memory_order_acquire) != 2)
        ;
    return x + *p; /* BUG */
}

APART long by_fence(long *p)
{
    long x = *p;
    atomic_store_explicit(&turn, 1, memory_order_release);
    while (atomic_load_explicit(&turn, memory_order_relaxed) != 2)
        ;
    atomic_thread_fence(memory_order_acquire);
    return x + *p; /* BUG */
}

APART long by_exchange(long *p)
{
    long x = *p;
    int wanted = 2;
    atomic_store(&turn, 1);
    while (!atomic_compare_exchange_weak(&turn, &wanted, 3))
        wanted = 2;
    *p = x; /* BUG */
    return x;
}

APART long by_volatile(long *p)
{
    long x = *p;
    atomic_store_explicit(&turn, 1, memory_order_release);
    while (!seen)
        ;
    __asm__ volatile("" : : : "memory");
    return x + *p; /* BUG */
}

APART void wait_for(int number)
{
    while (atomic_load_explicit(&turn, memory_order_acquire) != number)
        ;
}

APART long by_function(long *p)
{
    long x = *p;
    atomic_store_explicit(&turn, 1, memory_order_release);
    wait_for(2);
    return x + *p; /* BUG */
}

static void wait_by(long (*function)(long *))
{
    pthread_t thread;
    long *block = made(sizeof *block);
    turn = seen = 0;
    pthread_create(&thread, NULL, releases, block);
    sink += function(block);
    pthread_join(thread, NULL);
}

int main(void)
{
    long other = 0, *small = made(4);
    char *one = made(1), *next = made(1);
    sink += wider(one, &other) + wider_store(next, &other);
    sink += over_fence(small) + over_atomic(small) + over_exchange(small) + over_asm(small) + in_branch(small);
    sink += repeated(small, &other);
    wait_by(by_acquire);
    wait_by(by_fence);
    wait_by(by_exchange);
    wait_by(by_volatile);
    wait_by(by_function);
    puts("done");
    return 0;
}
