/* Threads that free by turns, as atomics, fences and locks order it. */
#include <pthread.h>
#include <stdatomic.h>
#include <stdio.h>

#include "bad.h"

static atomic_int turn;
static pthread_mutex_t lock = PTHREAD_MUTEX_INITIALIZER;
static _Thread_local long mine[3];

static void wait_for(int number)
{
    while (atomic_load_explicit(&turn, memory_order_acquire) != number)
        ;
}

static void *free_in_turn(void *block)
{
    wait_for(1);
    free(block);
    atomic_store_explicit(&turn, 2, memory_order_release);
    return NULL;
}

APART long by_acquire(long *p)
{
    long sum = *p;
    atomic_store_explicit(&turn, 1, memory_order_release);
    while (atomic_load_explicit(&turn, memory_order_acquire) != 2)
        ;
    sum += *p;
    return sum + *p;
}

APART long by_exchange(long *p)
{
    long sum = *p;
    atomic_exchange(&turn, 1);
    for (int expected = 2; !atomic_compare_exchange_weak(&turn, &expected, 3); expected = 2)
        ;
    sum += *p;
    *p = 1;
    return sum + *p;
}

APART long by_fence(long *p)
{
    long sum = *p;
    atomic_thread_fence(memory_order_release);
    atomic_store_explicit(&turn, 1, memory_order_relaxed);
    while (atomic_load_explicit(&turn, memory_order_relaxed) != 2)
        ;
    atomic_thread_fence(memory_order_acquire);
    sum += *p;
    return sum + *p;
}

APART long by_lock(long *p)
{
    pthread_mutex_lock(&lock);
    long sum = *p;
    atomic_store(&turn, 1);
    pthread_mutex_unlock(&lock);
    wait_for(2);
    pthread_mutex_lock(&lock);
    sum += *p;
    pthread_mutex_unlock(&lock);
    return sum + *p;
}

APART long atomics(atomic_long *p, atomic_int *q)
{
    long sum = atomic_load(p);
    atomic_store(p, 1);
    sum += atomic_fetch_add(p, 1);
    sum += atomic_load_explicit(q, memory_order_relaxed);
    return sum + atomic_exchange(q, 2);
}

APART long own_variables(long index)
{
    long sum = mine[index];
    mine[index] = 1;
    return sum + mine[index];
}

static long beside(long (*look)(long *))
{
    pthread_t other;
    long *block = calloc(1, sizeof *block);
    atomic_store(&turn, 0);
    if (pthread_create(&other, NULL, free_in_turn, block) != 0)
        return 1;
    long sum = look(block) * zero;
    pthread_join(other, NULL);
    return sum;
}

int main(void)
{
    long sum = 0;
    for (int round = 0; round < 2; round++) {
        sum += beside(by_acquire) + beside(by_exchange) + beside(by_fence) + beside(by_lock);
        sum += atomics(calloc(1, 3), calloc(1, 2)) * zero + atomics(freed(8), freed(4)) * zero;
        sum += own_variables(zero + 2);
    }
    printf("%ld\n", sum * zero);
    return 0;
}
