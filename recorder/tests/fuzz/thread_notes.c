/* Threads get numbers, and names from each other: before they have a number, at that moment, and later. A name has two
   words, and each of them is that of one name or the other until the thread that gives it is done; then both are. */
#include <pthread.h>
#include <stdbool.h>
#include <stdio.h>
#include <stdlib.h>
#include <string.h>

#include "stacks/thread_notes.h"

enum { THREADS = 4, ROUNDS = 200, RENAMES = 20 };

static pthread_t threads[THREADS];
static pthread_barrier_t barrier;
static _Atomic uint32_t seen[THREADS * ROUNDS + 1];
/* What else has the names of threads, by their numbers, as a list beside a stream. */
static uint64_t listed[THREADS * ROUNDS + 1][NAME_WORDS];

static void expect(bool holds, const char *what)
{
    if (holds)
        return;
    fprintf(stderr, "not as it should be: %s\n", what);
    exit(1);
}

static void give_name(pthread_t thread, const char *text)
{
    uint64_t name[NAME_WORDS] = {0};
    strncpy((char *)name, text, sizeof name - 1);
    unsigned number = thread_named((uintptr_t)thread, name);
    if (number != THREAD_UNKNOWN)
        thread_put_name(number, listed[number]);
}

static bool has_words(const uint64_t *name, const char *first, const char *second)
{
    return strncmp((const char *)&name[0], first, sizeof *name) == 0
           && strncmp((const char *)&name[1], second, sizeof *name) == 0;
}

/* Both in the notes and in the list. */
static bool has_name(unsigned number, const char *text)
{
    uint64_t name[NAME_WORDS];
    thread_put_name(number, name);
    return strcmp((const char *)name, text) == 0 && strcmp((const char *)listed[number], text) == 0;
}

static void *run(void *of)
{
    uintptr_t number = (uintptr_t)of;
    pthread_barrier_wait(&barrier); /* ThreadSanitizer has a thread make its own variables, which its creator does */
    pthread_barrier_wait(&barrier);
    expect(thread_number() == THREAD_UNKNOWN, "no number at first");
    thread_begins(thread_create(number + 1));
    unsigned mine = thread_number();
    expect(mine > 0 && mine <= THREADS * ROUNDS && atomic_fetch_add(&seen[mine], 1) == 0, "a number for itself");
    expect(thread_note(mine).created == number + 1 && thread_note(mine).system_number != 0, "what is noted");
    thread_put_name(mine, listed[mine]);
    uint64_t first[NAME_WORDS];
    thread_put_name(mine, first);
    bool is_new = has_words(first, "meanwhil", "") || has_words(first, "meanwhil", "e");
    expect(is_new || has_words(first, "before", "") || has_words(first, "before", "e"), "the first name");
    for (int i = 0; i < RENAMES; i++)
        give_name(threads[(number + 1) % THREADS], "meanwhile");
    pthread_barrier_wait(&barrier);
    expect(has_name(mine, "meanwhile"), "the name that came last");
    give_name(pthread_self(), "itself");
    expect(has_name(mine, "itself"), "its own name");
    pthread_barrier_wait(&barrier);
    return NULL;
}

int main(void)
{
    pthread_barrier_init(&barrier, NULL, THREADS + 1);
    for (int round = 0; round < ROUNDS; round++) {
        for (uintptr_t i = 0; i < THREADS; i++)
            expect(pthread_create(&threads[i], NULL, run, (void *)i) == 0, "a thread");
        pthread_barrier_wait(&barrier);
        for (int i = 0; i < THREADS; i++)
            give_name(threads[i], "before");
        for (int i = 0; i < 3; i++)
            pthread_barrier_wait(&barrier);
        for (int i = 0; i < THREADS; i++)
            pthread_join(threads[i], NULL);
    }
    return 0;
}
