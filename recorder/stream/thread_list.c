/* A table of struct side_thread, in which a thread has the place that its number says, or the next one that is free. */
#define _GNU_SOURCE
#include "stream/thread_list.h"

#include <string.h>

#include "stacks/thread_notes.h"
#include "stream/side.h"

/* The most threads on the way to one that are put into the list. */
enum { MOST_CREATORS = 32 };
enum { THREAD_BYTES = SIDE_THREADS * sizeof(struct side_thread) };

static struct side_thread *thread_at(const struct list *list, uint32_t at)
{
    return (struct side_thread *)(list_bytes(list) + SIDE_THREADS_AT) + at;
}

/* Answers the place of a thread in the list, from 0. If it is not there, it is added; or the answer is SIDE_THREADS. */
static uint32_t find_thread(const struct list *list, unsigned number, bool may_add, bool *is_new)
{
    *is_new = false;
    for (uint32_t i = 0; i < SIDE_THREADS; i++) {
        uint32_t at = (number - 1 + i) % SIDE_THREADS, seen = 0;
        _Atomic uint32_t *taken = (_Atomic uint32_t *)&thread_at(list, at)->number;
        if (may_add)
            *is_new = atomic_compare_exchange_strong(taken, &seen, number);
        else if ((seen = atomic_load(taken)) == 0)
            break;
        if (*is_new || seen == number)
            return at;
    }
    return SIDE_THREADS;
}

/* Answers the number of a thread as a fault has it, and whether its entry is to be filled. */
static uint32_t take_thread(struct list *list, unsigned number, bool *is_new)
{
    *is_new = false;
    if (number == 0)
        return 0;
    if (number == THREAD_UNKNOWN || !list_back(list, SIDE_THREADS_AT, THREAD_BYTES, false))
        return SIDE_NO_THREAD;
    uint32_t at = find_thread(list, number, true, is_new);
    return at < SIDE_THREADS ? at + 1 : SIDE_NO_THREAD;
}

/* Fills the entry of a thread; its system number goes last, by which it is whole. */
static void fill_thread(struct list *list, uint32_t at, unsigned number, uint32_t creator)
{
    struct side_thread *entry = thread_at(list, at);
    struct thread_note note = thread_note(number);
    entry->created = call_site_address(note.created);
    entry->created_stack = list_put_stack(list, note.created);
    entry->creator = creator;
    thread_put_name(number, entry->name);
    atomic_store((_Atomic uint32_t *)&entry->system_number, note.system_number);
}

uint32_t list_put_thread(struct list *list, unsigned number)
{
    bool is_new, is_creator_new;
    uint32_t first = take_thread(list, number, &is_new), now = first;
    for (int i = 0; is_new; i++) {
        unsigned creator = call_site_thread(thread_note(number).created);
        uint32_t next = take_thread(list, i < MOST_CREATORS ? creator : THREAD_UNKNOWN, &is_creator_new);
        fill_thread(list, now - 1, number, next);
        now = next, number = creator, is_new = is_creator_new;
    }
    return first;
}

void list_name_thread(uintptr_t thread, const char *name)
{
    uint64_t words[NAME_WORDS] = {0};
    strncpy((char *)words, name, sizeof words - 1);
    unsigned number = thread_named(thread, words);
    if (number == 0)
        side_note_first_name();
    struct list *list = list_newest();
    bool is_new, is_listed = number != 0 && number != THREAD_UNKNOWN && side_is_there();
    if (!is_listed || !list_is_backed(list, SIDE_THREADS_AT, THREAD_BYTES))
        return;
    uint32_t at = find_thread(list, number, false, &is_new);
    if (at < SIDE_THREADS)
        thread_put_name(number, thread_at(list, at)->name);
}
