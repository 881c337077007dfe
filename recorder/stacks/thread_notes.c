/* An array by the numbers of threads, which are given in order and never again. */
#define _GNU_SOURCE
#include "stacks/thread_notes.h"

#include "base/system.h"
#include "base/tables.h"
#include "libc/library.h"

_Thread_local struct own_notes own_notes = {.number = THREAD_UNKNOWN};

/* By their numbers. Unused ones take no memory. */
static struct kept_note {
    _Atomic uint64_t created, name[NAME_WORDS];
    _Atomic uint32_t system_number;
} *const notes = TABLE(struct kept_note, thread_notes);
TABLE_HAS_ROOM(thread_notes, THREAD_UNKNOWN * sizeof *notes);

void thread_is_first(void)
{
    atomic_store(&own_notes.number, 0);
}

unsigned thread_create(uint64_t created)
{
    static _Atomic uint32_t count;
    uint32_t before = atomic_load(&count);
    do {
        if (before + 1 == THREAD_UNKNOWN)
            return THREAD_UNKNOWN;
    } while (!atomic_compare_exchange_weak(&count, &before, before + 1));
    atomic_store(&notes[before + 1].created, created);
    return before + 1;
}

static void note_system_number(unsigned number, pid_t answer)
{
    atomic_store(&notes[number].system_number, answer > 0 ? (uint32_t)answer : UINT32_MAX);
}

/* Who changes a name copies it after that, so the last one to store here has seen the last change: a name is torn for a
   moment at most. */
static void copy_name(_Atomic uint64_t to[NAME_WORDS], const _Atomic uint64_t from[NAME_WORDS])
{
    for (int i = 0; i < NAME_WORDS; i++) {
        uint64_t word;
        do {
            word = atomic_load(&from[i]);
            atomic_store(&to[i], word);
        } while (atomic_load(&from[i]) != word);
    }
}

static void note_name(unsigned number, const struct own_notes *of)
{
    if (number < THREAD_UNKNOWN)
        copy_name(notes[number].name, of->name);
}

void thread_begins(unsigned number)
{
    if (number != THREAD_UNKNOWN)
        note_system_number(number, system_gettid());
    atomic_store(&own_notes.number, number);
    note_name(number, &own_notes);
}

void thread_is_alone(int process)
{
    if (thread_number() != THREAD_UNKNOWN)
        note_system_number(thread_number(), process);
}

struct thread_note thread_note(unsigned number)
{
    struct thread_note now = {.system_number = UINT32_MAX};
    if (number >= THREAD_UNKNOWN)
        return now;
    now.created = atomic_load(&notes[number].created);
    now.system_number = atomic_load(&notes[number].system_number);
    return now;
}

void thread_put_name(unsigned number, void *to)
{
    if (number < THREAD_UNKNOWN)
        copy_name(to, notes[number].name);
}

unsigned thread_named(uintptr_t thread, const uint64_t name[NAME_WORDS])
{
    uintptr_t distance = (uintptr_t)&own_notes - PROCESSOR_THREAD(library_control_size());
    struct own_notes *of = thread != 0 ? (struct own_notes *)(thread + distance) : &own_notes;
    for (int i = 0; i < NAME_WORDS; i++)
        atomic_store(&of->name[i], name[i]);
    /* After that: whoever begins meanwhile looks for a name once it has its number. */
    unsigned number = atomic_load(&of->number);
    note_name(number, of);
    return number;
}
