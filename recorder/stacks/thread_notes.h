/* Threads, by their numbers in the order in which they were created. The notes on one stay when it has ended, and
   its number is not used again.

   Called: thread_is_first by start/start.c; thread_create by process/threads.c in the thread that calls
   pthread_create, and thread_begins there in the new one; thread_is_alone by process/process.c, in a forked child;
   thread_named and thread_note by stream/thread_list.c, and thread_put_name by that and stream/side.c: in any thread,
   also in a handler. thread_number by any file. No lock: each word of a note is atomic. */
#ifndef ASANCOL_THREAD_NOTES_H
#define ASANCOL_THREAD_NOTES_H

#include <stdatomic.h>
#include <stdint.h>

#include "common/format.h"

/* A number has this many bits (stacks.h). The first thread's is 0. */
enum { THREAD_BITS = 15, THREAD_UNKNOWN = (1 << THREAD_BITS) - 1 };
enum { NAME_WORDS = SIDE_THREAD_NAME / sizeof(uint64_t) };

/* What a thread has at a fixed distance from what stands for it with the C library. */
struct own_notes {
    _Atomic uint32_t number;
    _Atomic uint64_t name[NAME_WORDS]; /* that another thread gave it before it had a number */
};

extern _Thread_local struct own_notes own_notes;

/* The number of the running thread. It is not known of one that nobody saw begin. */
static inline unsigned thread_number(void)
{
    return atomic_load_explicit(&own_notes.number, memory_order_relaxed);
}

struct thread_note {
    uint64_t created;       /* the call site, with the thread that made it (stacks.h) */
    uint32_t system_number; /* UINT32_MAX if the system does not say it */
};

/* In the first thread, at the start. */
void thread_is_first(void);
/* Answers the number of the thread that a call at this site is about to create. */
unsigned thread_create(uint64_t created);
/* In that thread, before all that the program does there. */
void thread_begins(unsigned number);
/* In the child of a fork, whose number the thread has now. */
void thread_is_alone(int process);
/* A copy of the notes on a thread. */
struct thread_note thread_note(unsigned number);
/* Puts its name into these words (NAME_WORDS), which others may write just now with this; zeros: it has none. Who has
   given it another one has to put that there too. */
void thread_put_name(unsigned number, void *to);
/* Answers the number of a thread by its pthread_t, or of this one by 0. If it has none yet, it will have the name when
   it has. */
unsigned thread_named(uintptr_t thread, const uint64_t name[NAME_WORDS]);

#endif
