/* How a record gets into the stream: the two steps.

   A record is written in two steps. First its place is taken: one addition to the cursor, which holds the number of
   events and the offset of the next record. The order of these additions is the order of the stream, for all threads.
   Then the bytes are stored, the code last: a zero where a code should be is a record that is not written yet.

   So there is no lock that a signal handler could meet, and a handler that comes between the two steps records what it
   does in its own places.

   Called: by record.h, regions.c, group.c and places.c, in the thread whose record it is, also in a handler; no lock.
   put_code also by holes.c, and by keeping.c, with put_number and the stream's lock, for what stands at the end. */
#ifndef ASANCOL_WRITING_H
#define ASANCOL_WRITING_H

#include <stdatomic.h>
#include <stdbool.h>
#include <stdint.h>

#include "base/platform.h"
#include "libc/library.h"
#include "common/format.h"
#include "shadow/shadow.h"
#include "stream/state.h"

/* Adds to the cursor, and says what it was. */
static inline uint64_t stream_take(_Atomic uint64_t *cursor, uint64_t step)
{
#if HAS_ADDITION_ALONE
    if (LIKELY(library_is_alone()))
        return processor_add_alone(cursor, step);
#endif
    uint64_t before = atomic_fetch_add(cursor, step);
    PROCESSOR_STAYS_BEHIND; /* what a record makes good is painted after it has its place (heap/paint.h) */
    return before;
}

/* Whether the place that was taken by this cursor is past a limit. Off is below CURSOR_ON, and so past every limit in
   this subtraction. */
static inline bool stream_is_unusual(uint64_t cursor, unsigned length)
{
    const struct stream *stream = &stream_page.stream;
    return cursor - CURSOR_ON >= atomic_load_explicit(&stream->events_end, memory_order_relaxed)
           || (uint32_t)cursor + length > atomic_load_explicit(&stream->ready, memory_order_acquire);
}

/* Of a record in whose place another thread may put one that says nothing, since this one has slept for so long: both
   write the same bytes. The code says which of them counts, so their order is of no matter. */
static inline void put_byte(unsigned char *at, unsigned char byte)
{
    __atomic_store_n(at, byte, __ATOMIC_RELAXED);
}

static inline void put_number_by_bytes(unsigned char *at, uint64_t number)
{
    for (unsigned i = 0; i < sizeof number; i++)
        put_byte(at + i, (unsigned char)(number >> 8 * i));
}

static inline void put_number(unsigned char *at, uint64_t number)
{
    __builtin_memcpy(at, &number, sizeof number);
}

/* The code goes last: it says that the record is whole. */
static inline void put_code(unsigned char *at, enum code code)
{
    atomic_store_explicit((_Atomic unsigned char *)at, (unsigned char)code, memory_order_release);
}

static inline void put_access(unsigned char *at, unsigned code_and_width, uint64_t address)
{
    at[1] = (unsigned char)(code_and_width >> 8);
    put_number(at + 2, spelled(address));
    put_code(at, code_and_width & 0xff);
}

#endif
