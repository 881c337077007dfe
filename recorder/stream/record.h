/* The recording of accesses, in code that is inlined where they are, and regions. writing.h says how.

   Called: by interface/hooks.h and hooks.def, for the accesses of compiled code and of library calls; record_regions
   also by heap/allocating.c, record_piece_of and record_told by process/halt.c: in any thread, also in a handler.
   The caller has no lock. None is taken, unless something is unusual: then places.h and watched.h take the
   allocator's and the stream's. */
#ifndef ASANCOL_RECORD_H
#define ASANCOL_RECORD_H

#include <stdatomic.h>
#include <stdbool.h>
#include <stddef.h>
#include <stdint.h>

#include "base/platform.h"
#include "common/format.h"
#include "shadow/shadow.h"
#include "stream/places.h"
#include "stream/regions.h"
#include "stream/side.h"
#include "stream/state.h"
#include "stream/watched.h"
#include "stream/writing.h"

/* Whether a bad access matters: the stream is on, or may turn on, or the process ends there. */
static inline bool stream_may_record(const struct stream *stream)
{
    return (atomic_load_explicit(&stream->cursor, memory_order_acquire) & CURSOR_ON)
           || !atomic_load_explicit(&stream->is_idle, memory_order_relaxed);
}

static inline void halt_if_bad(enum code code, unsigned width, uint64_t address, uintptr_t caller, struct access *whole)
{
    if (UNLIKELY(atomic_load_explicit(&halt_is_on, memory_order_relaxed)) && shadow_is_bad(address, width))
        above.halt_at(code, width, address, caller, whole);
}

/* Notes that an access is not recorded for its address, if memory is there after all. */
void record_note_beyond(uint64_t address) OWN_NAME(record_note_beyond);

/* What a report is made of: of a bad piece of an access, or of a free. */
struct told record_told(enum code code, unsigned width, uint64_t address, uintptr_t caller, const struct access *whole);
/* Tells the program, and of an event (or 0) the run, of a bad piece of an access. */
void record_tell(enum code code, unsigned width, uint64_t address, uintptr_t caller, const struct access *whole,
                 uint64_t event) OWN_NAME(record_tell);

static inline void tell_if_bad(enum code code, unsigned width, uint64_t address, uintptr_t caller,
                               const struct access *whole, uint64_t event)
{
    if (UNLIKELY(event != 0) || (is_telling() && shadow_is_bad(address, width)))
        record_tell(code, width, address, caller, whole, event);
}

/* A piece of an access; `whole` is null if it is all of it. */
static inline void record_piece_of(enum code code, unsigned width, uint64_t address, uintptr_t caller,
                                   struct access *whole)
{
    struct stream *stream = &stream_page.stream;
    unsigned code_and_width = code | width << 8;
    uint64_t event = 0;
    if (UNLIKELY(address > MEMORY_END - width))
        return; /* it can't be spelled, and would end the stream */
#if MEMORY_VARIES
    if (UNLIKELY(is_in_hole(address))) {
        record_note_beyond(address);
        return;
    }
#endif
    bool is_in_frame = is_frame_in_block(address, width);
    if (UNLIKELY(is_in_frame) && !above.has_frame((uintptr_t)__builtin_frame_address(0), address)) {
        side_note_skipped(SKIPPED_FRAMES);
        return;
    }
    if (UNLIKELY(!(atomic_load_explicit(&stream->cursor, memory_order_acquire) & CURSOR_ON)) && !stream_wake()) {
        record_too_late(shadow_is_bad(address, width));
        halt_if_bad(code, width, address, caller, whole);
        return;
    }
    bool is_watched = atomic_load_explicit(&stream->is_watched, memory_order_relaxed);
    if (UNLIKELY(is_watched || is_in_frame) || (!is_in_arena(address) && UNLIKELY(shadow_is_bad(address, width)))) {
        event = record_watched_access(code_and_width, address, caller, whole);
    } else {
        uint64_t cursor = stream_take(&stream->cursor, CURSOR_EVENT + ACCESS_LENGTH);
        if (UNLIKELY(stream_is_unusual(cursor, ACCESS_LENGTH)))
            record_access_slowly(cursor, code_and_width, address);
        else
            put_access(stream->bytes + (uint32_t)cursor, code_and_width, address);
        STAYS_KNOWN(cursor); /* to own_place.c */
    }
    tell_if_bad(code, width, address, caller, whole, event);
    halt_if_bad(code, width, address, caller, whole);
}

static inline void record_access(enum code code, unsigned width, uint64_t address, uintptr_t caller)
{
    record_piece_of(code, width, address, caller, NULL);
}

/* The first bytes of an access of this size: more of it is not known. */
void record_first_of(enum code code, unsigned width, uint64_t address, uint64_t size, uintptr_t caller)
    OWN_NAME(record_first_of);
/* An access of any width, in pieces of 1, 2, 4 and 8 bytes at multiples of them. */
void record_range(enum code code, uint64_t address, uint64_t size, uintptr_t caller) OWN_NAME(record_range);
/* The pieces of it that the shadow flags. */
void record_bad_range(enum code code, uint64_t address, uint64_t size, uintptr_t caller) OWN_NAME(record_bad_range);
/* The same for an access that a function of a library makes, of which this many of the first bytes are good. */
void record_bad_call(enum code code, uint64_t address, uint64_t size, uint64_t good, uintptr_t caller, const char *call)
    OWN_NAME(record_bad_call);
/* What the process poisons and unpoisons, of any size: in the shadow, and in the allocator's memory as records too. */
void record_regions(enum code code, uint64_t address, uint64_t size);
/* A poison whose granules get this code. */
void record_poison_as(unsigned char shade, uint64_t address, uint64_t size);

#endif
