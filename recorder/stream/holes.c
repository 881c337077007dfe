/* Goes over the records from `checked` on. A byte of zero is a record that is not written yet: it is waited for, and
   then its place is taken by a record that says nothing, whose length is that after which the next ones look sound. */
#define _GNU_SOURCE
#include "stream/holes.h"

#include "libc/library.h"
#include "stream/locked.h"
#include "stream/own_place.h"
#include "stream/writing.h"

/* How many records in a row may be missing; and how often to look whose place one has. */
enum { MAX_HOLES = 8, LOOKS_EACH = 64 };

/* Its thread may just write it. */
static unsigned char byte_at(uint64_t offset)
{
    return __atomic_load_n(STREAM->bytes + offset, __ATOMIC_RELAXED);
}

static unsigned char code_at(uint64_t offset)
{
    return atomic_load_explicit((_Atomic unsigned char *)(STREAM->bytes + offset), memory_order_acquire);
}

/* Whether whole records begin here, as far as a few of them can say. This many accesses may be missing before them. */
static bool looks_sound(uint64_t offset, uint64_t end, int most_holes)
{
    for (int holes = 0; holes < most_holes && offset < end && code_at(offset) == CODE_NONE; holes++)
        offset += ACCESS_LENGTH;
    for (int seen = 0; offset < end && seen < 8; seen++) {
        unsigned length = record_length(code_at(offset));
        unsigned width = length == ACCESS_LENGTH ? byte_at(offset + 1) : 1;
        if (length == 0)
            return seen > 0;
        if (width != 1 && width != 2 && width != 4 && width != 8)
            return false;
        offset += length;
    }
    return offset <= end;
}

/* Records that say nothing, by their lengths. The last is of a history that begins, in which nothing is said yet. */
static const struct {
    enum code code;
    unsigned length;
} fillers[] = {{CODE_LOAD, ACCESS_LENGTH},
               {CODE_UNPOISON, REGION_LENGTH},
               {CODE_POISON, POISON_LENGTH},
               {CODE_FREE, FREE_LENGTH},
               {CODE_ANEW, ANEW_LENGTH}};

static enum code filler(unsigned length)
{
    unsigned i = 0;
    while (fillers[i].length != length)
        i++;
    return fillers[i].code;
}

/* The bytes after the code. */
static void fill(unsigned char *at, enum code code, unsigned length)
{
    for (unsigned i = 1; i < length; i++)
        put_byte(at + i, code == CODE_LOAD && i == 1);
}

/* All but the code of the first. */
void holes_fill_again(unsigned char *at, const struct shape *shape)
{
    fill(at, filler(shape->lengths[0]), shape->lengths[0]);
    for (unsigned i = 1, from = shape->lengths[0]; i < shape->count; from += shape->lengths[i++]) {
        fill(at + from, filler(shape->lengths[i]), shape->lengths[i]);
        put_byte(at + from, (unsigned char)filler(shape->lengths[i]));
    }
}

void holes_fill(unsigned char *at, const struct shape *shape)
{
    holes_fill_again(at, shape);
    put_code(at, filler(shape->lengths[0])); /* it may stand there already */
}

/* Takes the place of a record that is missing, unless its thread writes it just now. */
static bool claim(uint64_t offset, enum code code)
{
    unsigned char seen = code_at(offset);
    _Atomic unsigned char *place = (_Atomic unsigned char *)(STREAM->bytes + offset);
    return record_length(seen) == 0 && atomic_compare_exchange_strong(place, &seen, (unsigned char)code);
}

/* What may be missing: one record, or a group of a lean recording (group.c), or of a full one. In a lean one the byte
   after it is the anew of the next group, so the shorter ones come first. */
static const struct shape shapes[] = {
    {{ACCESS_LENGTH}, 1, ACCESS_LENGTH},
    {{REGION_LENGTH}, 1, REGION_LENGTH},
    {{POISON_LENGTH}, 1, POISON_LENGTH},
    {{FREE_LENGTH}, 1, FREE_LENGTH},
    {{POISON_LENGTH, ACCESS_LENGTH, REGION_LENGTH}, 3, POISON_LENGTH + ACCESS_LENGTH + REGION_LENGTH},
};
static const struct shape lean_shapes[] = {
#define GROUP(count, length, ...)                                                                                      \
    {                                                                                                                  \
        {ANEW_LENGTH, __VA_ARGS__}, 1 + (count), ANEW_LENGTH + (length)                                                \
    }
    {{FREE_LENGTH}, 1, FREE_LENGTH},
    {{ACCESS_LENGTH}, 1, ACCESS_LENGTH},
    GROUP(1, 9, FREE_LENGTH),
    GROUP(2, 27, REGION_LENGTH, ACCESS_LENGTH),
    GROUP(2, 28, POISON_LENGTH, ACCESS_LENGTH),
    GROUP(3, 35, REGION_LENGTH, FREE_LENGTH, FREE_LENGTH),
    GROUP(3, 36, REGION_LENGTH, FREE_LENGTH, ACCESS_LENGTH),
    GROUP(3, 44, REGION_LENGTH, REGION_LENGTH, ACCESS_LENGTH),
    GROUP(3, 45, REGION_LENGTH, POISON_LENGTH, ACCESS_LENGTH),
    GROUP(4, 53, REGION_LENGTH, FREE_LENGTH, REGION_LENGTH, ACCESS_LENGTH),
    GROUP(4, 54, REGION_LENGTH, FREE_LENGTH, POISON_LENGTH, ACCESS_LENGTH),
#undef GROUP
};

/* How many codes after the first one are there, in a row: they are stored in their order. Less than 0: there is one of
   another length. */
static int codes_there(const struct shape *shape, uint64_t offset)
{
    unsigned there = 0;
    for (unsigned i = 1; i < shape->count; i++) {
        offset += shape->lengths[i - 1];
        unsigned char code = code_at(offset);
        if (code != CODE_NONE && record_length(code) != shape->lengths[i])
            return -1;
        there += code != CODE_NONE && there == i - 1;
    }
    /* An access of 4 bytes looks like an anew and a free. */
    return shape->count > 2 ? (int)there : 0;
}

/* The shape of a hole: the one with most of its codes there, and of those the first; or null. In a lean recording no
   other hole may be next to it: groups have many lengths, and nobody jumps out of one. */
static const struct shape *shape_at(uint64_t offset, uint64_t end, int most_holes)
{
    bool is_of_lean = is_lean();
    const struct shape *all = is_of_lean ? lean_shapes : shapes, *found = NULL;
    unsigned count = is_of_lean ? sizeof lean_shapes / sizeof *all : sizeof shapes / sizeof *all;
    int most = -1;
    for (unsigned i = 0; i < count; i++) {
        uint64_t next = offset + all[i].length;
        int there = next <= end ? codes_there(&all[i], offset) : -1;
        if (there <= most || !looks_sound(next, end, is_of_lean ? 0 : most_holes))
            continue;
        most = there;
        found = &all[i];
    }
    return found;
}

/* A record that was begun and will never be written, as when a signal handler left by a jump, or a group of them: puts
   there what says nothing. Answers its shape; null where that can't be known, or if it was written now. */
static const struct shape *fill_hole(uint64_t offset, uint64_t end, int most_holes)
{
    const struct shape *shape = shape_at(offset, end, most_holes);
    if (shape == NULL || !claim(offset, filler(shape->lengths[0])))
        return NULL;
    holes_fill(STREAM->bytes + offset, shape);
    return shape;
}

/* The same if this is where this thread was interrupted, which would wait for itself. What others write just now is
   waited for, since it says how long this is. */
static const struct shape *fill_own(uint64_t end)
{
    uint64_t cursor = CURSOR_ON | locked.checked_events << 32 | locked.checked;
    return own_place_is_at(STREAM->bytes + locked.checked, cursor) ? fill_hole(locked.checked, end, 0) : NULL;
}

/* Over a hole that is filled now. */
static unsigned go_over_hole(const struct shape *shape)
{
    locked.checked += shape->length;
    locked.checked_events += shape->count;
    return shape->count;
}

/* Moves `checked` over whole records, and fills holes. Answers how many these were. */
static unsigned go_over(uint64_t end, uint64_t limit, enum patience patience)
{
    int looks = 0;
    unsigned holes = 0;
    while (locked.checked < end && locked.checked_events < limit) {
        unsigned char code = code_at(locked.checked);
        /* The common case has its own branch: the processor then need not wait for one record to find the next. */
        unsigned length = LIKELY(code == CODE_LOAD || code == CODE_STORE) ? ACCESS_LENGTH : record_length(code);
        if (LIKELY(length != 0)) {
            looks = 0;
            locked.checked += length;
            locked.checked_events++;
            continue;
        }
        const struct shape *filled = NULL;
        /* With one thread there is nobody to wait for: a signal handler has left by a jump. */
        bool has_others = !library_is_alone();
        if (has_others && patience != NONE && looks % LOOKS_EACH == 0)
            filled = fill_own(end);
        if (filled == NULL && has_others && stream_waits_again(looks++, patience))
            continue;
        if (filled == NULL && patience != NONE)
            filled = fill_hole(locked.checked, end, MAX_HOLES);
        if (filled != NULL)
            holes += go_over_hole(filled);
        else if (record_length(code_at(locked.checked)) == 0)
            return holes;
        looks = 0;
    }
    return holes;
}

unsigned holes_check(uint64_t end, uint64_t limit, enum patience patience)
{
    unsigned holes = go_over(end, limit, patience);
    atomic_store_explicit(&shared.seen_events, locked.checked_events, memory_order_relaxed);
    return holes;
}
