/* A unit is in one of these states:

   new      from `top` on. It has no memory, and its bytes are zeros.
   taken    it is a slab, or in the run of a block.
   waiting  it is in a free run, and is stale: it has its memory and its old bytes.
   back     it is in a free run, and its memory was given back to the system. Its bytes are zeros.

   To give memory back takes a call of the system, and to use it again a fault for each page. So it waits for one period
   at least and two at most, in which most of it is taken again. What still waits then is given back with one call for
   each row of such units. No thread does that: the calls of the allocator look at the clock.

   Waiting units are at most MOST_WAITING, and with the taken ones at most EXTRA beyond the most that was ever
   taken. Before one of these is exceeded, or if the system has no more memory, all of it is given back. A run of
   AT_ONCE units does not wait.

   Which run is taken next depends neither on the clock nor on what waits, and a free run may have units of both kinds.
   So a program gets the same addresses each time.

   Static functions run with the lock that their caller has (arena.h). */
#define _GNU_SOURCE
#include "heap/arena.h"
#include "shadow/mapping.h"
#include "shadow/shadow.h"

#include <errno.h>
#include <stdatomic.h>
#include <string.h>
#include <sys/mman.h>
#include <time.h>

#include "base/own_code.h"
#include "base/system.h"
#include "libc/library.h"

/* For how many units notes are asked for: they then fill whole pages, since each has a multiple of 8 bytes. */
enum { NOTE_STEP = MOST_PAGE / 8 };
_Static_assert(sizeof(struct unit) % 8 == 0 && sizeof(struct block) % 8 == 0, "so it is");
/* The number of units by which memory grows: it doubles, within these bounds, up to a huge page. It is poison until it
   is handed out (poisoning.h), which takes an eighth of it in the shadow. */
enum { LEAST_STEP = 4, MOST_STEP = 32 };
/* At most this many units may be in huge pages, since between these and others the system has a limit of changes. */
enum { MOST_HUGE = 1 << 18 };
/* Where the range begins: shadow.h says why there. */
#define RANGE ((uint64_t)ARENA_NUMBER << ARENA_SHIFT)

enum { PERIOD_MS = 1000 };
/* Of a unit often a part alone has memory: half a gigabyte of them holds about as much as the quarantine. */
enum { MOST_WAITING = 2 * QUARANTINE_BOUND / UNIT };
enum { EXTRA = (16 << 20) / UNIT };
/* As many bytes as the C library's malloc unmaps at once, whatever it has learned of a program. */
enum { AT_ONCE = (32 << 20) / UNIT };
/* More bytes than this become zeros by new pages, which take no memory until they are used. */
enum { MOST_BY_HAND = 1 << 17 };

struct arena arena;
_Thread_local volatile sig_atomic_t arena_changing;

_Atomic bool arena_was_left;

bool arena_give_memory(void *start, size_t bytes)
{
    enum { FLAGS = MAP_PRIVATE | MAP_ANONYMOUS | MAP_NORESERVE };
    long made = system_mmap(start, bytes, PROT_READ | PROT_WRITE, FLAGS | MAP_FIXED_NOREPLACE, -1, 0);
    if (made == -EEXIST && atomic_load_explicit(&arena_was_left, memory_order_relaxed))
        made = system_mmap(start, bytes, PROT_READ | PROT_WRITE, FLAGS | MAP_FIXED, -1, 0);
    return made == (long)start;
}

/* Those on the blocks of a unit but the first. */
static struct block *other_notes(uint32_t unit)
{
    return block_at(unit, 1) - 1;
}

/* Makes room for notes on units from one number on. */
static bool note_from(uint32_t from, size_t count)
{
    const struct {
        void *start;
        size_t bytes;
    } parts[] = {{arena.units + from, count * sizeof(struct unit)},
                 {block_at(from, 0), count * sizeof(struct block)},
                 {other_notes(from), count * SLOTS * sizeof(struct block)}};
    int used = from < FIRST_BIG ? 3 : 2; /* a run has no second slot */
    for (int i = 0; i < used; i++) {
        if (arena_give_memory(parts[i].start, parts[i].bytes))
            continue;
        while (i-- > 0)
            system_munmap(parts[i].start, parts[i].bytes);
        return false;
    }
    /* A core has the blocks alone. Between the lowest part and the highest are only other notes, or nothing. */
    unsigned char *lowest = (unsigned char *)block_at(from, 0), *end = (unsigned char *)(arena.units + from + count);
    system_madvise(lowest, (size_t)(end - lowest), MADV_DONTDUMP);
    return true;
}

/* The same for all units below one, in a row. */
static bool note_below(uint32_t *noted, uint32_t units)
{
    if (units <= *noted)
        return true;
    uint32_t count = (units - *noted + NOTE_STEP - 1) / NOTE_STEP * NOTE_STEP;
    if (!note_from(*noted, count))
        return false;
    *noted += count;
    return true;
}

/* `is_slab`: it is small blocks that want more. */
static bool commit(uint32_t units, bool is_slab)
{
    if (units <= arena.committed)
        return true;
    if (units > FIRST_BIG)
        return false;
    uint32_t step = arena.committed < LEAST_STEP ? LEAST_STEP : arena.committed;
    step = step < MOST_STEP ? step : MOST_STEP;
    uint32_t count = (units - arena.committed + step - 1) / step * step;
    if (count > FIRST_BIG - arena.committed)
        count = FIRST_BIG - arena.committed;
    if (!note_below(&arena.noted, arena.committed + count))
        return false;
    if (!arena_give_memory(unit_start(arena.committed), (size_t)count * UNIT))
        return false;
    /* Small blocks lie far apart for their redzones, so there are many pages; and large ones leave a part of theirs.
       The first few stay small. */
    if (is_slab && arena.committed < MOST_HUGE)
        system_madvise(unit_start(arena.committed), (size_t)count * UNIT, MADV_HUGEPAGE);
    arena.committed += count;
    return true;
}

/* A range that nothing lies in: far from what the system hands out, so that nothing will. It is mapped as it is used,
   and what isn't counts towards no limit of the process. */
bool arena_find(void)
{
    shadow_map(); /* in a static program this comes before all constructors */
    arena.blocks = (struct block *)RANGE;
    arena.units = (struct unit *)(arena.blocks + BLOCK_NUMBERS);
    unsigned char *bytes = (unsigned char *)(arena.units + UNITS);
    arena.spare = bytes + (size_t)UNITS * UNIT;
    SET_NOTE(arena.top, 1);
    arena.big_noted = FIRST_BIG;
    SET_NOTE(arena.big_top, FIRST_BIG);
    arena.period = 1;
    __atomic_store_n(&arena.bytes, bytes, __ATOMIC_RELEASE);
    if (commit(1, false))
        return true;
    SET_NOTE(arena.bytes, NULL);
    return false;
}

void arena_keep_call_sites(void)
{
    if (arena.call_sites != NULL || (arena.bytes == NULL && !arena_find()))
        return;
    void *start = arena.spare + SPARE_BYTES;
    size_t bytes = BLOCK_NUMBERS * sizeof(struct call_sites);
    if (!arena_give_memory(start, bytes))
        return;
    system_madvise(start, bytes, MADV_NOHUGEPAGE);
    system_madvise(start, bytes, MADV_DONTDUMP);
    __atomic_store_n(&arena.call_sites, start, __ATOMIC_RELEASE);
}

/* Runs of units. */

static uint32_t *bin_of(uint32_t count)
{
    return &arena.bins[count < BINS ? count : BINS];
}

static void list_run(uint32_t first, uint32_t count)
{
    uint32_t *bin = bin_of(count);
    unit_write(first, (struct unit){.kind = UNIT_FREE, .count = count, .next = *bin});
    if (count > 1)
        unit_write(first + count - 1, (struct unit){.kind = UNIT_FREE_END, .count = count - 1});
    if (*bin != 0)
        SET_NOTE(arena.units[*bin].previous, first);
    *bin = first;
}

static void unlist_run(uint32_t first)
{
    struct unit *run = &arena.units[first];
    if (run->previous != 0)
        SET_NOTE(arena.units[run->previous].next, run->next);
    else
        *bin_of(run->count) = run->next;
    if (run->next != 0)
        SET_NOTE(arena.units[run->next].previous, run->previous);
}

/* Giving back. */

static void give_back(uint32_t first, uint32_t count)
{
    /* Memory that the process has locked can't be given back to the system. */
    if (system_madvise(unit_start(first), (size_t)count * UNIT, MADV_DONTNEED) != 0)
        memset(unit_start(first), 0, (size_t)count * UNIT);
}

/* In the place of a period: whichever it was. */
enum { ANY_PERIOD = 0 };

static bool is_stale_since(uint32_t unit, uint8_t period)
{
    uint8_t since = arena.units[unit].stale;
    return since != 0 && (period == ANY_PERIOD || since == period);
}

/* Of these units those that are stale, each row of them at once. Returns how many they were. */
static uint32_t give_back_stale(uint32_t first, uint32_t count, uint8_t period)
{
    uint32_t given = 0;
    for (uint32_t at = first, end = first + count; at < end; at++) {
        uint32_t from = at;
        for (; at < end && is_stale_since(at, period); at++)
            arena.units[at].stale = 0;
        if (at != from)
            give_back(from, at - from);
        given += at - from;
    }
    return given;
}

/* Gives back what waits in all free runs since this period. */
static void give_back_since(uint8_t period)
{
    arena_begin_change();
    for (uint32_t unit = 1, count; unit < arena.top && arena.waiting != 0; unit += count) {
        uint8_t kind = arena.units[unit].kind;
        count = kind == UNIT_SLAB || kind == UNIT_NEW ? 1 : arena.units[unit].count;
        if (arena.units[unit].kind == UNIT_FREE)
            SET_NOTE(arena.waiting, arena.waiting - give_back_stale(unit, count, period));
    }
    arena_end_change();
}

bool arena_give_back(void)
{
    bool has_any = arena.waiting != 0;
    give_back_since(ANY_PERIOD);
    return has_any;
}

void arena_look_at_clock(void)
{
    struct timespec now;
    library.clock_gettime(CLOCK_MONOTONIC_COARSE, &now);
    int64_t now_ms = (int64_t)now.tv_sec * 1000 + now.tv_nsec / 1000000, passed = now_ms - arena.period_start_ms;
    if (passed < PERIOD_MS)
        return;
    uint8_t before = arena.period == 1 ? 2 : 1;
    give_back_since(passed < 2 * PERIOD_MS ? before : ANY_PERIOD);
    arena.period = before;
    arena.period_start_ms = now_ms;
}

void arena_clear(void *start, size_t size)
{
    size_t distance = (size_t)((unsigned char *)start - arena.bytes);
    uint32_t first = (uint32_t)(distance / UNIT), end = (uint32_t)((distance + size - 1) / UNIT) + 1;
    if (size > MOST_BY_HAND) {
        give_back_stale(first, end - first, ANY_PERIOD);
        return;
    }
    for (uint32_t unit = first; unit < end; unit++)
        if (arena.units[unit].stale != 0) {
            program_clear(start, size);
            return;
        }
}

/* Taking and giving. */

/* Takes free units out of the lists; 0: there are none. */
static uint32_t find_run(uint32_t count)
{
    for (uint32_t bin = count < BINS ? count : BINS; bin <= BINS; bin++) {
        for (uint32_t first = arena.bins[bin]; first != 0; first = arena.units[first].next) {
            uint32_t found = arena.units[first].count;
            if (found < count)
                continue;
            unlist_run(first);
            if (found > count)
                list_run(first + count, found - count);
            return first;
        }
    }
    return 0;
}

/* Units from the top on; 0: there is no memory. */
static uint32_t take_new(uint32_t count, bool is_slab)
{
    if (count > FIRST_BIG - arena.top)
        return 0;
    if (!commit(arena.top + count, is_slab) && !(arena_give_back() && commit(arena.top + count, is_slab)))
        return 0;
    SET_NOTE(arena.top, arena.top + count);
    return arena.top - count;
}

uint32_t arena_take_unused(uint32_t count)
{
    return take_new(count, false);
}

uint32_t arena_take_big(uint32_t count, size_t alignment)
{
    uintptr_t second = (uintptr_t)unit_start(arena.big_top + 1);
    size_t unused = (-second & (alignment - 1)) / UNIT;
    if (unused + count > UNITS - arena.big_top)
        return 0;
    uint32_t first = arena.big_top + (uint32_t)unused;
    bool is_there = note_below(&arena.big_noted, first + count)
                    && arena_give_memory(unit_start(first), (size_t)count * UNIT);
    if (is_there)
        SET_NOTE(arena.big_top, first + count);
    return is_there ? first : 0;
}

bool arena_drop(uint32_t first, uint32_t count)
{
    return system_madvise(unit_start(first), (size_t)count * UNIT, MADV_DONTNEED) == 0;
}

/* Makes notes zeros, except whole pages that the process has locked. Those in a part of a page can't be given back, and
   have to be there: from FIRST_BIG on a unit has notes on its first slot alone (note_from). */
static void wipe(void *notes, size_t bytes)
{
    if (((uintptr_t)notes | bytes) % SYSTEM_PAGE != 0)
        memset(notes, 0, bytes);
    else
        system_madvise(notes, bytes, MADV_DONTNEED);
}

void arena_forget(uint32_t unit)
{
    struct block *notes = other_notes(unit);
    wipe(notes, SLOTS * sizeof *notes);
    if (arena.call_sites != NULL)
        wipe(&arena.call_sites[notes - arena.blocks], SLOTS * sizeof *arena.call_sites);
}

_Static_assert(REGION_UNITS * sizeof(struct unit) % PAGE == 0, "the notes on the units of a region fill whole pages");

/* Puts new memory there, so that the system needs no tables any more for what it was. */
static void renew(void *start, size_t bytes, bool is_notes)
{
    int flags = MAP_PRIVATE | MAP_ANONYMOUS | MAP_NORESERVE | MAP_FIXED;
    if (system_mmap(start, bytes, PROT_READ | PROT_WRITE, flags, -1, 0) == (long)start && is_notes)
        system_madvise(start, bytes, MADV_DONTDUMP);
}

void arena_renew_region(uint32_t region)
{
    renew(unit_start(region * REGION_UNITS), (size_t)REGION_UNITS * UNIT, false);
}

void arena_forget_region(uint32_t region)
{
    enum { COUNT = REGION_UNITS };
    uint32_t first = region * REGION_UNITS;
    struct block *others = other_notes(first);
    if (first < FIRST_BIG)
        renew(others, COUNT * SLOTS * sizeof *others, true);
    wipe(block_at(first, 0), COUNT * sizeof(struct block));
    wipe(&arena.units[first], COUNT * sizeof(struct unit));
    if (arena.call_sites == NULL)
        return;
    wipe(&arena.call_sites[first], COUNT * sizeof *arena.call_sites);
    if (first < FIRST_BIG) {
        struct call_sites *sites = &arena.call_sites[others - arena.blocks];
        renew(sites, COUNT * SLOTS * sizeof *sites, true);
        system_madvise(sites, COUNT * SLOTS * sizeof *sites, MADV_NOHUGEPAGE);
    }
}

/* A free run, or else new units, which are a run from now on. */
static uint32_t take_run(uint32_t count, bool is_slab)
{
    uint32_t first = find_run(count);
    if (first == 0)
        first = take_new(count, is_slab);
    if (first == 0)
        return 0;
    for (uint32_t i = 0; i < count; i++) {
        SET_NOTE(arena.waiting, arena.waiting - (arena.units[first + i].stale != 0));
        unit_write(first + i, (struct unit){.kind = i == 0 ? UNIT_RUN : UNIT_RUN_BODY, .count = i == 0 ? count : i});
    }
    arena.taken += count;
    if (arena.taken + arena.waiting > arena.most_taken + EXTRA)
        arena_give_back();
    if (arena.taken > arena.most_taken)
        arena.most_taken = arena.taken;
    return first;
}

uint32_t arena_take_run(uint32_t count, bool is_slab)
{
    arena_begin_change();
    uint32_t first = take_run(count, is_slab);
    arena_end_change();
    return first;
}

/* These units wait from now on, or are given back at once if they are many. */
static void leave_run(uint32_t first, uint32_t count)
{
    bool is_much = count >= AT_ONCE;
    if (is_much)
        give_back(first, count);
    for (uint32_t i = 0; i < count; i++)
        arena.units[first + i].stale = is_much ? 0 : arena.period;
    SET_NOTE(arena.waiting, arena.waiting + (is_much ? 0 : count));
    arena.taken -= count;
}

void arena_give_run(uint32_t first, uint32_t count)
{
    arena_begin_change();
    leave_run(first, count);
    uint32_t after = first + count;
    if (after < arena.top && arena.units[after].kind == UNIT_FREE) {
        count += arena.units[after].count;
        unlist_run(after);
    }
    const struct unit *before = &arena.units[first - 1];
    uint32_t back = before->kind == UNIT_FREE_END ? before->count + 1 : before->kind == UNIT_FREE ? 1 : 0;
    if (back != 0) {
        unlist_run(first - back);
        first -= back;
        count += back;
    }
    list_run(first, count);
    if (arena.waiting > MOST_WAITING)
        arena_give_back();
    arena_end_change();
}
