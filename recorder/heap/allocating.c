/* The allocator, as the process calls it. Blocks are in slots of units, or in runs of units (placing.h); which of them
   are handed out, and what happens to them, shards.h and quarantine.h say. Each call tries the thread's own shard
   (.._quickly), and then all (.._slowly).

   Called: as heap.h says; heap_allocate, heap_give_back and heap_move as blocks.h does. heap_set_bound,
   heap_ignore_next and heap_keep_empty take no lock, and any may be held. The callers of the others have none of the
   recorder's: heap_enter (entering.h) takes the thread's shard, or all. Inside run, of the static functions,
   take_block, poison_around, populate, notes_on, note_.. and place_.., count_call, allocate_entered, which leaves, and
   find_arena and look_at_clock, which take central. The others run outside, as the program's hooks do. */
#define _GNU_SOURCE
#include "heap/heap.h"

#include <errno.h>
#include <sys/mman.h>

#include "base/own_code.h"
#include "libc/library.h"
#include "heap/central.h"
#include "heap/entering.h"
#include "heap/families.h"
#include "heap/freeing.h"
#include "heap/paint.h"
#include "heap/placing.h"
#include "heap/poisoning.h"
#include "heap/program_hooks.h"
#include "heap/quarantine.h"
#include "heap/shards.h"
#include "heap/spare.h"
#include "shadow/shadow.h"
#include "stream/keeping.h"
#include "stream/record.h"
#include "stream/side.h"
#include "stream/state.h"

/* What fits into the notes of a block. The format has one byte more. */
#define MAX_BLOCK_SIZE ((size_t)UINT32_MAX)

/* A greater request is a mistake, to AddressSanitizer too. */
#define MAX_REQUEST ((size_t)1 << 40)

void heap_set_bound(uint64_t bytes)
{
    /* The end of the recording is not yet that of the shadow if the process is to end at a fault. */
    if (bytes != 0 || !atomic_load(&halt_is_on))
        atomic_store(&heap_bound, bytes);
}

/* Allocation. */

/* How often this thread has said that what it allocates is no leak, less how often it has taken that back. */
static _Thread_local unsigned ignoring;

void heap_ignore_next(bool is_on)
{
    if (is_on)
        ignoring++;
    else if (ignoring > 0)
        ignoring--;
}

void heap_ignore(const void *pointer)
{
    bool alone = heap_enter_all();
    struct block *block = block_in_use((uintptr_t)pointer);
    if (block != NULL) {
        struct block now = *block;
        now.is_ignored = 1;
        block_write(block, now);
    }
    if (alone)
        heap_leave();
}

/* A slot or a run for this many bytes, of whichever way the allocator goes; or null: there is no memory. */
static struct block *take_block(size_t size, size_t alignment)
{
    struct shard *shard = heap_shard();
    size_t bytes = room_for(size, alignment);
    if (alignment > NEAR_ALIGNMENT)
        return forward_take_far(1 + units_for(size, room_for(size, ALIGNMENT)), alignment);
    if (bytes > MAX_SLOT_SIZE) {
        size_t count = units_for(size, bytes);
        return heap_is_ordered() ? quarantine_take_run(count) : forward_take_run(count);
    }
    uint32_t slot_size;
    unsigned class = class_of(bytes, &slot_size);
    if (heap_is_ordered())
        return quarantine_take_slot(class, slot_size);
    return shard_take_slot(shard != NULL ? shard : shards_common(), class, slot_size).block;
}

/* Where it is poison round a block that lies in units of its own. */
static void poison_around(const struct block *block, uintptr_t address, size_t size)
{
    uint32_t first = unit_of(block);
    if (arena.units[first].kind != UNIT_RUN) {
        if (heap_is_ordered())
            poison_new(UINTPTR_MAX, UINTPTR_MAX);
        return;
    }
    bool is_recorded = size <= MAX_BLOCK_SIZE;
    uintptr_t hole = is_recorded ? address - REDZONE : address;
    uintptr_t hole_end = hole + (is_recorded ? span_bytes(size) : size);
    if (first < FIRST_BIG && heap_is_ordered()) {
        poison_new(hole, hole_end);
    } else if (first >= FIRST_BIG) {
        poison_range((uintptr_t)unit_start(first), hole);
        poison_range(hole_end, (uintptr_t)unit_start(first + arena.units[first].count));
    }
}

static struct block notes_on(enum block_state state, size_t offset, const struct use *use)
{
    return (struct block){.state = state & ((1 << STATE_BITS) - 1),
                          .family = use->family & ((1 << FAMILY_BITS) - 1),
                          .is_ignored = ignoring != 0,
                          .offset = offset / ALIGNMENT & ((1 << OFFSET_BITS) - 1)};
}

static inline void note_allocated(const struct block *block, struct origin from)
{
    if (arena.call_sites == NULL)
        return;
    struct call_sites *call_sites = &arena.call_sites[block - arena.blocks];
    SET_NOTE(call_sites->allocated, origin_place(from));
    SET_NOTE(call_sites->freed, 0);
}

static void note_malloc(uintptr_t address, size_t size)
{
    if (heap_is_ordered() && !is_lean())
        record_region(CODE_MALLOC, address, size);
    else
        note_left_out(heap_shard());
}

/* Blocks of some pages get them at once, which takes half as long as a fault for each. Only in a process that has got
   much, so it seems to allocate again and again; and only up to the size from which glibc maps each block, since
   programs may leave much of a larger one untouched. */
static void populate(const struct block *block, uintptr_t address, size_t size)
{
    enum { FIRST_POPULATED = 256, MOST_POPULATED = 128 << 10 };
    static _Atomic bool is_refused; /* a system before Linux 5.14 */
    uint32_t unit = unit_of(block);
    if (heap_is_ordered() || heap.is_unpainted || unit < FIRST_POPULATED || size > MOST_POPULATED
        || arena.units[unit].kind != UNIT_RUN || atomic_load_explicit(&is_refused, memory_order_relaxed))
        return;
    uintptr_t first = address / SYSTEM_PAGE * SYSTEM_PAGE;
    uintptr_t end = (address + size + SYSTEM_PAGE - 1) / SYSTEM_PAGE * SYSTEM_PAGE;
    if (system_madvise((void *)first, end - first, MADV_POPULATE_WRITE) == -EINVAL)
        atomic_store_explicit(&is_refused, true, memory_order_relaxed);
}

/* The block becomes live, and its shadow says so: null if there is no memory. */
static void *place_block(size_t size, size_t alignment, struct origin from, const struct use *use)
{
    struct block *block = take_block(size, alignment);
    if (block == NULL)
        return NULL;
    uintptr_t address = place_in(block, size, alignment);
    enum block_state before = NOTE_NOW(block->all_bits) & ((1 << STATE_BITS) - 1);
    block_write(block, notes_on(before, address - (uintptr_t)slot_start(block), use));
    note_allocated(block, from);
    poison_around(block, address, size);
    if (size > MAX_BLOCK_SIZE) {
        /* It can't be spelled, so it is no block for the checker: memory between poison. */
        SET_NOTE(block->large_size, size);
        SET_NOTE(block->large_alignment, (uint32_t)use->alignment);
        block_go(block, BLOCK_UNRECORDED);
        return (void *)address;
    }
    SET_NOTE(block->size, (uint32_t)size);
    SET_NOTE(block->alignment, use->alignment);
    if (!heap.is_unpainted)
        paint_redzones(address, size);
    populate(block, address, size);
    note_malloc(address, size);
    if (!heap.is_unpainted)
        paint_live(address, size);
    /* The record may be the first of a segment, whose snapshot has the live blocks: this one was not live yet. And of a
       live block the shadow is whole (differing.c). */
    block_go(block, BLOCK_LIVE);
    return (void *)address;
}

/* The same in a slot, of a thread that is in its shard: so nothing is recorded. */
static inline __attribute__((always_inline)) void *place_in_slot(struct shard *shard, size_t size, struct origin from,
                                                                 const struct use *use)
{
    uint32_t slot_size;
    unsigned class = class_of(room_for(size, ALIGNMENT), &slot_size);
    struct slot slot = shard_take_slot(shard, class, slot_size);
    uintptr_t address = slot.start + REDZONE;
    if (slot.block == NULL)
        return NULL;
    note_allocated(slot.block, from);
    SET_NOTE(slot.block->size, (uint32_t)size);
    SET_NOTE(slot.block->alignment, use->alignment);
    note_left_out(shard);
    if (!heap.is_unpainted)
        paint_redzones(address, size);
    if (!heap.is_unpainted)
        paint_live(address, size);
    /* Of a live block the shadow is whole (differing.c). */
    block_write(slot.block, notes_on(BLOCK_LIVE, REDZONE, use));
    return (void *)address;
}

/* Without a recorder the process might have this memory: so no more recording, and nothing held back. */
static void *place_at_last(size_t size, size_t alignment, struct origin from, const struct use *use)
{
    if (heap.held_bytes == 0 || room_for(size, alignment) > (size_t)FIRST_BIG * UNIT)
        return NULL;
    stream_stop("no memory");
    quarantine_release_down_to(0);
    return place_block(size, alignment, from, use);
}

/* Gives back what has waited for a period, at some of the calls. */
static __attribute__((noinline)) void look_at_clock(void)
{
    enum { CALLS = 16 }; /* a look at the clock takes longer than the rest of a call that does little */
    static _Thread_local uint32_t calls;
    if (++calls % CALLS != 0)
        return;
    central_take();
    arena_look_at_clock();
    central_give();
}

/* At each call of the allocator: while memory waits to be given back, some look at the clock. */
static inline void count_call(void)
{
    if (UNLIKELY(NOTE_NOW(arena.waiting) != 0))
        look_at_clock();
}

/* Before the first block. */
static bool find_arena(void)
{
    central_take();
    bool is_found = arena.bytes != NULL || arena_find();
    central_give();
    return is_found;
}

/* Whether such a block lies in a slot. */
static inline bool is_small(size_t size, size_t alignment)
{
    return size <= MAX_SLOT_SIZE && room_for(size, alignment) <= MAX_SLOT_SIZE;
}

/* In this thread's shard. Null: all, or more memory, are needed for it. */
static inline void *allocate_quickly(size_t size, struct origin from, const struct use *use)
{
    void *address = NULL;
    if (UNLIKELY(heap_is_ordered() || !arena_is_found() || !heap_enter()))
        return NULL;
    struct shard *shard = heap_shard();
    if (LIKELY(shard != NULL))
        address = place_in_slot(shard, size, from, use);
    count_call();
    heap_leave();
    return address;
}

/* By whoever was let in. */
static void *allocate_entered(size_t size, size_t alignment, struct origin from, const struct use *use)
{
    void *address = NULL;
    count_call();
    if (arena_is_found() || find_arena())
        address = place_block(size, alignment, from, use);
    if (address == NULL && heap_is_ordered())
        address = place_at_last(size, alignment, from, use);
    if (address == NULL)
        note_malloc(0, size); /* refused */
    heap_leave();
    if (address != NULL && size > MAX_BLOCK_SIZE)
        record_regions(CODE_UNPOISON, (uintptr_t)address, size);
    return address;
}

static __attribute__((noinline)) void *allocate_slowly(size_t size, size_t alignment, bool zeroed, struct origin from,
                                                       const struct use *use)
{
    void *address = NULL;
    size_t most = heap.is_unpainted ? PTRDIFF_MAX - UNIT : MAX_REQUEST;
    bool fits = size <= most, has_entered = fits && heap_enter();
    if (has_entered) {
        address = allocate_entered(size, alignment, from, use);
        if (address != NULL && zeroed && is_small(size, alignment))
            program_clear(address, size);
        else if (address != NULL && zeroed)
            arena_clear(address, size);
    } else if (fits && (address = spare_take(size, alignment)) != NULL) {
        side_note_skipped(SKIPPED_SPARE); /* it is zeros */
    }
    if (address == NULL && (size > MAX_REQUEST || has_entered))
        families_note_refused(size, from.caller, use->family, size > MAX_REQUEST);
    if (address == NULL)
        errno = ENOMEM;
    return address;
}

static inline __attribute__((always_inline)) void *allocate(size_t size, size_t alignment, bool zeroed,
                                                            struct origin from)
{
    struct use use = origin_take_use();
    void *address = NULL;
    if (LIKELY(alignment == ALIGNMENT && is_small(size, ALIGNMENT)))
        address = allocate_quickly(size, from, &use);
    if (UNLIKELY(address == NULL))
        address = allocate_slowly(size, alignment, zeroed, from, &use);
    else if (zeroed)
        program_clear(address, size);
    if (has_hooks() && address != NULL)
        hooks_after_malloc(address, size);
    return address;
}

/* Before the malloc of an operator that a signal handler has interrupted. */
static __attribute__((noinline, cold)) void *allocate_between(size_t size, size_t alignment, bool zeroed,
                                                              uintptr_t caller)
{
    struct said of_operator = origin_put_aside();
    void *address = heap_allocate(size, alignment, zeroed, caller);
    said = of_operator;
    return address;
}

void *heap_allocate(size_t size, size_t alignment, bool zeroed, uintptr_t caller)
{
    if (origin_is_of_another((uintptr_t)__builtin_frame_address(0)))
        return allocate_between(size, alignment, zeroed, caller);
    return allocate(size, alignment, zeroed, origin_of(origin_caller_or(caller)));
}

/* Giving back. */

/* With all. */
static __attribute__((noinline)) void give_back_slowly(void *pointer, struct origin from, const struct use *use,
                                                       const char *call)
{
    uintptr_t address = (uintptr_t)pointer;
    int before = errno;
    bool is_bad = false;
    if (heap_enter_all()) {
        is_bad = free_with_all(address, from, use, call) == FREEING_BAD;
        count_call();
        heap_leave();
    } else {
        heap_defer(pointer, from.caller, call);
    }
    /* Nothing is recorded yet, and in the lock it could not begin. */
    if (UNLIKELY(is_bad) && stream_state() == STATE_UNSTARTED)
        record_bad_free(address, from.caller, call);
    if (is_telling() || is_showing())
        above.tell_waiting();
    /* Outside the lock: a function called before the end may allocate. */
    if (UNLIKELY(is_bad) && atomic_load(&halt_is_on)) {
        struct access access = access_of(CODE_FREE, address, 0, from.caller, call);
        above.halt_at(CODE_FREE, 0, address, from.caller, &access);
    }
    errno = before;
}

/* In this thread's shard. False: all are needed for it. */
static inline bool give_back_quickly(uintptr_t address, struct origin from, const struct use *use)
{
    enum freeing freeing = FREEING_NEEDS_ALL;
    if (UNLIKELY(heap_is_ordered() || !heap_enter()))
        return false;
    struct shard *shard = heap_shard();
    if (LIKELY(shard != NULL))
        freeing = free_in_shard(shard, address, from, use);
    count_call();
    heap_leave();
    return freeing == FREEING_DONE;
}

/* By this function. */
static inline void give_back(void *pointer, struct origin from, const struct use *use, const char *call)
{
    if (has_hooks() && !hooks_before_free(pointer))
        return;
    if (UNLIKELY(is_spare(pointer)))
        spare_drop(pointer);
    else if (UNLIKELY(!give_back_quickly((uintptr_t)pointer, from, use)))
        give_back_slowly(pointer, from, use, call);
}

/* The notes on a block that is about to be freed come while something else is done. At any time: a hint. */
static void prefetch_notes(uintptr_t address)
{
    uintptr_t distance = address - (uintptr_t)arena.bytes;
    if (distance >= (size_t)UNITS * UNIT || !is_used((uint32_t)(distance / UNIT)))
        return;
    uint32_t number = (uint32_t)(distance / UNIT), slot = 0;
    const struct unit *unit = &arena.units[number];
    const struct call_sites *call_sites = __atomic_load_n(&arena.call_sites, __ATOMIC_ACQUIRE);
    if (NOTE_NOW(unit->kind) == UNIT_SLAB)
        slot = slots_in((uint32_t)(distance % UNIT) - NOTE_NOW(unit->lead), NOTE_NOW(unit->count)) % SLOTS;
    __builtin_prefetch(block_at(number, slot), 1);
    __builtin_prefetch(block_shadow(address), 1);
    if (call_sites != NULL)
        __builtin_prefetch(&call_sites[block_number(number, slot)], 1);
}

static __attribute__((noinline, cold)) void give_back_between(void *pointer, uintptr_t caller)
{
    struct said of_operator = origin_put_aside();
    heap_give_back(pointer, caller);
    said = of_operator;
}

void heap_give_back(void *pointer, uintptr_t caller)
{
    if (origin_is_of_another((uintptr_t)__builtin_frame_address(0))) {
        give_back_between(pointer, caller);
        return;
    }
    struct use use = origin_take_use();
    caller = origin_caller_or(caller);
    if (pointer == NULL)
        return;
    if (origin_is_noted())
        prefetch_notes((uintptr_t)pointer);
    give_back(pointer, origin_of(caller), &use, "free");
}

size_t heap_live_size(void *pointer)
{
    size_t size = SIZE_MAX;
    if (is_spare(pointer))
        return spare_size(pointer);
    bool is_entered = heap_enter();
    const struct block *block = block_from(pointer);
    if (block != NULL && block->state != BLOCK_HELD)
        size = size_of(block);
    if (is_entered)
        heap_leave();
    return size;
}

bool heap_say_allocated(const void *pointer, uintptr_t caller)
{
    call_site place = origin_is_noted() ? call_site_of(caller) : 0;
    if (is_spare(pointer))
        return true;
    heap_lock();
    const struct block *block = block_from(pointer);
    bool is_live = block != NULL && is_in_use(block);
    if (is_live && place != 0)
        SET_NOTE(arena.call_sites[block - arena.blocks].allocated, place);
    heap_unlock();
    return is_live;
}

/* By realloc, which takes longer anyway. */
static __attribute__((noinline)) void *allocate_new(size_t size, struct origin from)
{
    return allocate(size, ALIGNMENT, false, from);
}

static __attribute__((noinline)) void give_back_old(void *old, struct origin from, const char *call)
{
    struct use use = origin_take_use();
    give_back(old, from, &use, call);
}

static _Atomic bool empty_is_kept;

void heap_keep_empty(bool is_on)
{
    atomic_store(&empty_is_kept, is_on);
}

static __attribute__((noinline, cold)) void *move_between(void *old, size_t size, uintptr_t caller, const char *call)
{
    struct said of_operator = origin_put_aside();
    void *moved = heap_move(old, size, caller, call);
    said = of_operator;
    return moved;
}

void *heap_move(void *old, size_t size, uintptr_t caller, const char *call)
{
    if (origin_is_of_another((uintptr_t)__builtin_frame_address(0)))
        return move_between(old, size, caller, call);
    caller = origin_caller_or(caller);
    said.frame = 0;
    struct origin from = origin_of(caller);
    if (old == NULL)
        return allocate_new(size, from);
    size_t before = heap_live_size(old);
    if (size == 0 && atomic_load(&empty_is_kept))
        size = 1;
    if (size == 0 || before == SIZE_MAX) {
        give_back_old(old, from, call);
        if (size != 0)
            errno = EINVAL;
        return NULL;
    }
    void *moved = allocate_new(size, from);
    if (moved == NULL)
        return NULL;
    program_copy(moved, old, before < size ? before : size);
    give_back_old(old, from, call);
    return moved;
}
