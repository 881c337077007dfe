/* A free forward changes the block's note in one step, and then the shadow. One in order is done with all, and goes to
   the quarantine. free_forward with what it calls, differ and is_as_made also run in a shard. */
#include "heap/freeing.h"

#include <errno.h>

#include "libc/library.h"
#include "heap/families.h"
#include "heap/paint.h"
#include "heap/poisoning.h"
#include "heap/quarantine.h"
#include "heap/shards.h"
#include "stream/record.h"
#include "stream/side.h"
#include "stream/state.h"

static void note_left_good(struct shard *shard)
{
    uint64_t now = atomic_load_explicit(&shard->left_good, memory_order_relaxed);
    uint64_t before = atomic_exchange_explicit(&shard->left_good_noted, now, memory_order_relaxed);
    if (now != before)
        side_add_left_good(now - before);
}

void note_all_left_out(void)
{
    for (struct shard *it = atomic_load(&heap.shards); it != NULL; it = it->next)
        note_left_good(it);
}

/* The program's errno stays. */
void wake_stream(void)
{
    int before = errno;
    stream_wake();
    errno = before;
}

void count_left_out(struct shard *shard)
{
    enum { AT_ONCE = 256 };
    if (shard == NULL || library_is_alone()) {
        side_note_left_good();
        return;
    }
    uint64_t count = atomic_load_explicit(&shard->left_good, memory_order_relaxed) + 1;
    atomic_store_explicit(&shard->left_good, count, memory_order_relaxed);
    if (count % AT_ONCE == 0)
        note_left_good(shard);
}

static inline void note_freed(const struct block *block, struct origin from)
{
    if (arena.call_sites != NULL)
        SET_NOTE(arena.call_sites[block - arena.blocks].freed, origin_place(from));
}

/* The thread that makes a live block a held one has freed it, if another one tries too. Not a block that is live:
   false. If nothing is recorded, two threads that free a block at the same moment are as wrong as without us. */
static bool take_from_program(struct block *block, struct block now)
{
    struct block held = now;
    held.state = BLOCK_HELD;
    if (heap.is_unpainted || library_is_alone()) {
        block_write(block, held);
        return true;
    }
    uint32_t before = now.all_bits;
    return __atomic_compare_exchange_n(&block->all_bits, &before, held.all_bits, false, __ATOMIC_ACQ_REL,
                                       __ATOMIC_RELAXED);
}

/* A block whose address is never reused, or not before its unit is opened again. */
static inline enum freeing free_forward(struct shard *shard, struct block *block, uintptr_t address, struct origin from,
                                        struct block now)
{
    uint32_t unit = unit_of(block);
    if (!take_from_program(block, now))
        return FREEING_NEEDS_ALL;
    if (!heap.is_unpainted && arena.units[unit].kind == UNIT_SLAB)
        paint_held(address, block->size);
    note_freed(block, from);
    note_left_out(shard);
    if (!is_kept_free(shard, block, unit))
        forward_bury(shard, block, unit);
    return FREEING_DONE;
}

static struct release release_of(uintptr_t address, struct origin from, const struct use *use, const char *call)
{
    return (struct release){address, from.caller, said.frame, call, use->family, use->alignment, use->size_and_one};
}

static __attribute__((noinline)) bool differ(const struct block *block, uintptr_t address, struct origin from,
                                             const struct use *use)
{
    struct release release = release_of(address, from, use, "free");
    return families_differ(block, &release);
}

/* Whether it is given back as it was made. */
static bool is_as_made(const struct block *block, const struct use *use)
{
    bool has_size = use->size_and_one == 0 || use->size_and_one - 1 == NOTE_NOW(block->size);
    return has_size && block->family == use->family && NOTE_NOW(block->alignment) == use->alignment;
}

/* All of it in one: a call from part to part takes as long as the parts. */
__attribute__((flatten)) enum freeing free_in_shard(struct shard *shard, uintptr_t address, struct origin from,
                                                    const struct use *use)
{
    uintptr_t start;
    struct block *block = block_around(address, &start), now = {0};
    if (UNLIKELY(block == NULL))
        return FREEING_NEEDS_ALL;
    now.all_bits = NOTE_NOW(block->all_bits);
    if (UNLIKELY(now.state != BLOCK_LIVE || block_address(&now, start) != address))
        return FREEING_NEEDS_ALL;
    if (UNLIKELY(!is_as_made(block, use)) && differ(block, address, from, use))
        return FREEING_NEEDS_ALL;
    return free_forward(shard, block, address, from, now);
}

static void free_unrecorded(struct block *block, struct origin from)
{
    uintptr_t start = (uintptr_t)block_start(block);
    note_freed(block, from);
    poison_range(start, start + block->large_size);
    if (heap_is_ordered()) {
        quarantine_release(block);
    } else {
        block_go(block, BLOCK_FREE);
        forward_bury(NULL, block, unit_of(block));
    }
}

static void free_in_order(struct block *block, uintptr_t address, struct origin from)
{
    if (!heap.is_unpainted)
        paint_held(address, block->size);
    note_freed(block, from);
    if (is_lean())
        note_left_out(NULL);
    else
        record_free(address);
    quarantine_hold(block);
}

enum freeing free_with_all(uintptr_t address, struct origin from, const struct use *use, const char *call)
{
    struct release release = release_of(address, from, use, call);
    struct block *block = block_from((const void *)address);
    if (block != NULL && is_in_use(block))
        families_look_at(block, &release);
    if (block != NULL && block->state == BLOCK_UNRECORDED) {
        free_unrecorded(block, from);
        return FREEING_DONE;
    }
    if (block == NULL || block->state != BLOCK_LIVE) {
        record_bad_free(address, from.caller, call);
        return FREEING_BAD;
    }
    if (heap_is_ordered())
        free_in_order(block, address, from);
    else
        free_forward(NULL, block, address, from, *block);
    return FREEING_DONE;
}
