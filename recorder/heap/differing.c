/* A block leaves in each granule of its span one shadow byte (shade_of_block). Looked at are the granule of the access
   and the next one, the first and the last granule of the block, and both redzones. */
#include "heap/differing.h"

#include "heap/arena.h"
#include "heap/blocks.h"
#include "heap/paint.h"
#include "heap/retiring.h"
#include "shadow/shadow.h"

struct painted {
    uintptr_t start;
    uint32_t size;
    bool is_held;
};

/* A block whose shadow the allocator has painted, and that has the address in its span: a live one is painted before
   its notes say so, and a held one before its free is settled. Where a handler has jumped out of the allocator, notes
   and shadow may be of two states for good. */
static bool find_painted(uintptr_t address, struct painted *found)
{
    struct block block;
    uintptr_t start;
    if (heap.is_unpainted || atomic_load_explicit(&arena_was_left, memory_order_relaxed) || retiring_has(address)
        || !arena_find_around(address, &block, &start) || block.state == BLOCK_UNRECORDED
        || (block.state == BLOCK_HELD && block.settled != BLOCK_SETTLED))
        return false;
    *found = (struct painted){start, block.size, block.state == BLOCK_HELD};
    return address - (start - REDZONE) < span_bytes(block.size);
}

/* Whether the notes say the same as before the shadow was read. */
static bool is_still(const struct painted *block, uintptr_t address)
{
    struct painted now;
    atomic_thread_fence(memory_order_acquire);
    return find_painted(address, &now) && now.start == block->start && now.size == block->size
           && now.is_held == block->is_held;
}

/* Whether another byte than the block's is there rightly: where the process has poisoned or unpoisoned something, and
   in a live block that is a stack, or has a count before its elements. */
static bool is_given(uintptr_t granule, unsigned char shade, unsigned char left)
{
    /* Who poisons notes that first, and writes the shadow then. */
    atomic_thread_fence(memory_order_acquire);
    if (shadow_may_be_poisoned(granule))
        return true;
    bool is_part = shade != 0 && shade < addressable_of(left);
    return addressable_of(left) != 0 && (is_part || is_of_frame(shade) || shade == SHADE_COOKIE);
}

static bool differs_at(const struct painted *block, uintptr_t granule, struct difference *difference)
{
    unsigned char left = shade_of_block(block->start, block->size, block->is_held, granule),
                  shade = *shadow_of(granule);
    if (LIKELY(shade == left) || is_given(granule, shade, left))
        return false;
    *difference = (struct difference){.granule = granule, .shade = shade, .left = left};
    return true;
}

/* In the redzone that begins there. */
static bool differs_in_redzone(const struct painted *block, uintptr_t start, struct difference *difference)
{
    uint32_t shades;
    __builtin_memcpy(&shades, block_shadow(start), sizeof shades);
    if (LIKELY(shades == SHADE_HEAP * UINT32_C(0x01010101)))
        return false;
    for (unsigned i = 0; i < RED_GRANULES; i++)
        if (differs_at(block, start + i * GRANULE, difference))
            return true;
    return false;
}

struct difference heap_find_difference(uint64_t address)
{
    struct difference difference = {0};
    struct painted block;
    if (!find_painted(address, &block))
        return difference;
    uintptr_t granule = address / GRANULE * GRANULE, end = block.start - REDZONE + span_bytes(block.size);
    uintptr_t last = block.size != 0 ? (block.start + block.size - 1) / GRANULE * GRANULE : block.start;
    (void)(differs_at(&block, granule, &difference)
           || (granule + GRANULE < end && differs_at(&block, granule + GRANULE, &difference))
           || differs_in_redzone(&block, block.start - REDZONE, &difference)
           || differs_at(&block, block.start, &difference) || differs_at(&block, last, &difference)
           || differs_in_redzone(&block, end - REDZONE, &difference));
    return difference.granule != 0 && is_still(&block, address) ? difference : (struct difference){0};
}
