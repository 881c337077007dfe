/* A freed block of more bytes than the collector holds is found in pieces, each a block of its own. Where the notes are
   gone, all of it was freed: one block, as large as can be. */
#include "heap/finding.h"

#include "heap/blocks.h"
#include "heap/retiring.h"
#include "shadow/shadow.h"

enum { PIECE = 1 << 24 };
_Static_assert(PIECE + 2 * REDZONE <= QUARANTINE_BOUND, "a piece can be held");

static void put_block(struct found *found, uintptr_t start, uint32_t size, bool is_held)
{
    found->has_block = true;
    found->start = start;
    found->size = size;
    found->is_held = is_held;
}

/* The block, or the piece of it that has this address. */
static void put_piece(struct found *found, uintptr_t start, uint32_t size, uintptr_t address)
{
    uint32_t into = (uint32_t)(address - start) / PIECE * PIECE, rest = size - into;
    if (span_bytes(size) <= QUARANTINE_BOUND)
        put_block(found, start, size, true);
    else if (address - start < size)
        put_block(found, start + into, rest < PIECE ? rest : PIECE, true);
}

/* For blocks freed in this many bytes from a multiple of them on: one whose redzones are there too. */
static void put_forgotten(struct found *found, uintptr_t address, size_t bytes)
{
    put_block(found, address / bytes * bytes + REDZONE, (uint32_t)bytes - 2 * REDZONE, true);
}

/* The block in whose slot or run an address is, if there is one. */
static void find_block(struct found *found, uintptr_t address)
{
    struct block block;
    uintptr_t start;
    size_t forgotten = retiring_forgot(address);
    found->has_block = false;
    if (forgotten != 0)
        put_forgotten(found, address, forgotten);
    else if (!arena_find_around(address, &block, &start) || block.state == BLOCK_UNRECORDED)
        return;
    else if (block.state == BLOCK_HELD)
        put_piece(found, start, block.size, address);
    else
        put_block(found, start, block.size, false);
}

/* The byte of a granule. The shadow of retired memory says only that it is bad, which is all there is to say of a block
   that was not recorded. */
static unsigned char shade_of(uintptr_t granule, unsigned char shade)
{
    struct found found;
    if (shade != SHADE_USER || !retiring_has(granule) || arena_has_freed_unrecorded(granule))
        return shade;
    find_block(&found, granule);
    bool is_near = found.has_block && granule - (found.start - REDZONE) < span_bytes(found.size);
    unsigned char left = is_near ? shade_of_block(found.start, found.size, found.is_held, granule) : SHADE_HEAP;
    return addressable_of(left) == 0 ? left : SHADE_HEAP; /* the notes may be in the middle of a change */
}

void heap_find_state(struct found *found)
{
    bool has_next = addressable_of(found->shade) != 0;
    uint64_t next = found->granule + GRANULE;
    found->shade = shade_of(found->granule, found->shade);
    found->next = has_next ? shade_of(next, found->next) : found->next;
    unsigned char shade = has_next ? found->next : found->shade;
    if (shade == SHADE_HEAP || shade == SHADE_FREED)
        find_block(found, has_next ? next : found->granule);
}

bool heap_find_freed(uint64_t address, struct found *found)
{
    const struct block *block = block_from((const void *)address);
    found->has_block = false;
    if (block == NULL)
        return true;
    struct block now = {.size = NOTE_NOW(block->size)};
    now.all_bits = NOTE_NOW(block->all_bits);
    if (now.state == BLOCK_HELD)
        put_piece(found, address, now.size, address);
    return now.state != BLOCK_LIVE && now.state != BLOCK_UNRECORDED;
}
