/* A region takes one place for its record, and is left out if it can't be spelled; only memory that is unused is cut
   into pieces. */
#include "stream/regions.h"

#include "stream/places.h"
#include "stream/sending.h"
#include "stream/side.h"
#include "stream/state.h"
#include "stream/writing.h"

static bool can_be_spelled(uint64_t address, uint64_t size)
{
    return size <= MAX_REGION_SIZE && address <= MEMORY_END - size && !is_in_hole(address);
}

/* After a record is written. */
static void look_at_clock(void)
{
    if (UNLIKELY(atomic_load_explicit(&STREAM->is_watched, memory_order_relaxed)))
        stream_look_at_clock(false);
}

void record_region(enum code code, uint64_t address, uint64_t size)
{
    unsigned char *at = can_be_spelled(address, size) ? stream_reserve(REGION_LENGTH, code == CODE_MALLOC) : NULL;
    if (at == NULL)
        return;
    put_number(at + 1, spelled(address));
    put_number(at + 9, size);
    put_code(at, code);
    look_at_clock();
}

static void put_poison(enum kind kind, uint64_t address, uint64_t size, bool is_of_heap)
{
    unsigned char *at = can_be_spelled(address, size) ? stream_reserve(POISON_LENGTH, is_of_heap) : NULL;
    if (at == NULL)
        return;
    at[1] = (unsigned char)kind;
    put_number(at + 2, spelled(address));
    put_number(at + 10, size);
    put_code(at, CODE_POISON);
    look_at_clock();
}

void record_poison(enum kind kind, uint64_t address, uint64_t size)
{
    put_poison(kind, address, size, false);
}

uint64_t region_piece(uint64_t address, uint64_t size)
{
    uint64_t most = MAX_REGION_SIZE - address % MAX_REGION_SIZE;
    return size < most ? size : most;
}

void record_unused(uint64_t address, uint64_t size)
{
    for (uint64_t piece; size > 0; address += piece, size -= piece) {
        piece = region_piece(address, size);
        if (is_lean())
            side_note_left_good();
        else
            put_poison(KIND_USER, address, piece, true);
    }
}

void record_free(uint64_t address)
{
    unsigned char *at = address < MEMORY_END && !is_in_hole(address) ? stream_reserve(FREE_LENGTH, true) : NULL;
    if (at == NULL)
        return;
    put_number(at + 1, spelled(address));
    put_code(at, CODE_FREE);
    look_at_clock();
}
