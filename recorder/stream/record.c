/* Ranges and regions, cut into records. writing.h, watched.c and regions.c write the bytes. Only a struct access is
   kept, on the stack, while its pieces are recorded. */
#include "stream/record.h"

#include "base/memory.h"
#include "environment/asan_options.h"
#include "shadow/shadow.h"
#include "stream/access.h"
#include "stream/side.h"
#include "stream/state.h"

struct told record_told(enum code code, unsigned width, uint64_t address, uintptr_t caller, const struct access *whole)
{
    struct told told = {.code = code, .caller = caller, .address = address, .size = width};
    if (whole == NULL)
        return told;
    told.size = whole->size;
    told.call = whole->call;
    if (code != CODE_FREE)
        told.address = whole->call != NULL ? shadow_first_bad(address, width) : whole->start;
    return told;
}

__attribute__((noinline, cold)) void record_tell(enum code code, unsigned width, uint64_t address, uintptr_t caller,
                                                 const struct access *whole, uint64_t event)
{
    struct told told = record_told(code, width, address, caller, whole);
    told.event = event;
    above.tell(&told);
}

#if MEMORY_VARIES

/* The upper byte may be a tag, which processors ignore. */
void record_note_beyond(uint64_t address)
{
    struct known_page page = {0};
    if (memory_is_there(&page, address & UINT64_MAX >> 8, 1))
        side_note_skipped(SKIPPED_BEYOND);
}

#endif

/* The widest access at an address that is a multiple of its width, in a range of this many bytes. */
static unsigned piece_at(uint64_t address, uint64_t size)
{
    unsigned width = 8;
    while (width > size || (address & (width - 1)) != 0)
        width /= 2;
    return width;
}

void record_first_of(enum code code, unsigned width, uint64_t address, uint64_t size, uintptr_t caller)
{
    struct access access = access_of(code, address, size, caller, NULL);
    record_piece_of(code, width, address, caller, &access);
}

void record_range(enum code code, uint64_t address, uint64_t size, uintptr_t caller)
{
    struct access access = access_of(code, address, size, caller, NULL);
    for (unsigned width; size > 0; address += width, size -= width) {
        width = piece_at(address, size);
        if (address > MEMORY_END - width)
            return;
        record_piece_of(code, width, address, caller, &access);
    }
}

/* The most bad pieces of one call that are recorded, and granules that are looked at after the first of them: a size
   may be that of a mistake. For the first one as many bytes are looked at as a block may have. */
enum { MAX_PIECES = 64, MAX_LOOKS = 1 << 20 };

/* Records the pieces of an access that the shadow flags. */
static void record_bad_pieces(struct access *access, uint64_t address, uint64_t size)
{
#if MEMORY_VARIES
    if (is_beyond(address, 1)) {
        record_note_beyond(address);
        return;
    }
#endif
    uint64_t bad = shadow_first_bad(address, size < MAX_REGION_SIZE ? size : MAX_REGION_SIZE);
    uint64_t skipped = bad / GRANULE * GRANULE > address ? bad / GRANULE * GRANULE - address : 0;
    unsigned width, pieces = 0;
    address += skipped;
    size -= skipped;
    for (unsigned looks = 0; size > 0 && looks < MAX_LOOKS; looks++, address += width, size -= width) {
        width = piece_at(address, size);
        if (address > MEMORY_END - width || is_in_shadow(address))
            return;
        if (!shadow_is_bad(address, width))
            continue;
        record_piece_of(access->code, width, address, access->caller, access);
        if (++pieces == MAX_PIECES)
            return;
    }
}

void record_bad_range(enum code code, uint64_t address, uint64_t size, uintptr_t caller)
{
    record_bad_call(code, address, size, 0, caller, NULL);
}

void record_bad_call(enum code code, uint64_t address, uint64_t size, uint64_t good, uintptr_t caller, const char *call)
{
    struct access access = access_of(code, address, size, caller, call);
    if (call == NULL || asan_options_check_call(call))
        record_bad_pieces(&access, address + good, size - good);
}

/* A poison is first in the shadow, and an unpoison first in the stream, as with blocks (paint.h). Outside the
   allocator's memory the stream hears of it when an access comes (group.h), and in lean recording everywhere. */
static void record_piece(enum code code, unsigned char shade, uint64_t address, uint64_t size)
{
    if (is_in_arena(address))
        shadow_note_poison(address, size);
    if (code == CODE_POISON) {
        if (is_in_arena(address))
            above.poisons_in_heap();
        shadow_poison(address, size, shade);
        if (is_in_arena(address) && is_lean())
            side_note_left_good();
        else if (is_in_arena(address))
            record_poison(KIND_USER, address, size);
    } else {
        unsigned segment;
        do {
            segment = atomic_load(&STREAM->segment);
            if (is_in_arena(address) && is_lean())
                side_note_left_good();
            else if (is_in_arena(address))
                record_region(code, address, size);
            shadow_unpoison(address, size);
            /* A segment that has begun before the shadow was changed does not know of it. */
        } while (segment != atomic_load(&STREAM->segment));
    }
}

/* In pieces that end at multiples of the largest region: at granules, since elsewhere one would be treated twice in
   part, and at the ends of the allocator's memory. */
static void record_pieces(enum code code, unsigned char shade, uint64_t address, uint64_t size)
{
    if (address >= MEMORY_END)
        return;
    size = size > MEMORY_END - address ? MEMORY_END - address : size;
    for (uint64_t piece; size > 0; address += piece, size -= piece) {
        piece = region_piece(address, size);
        record_piece(code, shade, address, piece);
    }
}

void record_regions(enum code code, uint64_t address, uint64_t size)
{
    record_pieces(code, SHADE_USER, address, size);
}

void record_poison_as(unsigned char shade, uint64_t address, uint64_t size)
{
    record_pieces(CODE_POISON, shade, address, size);
}
