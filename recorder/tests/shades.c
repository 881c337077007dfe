/* What the recorder's shadow says and becomes, beside crates/asan_shades, which proves that it is what the collector
   makes of the events: accesses by each shadow byte that a granule may have, all small regions and blocks on small
   memory, and drawn ones. A region is clean if no access to one of its bytes is bad. And the statements before a
   bad access outside blocks make the collector's bytes those of the shadow.
   Prints how many answers were compared, and the first that differ; the status is 1 if one does. */
#define _GNU_SOURCE
#include <stdbool.h>
#include <stdint.h>
#include <stdio.h>
#include <string.h>

enum { MOST_GRANULES = 1 << 12 };
static unsigned char memory[MOST_GRANULES + 64];
/* Address 0 has the first byte of it. */
#define SHADOW_START ((uint64_t)(uintptr_t)memory)

#include "shadow/shadow.c"

#include "heap/paint.h"
#include "stream/saying.c"

bool asan_shades_is_bad(uint8_t shadow, uint64_t at, uint8_t width);
uint8_t asan_shades_poisoned(uint8_t code, uint64_t at, uint64_t end, uint8_t shadow, uint64_t granule);
uint8_t asan_shades_unpoisoned(uint64_t at, uint64_t end, uint8_t shadow, uint64_t granule);
uint8_t asan_shades_left_byte(uint64_t at, uint64_t size, bool is_held, uint8_t shadow, uint64_t granule);

static unsigned long compared, differ;

static void compare(const char *what, uint64_t at, uint64_t size, uint64_t granule, unsigned here, unsigned proved)
{
    compared++;
    if (here != proved && differ++ < 10)
        printf("%s at %#jx of %ju bytes, granule %ju: %02x, and proved %02x\n", what, (uintmax_t)at, (uintmax_t)size,
               (uintmax_t)granule, here, proved);
}

/* Bytes that a shadow has: those of whole and of partial granules, and codes. */
static const unsigned char shades[] = {0, 1, 2, 3, 4, 5, 6, 7, SHADE_USER, SHADE_HEAP, SHADE_FREED, 0x80, 0xff};
enum { SHADES = sizeof shades };

static void compare_accesses(void)
{
    for (unsigned shade = 0; shade < 256; shade++)
        for (uint64_t at = 0; at < 2 * GRANULE && (shade < GRANULE || shade >= 0x80); at++)
            for (unsigned width = 1; width <= GRANULE; width *= 2) {
                memory[0] = memory[1] = (unsigned char)shade;
                compare("access", at, width, at / GRANULE, shadow_is_bad(at, width),
                        asan_shades_is_bad((uint8_t)shade, at, (uint8_t)width));
            }
}

static void compare_first_bad(uint64_t at, uint64_t size)
{
    uint64_t end = at + size, first = at;
    while (first < end && !asan_shades_is_bad(memory[first / GRANULE], first, 1))
        first++;
    compare("clean", at, size, at / GRANULE, shadow_is_clean(at, size), first == end);
    compare("first bad", at, size, at / GRANULE, (unsigned)shadow_first_bad(at, size), (unsigned)first);
}

/* Of this many granules. */
static void compare_region(const unsigned char *before, size_t count, uint64_t at, uint64_t size)
{
    memcpy(memory, before, count);
    compare_first_bad(at, size);
    shadow_poison(at, size, SHADE_USER);
    for (uint64_t i = 0; i < count; i++)
        compare("poison", at, size, i, memory[i], asan_shades_poisoned(SHADE_USER, at, at + size, before[i], i));
    memcpy(memory, before, count);
    shadow_unpoison(at, size);
    for (uint64_t i = 0; i < count; i++)
        compare("unpoison", at, size, i, memory[i], asan_shades_unpoisoned(at, at + size, before[i], i));
}

/* Each region of three granules with any three bytes. */
static void compare_small_regions(void)
{
    enum { COUNT = 3, END = COUNT * GRANULE };
    for (unsigned drawn = 0; drawn < SHADES * SHADES * SHADES; drawn++) {
        unsigned char before[COUNT] = {shades[drawn % SHADES], shades[drawn / SHADES % SHADES],
                                       shades[drawn / SHADES / SHADES]};
        for (uint64_t at = 0; at < END; at++)
            for (uint64_t size = 0; size <= END - at; size++)
                compare_region(before, COUNT, at, size);
    }
}

static void compare_block(const unsigned char *before, size_t count, uint64_t at, uint64_t size)
{
    memcpy(memory, before, count);
    paint_redzones(at, size);
    paint_live(at, size);
    for (uint64_t i = 0; i < count; i++)
        compare("malloc", at, size, i, memory[i], asan_shades_left_byte(at, size, false, before[i], i));
    paint_held(at, size);
    for (uint64_t i = 0; i < count; i++) {
        compare("free", at, size, i, memory[i], asan_shades_left_byte(at, size, true, before[i], i));
        uint64_t granule = i * GRANULE;
        if (granule < at - REDZONE || granule >= at - REDZONE + span_bytes(size))
            continue; /* shade_of_block is of a granule of the block's span */
        for (unsigned is_held = 0; is_held < 2; is_held++)
            compare("shade_of_block", at, size, i, shade_of_block(at, size, is_held, granule),
                    asan_shades_left_byte(at, size, is_held, before[i], i));
    }
    paint_released(at, size);
    for (uint64_t i = 0; i < count; i++) {
        bool is_in_span = i * GRANULE >= at - REDZONE && i * GRANULE < at - REDZONE + span_bytes(size);
        compare("release", at, size, i, memory[i], is_in_span ? SHADE_HEAP : before[i]);
    }
}

/* ---- the statement before an access to granule 1 */

/* A poison's code in the collector. */
static uint8_t code_of(enum kind kind)
{
    return kind == KIND_USER ? SHADE_USER : kind == KIND_GLOBAL ? SHADE_GLOBAL : 0xf2;
}

/* A byte of the recorder's as the collector has it. */
static uint8_t as_stated(unsigned char shade)
{
    return addressable_of(shade) != 0 ? shade : code_of(shade_kind(shade));
}

static bool is_shade(unsigned shade)
{
    return shade < GRANULE || shade >= 0x80;
}

/* In a history that begins there. */
static void compare_statement(unsigned char here, unsigned char next)
{
    struct found found = {.granule = GRANULE, .shade = here, .next = next};
    struct statement poison[MOST_STATEMENTS];
    compare("statements", GRANULE, GRANULE, 1, say_access(&found, poison), 1);
    uint64_t at = poison->address, end = at + poison->size;
    uint8_t code = code_of(poison->kind);
    compare("stated", GRANULE, GRANULE, 1, as_stated(here), asan_shades_poisoned(code, at, end, 0, 1));
    if (addressable_of(here) == 0)
        return;
    bool is_left = addressable_of(next) != 0; /* its first byte is addressable, and no more is asked */
    compare("stated", GRANULE, GRANULE, 2, is_left ? 0 : as_stated(next), asan_shades_poisoned(code, at, end, 0, 2));
}

static void compare_statements(void)
{
    for (unsigned here = 1; here < 256; here++)
        for (unsigned next = 0; next < 256; next++)
            if (is_shade(here) && is_shade(next))
                compare_statement((unsigned char)here, (unsigned char)next);
}

static void compare_small_blocks(void)
{
    enum { COUNT = 64, ROOM = COUNT * GRANULE };
    for (unsigned drawn = 0; drawn < SHADES; drawn++) {
        unsigned char before[COUNT];
        memset(before, shades[drawn], sizeof before);
        for (uint64_t at = REDZONE; at < REDZONE + 4 * GRANULE; at += GRANULE)
            for (uint64_t size = 0; at - REDZONE + span_bytes(size) <= ROOM; size++)
                compare_block(before, COUNT, at, size);
    }
}

static uint64_t draw(uint64_t below)
{
    static uint64_t state = 88172645463325252;
    state ^= state << 13, state ^= state >> 7, state ^= state << 17;
    return state % below;
}

/* Memory where one granule in this many may be bad. */
static void draw_memory(unsigned char *at, size_t count, uint64_t rareness)
{
    for (size_t i = 0; i < count; i++)
        at[i] = draw(rareness) != 0 ? 0 : shades[draw(SHADES)];
}

static void compare_drawn_checks(void)
{
    enum { COUNT = 256 };
    for (unsigned round = 0; round < 20000; round++) {
        draw_memory(memory, COUNT, (uint64_t)2 << round % 10);
        uint64_t at = draw(COUNT * GRANULE), size = draw((uint64_t)32 << round % 7);
        compare_first_bad(at, size < COUNT * GRANULE - at ? size : COUNT * GRANULE - at);
    }
}

static void compare_drawn(void)
{
    static unsigned char before[MOST_GRANULES];
    for (unsigned round = 0; round < 400; round++) {
        draw_memory(before, MOST_GRANULES, 3);
        uint64_t at = draw(MOST_GRANULES * GRANULE), start = REDZONE + draw(MOST_GRANULES / 2) * GRANULE;
        compare_region(before, MOST_GRANULES, at, draw(MOST_GRANULES * GRANULE - at + 1));
        uint64_t room = MOST_GRANULES * GRANULE - start - 2 * REDZONE;
        compare_block(before, MOST_GRANULES, start, draw(room));
    }
}

int main(void)
{
    compare_accesses();
    compare_small_regions();
    compare_small_blocks();
    compare_statements();
    compare_drawn_checks();
    compare_drawn();
    printf("%lu of %lu answers differ from the proved ones\n", differ, compared);
    return differ != 0;
}
