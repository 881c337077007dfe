/* The statements before a bad access (stream/saying.c), and a collector of some lines: in a history that begins
   there, it has as many addressable bytes in the granule of the access as the shadow, and says the same class. Each
   shadow byte of the granule and of the next one, with no block, and with each live or freed one of some sizes near it:
   so notes may say anything. A block that has left the byte that says the class is the one that is stated. With PROVED
   the statements are also those of crates/asan_plan, before frees too, and for drawn ones.
   Prints how many were compared, and the first that are wrong; the status is 1 if one is. */
#include <stdbool.h>
#include <stdint.h>
#include <stdio.h>
#include <string.h>

#include "shadow/shadow.h"
#include "stream/saying.h"

/* Address 0 has the first byte of it; the granule of the access is in the middle. */
enum { GRANULES = 64, HERE = 32 * GRANULE, NEXT = HERE + GRANULE };
static unsigned char memory[GRANULES];
static unsigned long compared, wrong;

/* ---- the collector */

static void poison_part(uint64_t granule, unsigned from, unsigned to, unsigned char code)
{
    unsigned count = addressable_of(memory[granule]);
    if (from < count && count <= to)
        memory[granule] = from == 0 ? code : (unsigned char)from;
}

static void poison(uint64_t start, uint64_t size, unsigned char code)
{
    for (uint64_t at = start; at < start + size; at = at / GRANULE * GRANULE + GRANULE) {
        uint64_t granule = at / GRANULE, end = start + size - granule * GRANULE;
        poison_part(granule, (unsigned)(at % GRANULE), end < GRANULE ? (unsigned)end : GRANULE, code);
        if (at % GRANULE == 0 && end >= GRANULE)
            memory[granule] = code;
    }
}

static void unpoison(uint64_t start, uint64_t size)
{
    uint64_t last = (start + size) / GRANULE;
    if (size == 0)
        return;
    memset(memory + start / GRANULE, 0, last - start / GRANULE);
    if (addressable_of(memory[last]) < (start + size) % GRANULE)
        memory[last] = (unsigned char)((start + size) % GRANULE);
}

/* False: it is no event of a history that begins there. */
static bool apply(const struct statement *event, const struct statement *before)
{
    static const unsigned char codes[] = {SHADE_USER, 0xf2, SHADE_GLOBAL};
    switch (event->code) {
    case CODE_MALLOC:
        poison(event->address - REDZONE, span_bytes(event->size), SHADE_HEAP);
        unpoison(event->address, event->size);
        return before == NULL && event->address % GRANULE == 0;
    case CODE_FREE:
        poison(event->address, span_bytes(before->size) - 2 * REDZONE, SHADE_FREED);
        return before->code == CODE_MALLOC && before->address == event->address;
    case CODE_POISON:
        poison(event->address, event->size, codes[event->kind]);
        return true;
    case CODE_UNPOISON:
        unpoison(event->address, event->size);
        return true;
    default:
        return false;
    }
}

/* ---- the comparison */

/* The collector's byte for one of the recorder's. */
static unsigned char code_of(unsigned char shade, bool is_of_heap)
{
    if (addressable_of(shade) != 0)
        return shade;
    if (is_of_heap && (shade == SHADE_HEAP || shade == SHADE_FREED))
        return shade;
    if (is_of_heap)
        return is_of_frame(shade) ? 0xf2 : SHADE_USER;
    enum kind kind = shade_kind(shade);
    return kind == KIND_USER ? SHADE_USER : kind == KIND_GLOBAL ? SHADE_GLOBAL : 0xf2;
}

static bool is_block(const struct found *found, const struct statement *stated, unsigned count)
{
    bool is_freed = count > 1 && stated[1].code == CODE_FREE;
    return stated->code == CODE_MALLOC && stated->address == found->start && stated->size == found->size
           && is_freed == found->is_held;
}

/* Whether the block has left the byte that says the class. */
static bool decides(const struct found *found, uint64_t granule, unsigned char shade)
{
    return found->has_block && found->is_of_heap && (shade == SHADE_HEAP || shade == SHADE_FREED)
           && granule >= found->start - REDZONE && granule < found->start - REDZONE + span_bytes(found->size)
           && shade_of_block(found->start, found->size, found->is_held, granule) == shade;
}

static const char *judge(const struct found *found, const struct statement *stated, unsigned count)
{
    unsigned has = addressable_of(found->shade);
    unsigned char shade = has != 0 ? found->next : found->shade, is = memory[(has != 0 ? NEXT : HERE) / GRANULE];
    if (count == 0 || count > MOST_STATEMENTS)
        return "the number of statements";
    if (addressable_of(memory[HERE / GRANULE]) != has)
        return "the addressable bytes";
    if (addressable_of(shade) != 0 ? addressable_of(is) == 0 : is != code_of(shade, found->is_of_heap))
        return "the class";
    if (decides(found, has != 0 ? NEXT : HERE, shade) && !is_block(found, stated, count))
        return "the block";
    return NULL;
}

static void count_one(const struct found *found, const char *what)
{
    compared++;
    if (what == NULL || wrong++ >= 10)
        return;
    const char *block = found->has_block ? found->is_held ? "freed" : "live" : "missing";
    printf("%s of %02x, %02x%s at %#jx, with a %s block of %u bytes at %#jx\n", what, found->shade, found->next,
           found->is_of_heap ? " of the heap" : "", (uintmax_t)found->granule, block, found->size,
           (uintmax_t)found->start);
}

/* ---- the proved statements */

#ifdef PROVED

struct asked {
    uint64_t granule, at, size; /* its number; and a block */
    uint8_t here, next, block;  /* 0: there is none; 1: it is live; 2: it is held */
};
struct proved {
    uint64_t address, size;
    uint8_t code, kind;
};
/* How many there are; more than the most: it was asked in a way that says nothing. */
uint32_t asan_plan_access(const struct asked *asked, struct proved *statements, size_t count);
uint32_t asan_plan_free(const struct asked *asked, struct proved *statements, size_t count);

static struct asked asked_of(const struct found *found)
{
    return (struct asked){.granule = found->granule / GRANULE,
                          .at = found->start,
                          .size = found->size,
                          .here = code_of(found->shade, found->is_of_heap),
                          .next = code_of(found->next, found->is_of_heap),
                          .block = !found->has_block ? 0
                                   : found->is_held  ? 2
                                                     : 1};
}

static bool are_proved(const struct statement *stated, unsigned count, const struct proved *proved, uint32_t wanted)
{
    bool are = count == wanted && count <= MOST_STATEMENTS;
    for (unsigned i = 0; are && i < count; i++)
        are = stated[i].code == proved[i].code && stated[i].address == proved[i].address
              && stated[i].size == proved[i].size && (unsigned)stated[i].kind == proved[i].kind;
    return are;
}

static void compare_with_proved(const struct found *found)
{
    struct statement stated[MOST_STATEMENTS];
    struct proved proved[MOST_STATEMENTS];
    struct asked asked = asked_of(found);
    unsigned count = say_access(found, stated);
    uint32_t wanted = asan_plan_access(&asked, proved, MOST_STATEMENTS);
    count_one(found, are_proved(stated, count, proved, wanted) ? NULL : "other statements than proved");
    count = say_free(found, stated);
    wanted = asan_plan_free(&asked, proved, MOST_STATEMENTS);
    count_one(found, are_proved(stated, count, proved, wanted) ? NULL : "other statements than proved before a free");
}

static uint64_t draw(uint64_t below)
{
    static uint64_t state = 88172645463325252;
    state ^= state << 13, state ^= state >> 7, state ^= state << 17;
    return state % below;
}

/* A granule anywhere, and a block that begins or ends near it. */
static void compare_drawn(void)
{
    enum { ROUNDS = 1000000, NEAR = 16 };
    static const unsigned char usual[] = {SHADE_HEAP, SHADE_FREED, SHADE_USER, 0, 5};
    for (unsigned round = 0; round < ROUNDS; round++) {
        struct found found = {.is_of_heap = draw(4) != 0, .has_block = draw(8) != 0, .is_held = draw(2) != 0};
        found.size = (uint32_t)draw((uint64_t)1 << draw(33));
        found.granule = MAX_REGION_SIZE + draw(ADDRESS_END / GRANULE / 2) * GRANULE;
        found.start = found.granule + (NEAR - draw(2 * NEAR)) * GRANULE;
        if (draw(2) != 0)
            found.start -= found.size / GRANULE * GRANULE;
        found.shade = draw(2) != 0 ? (unsigned char)(1 + draw(GRANULE - 1)) : usual[draw(3)];
        found.next = draw(4) != 0 ? usual[draw(sizeof usual)] : (unsigned char)(0x80 + draw(0x80));
        compare_with_proved(&found);
    }
}

#else

static void compare_with_proved(const struct found *found)
{
    (void)found;
}

static void compare_drawn(void)
{
}

#endif

/* ---- small memory */

static void compare(const struct found *found)
{
    struct statement stated[MOST_STATEMENTS];
    const char *what = NULL;
    memset(memory, 0, sizeof memory);
    unsigned count = say_access(found, stated);
    for (unsigned i = 0; i < count && i < MOST_STATEMENTS; i++)
        if (!apply(&stated[i], i == 0 ? NULL : &stated[i - 1]))
            what = "the statement";
    count_one(found, what != NULL ? what : judge(found, stated, count));
    compare_with_proved(found);
}

static void compare_blocks(struct found found)
{
    static const uint32_t sizes[] = {0, 1, 5, 8, 13, 24, 40};
    compare(&found);
    found.has_block = true;
    for (unsigned i = 0; i < 2 * sizeof sizes / sizeof *sizes; i++)
        for (found.start = HERE - 96; found.start <= HERE + 96; found.start += GRANULE) {
            found.size = sizes[i / 2];
            found.is_held = i % 2;
            compare(&found);
        }
}

int main(void)
{
    for (unsigned shade = 1; shade < 256; shade++)
        for (unsigned next = 0; next < 256; next++) {
            if ((shade >= GRANULE && shade < 0x80) || (next >= GRANULE && next < 0x80))
                continue;
            struct found found = {.granule = HERE, .shade = (unsigned char)shade, .next = (unsigned char)next};
            compare(&found);
            found.is_of_heap = true;
            compare_blocks(found);
        }
    compare_drawn();
    printf("%lu of %lu are wrong\n", wrong, compared);
    return wrong != 0;
}
