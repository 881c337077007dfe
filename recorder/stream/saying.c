/* The class is said by the granule of the access if none of its bytes is addressable, and else by the next one. If that
   byte is a block's (a redzone, or freed), it comes from a block: the one that was found, or one that is made up, since
   notes may be gone or in the middle of a change. All other bytes come from poison, which has a kind. */
#include "stream/saying.h"

#include "shadow/shadow.h"

static bool is_in_span(const struct found *block, uint64_t granule)
{
    return granule - (block->start - REDZONE) < span_bytes(block->size);
}

static unsigned char shade_left(const struct found *block, uint64_t granule)
{
    return shade_of_block(block->start, block->size, block->is_held, granule);
}

static bool has_left(const struct found *found, uint64_t granule, unsigned char shade)
{
    return found->has_block && is_in_span(found, granule) && shade_left(found, granule) == shade;
}

/* A block that leaves this byte in a granule: it begins there, or is of no bytes and has its first redzone there. */
static struct found make_up(uint64_t granule, unsigned char shade)
{
    if (shade == SHADE_FREED)
        return (struct found){.start = granule, .size = GRANULE, .is_held = true};
    return (struct found){.start = granule + REDZONE};
}

static unsigned say_block(const struct found *block, struct statement *to)
{
    to[0] = (struct statement){.code = CODE_MALLOC, .address = block->start, .size = block->size};
    if (block->is_held)
        to[1] = (struct statement){.code = CODE_FREE, .address = block->start};
    return block->is_held ? 2 : 1;
}

/* So that a granule has this many addressable bytes. */
static unsigned say_bytes(uint64_t granule, unsigned had, unsigned has, struct statement *to)
{
    if (had > has)
        to[0] = (struct statement){CODE_POISON, KIND_USER, granule + has, GRANULE - has};
    if (had < has)
        to[0] = (struct statement){.code = CODE_UNPOISON, .address = granule, .size = has};
    return had != has;
}

/* By the block that has left `shade` in the granule that says the class. */
static unsigned say_by_block(const struct found *found, uint64_t granule, unsigned char shade, struct statement *to)
{
    struct found block = has_left(found, granule, shade) ? *found : make_up(granule, shade);
    unsigned count = say_block(&block, to), had = GRANULE;
    if (granule == found->granule)
        return count;
    if (is_in_span(&block, found->granule))
        had = addressable_of(shade_left(&block, found->granule));
    return count + say_bytes(found->granule, had, addressable_of(found->shade), &to[count]);
}

static enum kind kind_of(const struct found *found, unsigned char shade)
{
    if (addressable_of(shade) != 0)
        return KIND_USER; /* of bytes that nobody asks for their kind */
    if (found->is_of_heap)
        return is_of_frame(shade) ? KIND_STACK : KIND_USER;
    return shade_kind(shade);
}

unsigned say_access(const struct found *found, struct statement to[MOST_STATEMENTS])
{
    unsigned has = addressable_of(found->shade);
    uint64_t granule = has != 0 ? found->granule + GRANULE : found->granule, bad = found->granule + has;
    unsigned char shade = has != 0 ? found->next : found->shade;
    if (found->is_of_heap && (shade == SHADE_HEAP || shade == SHADE_FREED))
        return say_by_block(found, granule, shade, to);
    uint64_t end = addressable_of(shade) != 0 ? granule : granule + GRANULE;
    to[0] = (struct statement){CODE_POISON, kind_of(found, shade), bad, end - bad};
    return 1;
}

unsigned say_free(const struct found *found, struct statement to[MOST_STATEMENTS])
{
    return found->has_block ? say_block(found, to) : 0;
}
