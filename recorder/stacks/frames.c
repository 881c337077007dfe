/* A frame with redzones begins with a left one. There the compilers write a number by which it is known, and the
   address of its description: "COUNT", and for each variable "OFFSET SIZE LENGTH NAME", where LENGTH is that of the
   name, which may end in ":LINE". What a frame that is gone has left may be anything, so nothing of it is believed. */
#include "stacks/frames.h"

#include <string.h>

#include "base/memory.h"
#include "shadow/shadow.h"
#include "stacks/fake_stack.h"

/* The most granules that are searched from memory that is certainly in a frame, from memory that may be in none, and
   the most variables. */
enum { MAX_GRANULES = 1 << 16, FEW_GRANULES = 1 << 11, MAX_VARIABLES = 1 << 12 };

/* The shadow of the shadow can't be read. */
static bool has_shadow(uint64_t address)
{
    return address < MEMORY_END && !is_in_hole(address) && !is_in_shadow(address);
}

/* Whether a granule, or the end of one, is a redzone of a frame. */
static bool is_in_frame(uint64_t granule)
{
    unsigned char shade = *shadow_of(granule);
    return is_of_frame(shade) || (shade != 0 && shade < GRANULE && is_of_frame(*shadow_of(granule + GRANULE)));
}

/* The first granule of a redzone that is a left one. */
static uint64_t redzone_start(uint64_t granule)
{
    for (unsigned seen = 0; seen < MAX_GRANULES && has_shadow(granule - GRANULE); seen++, granule -= GRANULE)
        if (*shadow_of(granule - GRANULE) != SHADE_LEFT)
            break;
    return granule;
}

/* The start of the frame that has this granule, 0 if there is none. */
static uint64_t frame_start(uint64_t granule)
{
    bool is_inside = false;
    unsigned most = has_shadow(granule) && is_in_frame(granule) ? MAX_GRANULES : FEW_GRANULES;
    for (unsigned seen = 0; seen < most && has_shadow(granule); seen++, granule -= GRANULE) {
        unsigned char shade = *shadow_of(granule);
        if (shade == SHADE_LEFT)
            return redzone_start(granule);
        if (shade == SHADE_GLOBAL || (shade == SHADE_RIGHT && is_inside))
            return 0; /* another frame ends there, or there is none */
        is_inside = shade != SHADE_RIGHT;
    }
    return 0;
}

/* A text that is read a piece at a time. */
struct text {
    uint64_t next; /* where the rest of it stands */
    size_t at, count;
    char piece[64];
};

/* The next letter; 0 at its end, or where it can't be read. */
static char peek(struct text *text)
{
    if (text->at == text->count) {
        /* Not across the end of what may be the last page of it. */
        text->count = sizeof text->piece - text->next % sizeof text->piece;
        text->at = 0;
        if (!memory_read(text->next, text->piece, text->count)) {
            text->piece[0] = 0;
            text->count = 1;
        }
        text->next += text->count;
    }
    return text->piece[text->at];
}

/* Where the next letter stands. */
static uint64_t place_of_text(const struct text *text)
{
    return text->next - (text->count - text->at);
}

static void skip(struct text *text, uint64_t letters)
{
    for (; letters > 0 && peek(text) != 0; letters--)
        text->at++;
}

/* A number, and the space after it. */
static uint64_t take_number(struct text *text)
{
    uint64_t number = 0;
    for (char letter = peek(text); letter >= '0' && letter <= '9'; letter = peek(text)) {
        number = number * 10 + (uint64_t)(letter - '0');
        text->at++;
    }
    if (peek(text) == ' ')
        text->at++;
    return number;
}

static struct frame_variable take_variable(struct text *text, uint64_t frame)
{
    struct frame_variable variable;
    variable.start = frame + take_number(text);
    variable.size = take_number(text);
    variable.name_length = take_number(text);
    variable.name = place_of_text(text);
    skip(text, variable.name_length);
    skip(text, 1); /* a space */
    return variable;
}

static uint64_t distance_of(uint64_t address, const struct frame_variable *variable)
{
    if (address < variable->start)
        return variable->start - address;
    uint64_t into = address - variable->start;
    return into < variable->size ? 0 : into - variable->size + 1;
}

bool frame_around(uint64_t address, struct frame *frame)
{
    uint64_t words[WORDS], fake = fake_start_of(address);
    frame->start = fake != 0 ? fake : frame_start(address / GRANULE * GRANULE);
    if (frame->start == 0 || !memory_read(frame->start, words, sizeof words))
        return false;
    if (words[WORD_MAGIC] != FRAME_MAGIC && (fake == 0 || words[WORD_MAGIC] != RETURNED_MAGIC))
        return false;
    frame->description = words[WORD_DESCRIPTION];
    frame->function = words[WORD_FUNCTION];
    return true;
}

uint64_t frame_each_variable(const struct frame *frame, void visit(const struct frame_variable *variable, void *with),
                             void *with)
{
    struct text text = {.next = frame->description};
    uint64_t count = take_number(&text), i = 0;
    for (; i < count && i < MAX_VARIABLES && peek(&text) != 0; i++) {
        struct frame_variable variable = take_variable(&text, frame->start);
        if (visit != NULL)
            visit(&variable, with);
    }
    return i;
}

/* The nearest one so far. */
struct nearest_variable {
    uint64_t address, least;
    struct frame_variable *found;
};

/* Of two that are as near it is the one before the address. */
static void take_nearer(const struct frame_variable *variable, void *with)
{
    struct nearest_variable *nearest = with;
    uint64_t far = distance_of(nearest->address, variable);
    if (far < nearest->least || (far == nearest->least && variable->start < nearest->address)) {
        nearest->least = far;
        *nearest->found = *variable;
    }
}

bool frame_nearest(const struct frame *frame, uint64_t address, struct frame_variable *found)
{
    *found = (struct frame_variable){0};
    struct nearest_variable nearest = {address, UINT64_MAX, found};
    frame_each_variable(frame, take_nearer, &nearest);
    return nearest.least != UINT64_MAX;
}

void frame_each_part(const struct frame *frame, size_t most, void visit(const char *text, size_t length, void *with),
                     void *with)
{
    struct text text = {.next = frame->description};
    while (most > 0 && peek(&text) != 0) {
        const char *part = text.piece + text.at;
        size_t room = text.count - text.at < most ? text.count - text.at : most;
        const char *end = memchr(part, 0, room);
        size_t length = end != NULL ? (size_t)(end - part) : room;
        visit(part, length, with);
        text.at += length;
        most -= length;
    }
}

/* Dynamic arrays: 32 bytes or more of SHADE_ALLOCA_LEFT, the array, whose last granule may be one in part, and as many
   bytes or more of SHADE_ALLOCA_RIGHT. */

static unsigned char shade_at(uint64_t granule)
{
    return has_shadow(granule) ? *shadow_of(granule) : 0;
}

/* The end of the array before this redzone. */
static uint64_t array_end(uint64_t granule)
{
    for (unsigned seen = 0; seen < MAX_GRANULES && shade_at(granule - GRANULE) == SHADE_ALLOCA_RIGHT; seen++)
        granule -= GRANULE;
    unsigned char last = shade_at(granule - GRANULE);
    return last != 0 && last < GRANULE ? granule - GRANULE + last : granule;
}

/* The first granule from this one on, up or down, that has this shade; 0: there is none near. */
static uint64_t find_shade(uint64_t granule, unsigned char shade, uint64_t step)
{
    for (unsigned seen = 0; seen < MAX_GRANULES && has_shadow(granule); seen++, granule += step)
        if (*shadow_of(granule) == shade)
            return granule;
    return 0;
}

bool frame_dynamic_array(uint64_t address, uint64_t *start, uint64_t *size)
{
    uint64_t granule = address / GRANULE * GRANULE, left = 0, right = 0;
    unsigned char shade = shade_at(granule);
    if (shade != 0 && shade < GRANULE)
        shade = shade_at(granule += GRANULE);
    if (shade == SHADE_ALLOCA_RIGHT) {
        right = granule;
        left = find_shade(granule, SHADE_ALLOCA_LEFT, -(uint64_t)GRANULE);
    } else if (shade == SHADE_ALLOCA_LEFT) {
        while (shade_at(granule + GRANULE) == SHADE_ALLOCA_LEFT)
            granule += GRANULE;
        left = granule;
        right = find_shade(granule, SHADE_ALLOCA_RIGHT, GRANULE);
    }
    if (left == 0 || right == 0)
        return false;
    *start = left + GRANULE;
    uint64_t end = array_end(right);
    *size = end > *start ? end - *start : 0;
    return true;
}
