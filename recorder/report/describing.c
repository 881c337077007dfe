/* An address is in the shadow's maps, in a block or near one, in a frame, or in a global. */
#define _GNU_SOURCE
#include "report/describing.h"

#include <string.h>

#include "base/memory.h"
#include "heap/arena.h"
#include "libc/family.h"
#include "report/code.h"
#include "shadow/globals.h"
#include "shadow/mapping.h"
#include "shadow/shadow.h"
#include "stacks/frames.h"
#include "stacks/own_stack.h"
#include "stacks/thread_notes.h"
#include "stream/near.h"

/* In or near it an address lies. */
enum what { IN_SHADOW, IN_HEAP, ON_STACK, IN_GLOBAL, NOWHERE };

struct found {
    enum what what;
    uintptr_t start; /* 0: nothing is known of the memory there */
    size_t size;
    struct nearest block;
    struct frame frame; /* it has no start: it is an array of dynamic size, or nothing is known of it */
    struct frame_variable variable;
    struct global global;
};

static void find_in_heap(uintptr_t address, struct found *found)
{
    if (!arena_find_nearest(address, &found->block) || found->block.start == 0)
        return;
    found->what = IN_HEAP;
    found->start = found->block.start;
    found->size = found->block.size;
}

/* The variable of a stack, or the global, that an address is in or nearest to. */
static void find_variable(uintptr_t address, struct found *found)
{
    uint64_t start, size;
    bool is_own = is_of_own_stack(address), is_array = frame_dynamic_array(address, &start, &size);
    if (!is_own && !is_array && globals_find(address, &found->global)) {
        found->what = IN_GLOBAL;
        found->start = found->global.start;
        found->size = found->global.size;
        return;
    }
    bool is_framed = !is_array && !globals_may_have(address) && frame_around(address, &found->frame);
    if (!is_framed)
        found->frame.start = 0;
    if (is_own || is_array || is_framed)
        found->what = ON_STACK;
    if (is_framed && frame_nearest(&found->frame, address, &found->variable)) {
        start = found->variable.start;
        size = found->variable.size;
        is_array = true;
    }
    found->start = is_array ? start : 0;
    found->size = is_array ? size : 0;
}

static void find(uintptr_t address, struct found *found)
{
    *found = (struct found){.what = NOWHERE};
    if (is_in_shadow(address))
        found->what = IN_SHADOW;
    else if (is_beyond(address, 1))
        return;
    else if (is_in_arena(address) && !is_frame_in_block(address, 1))
        find_in_heap(address, found);
    else
        find_variable(address, found);
}

/* The name of a variable. Answers its line, which some compilers put after it; 0: there is none. */
static uint64_t put_name(struct text *text, const struct found *found)
{
    char *name = text->at;
    uint64_t line = 0;
    if (found->what == IN_GLOBAL)
        text_put_from(text, (uintptr_t)found->global.name, SIZE_MAX);
    if (found->what != ON_STACK || found->frame.start == 0)
        return 0;
    text_put_from(text, found->variable.name, found->variable.name_length);
    char *colon = strrchr(name, ':');
    if (colon == NULL || colon[1] == 0 || colon[1 + strspn(colon + 1, "0123456789")] != 0)
        return 0;
    for (const char *digit = colon + 1; *digit != 0; digit++)
        line = line * 10 + (uint64_t)(*digit - '0');
    *(text->at = colon) = 0;
    return line;
}

const char *locate(uintptr_t address, char *name, size_t room, uintptr_t *start, size_t *size)
{
    static const char *const words[] = {"low shadow", "heap", "stack", "global", "heap-invalid"};
    struct found found;
    find(address, &found);
    if (name != NULL && room != 0) {
        struct text text = text_in(name, room);
        put_name(&text, &found);
    }
    if (start != NULL)
        *start = found.start;
    if (size != NULL)
        *size = found.size;
    return found.what == IN_SHADOW && is_in_guard(address) ? "shadow gap" : words[found.what];
}

size_t stack_of_block(uintptr_t address, bool of_free, uintptr_t *frames, size_t room, int *thread)
{
    struct nearest block;
    uint64_t all[MAX_FRAMES];
    if (thread != NULL)
        *thread = 0;
    if (!is_in_arena(address) || !arena_find_nearest(address, &block) || address - block.start > block.size)
        return 0;
    call_site of = of_free ? block.call_sites.freed : block.call_sites.allocated;
    unsigned count = frames_of(of, all);
    for (size_t i = 0; i < count && i < room; i++)
        frames[i] = all[i] - 1;
    if (thread != NULL && count != 0)
        *thread = (int)call_site_thread(of);
    return count < room ? count : room;
}

/* "0x.. is located 3 bytes after": an access that leaves it begins, seen from there, at its end. */
static void put_distance(struct text *text, const struct place *place, const struct found *found)
{
    uint64_t end = found->start + found->size, address = place->address, distance;
    bool is_freed = found->what == IN_HEAP && found->block.call_sites.freed != 0;
    bool is_before = address < found->start;
    bool is_inside = !is_before && (address + place->size <= end || (address < end && is_freed));
    if (!is_before && !is_inside && address < end)
        address = end;
    distance = is_before ? found->start - address : is_inside ? address - found->start : address - end;
    text_put_address(text, address);
    text_put(text, " is located ");
    text_put_number(text, distance);
    text_put(text, is_before ? " bytes before " : is_inside ? " bytes inside of " : " bytes after ");
}

static void put_call(struct text *text, const char *what, call_site of, const char *function)
{
    text_put(text, what);
    text_put(text, " by thread ");
    text_put_thread(text, call_site_thread(of));
    text_put(text, " here:\n");
    text_put_stack(text, of, 0, function);
}

/* The block, and where it was allocated and freed, if that was kept. */
static void put_block(struct text *text, const struct found *found)
{
    static const char *const made[] = {"malloc", "operator new(unsigned long)", "operator new[](unsigned long)",
                                       "malloc"};
    struct call_sites of = found->block.call_sites;
    text_put_number(text, found->size);
    text_put(text, "-byte region [");
    text_put_address(text, found->start);
    text_put(text, ",");
    text_put_address(text, found->start + found->size);
    text_put(text, ")\n");
    if (of.freed != 0)
        put_call(text, "freed", of.freed, family_free_name(found->block.family));
    if (of.allocated != 0)
        put_call(text, of.freed != 0 ? "previously allocated" : "allocated", of.allocated, made[found->block.family]);
    if (of.freed == 0 && of.allocated == 0)
        text_put(text, "\n");
}

static void put_global(struct text *text, const struct found *found)
{
    struct location location;
    bool has_line = found->global.location != NULL
                    && memory_read((uintptr_t)found->global.location, &location, sizeof location);
    text_put(text, "global variable '");
    put_name(text, found);
    text_put(text, "' defined in '");
    text_put_from(text, (uintptr_t)(has_line ? location.file : found->global.module), SIZE_MAX);
    if (has_line) {
        text_put(text, ":");
        text_put_number(text, location.line);
    }
    text_put(text, "' (");
    text_put_address(text, found->start);
    text_put(text, ") of size ");
    text_put_number(text, found->size);
    text_put(text, "\n");
}

/* How an access lies to a variable, by offsets in their frame. */
static const char *relation(const struct place *place, const struct frame_variable *variable)
{
    uint64_t end = variable->start + variable->size, after = place->address + place->size;
    if (place->address >= end)
        return "overflows";
    if (after <= variable->start)
        return "underflows";
    if (place->address < variable->start)
        return "partially underflows";
    return after <= end ? "is inside" : "partially overflows";
}

/* The variables of a frame, of which one was found. */
struct listed {
    struct text *text;
    const struct place *place;
    const struct found *found;
};

static void put_listed(const struct frame_variable *variable, void *with)
{
    const struct listed *listed = with;
    struct found found = {.what = ON_STACK, .frame = listed->found->frame, .variable = *variable};
    struct text *text = listed->text;
    uint64_t offset = variable->start - found.frame.start;
    text_put(text, "    [");
    text_put_number(text, offset);
    text_put(text, ", ");
    text_put_number(text, offset + variable->size);
    text_put(text, ") '");
    uint64_t line = put_name(text, &found);
    text_put(text, "'");
    if (line != 0) {
        text_put(text, " (line ");
        text_put_number(text, line);
        text_put(text, ")");
    }
    if (variable->start == listed->found->start) {
        text_put(text, " <== Memory access at offset ");
        text_put_number(text, listed->place->address - found.frame.start);
        text_put(text, " ");
        text_put(text, relation(listed->place, variable));
        text_put(text, " this variable");
    }
    text_put(text, "\n");
}

static void put_frame(struct text *text, const struct place *place, const struct found *found)
{
    const struct listed listed = {text, place, found};
    text_put(text, " at offset ");
    text_put_number(text, place->address - found->frame.start);
    text_put(text, " in frame\n");
    text_put_frame(text, 0, found->frame.function, NULL);
    text_put(text, "\n  This frame has ");
    text_put_number(text, frame_each_variable(&found->frame, NULL, NULL));
    text_put(text, " object(s):\n");
    frame_each_variable(&found->frame, put_listed, (void *)&listed);
}

/* Where it is, if there is nothing to say how far that is from. */
static void put_area(struct text *text, const struct place *place, const struct found *found)
{
    text_put(text, "Address ");
    text_put_address(text, place->address);
    if (found->what == IN_SHADOW) {
        text_put(text, is_in_guard(place->address) ? " is located in the shadow gap area.\n"
                                                   : " is located in the low shadow area.\n");
    } else if (found->what == ON_STACK) {
        text_put(text, " is located in stack of thread ");
        text_put_thread(text, thread_number());
        if (found->frame.start != 0)
            put_frame(text, place, found);
        else
            text_put(text, "\n");
    } else {
        text_put(text, " is a wild pointer inside of access range of size ");
        text_put_address(text, place->size);
        text_put(text, ".\n");
    }
}

void text_put_description(struct text *text, const struct place *place)
{
    struct found found;
    find(place->bad, &found);
    if (found.what != IN_HEAP && found.what != IN_GLOBAL) {
        put_area(text, place, &found);
        return;
    }
    put_distance(text, place, &found);
    if (found.what == IN_HEAP)
        put_block(text, &found);
    else
        put_global(text, &found);
}
