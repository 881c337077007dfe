/* Nothing is kept but the frames' descriptions that were put among the stacks last (`descriptions`). */
#define _GNU_SOURCE
#include "stream/near.h"

#include <string.h>

#include "base/digits.h"
#include "base/memory.h"
#include "base/platform.h"
#include "shadow/globals.h"
#include "stream/state.h"

/* Adds to a name. False: it does not fit, and nothing is added. */
static bool add(char *name, const char *text)
{
    size_t length = strlen(name);
    if (length + strlen(text) >= SIDE_NAME)
        return false;
    strcpy(name + length, text);
    return true;
}

/* Reads a path, without its folders if there is no room for all. */
static bool read_file_name(uintptr_t path, char file[SIDE_NAME])
{
    bool is_cut = false, is_within_name = false;
    while (memory_read_text(path, file, SIDE_NAME)) {
        const char *last = strrchr(file, '/');
        if (strlen(file) < SIDE_NAME - 1) {
            if (last != NULL && is_cut)
                memmove(file, last + 1, strlen(last));
            return last != NULL || !is_within_name;
        }
        is_cut = true;
        is_within_name = last == NULL;
        path += is_within_name ? SIDE_NAME - 1 : (uintptr_t)(last + 1 - file);
    }
    return false;
}

/* " FILE:LINE" after a name: with the file alone if its folders do not fit, or not at all. */
static void add_location(char *name, const struct location *at)
{
    struct location location;
    char file[SIDE_NAME], line[DIGITS_ROOM];
    size_t length = strlen(name);
    if (at == NULL || !memory_read((uintptr_t)at, &location, sizeof location)
        || !read_file_name((uintptr_t)location.file, file))
        return;
    char *text = put_digits(line + sizeof line, location.line, 0);
    *--text = ':';
    const char *last = strrchr(file, '/');
    const char *const files[] = {file, last != NULL ? last + 1 : file};
    for (int i = 0; i < 2; i++) {
        if (add(name, " ") && add(name, files[i]) && add(name, text))
            return;
        name[length] = 0;
    }
}

void near_name_global(const struct global *global, char name[SIDE_NAME])
{
    if (memory_read_text((uintptr_t)global->name, name, SIDE_NAME))
        add_location(name, global->location);
}

void near_global(uint64_t address, struct side_fault *fault)
{
    struct global global;
    if (!globals_find(address, &global))
        return;
    fault->variable = VARIABLE_GLOBAL;
    fault->block = global.start;
    fault->block_size = global.size;
    near_name_global(&global, fault->name);
}

/* Takes ":LINE" away from the end of a name, and answers it; 0 if it is not there. */
static uint32_t take_line(char *name)
{
    uint32_t line = 0;
    char *colon = strrchr(name, ':');
    if (colon == NULL || colon[1] == 0)
        return 0;
    for (const char *digit = colon + 1; *digit != 0; digit++) {
        if (*digit < '0' || *digit > '9')
            return 0;
        line = line * 10 + (uint32_t)(*digit - '0');
    }
    *colon = 0;
    return line;
}

/* The descriptions of frames that were put among the stacks last: the upper bits of a hash, and the numbers of their
   first words in the lower ones. */
enum { RECENT = 1 << 10 };
static AS_TABLE _Atomic uint64_t descriptions[RECENT];

/* A description that is gone over: first for its hash and its length, then to copy it. */
struct letters {
    uint64_t hash;
    size_t length;
    char *to;
    size_t room;
};

static void measure(const char *text, size_t length, void *with)
{
    struct letters *letters = with;
    for (size_t i = 0; i < length; i++)
        letters->hash = list_mix(letters->hash, (unsigned char)text[i]);
    letters->length += length;
}

static void copy(const char *text, size_t length, void *with)
{
    struct letters *letters = with;
    length = length < letters->room ? length : letters->room;
    memcpy(letters->to, text, length);
    letters->to += length;
    letters->room -= length;
}

/* Puts the description of a frame among the stacks, if it was not just put there. Answers its number; 0: there is
   none, or no room. */
static uint32_t put_description(struct list *list, const struct frame *frame)
{
    struct letters letters = {.hash = atomic_load(&list->number)};
    uint32_t number;
    frame_each_part(frame, SIDE_TEXT, measure, &letters);
    _Atomic uint64_t *known_at = &descriptions[letters.hash % RECENT];
    uint64_t tag = letters.hash & ~(uint64_t)(SIDE_STACK_WORDS - 1), seen = atomic_load(known_at);
    if (seen != 0 && (seen & ~(uint64_t)(SIDE_STACK_WORDS - 1)) == tag)
        return (uint32_t)(seen - tag);
    uint32_t count = 1 + (uint32_t)((letters.length + sizeof(uint64_t) - 1) / sizeof(uint64_t));
    uint64_t *words = letters.length != 0 ? list_take_words(list, count, &number) : NULL;
    if (words == NULL)
        return 0;
    words[0] = letters.length;
    letters.to = (char *)(words + 1);
    letters.room = letters.length;
    frame_each_part(frame, SIDE_TEXT, copy, &letters);
    list_show_words(list, number + count);
    atomic_store(known_at, tag | number);
    return number;
}

void near_variable(struct list *list, const struct frame *frame, uint64_t address,
                              struct side_fault *fault)
{
    struct frame_variable variable;
    if (!frame_nearest(frame, address, &variable))
        return;
    fault->variable = VARIABLE_STACK;
    fault->block = variable.start;
    fault->block_size = variable.size;
    fault->frame = frame->start;
    fault->function = frame->function;
    fault->variables = put_description(list, frame);
    size_t length = variable.name_length < SIDE_NAME - 1 ? variable.name_length : SIDE_NAME - 1;
    if (memory_read(variable.name, fault->name, length))
        fault->line = take_line(fault->name);
    /* What a cut line has left is no part of the hash. */
    memset(fault->name + strlen(fault->name), 0, SIDE_NAME - strlen(fault->name));
}

bool near_array(uint64_t address, struct side_fault *fault)
{
    if (!frame_dynamic_array(address, &fault->block, &fault->block_size))
        return false;
    fault->variable = VARIABLE_DYNAMIC;
    return true;
}

void near_block(struct list *list, uint64_t address, struct side_fault *fault)
{
    struct nearest block;
    if (!above.find_nearest(address, &block))
        return;
    fault->variable = block.is_forgotten ? VARIABLE_FORGOTTEN : VARIABLE_NONE;
    if (!block.is_forgotten && family_name(block.family) != NULL && fault->name[0] == 0)
        add(fault->name, family_name(block.family));
    fault->block = block.start;
    fault->block_size = block.size;
    fault->allocated = call_site_address(block.call_sites.allocated);
    fault->allocated_stack = list_put_stack(list, block.call_sites.allocated);
    fault->allocated_thread = call_site_thread(block.call_sites.allocated);
    fault->freed = call_site_address(block.call_sites.freed);
    fault->freed_stack = list_put_stack(list, block.call_sites.freed);
    fault->freed_thread = call_site_thread(block.call_sites.freed);
}
