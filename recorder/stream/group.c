/* The bytes are made first, then their place is taken, and then they are stored there, the first code last. `last_said`
   is the thread's own: what its last group has stated, and the cursor after that. A handler that comes in the middle
   takes a place, so that cursor is never seen again. */
#define _GNU_SOURCE
#include "stream/group.h"

#include <string.h>

#include "base/disturbance.h"
#include "shadow/shadow.h"
#include "stream/faults.h"
#include "stream/side.h"
#include "stream/state.h"
#include "stream/windows.h"
#include "stream/writing.h"

static _Thread_local struct {
    uint64_t cursor; /* 0: it is not known */
    unsigned segment, length;
    unsigned char bytes[MOST_GROUP];
} last_said;

/* Adds a record. Answers its bytes, without the code. */
static unsigned char *add(struct group *group, enum code code)
{
    struct shape *shape = &group->shape;
    unsigned char *at = group->bytes + shape->length;
    unsigned length = record_length((unsigned char)code);
    *at = (unsigned char)code;
    shape->lengths[shape->count++] = (unsigned char)length;
    shape->length = (unsigned char)(shape->length + length);
    return at + 1;
}

static void add_said(struct group *group, const struct statement *said)
{
    unsigned char *at = add(group, said->code);
    if (said->code == CODE_POISON)
        *at++ = (unsigned char)said->kind;
    put_number(at, spelled(said->address));
    if (said->code != CODE_FREE)
        put_number(at + sizeof said->address, said->size);
}

static void add_itself(struct group *group, unsigned code_and_width, uint64_t address)
{
    unsigned char *at = add(group, code_and_width & 0xff);
    if ((code_and_width & 0xff) != CODE_FREE)
        *at++ = (unsigned char)(code_and_width >> 8);
    put_number(at, spelled(address));
    group->number = group->shape.count;
}

void group_make(struct group *group, unsigned code_and_width, uint64_t address, const struct found *found)
{
    struct statement said[MOST_STATEMENTS];
    unsigned count = 0;
    group->shape = (struct shape){.count = 0};
    if (found != NULL)
        count = (code_and_width & 0xff) == CODE_FREE ? say_free(found, said) : say_access(found, said);
    if (group->is_lean)
        add(group, CODE_ANEW);
    for (unsigned i = 0; i < count; i++)
        add_said(group, &said[i]);
    add_itself(group, code_and_width, address);
    if (!group->is_lean && count != 0)
        add_said(group, &(struct statement){.code = CODE_UNPOISON,
                                            .address = found->granule,
                                            .size = said[count - 1].address + said[count - 1].size - found->granule});
}

/* Whether the history that ends at this cursor has stated the same. */
static bool is_said(const struct group *group, unsigned length, uint64_t cursor)
{
    return group->is_lean && last_said.cursor == cursor && last_said.segment == atomic_load(&shared.segments_begun)
           && last_said.length == length && memcmp(last_said.bytes, group->bytes, length) == 0;
}

static void note_said(const struct group *group, unsigned length, uint64_t cursor)
{
    if (!group->is_lean)
        return;
    unsigned segment = atomic_load(&shared.segments_begun);
    last_said.cursor = 0;
    atomic_signal_fence(memory_order_seq_cst);
    last_said.segment = segment;
    last_said.length = length;
    memcpy(last_said.bytes, group->bytes, length);
    atomic_signal_fence(memory_order_seq_cst);
    last_said.cursor = cursor;
}

/* Whether the places's bytes are still this thread's. If not, it has slept for so long that another one has put records
   there that say nothing: their bytes stay as they are. */
static bool is_in_time(unsigned char *at)
{
    unsigned char seen = atomic_load((_Atomic unsigned char *)at);
    return seen == CODE_NONE || seen == CODE_CLOSE;
}

/* Writes the code of records whose other bytes are there, the same. If it comes too late, the others say nothing
   again. */
static bool put_code_in_time(unsigned char *at, unsigned char code, const struct shape *shape)
{
    unsigned char seen = CODE_NONE;
    _Atomic unsigned char *place = (_Atomic unsigned char *)at;
    bool is_put = atomic_compare_exchange_strong(place, &seen, code)
                  || (seen == CODE_CLOSE && atomic_compare_exchange_strong(place, &seen, code));
    if (!is_put)
        holes_fill_again(at, shape);
    return is_put;
}

static bool put_in_time(unsigned char *at, const unsigned char *bytes, const struct shape *shape)
{
    if (!is_in_time(at))
        return false;
    for (unsigned i = 1; i < shape->length; i++)
        put_byte(at + i, bytes[i]);
    return put_code_in_time(at, bytes[0], shape);
}

void group_record_good(unsigned code_and_width, uint64_t address)
{
    unsigned char *at = stream_reserve(ACCESS_LENGTH, false);
    struct group group = {.is_lean = false};
    if (at == NULL)
        return;
    add_itself(&group, code_and_width, address);
    put_in_time(at, group.bytes, &group.shape);
}

static uint64_t step_of(const struct shape *shape)
{
    return shape->count * CURSOR_EVENT + shape->length;
}

static bool is_unusual(uint64_t cursor, const struct shape *shape)
{
    return stream_is_unusual(cursor + (shape->count - 1) * CURSOR_EVENT, shape->length);
}

/* The rest of a group whose statements stand there already, or all of it. */
struct rest {
    const unsigned char *bytes;
    struct shape shape;
    unsigned before; /* events that are left out */
};

static struct rest rest_of(const struct group *group, uint64_t cursor)
{
    unsigned own = group->shape.lengths[group->shape.count - 1], length = group->shape.length - own;
    if (!is_said(group, length, cursor))
        return (struct rest){group->bytes, group->shape, 0};
    return (struct rest){group->bytes + length, shape_of_one(own), group->shape.count - 1U};
}

/* Takes the place of it, unless that is past the limit, or in another segment or another recording. */
static enum taking take(const struct group *group, struct moment moment, bool is_of_heap, struct rest *rest,
                        uint64_t *cursor)
{
    do {
        *cursor = atomic_load(&STREAM->cursor);
        if (!(*cursor & CURSOR_ON))
            return stream_wake() ? TAKING_AGAIN : TAKING_LEFT_OUT;
        if (!is_moment(moment, *cursor) || is_lean() != group->is_lean)
            return TAKING_AGAIN;
        *rest = rest_of(group, *cursor);
        if (((*cursor - CURSOR_ON) >> 32) + rest->shape.count > plan.settings->limit)
            return stream_make_way_for(rest->shape.count, is_of_heap);
    } while (!atomic_compare_exchange_weak(&STREAM->cursor, cursor, *cursor + step_of(&rest->shape)));
    return is_unusual(*cursor, &rest->shape) ? stream_open_group(*cursor, &rest->shape, is_of_heap) : TAKING_DONE;
}

/* From the place to its bytes. */
static enum taking put(const struct group *group, uint32_t entry, struct moment moment, bool is_of_heap,
                       struct place *place)
{
    struct rest rest;
    uint64_t cursor;
    enum taking taking = take(group, moment, is_of_heap, &rest, &cursor);
    place->at = NULL;
    if (taking != TAKING_DONE)
        return taking;
    unsigned char *at = STREAM->bytes + (uint32_t)cursor;
    place->event = ((cursor - CURSOR_ON) >> 32) + group->number - rest.before;
    /* It is noted before it is written: who reads the record finds it. */
    side_note_needed(place->event);
    if (entry != 0)
        fault_note(moment.window, entry, place->event);
    bool is_put = put_in_time(at, rest.bytes, &rest.shape);
    STAYS_KNOWN(cursor); /* to own_place.c */
    side_note_stated(rest.shape.count - is_put);
    if (!is_put)
        return TAKING_AGAIN;
    note_said(group, group->shape.length - group->shape.lengths[group->shape.count - 1U],
              cursor + step_of(&rest.shape));
    place->at = at;
    return TAKING_DONE;
}

enum taking group_record(const struct group *group, uint32_t entry, struct moment moment, bool is_of_heap,
                         struct place *place)
{
    struct disturbance before;
    if (group->shape.count == 1)
        return put(group, entry, moment, is_of_heap, place);
    /* A handler that left by a jump would leave a hole, whose length nobody knew. */
    undisturbed_begin(&before);
    enum taking taking = put(group, entry, moment, is_of_heap, place);
    undisturbed_end(&before);
    return taking;
}
