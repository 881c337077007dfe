/* If the system has no more memory, retired units that lie side by side are used again, whatever they were: slabs, runs
   and parts of runs, and what has no notes any more. It is looked for from where it was found last, so that it is gone
   over once, and all of it only if there is none. All of this, the static functions too, is under central. */
#include "heap/reusing.h"

#include "heap/retiring.h"

/* Where to go on in either half. */
static uint32_t next_small = 1, next_big = FIRST_BIG;

static bool is_wiped(uint32_t region)
{
    return NOTE_NOW(heap_forgotten[region]) == REGION_UNITS;
}

/* How many units from this one on are retired together; or 0. */
static uint32_t retired_at(uint32_t number)
{
    if (is_wiped(number / REGION_UNITS) || is_headless(number))
        return 1;
    return NOTE_NOW(arena.units[number].form) >= FORM_BACK ? units_at(number) : 0;
}

/* This many in a row, or a longer run that contains them; or 0. */
static uint32_t find_row(uint32_t from, uint32_t end, uint32_t count)
{
    uint32_t first = from;
    for (uint32_t at = from; at < end;) {
        uint32_t retired = retired_at(at);
        at += retired != 0 ? retired : units_at(at);
        if (retired == 0)
            first = at;
        else if (at - first >= count)
            return first;
    }
    return 0;
}

/* From where it was found last to the end, and else from the beginning. */
static uint32_t find_from(uint32_t *next, uint32_t least, uint32_t end, uint32_t count)
{
    uint32_t found = *next < end ? find_row(*next, end, count) : 0;
    if (found == 0)
        found = find_row(least, end, count);
    if (found != 0)
        *next = found;
    return found;
}

/* A unit of which nothing else is noted than that it is freed. */
static void write_forgotten(uint32_t number)
{
    unit_write(number, (struct unit){.kind = UNIT_NEW});
    SET_NOTE(arena.units[number].form, FORM_FORGOTTEN);
}

/* A region that has no notes gets some again, since units of it do: also what has begun there, and ends after it. */
static void note_again(uint32_t region)
{
    uint32_t end = (region + 1) * REGION_UNITS;
    if (!is_wiped(region))
        return;
    for (uint32_t unit = end; is_used(unit) && is_headless(unit) && unit - arena.units[unit].count < end; unit++)
        write_forgotten(unit);
    for (uint32_t unit = region * REGION_UNITS; unit < end; unit++)
        write_forgotten(unit);
}

/* The rest of a longer run after these. It stays retired. */
static void leave_rest(uint32_t first, uint32_t end)
{
    for (uint32_t unit = first; unit < end; unit++)
        write_forgotten(unit);
    retiring_leave(first, end - first);
}

/* These units are retired no more. All that they were a part of is noted anew. */
static void take(uint32_t first, uint32_t count)
{
    uint32_t end = first + count;
    for (uint32_t at = first, units; at < end; at += units) {
        units = retired_at(at);
        for (uint32_t region = at / REGION_UNITS; region * REGION_UNITS < at + units; region++)
            note_again(region);
        if (is_headless(at))
            write_forgotten(at);
        retiring_undo(at);
        if (at + units > end)
            leave_rest(end, at + units);
    }
    for (uint32_t unit = first; unit < end; unit++)
        SET_NOTE(arena.units[unit].form, FORM_NONE);
    arena_drop(first, count); /* a bad access may have written there */
}

uint32_t reusing_take(uint32_t count, bool is_slab)
{
    uint32_t first = 0;
    if ((size_t)count * UNIT <= BIG_BYTES)
        first = find_from(&next_small, 1, arena.top, count);
    if (first == 0 && !is_slab)
        first = find_from(&next_big, FIRST_BIG, arena.big_top, count);
    if (first == 0 && (size_t)count * UNIT > BIG_BYTES)
        first = find_from(&next_small, 1, arena.top, count);
    if (first != 0)
        take(first, count);
    return first;
}
