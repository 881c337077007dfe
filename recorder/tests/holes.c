/* A group of a lean recording whose thread sleeps with some of its first bytes stored, but not the code that goes last,
   and another group after it. The hole is filled by records of the same lengths, so that the other one is read, and
   events keep their numbers (stream/holes.c). For each group with a block of some sizes, and each count of bytes.
   Prints the wrong ones; the status is 1 if there is one. */
#define _GNU_SOURCE
#include <stdio.h>
#include <string.h>

#include "libc/library.h"
#include "stream/holes.h"
#include "stream/locked.h"
#include "stream/own_place.h"

enum { START = 8, SIZES = 300, ADDRESS = 0x200000 };

/* The rest of the recorder. */
union stream_page stream_page;
struct plan plan;
struct shared shared;
struct locked locked;
_Atomic bool lean_is_on = true;
static const char is_alone = 1;
struct library library = {.__libc_single_threaded = &is_alone};
bool own_place_is_at(const unsigned char *address, uint64_t cursor)
{
    return address == NULL && cursor == 0;
}
bool stream_waits_again(int looks, enum patience patience)
{
    return looks < 0 && patience == NONE;
}

static unsigned char bytes[256];

static unsigned put(unsigned at, enum code code, uint64_t size)
{
    uint64_t address = ADDRESS;
    unsigned length = record_length((unsigned char)code);
    unsigned number = length == ACCESS_LENGTH || code == CODE_POISON ? 2 : 1;
    bytes[at] = (unsigned char)code;
    if (length == ACCESS_LENGTH)
        bytes[at + 1] = 4;
    if (length > ANEW_LENGTH)
        memcpy(bytes + at + number, &address, sizeof address);
    if (length >= REGION_LENGTH)
        memcpy(bytes + at + number + sizeof address, &size, sizeof size);
    return at + length;
}

static unsigned put_group(unsigned at, const enum code *codes, uint64_t size)
{
    for (; *codes != CODE_NONE; codes++)
        at = put(at, *codes, size);
    return at;
}

/* Whether the hole has records of these lengths, which say nothing. */
static bool is_filled(const enum code *codes)
{
    unsigned at = START;
    for (; *codes != CODE_NONE; at += record_length(bytes[at]), codes++)
        if (record_length(bytes[at]) != record_length((unsigned char)*codes) || bytes[at] == CODE_STORE)
            return false;
    return true;
}

static bool is_right(const enum code *codes, uint64_t size, unsigned stored)
{
    static const enum code others[] = {CODE_ANEW, CODE_MALLOC, CODE_STORE, CODE_NONE};
    memset(bytes, 0, sizeof bytes);
    unsigned end = put_group(START, codes, size);
    memset(bytes + START + stored, 0, end - START - stored);
    bytes[START] = CODE_NONE;
    end = put_group(end, others, 24);
    locked.checked = START;
    locked.checked_events = 0;
    holes_check(end, UINT64_MAX, LONG);
    return locked.checked == end && is_filled(codes);
}

int main(void)
{
    static const enum code groups[][6] = {
        {CODE_ANEW, CODE_MALLOC, CODE_STORE},
        {CODE_ANEW, CODE_MALLOC, CODE_FREE, CODE_STORE},
        {CODE_ANEW, CODE_MALLOC, CODE_POISON, CODE_STORE},
        {CODE_ANEW, CODE_MALLOC, CODE_UNPOISON, CODE_STORE},
        {CODE_ANEW, CODE_MALLOC, CODE_FREE, CODE_POISON, CODE_STORE},
        {CODE_ANEW, CODE_MALLOC, CODE_FREE, CODE_UNPOISON, CODE_STORE},
        {CODE_ANEW, CODE_MALLOC, CODE_FREE, CODE_FREE},
        {CODE_ANEW, CODE_POISON, CODE_STORE},
        {CODE_STORE},
        {CODE_FREE},
    };
    bool are_right = true;
    STREAM->bytes = bytes;
    for (unsigned i = 0; i < sizeof groups / sizeof *groups; i++)
        for (uint64_t size = 0; size < SIZES; size++) {
            unsigned length = put_group(START, groups[i], size) - START;
            for (unsigned stored = 1; stored <= length; stored++)
                if (!is_right(groups[i], size, stored)) {
                    printf("group %u of a block of %u bytes, with %u bytes stored\n", i, (unsigned)size, stored);
                    are_right = false;
                }
        }
    return !are_right;
}
