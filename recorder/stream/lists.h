/* What lies beside the stream: a list of faults, one of threads, and stacks and texts. Each window of the stream has
   its own.

   Called: list_begin by faults.c, in any thread, also in a handler, with the stream's lock, or before there is a
   stream; the rest by faults.c, fault_list.c, findings.c, near.c, test_name.c and thread_list.c, in any thread, also in
   a handler, with or without the allocator's lock. No lock: the counts are atomic, and a thread fills what it has
   counted for itself. But list_back, and who takes words or puts a text or a stack by it, may take the stream's for a
   moment, to get room on the disk. */
#ifndef ASANCOL_LISTS_H
#define ASANCOL_LISTS_H

#include <stdatomic.h>
#include <stdbool.h>
#include <stdint.h>

#include "base/platform.h"
#include "common/format.h"
#include "stacks/stacks.h"
#include "stream/windows.h"

/* A side file gets room on the disk in pieces of this many bytes, as they are written to: what has no room is not
   stored. */
enum { PIECE = 1 << 16, PIECES = SIDE_ROOM / PIECE + 1, PIECE_BITS = 32 };

struct list {
    unsigned char *_Atomic bytes; /* released by who begins a segment there, with the lock */
    _Atomic uint32_t taken;       /* faults */
    _Atomic uint32_t taken_words; /* of the stacks */
    _Atomic uint32_t number;      /* of this list, from 1: another one after each begin, and in a child */
    _Atomic uint32_t backed[PIECES / PIECE_BITS + 1];
};

/* Of a window. A thread that has begun in one goes on there, whatever comes after. */
struct list *list_of(unsigned window);
/* The window of a list. */
unsigned list_window(const struct list *list);
/* The list of the stream that there is now, or was last. */
struct list *list_newest(void);
/* The list of this window begins, and is the newest. */
void list_begin(unsigned char *bytes, unsigned window);

unsigned char *list_bytes(const struct list *list);
/* Whether a part of the side file has memory. */
bool list_is_backed(const struct list *list, uint64_t offset, uint64_t length);
/* The same, once it was asked for (side_back in side.h, also for `has_place`). */
bool list_back(struct list *list, uint64_t offset, uint64_t length, bool has_place);
/* Raises a count that is in the side file. */
void list_raise(_Atomic uint32_t *count, uint32_t least);

/* Takes this many words among the stacks, and gives the number of the first one. Null: there is no room. */
uint64_t *list_take_words(struct list *list, uint32_t count, uint32_t *number);
/* The words before this one are there. */
void list_show_words(struct list *list, uint32_t end);
/* Puts a text among them. Answers its number; 0: there is no room. */
uint32_t list_put_text(struct list *list, const char *text);
/* Puts the stack of a call site there, if it is not there yet. Answers its number; 0: it has none, or no room. */
uint32_t list_put_stack(struct list *list, call_site of);

/* For hashes of the entries of a list. */
static inline uint64_t list_mix(uint64_t hash, uint64_t word)
{
    hash = (hash ^ word) * UINT64_C(0x9e3779b97f4a7c15);
    return hash ^ hash >> 29;
}

#endif
