/* Which blocks something leads to. A word leads to a block if it is the address of any of its bytes, as
   LeakSanitizer has it. A word whose memory is off limits leads nowhere.

   Called: marking_begin, marking_end and mark_indirect by leaks.c, mark_of also by lost.c, the rest by roots.c, in the
   thread that looks for leaks, maybe in a handler (leaks.h). Lock: leaks.c takes the loader's and the allocator's
   before marking_begin and gives them back after marking_end, also if either fails. From the first mark to
   mark_indirect all other threads stand still, and may have any other lock: so nothing is called that takes one or
   allocates. Memory is taken from the system by marking_begin. */
#ifndef ASANCOL_MARKING_H
#define ASANCOL_MARKING_H

#include <stdbool.h>
#include <stddef.h>
#include <stdint.h>

#include "heap/blocks.h"

/* REACHABLE: a root leads to it, or a block that is reachable. INDIRECT: another block that is lost. */
enum mark { MARK_NONE, MARK_REACHABLE, MARK_INDIRECT };

/* Takes memory for the marks: no block has one yet. False: there is no memory, and nothing to end. */
bool marking_begin(void);
/* Gives it back. All that follows is called between these two. */
void marking_end(void);

/* A root: a word that may lead to a block. */
void mark_word(uintptr_t word);
/* Roots: the words from `start` up to, and without, `end`. A page that is gone (not mapped, or not readable) is left
   out. */
void mark_range(uintptr_t start, uintptr_t end);
/* The same, up to the first page that is gone. */
void mark_up_to_gap(uintptr_t start, uintptr_t end);
/* A root that is a block itself, which must be in use. */
void mark_block(const struct block *block);
/* Goes on to all that the roots lead to. */
void mark_reachable(void);
/* What only lost blocks lead to, once all that is reachable is marked. */
void mark_indirect(void);

enum mark mark_of(const struct block *block);

#endif
