/* The shadow of blocks' memory that was not handed out yet, or is freed for good: it says "poison". Its pages are those
   of one file, so it costs nothing, however much memory it is. What the allocator writes there is the process's own,
   and the file stays.

   Called: unused_show by heap/poisoning.c and retiring.c with central; unused_show_again by retiring.c, for units
   that the thread has just retired, which needs no lock; unused_hide by numbers.c with all of the allocator
   (heap/blocks.h): in the thread that is in the allocator, also in a handler that was let in. In a child that a handler
   has forked in the allocator, that handler calls unused_hide with no lock: there is no other thread. */
#ifndef ASANCOL_UNUSED_H
#define ASANCOL_UNUSED_H

#include <stdbool.h>
#include <stdint.h>

/* Its name among the process's files. */
#define UNUSED_NAME "asancol-unused"

/* Shows this of SHADOW_OF_FILE bytes from this multiple of that on. False: it can't be, and their shadow is as it was.
   */
bool unused_show(uint64_t address);
/* Shows it again of whole pages' shadow. False: of a part of them it was never shown. */
bool unused_show_again(uint64_t address, uint64_t size);
/* Their shadow is zeros again. */
void unused_hide(uint64_t address);

#endif
