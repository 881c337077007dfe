/* Whose place a missing record has: this thread's own, if a handler that has interrupted it there comes to the end of
   the stream.

   Called: by holes.c, with the stream's lock, in the thread that has it, also in a handler. No lock here: it reads the
   thread's own stacks, and what the system has stored of its registers. */
#ifndef ASANCOL_OWN_PLACE_H
#define ASANCOL_OWN_PLACE_H

#include <stdbool.h>
#include <stdint.h>

/* Whether a handler in which this runs has interrupted the thread between the two steps of a record (writing.h): this
   cursor had its place, at this address, and nobody writes it before the handler returns. */
bool own_place_is_at(const unsigned char *address, uint64_t cursor);

#endif
