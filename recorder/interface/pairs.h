/* Pairs of pointers that are compared, or of which one is subtracted from the other: both have to be of one object. As
   AddressSanitizer's detect_invalid_pointer_pairs.

   Called: by compiled code (callbacks.c, by hooks.def), in any thread, also in a signal handler. Lock: the caller has
   none of the recorder's, and none is taken here: it only reads the shadow, the notes of blocks and of globals. A
   finding may take the stream's for a moment, and run the program's code (findings.h). */
#ifndef ASANCOL_PAIRS_H
#define ASANCOL_PAIRS_H

#include <stdint.h>

/* Notes it if they are not. */
void pair_look(uintptr_t one, uintptr_t other, uintptr_t caller);

#endif
