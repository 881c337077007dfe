/* The note of modules: the mapped files, their build ids, and what of them was not checked. It is kept,
   and copied to what stands beside the stream: a forked child has its parent's, which was made anew before the fork if
   the loader had loaded or unloaded something by then.

   Called: by side.c, and module_at by process/unchecked.c as it makes the list of unchecked code (`above`, state.h):
   in any thread, also in a handler. Lock: the stream's; at the start, when a stream begins and for
   modules_are_of_generation, no other thread is in the stream. */
#ifndef ASANCOL_MODULES_H
#define ASANCOL_MODULES_H

#include <stdbool.h>
#include <stdint.h>

#include "common/format.h"
#include "stream/maps.h"

/* What stands at the beginning of a module's file. */
struct module {
    uint64_t start;          /* where that lies */
    struct note link;        /* the note of its link; of size 0: asancol-cc has not linked it */
    struct side_build build; /* of length 0: it has no build id */
};

/* Those of the map that is being noted, and any other. */
void module_at(struct module *module, uint64_t start);

/* Copies the note into a new side memory. It is made if there is none. */
void modules_show(struct side *side);
/* Makes the note anew if there is other code now, and copies it. */
void modules_look(struct side *side);
/* The same, unless this is the generation of modules that the note is of, as the loader counts them. */
void modules_look_at_generation(struct side *side, uint64_t generation);
/* The note was made after the loader had counted this generation, and before another one could come. */
void modules_are_of_generation(uint64_t generation);
/* The map that was noted: lines, and a zero. */
const char *modules_map(void);

#endif
