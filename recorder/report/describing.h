/* What lies at an address, in the words of AddressSanitizer.

   Called: by report/wording.c; locate, stack_of_block and text_put_description by interface/reports.c and by the
   program, through the table `reports` of that; in any thread, also in a signal handler. Lock: it takes none, and any
   may be held; it writes the caller's room alone, and what it asks of the allocator and of globals needs none. It is
   slow, since the system is asked what can be read. */
#ifndef ASANCOL_DESCRIBING_H
#define ASANCOL_DESCRIBING_H

#include <stdbool.h>
#include <stddef.h>
#include <stdint.h>

#include "report/text.h"

/* A byte, and the access that has it. */
struct place {
    uint64_t bad, address, size;
};

/* The block or the variable that is nearest to the byte, with the stacks of a block. */
void text_put_description(struct text *text, const struct place *place);

/* Where it is: "heap", "stack", "global" and others; and the name, start and size of that. */
const char *locate(uintptr_t address, char *name, size_t room, uintptr_t *start, size_t *size);
/* The frames of the malloc or the free of the block that has an address, as the instructions that made the calls. */
size_t stack_of_block(uintptr_t address, bool of_free, uintptr_t *frames, size_t room, int *thread);

#endif
