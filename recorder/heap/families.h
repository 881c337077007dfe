/* Families of functions that allocate: a block has to be freed by its own. And sizes and alignments that a delete
   says.

   Called: families_look_at by freeing.c with all (blocks.h), and families_differ in the shard, or by that: in the
   thread that frees, for a block that was live a moment ago. families_note_refused by allocating.c without a lock,
   in the thread that allocates, and requests_are_noted by that and by replaced.c. All also in a handler. families.c
   has heap_check_families and heap_check_requests (heap.h) too, by which process/process.c turns these on, with the
   allocator's lock. */
#ifndef ASANCOL_FAMILIES_H
#define ASANCOL_FAMILIES_H

#include <stdbool.h>
#include <stddef.h>
#include <stdint.h>

#include "heap/arena.h"
#include "libc/family.h"

/* How a block is freed. */
struct release {
    uintptr_t address, caller, frame; /* of the block; and of the free, as call_site_from has them */
    const char *call;                 /* `free`, `realloc` or `reallocarray`; an operator has its name by its family */
    enum family family;
    size_t alignment, size_and_one; /* as heap_operator_begins is told */
};

/* Whether the block is known to be freed by another family than its own, or with another size or alignment, and that is
   to be noted. Nothing is noted here. */
bool families_differ(const struct block *block, const struct release *release);
/* Notes such a mistake as a finding (stream/findings.h), if there is one. With all. */
void families_look_at(const struct block *block, const struct release *release);

/* Notes that a block is refused, since it is larger than any can be, or since there is no memory. Nothing of an
   operator that nobody has announced: what that does is not known. */
void families_note_refused(size_t size, uintptr_t caller, enum family family, bool is_too_big);
/* Whether such requests are noted (heap_check_requests). */
bool requests_are_noted(void);

#endif
