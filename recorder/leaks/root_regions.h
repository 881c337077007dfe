/* Memory that the process has named as a root, by __lsan_register_root_region.

   Called: root_region_add and root_region_remove by the program (interface.c, by hooks.def), in any thread, also in a
   handler, without a lock: they take the allocator's, which guards the table. root_regions_visit by roots.c with that
   lock, in the thread that looks for leaks, while all others stand still; it takes memory from the system. */
#ifndef ASANCOL_ROOT_REGIONS_H
#define ASANCOL_ROOT_REGIONS_H

#include <stddef.h>
#include <stdint.h>

#include "base/platform.h"

/* Adds a region, or takes one away that has the same start and size; if there is none, nothing. */
void root_region_add(const void *start, size_t size) OWN_NAME(root_region_add);
void root_region_remove(const void *start, size_t size) OWN_NAME(root_region_remove);
/* Visits what of them can be read. */
void root_regions_visit(void (*visit)(uintptr_t start, uintptr_t end));

#endif
