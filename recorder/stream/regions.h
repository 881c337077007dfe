/* Records of regions: blocks, and poison.

   Called: record_free by heap/, with the allocator's lock (all, heap/blocks.h); record_region and record_poison there
   for blocks with it, and by record.c and heap/nearest.c for poison with it or without; record_unused by
   heap/poisoning.c, inside the allocator; region_piece by record.c too. In any thread, also in a handler. No lock here:
   a record takes its place by an addition (writing.h). Past the limit of events places.c takes the locks for a new
   segment. */
#ifndef ASANCOL_REGIONS_H
#define ASANCOL_REGIONS_H

#include <stdbool.h>
#include <stdint.h>

#include "common/format.h"

/* A malloc or an unpoison, and a poison. A region that can't be spelled is left out. Mallocs and frees are recorded in
   the allocator, when it is in order. */
void record_region(enum code code, uint64_t address, uint64_t size);
void record_poison(enum kind kind, uint64_t address, uint64_t size);
/* Memory of the allocator that is poison, of any size. */
void record_unused(uint64_t address, uint64_t size);
/* A free of a block. */
void record_free(uint64_t address);
/* How many bytes of a region come before the next multiple of the largest one. */
uint64_t region_piece(uint64_t address, uint64_t size);

#endif
