/* The files of the segments of a process: their names, and which of them are kept.

   Called: segments_begin by opening.c, the rest by switching.c, in the thread that starts or switches. Lock: the
   stream's; at the start there is no other thread in it. */
#ifndef ASANCOL_SEGMENTS_H
#define ASANCOL_SEGMENTS_H

#include "stream/output.h"

/* A process begins, with this file. */
void segments_begin(const struct output *first);
/* The name of a later segment. False: it is too long. */
bool segments_name(uint64_t segment, char *name);
/* A segment has begun in this file. Of all up to it this number of the newest are kept. */
void segments_keep(uint64_t segment, const struct output *output, uint64_t most);

#endif
