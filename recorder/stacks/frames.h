/* The variables of frames, as the compilers describe them, and arrays of dynamic size.

   Called: frame_around by stream/faults.c, frame_nearest by stream/near.c, both with frame_each_variable and
   frame_dynamic_array by report/describing.c; the rest by stream/near.c: in any thread, also in a handler, with or
   without locks. No lock here: nothing is kept. The described memory may be gone, so it is read by memory_read. */
#ifndef ASANCOL_FRAMES_H
#define ASANCOL_FRAMES_H

#include <stdbool.h>
#include <stddef.h>
#include <stdint.h>

/* Where a frame begins, where its description stands, and an address in its function. */
struct frame {
    uint64_t start, description, function;
};

struct frame_variable {
    uint64_t start, size;
    uint64_t name; /* where it stands in memory, without a zero at its end */
    size_t name_length;
};

/* The frame that has an address, in a redzone or between them. False: it is in none. */
bool frame_around(uint64_t address, struct frame *frame);
/* The variable of it that is nearest to the address. False: it has none. */
bool frame_nearest(const struct frame *frame, uint64_t address, struct frame_variable *found);

/* Visits the variables of it, unless that is null. Answers how many there are. */
uint64_t frame_each_variable(const struct frame *frame, void visit(const struct frame_variable *variable, void *with),
                             void *with);

/* Goes over the letters of a description, some at a time, at most this many. */
void frame_each_part(const struct frame *frame, size_t most, void visit(const char *text, size_t length, void *with),
                     void *with);

/* The array of an `alloca`, or of variable length, in whose redzone an address lies. False: in none. */
bool frame_dynamic_array(uint64_t address, uint64_t *start, uint64_t *size);

#endif
