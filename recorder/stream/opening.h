/* The beginning of a stream: where it goes, and its header.

   Called: stream_begin by process/process.c, with the allocator's lock and not the stream's: in the thread that
   starts the recorder or begins late, where no other thread is in the stream, or in a forked child. stream_forget
   there in a forked child, with both locks, which its parent took for the fork. Each except the first start perhaps
   in a signal handler. The rest by these two, and, except opening_take_back in a child, by switching.c in the thread
   that switches, with both locks. */
#ifndef ASANCOL_OPENING_H
#define ASANCOL_OPENING_H

#include <stdbool.h>

#include "environment/settings.h"
#include "stream/output.h"

/* Opens the output, writes the header, and turns the stream on. False: one line said why not. */
bool stream_begin(const struct settings *settings);
/* In a child: forgets the parent's stream. The same. */
void stream_forget(void);

/* For the next segment. */

/* Opens what stands beside a trace, in a window. Without it the trace is no worse. */
bool opening_side(struct output *side, const struct output *trace, unsigned number);
/* The header goes to a hub at once, and the side memory with it. Answers null, or what went wrong. */
const char *opening_hub(const struct settings *settings);
/* Forgets the opened output: of a hub that was not reached, of a recording that ends at a switch, or of the parent in a
   child. */
void opening_take_back(void);
/* A stream begins in the output that is open. */
void opening_segment(void);

#endif
