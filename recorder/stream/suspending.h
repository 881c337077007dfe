/* Around an exec: the stream ends, and goes on if the exec fails.

   Called: by process/process.c, in the thread that calls exec, also in a handler. Lock: it holds the allocator's
   from before stream_suspend until after stream_resume, so that nobody switches to another segment meanwhile;
   without it stream_resume comes only where the stream had ended at its limit. The stream's is taken here. */
#ifndef ASANCOL_SUSPENDING_H
#define ASANCOL_SUSPENDING_H

#include <stdbool.h>
#include <stdint.h>

/* Ends the stream with a close, keeping everything that is needed to continue. False: it was not on. The generation is
   that of stream_close. */
bool stream_suspend(uint64_t generation);
/* The exec has failed. False: the stream was not suspended. */
bool stream_resume(void);

#endif
