/* The recorder's start.

   Called: asancol_start by first_call.c, or by stream/places.c (`above`, stream/state.h) for a bad access, poison, a
   finding, a malloc or a free before that, in the only thread, not in a signal handler. It is done once: at a malloc or
   free, when this thread is in the allocator, only the C library is looked for, and it is tried again. Lock: none is
   held else; the allocator's is taken while the stream is opened. What it registers for the end the C library calls, in
   the thread that exits; if that exits in a handler, this is no less safe than exit itself. */
#ifndef ASANCOL_START_H
#define ASANCOL_START_H

/* Before the constructors of the program and of all that is loaded with it; or before that, at the first bad access of
   what comes even earlier. The link asks for it by its name. */
void asancol_start(void);

#endif
