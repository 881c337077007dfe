/* All other threads of the process, stopped for a while. Each says what it had in its registers.

   Called: world_stop_for by leaks.c, world_stop and world_go_on by root.c at an exit, world_visit and
   world_own_control by roots.c; in the thread that looks for leaks or exits, maybe in a handler, which has the
   allocator's lock, for leaks the loader's too, and is undisturbed (base/disturbance.h). world_is_stopped by start.c
   and hooks.c, in the thread that ends the process, with no lock of the recorder's. world_stop takes the stream's for a
   moment, the others none. A thread stopped by a signal waits in on_stop, its handler, which may have interrupted
   anything, and touches no thread-local memory. */
#ifndef ASANCOL_WORLD_H
#define ASANCOL_WORLD_H

#include <stdbool.h>
#include <stdint.h>

#include "process/tracer.h"

/* Stops the others, whoever created them, if they are not stopped. Null; or why it can't be done: then all run, or at
   the end of the process those that could not be stopped. A stopped thread has none of the recorder's locks, but may
   have any other one except the loader's, if the caller has that. */
const char *world_stop(bool is_end);
/* Calls a function while the others are stopped, and lets them go on, except at the end of the process. They notice
   nothing if the process can be traced (tracer.h). Else a call may come back as by a signal. */
const char *world_stop_for(void (*work)(void *with), void *with, bool is_end);
/* All run again. */
void world_go_on(void);
/* Whether this thread has stopped the others for the end of the process: it makes nothing but calls of the system from
   then on, and ends the process. Who is stopped would see it if his call came back. */
bool world_is_stopped(void);

/* Goes over those that are stopped. */
void world_visit(void (*visit)(const struct stopped_thread *thread));
/* The control block of the running thread. */
uintptr_t world_own_control(void);

#endif
