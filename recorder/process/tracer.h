/* All other threads, stopped by a process that traces them. The system then repeats the calls in which they wait, and
   no thread sees anything of it. A process that is traced already, as by a debugger, or may not be traced, can't be
   stopped so.

   Called: by world.c, in the thread that looks for leaks: maybe in a handler, undisturbed (base/disturbance.h), with
   the locks of world_stop_for; `work` and tracer_visit in the tracing process. Lock: the caller's allocator's guards
   all state here. */
#ifndef ASANCOL_TRACER_H
#define ASANCOL_TRACER_H

#include <stdbool.h>
#include <stdint.h>
#include <ucontext.h>

/* A thread that is stopped: what the signal has interrupted, and its control block, which is 0 if it is not known. */
struct stopped_thread {
    const ucontext_t *context;
    uintptr_t control;
};

/* Calls a function while the others are stopped. It runs in a process of its own, which has this one's memory and this
   thread's stack, while this thread waits. False: they can't be stopped so, and nothing was called. */
bool tracer_stop_for(void (*work)(void *with), void *with);
/* Goes over the stopped threads. */
void tracer_visit(void (*visit)(const struct stopped_thread *thread));

#endif
