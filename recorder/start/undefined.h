/* The end of a process by UndefinedBehaviorSanitizer's runtime, as with -fno-sanitize-recover: a call of the system of
   its own, which no hook sees. Before that it calls who has asked for it.

   Called: undefined_watch by start.c, in the thread that starts the recorder, not in a handler, with no lock; it takes
   the loader's for a moment. The runtime calls the rest at its end, in any thread, also in a handler, with its own lock
   perhaps: as asancol_hooks.finish (interface/hooks.c). */
#ifndef ASANCOL_UNDEFINED_H
#define ASANCOL_UNDEFINED_H

/* From now on such an end is seen, if the runtime is there. */
void undefined_watch(void);

#endif
