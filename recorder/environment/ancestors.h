/* The hubs of the processes above this one. Somebody has cleared this process's environment; an ancestor may still have
   ASANCOL_HUB in its own.

   Called: by orphan.c, in the thread that starts the recorder or loads a shared object of asancol-cc; if the recorder
   is preloaded, in the first thread that executes checks, perhaps in a signal handler. Lock: it takes none, and asks
   for none: it reads /proc, and writes nothing but its own frame. */
#ifndef ASANCOL_ANCESTORS_H
#define ASANCOL_ANCESTORS_H

#include <stdbool.h>

#include "base/platform.h"

/* Calls `take` with the hub that an ancestor had in its environment when it began, and with `why`: from the parent up
   to the first asancol-run, and no further. It ends when `take` answers true, and then answers true. False too if none
   of the nearest 64 ancestors is called asancol-run: then `take` is not called. */
bool ancestors_hubs(bool (*take)(const char *hub, const char *why), const char *why) OWN_NAME(ancestors_hubs);

#endif
