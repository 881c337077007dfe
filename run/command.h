/* The command: it is a child of asancol-run, in its process group.

   Called: command_start by asancol-run.c, once, and command_settings by asking.c after that; in the one thread of
   asancol-run; no lock. `become` runs in the child, in our memory up to its exec (vfork), while this thread waits. */
#ifndef ASANCOL_RUN_COMMAND_H
#define ASANCOL_RUN_COMMAND_H

#include <sys/types.h>

#include "options.h"

/* Starts it with ASANCOL_HUB. Answers its number, or 0, errno, and the status to end with. */
pid_t command_start(const struct options *options, const char *hub, int *status);
/* The settings in its environment, each ended by a zero. */
const char *command_settings(size_t *length);

#endif
