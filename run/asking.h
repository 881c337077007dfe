/* Processes that ask beside the hub: for the settings of the run, since their environment was cleaned; for their report
   in words; or they leave word that they are not recorded. They wait for the answer, so that it can be seen who has
   started them.

   Called: by loop.c, and asking_of by report.c, in the one thread of asancol-run; no lock. */
#ifndef ASANCOL_RUN_ASKING_H
#define ASANCOL_RUN_ASKING_H

#include <poll.h>
#include <stdbool.h>
#include <stddef.h>
#include <sys/types.h>

#include "hub.h"

/* How many may ask at once: others wait. */
enum { ASKING_MOST = 8, ASKING_POLLS = HUB_LISTENERS + ASKING_MOST };
/* How many may wait for their reports: others print their own. */
enum { ASKING_WAITING = 64 };

/* Fills in the descriptors to be polled, and returns for how many seconds at most. */
double asking_polls(struct pollfd *polls, double seconds);
void asking_take(const struct pollfd *polls);
/* Whether one asks, or waits for its turn. */
bool asking_is_any(void);
/* The connection on which a process has asked for its report before it ended its recording, which is the caller's now;
   or -1. */
int asking_of(pid_t number);
/* How many descriptors wait for that. */
size_t asking_held(void);

#endif
