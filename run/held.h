/* Processes that have sent their first bytes, and no fault: as long as their streams are small they get no checker. One
   that ends soon is checked with others; one that lives on, or sends more, has a checker of its own.

   Called: by loop.c, in the one thread of asancol-run; no lock. */
#ifndef ASANCOL_RUN_HELD_H
#define ASANCOL_RUN_HELD_H

#include <poll.h>
#include <stdbool.h>

#include "processes.h"

/* Takes a descriptor. Before that, or if there is none, none is held. */
void held_begin(void);
/* Takes one that has sent its first bytes. False: it gets a checker of its own now. */
bool held_take(struct segment *segment);
/* The descriptor to be polled, and the latest time at which something is due, as now() says it; or INFINITY. */
struct pollfd held_poll(void);
double held_due(void);
/* Looks at those that have sent more or have ended, if the poll says that there are such; and have lived so long. */
void held_look(bool is_ready);

#endif
