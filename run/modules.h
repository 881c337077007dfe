/* The files of the programs and shared objects that processes run, as these have sent them: held open, so that reports
   have lines of what a test builds, runs and removes, or builds anew. A file that several processes run is held once,
   as long as one of them may have a report.

   Called: modules_allow and modules_held by loop.c, modules_take by side.c, modules_find and modules_copy by report.c,
   modules_let_go by checkers.c; in the one thread of asancol-run; no lock. */
#ifndef ASANCOL_RUN_MODULES_H
#define ASANCOL_RUN_MODULES_H

#include <stddef.h>

#include "common/format.h"

/* Of one process. */
struct modules {
    struct module **list; /* null, or with room for SIDE_FILES */
    size_t count;
};

/* The most that are held. */
void modules_allow(size_t most);
/* Takes descriptors, which are closed here if they are useless: not files, or held already. */
void modules_take(struct modules *modules, const int *descriptors, size_t count);
/* Opens those of a map of modules that are not among them yet, as objects of dlopen, and are still the loaded files. */
void modules_find(struct modules *modules, const char *map);
/* Copies of them, and how many there are. */
size_t modules_copy(const struct modules *modules, int copies[SIDE_FILES]);
void modules_let_go(struct modules *modules);
/* How many descriptors are held here. */
size_t modules_held(void);

#endif
