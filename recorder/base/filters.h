/* The program's filters of system calls (seccomp), as far as they concern the recorder. One that the process would not
   survive is not made: it fails with EPERM, as by a filter that answers with an error. So a program whose filter ends
   the process at other calls than its own lives where it lives alone.

   Known are the filters that the process installs by prctl, or by `syscall` and `seccomp`, while it is recorded; not
   those that it has inherited from another program.

   Called: filtered_call by the calls of the system (processor.h); filters_copy by process/process.c and filters_end
   by exits.c and the row of prctl (hooks.def), before and after the program's call; filters_own and filters_inherit
   by process/threads.c, where a thread is created and begins; in any thread, also in a signal handler. Lock: none: a
   thread has its own list, and the list of all is one atomic pointer. Memory comes from the system. */
#ifndef ASANCOL_FILTERS_H
#define ASANCOL_FILTERS_H

#include <stdbool.h>

struct filter;

/* Copies a filter that is to be installed. Null: it can't be read, so the system will refuse it. */
const struct filter *filters_copy(bool is_strict, const void *program);
/* It is installed, for this thread or for all of them, or was refused. */
void filters_end(const struct filter *copy, bool is_installed, bool is_for_all);
/* Those of this thread, which one that it creates gets. */
const struct filter *filters_own(void);
void filters_inherit(const struct filter *filters);

#endif
