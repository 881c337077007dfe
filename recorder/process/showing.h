/* The first report of each place, printed by the process where it comes up, in words of its run. A process that halts
   asks instead whether its run suppresses the report.

   Called: show_begin by process.c, as a recording begins, in the only thread or with all locks; show_report by
   interface/reports.c, in the thread with the fault, perhaps in a signal handler: then nothing is shown; and then
   show_says_uncounted there by halt.c. Lock: the caller has none of the recorder's. One thread shows at a time, and
   others wait for it, within the same time; what sends the stream takes its lock. Nothing is allocated. */
#ifndef ASANCOL_SHOWING_H
#define ASANCOL_SHOWING_H

#include <stdbool.h>
#include <stdint.h>

#include "environment/settings.h"
#include "stream/telling.h"

/* Shows reports from now on, if the settings want it: those of this process, which may be a forked child. */
void show_begin(const struct settings *of_process);
/* Prints the report, unless one of this place was printed. The thread waits for it, but not for ever: the run prints at
   its end whatever was not printed here. */
void show_report(const struct told *told);
/* Whether the run has said of the report that was just given to show_report, with this address after the call, that it
   does not count: then the process goes on. */
bool show_says_uncounted(uintptr_t caller);

#endif
