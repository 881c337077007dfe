/* What the dynamic linker brings into each program of the command: the recorder, for programs that asancol-cc did not
   build, and what marks the programs of a run (recorder/start/program_mark.c).

   Called: by options.c, before anything is started, in the one thread of asancol-run; no lock. */
#ifndef ASANCOL_RUN_PRELOAD_H
#define ASANCOL_RUN_PRELOAD_H

#include <stdbool.h>

/* The value of LD_PRELOAD for the command, with its former value; null: it stays. Fails if there is no recorder. If
   programs can't be marked, `why` is a line that says so. */
const char *preload_value(bool has_recorder, bool has_marker, const char **why);

#endif
