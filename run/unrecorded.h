/* The programs of the run that asancol-cc did not build, by the marks that recorder/start/program_mark.c leaves.

   Called: unrecorded_take by asancol-run.c, once, at the end, when unchecked.h has what the processes list; in the one
   thread of asancol-run; no lock. */
#ifndef ASANCOL_RUN_UNRECORDED_H
#define ASANCOL_RUN_UNRECORDED_H

#include <stdbool.h>

/* Names those below the current folder, or below the folder of a program that asancol-cc built; or all. */
void unrecorded_take(bool all);

#endif
