/* A shared object of asancol-cc in a program that has no recorder, or that of another release.

   Called: by a constructor of that object (callbacks.c), in the thread that loads it, not in a signal handler, with the
   loader's lock. It takes no lock of its own. Here the C library is called as by any library: there is no recorder of
   ours to be disturbed. */
#ifndef ASANCOL_FOREIGN_H
#define ASANCOL_FOREIGN_H

#include "base/platform.h"

#include <stdbool.h>

/* Leaves word with the hub that the object is not recorded. `has_another`: the program has a recorder of another
   release. */
void foreign_note(bool has_another) OWN_NAME(foreign_note);

#endif
