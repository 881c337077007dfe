/* Strings and streams of C++ are compiled with checks once, into an archive of the recorder's (cxx/instances.cpp). What
   it has there is called NAME.asancol, and an object that is compiled for it calls that. So it is not linked without
   the archive, and nothing without checks takes its place.

   Called: checked_names_give by running.c, checked_names_are_given by linked.c, in the one thread of the wrapper; no
   lock. */
#ifndef ASANCOL_CHECKED_NAMES_H
#define ASANCOL_CHECKED_NAMES_H

#include <stdbool.h>

#include "wrapper/view.h"

#define CHECKED_ARCHIVE "libasancol_cxx.a"

/* Has an object call what the archive has by the archive's names. False: it is no object for this machine. Fails if it
   can't be written. */
bool checked_names_give(const char *path);
/* Whether an object calls so all that the archive has. */
bool checked_names_are_given(struct view view);

#endif
