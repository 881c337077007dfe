/* The members of an archive.

   Called: by taken.c, in the one thread of the wrapper; no lock. */
#ifndef ASANCOL_ARCHIVE_H
#define ASANCOL_ARCHIVE_H

#include "wrapper/linked.h"

/* What the members of this name are: others' if one of them is. None, if there is none. */
enum origin archive_origin(struct view archive, const char *path, const char *member);

#endif
