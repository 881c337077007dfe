/* One group of the rows of calls.def: those below one of its comments, which the build names (Makefile). For programs
   each is a member by itself, which comes in where one of its functions is called; or with all others (every.c).

   Called: as rows.h says. */
#define _GNU_SOURCE
#ifndef IN_SHARED_OBJECT
#define LISTS_STUBS
#endif
#include "calls/words.h"

#ifdef LISTS_STUBS
KEEPS_LIST("asancol_calls_" GROUP)
#endif

#include ROWS
