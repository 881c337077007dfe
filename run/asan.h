/* ASAN_OPTIONS and LSAN_OPTIONS in our own environment: common/asan_options.def says what happens to each option. What
   the recorder takes it reads by itself, from the environment of each process.

   Called: by options.c, before anything is started, in the one thread of asancol-run; no lock. */
#ifndef ASANCOL_RUN_ASAN_H
#define ASANCOL_RUN_ASAN_H

#include "options.h"

/* Gives the options what the variables say, and notes for the verdict what has no effect. */
void asan_take(struct options *options);
/* The counterpart of an option of AddressSanitizer that was given as one of ours, with dashes for its underscores; or
   null. */
const char *asan_hint(const char *name, size_t length);

#endif
