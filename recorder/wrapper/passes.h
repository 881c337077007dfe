/* The plugin that Clang is given, which makes its checks cheaper (clang/plugin.c).

   Called: by asancol-cc.c, in the one thread of the wrapper; no lock. */
#ifndef ASANCOL_WRAPPER_PASSES_H
#define ASANCOL_WRAPPER_PASSES_H

#include "wrapper/job.h"

/* Its path, or null: it is not wanted, or there are no passes for this very version of Clang. */
const char *passes_of(const struct job *job);

#endif
