/* The plugin that GCC is given, which adds the checks that GCC leaves out (plugin/gcc.cpp).

   Called: by compiling.c, in the one thread of the wrapper; no lock. */
#ifndef ASANCOL_WRAPPER_PLUGIN_H
#define ASANCOL_WRAPPER_PLUGIN_H

#include "wrapper/job.h"

/* Its path, or null: it is not there, or was not made for this very compiler, which then would refuse it. */
const char *plugin_of(const struct job *job);

#endif
