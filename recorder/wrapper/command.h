/* The compiler that is run.

   Called: by asancol-cc.c, in the one thread of the wrapper; no lock. */
#ifndef ASANCOL_COMMAND_H
#define ASANCOL_COMMAND_H

#include <stdbool.h>

#include "common/string_list.h"
#include "wrapper/fronts.h"

/* The wrapper's own options. ccache sees options, and no variables. */
struct own_options {
    const char *compiler; /* in words, or null */
    bool is_all, has_no_run;
};

/* Takes its options out of the arguments, and what they do not say from its name, or else the environment. */
struct own_options own_options_take(char **argv, const struct called *called);
/* The arguments of the compiler. The first one is the path of a program, and never of this one. Fails if there is
   none. */
struct strings command_of(const char *text, const struct front *front);

#endif
