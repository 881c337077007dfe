/* Before the resolvers of a program. Of the C library nothing may be called then.

   Called: by preinit.c, which the dynamic linker calls before all else, in the only thread; no lock. */
#ifndef ASANCOL_PREINIT_H
#define ASANCOL_PREINIT_H

#include "base/platform.h"

/* Maps the shadow and the hook page. If the program has other resolvers, or entries of .preinit_array before ours,
   tells the hub to expect it, as before an exec. */
void preinit_resolver(void) OWN_NAME(preinit_resolver);

#endif
