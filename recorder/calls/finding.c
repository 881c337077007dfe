/* What dlsym answers. It goes by its caller, so it is called from the object that asks. Who asks for a function by its
   name may ask for any.

   Called: by the program, in the thread that calls dlsym or dlvsym, not in a signal handler. Lock: the C library takes
   the loader's in these, and ask_instead_of does, so the caller has none of the recorder's. */
#define _GNU_SOURCE
#include <dlfcn.h>

#include "calls/stubs.h"
#include "interface/hooks.h"
#include "stacks/cfi.h"

#ifndef IN_SHARED_OBJECT
TOP_ASM(".pushsection .text\n\t.balign 4\n\t.long asancol_every_call - .\n.popsection\n");
#endif

REAL(void *, dlsym, (void *, const char *));
REAL(void *, dlvsym, (void *, const char *, const char *));

GUARD_OWN_OF_CALLER(dlsym);
CHECK void *checked_dlsym(void *where, const char *name)
{
    IS_OWN_FRAME; /* a resolver of the library may run */
    void *found = real_dlsym(where, name);
    return found != NULL ? ask_instead_of(found, name, true) : NULL;
}

/* Of a version: the same code may stand for another that is checked otherwise. */
GUARD_OWN_OF_CALLER(dlvsym);
CHECK void *checked_dlvsym(void *where, const char *name, const char *version)
{
    IS_OWN_FRAME;
    void *found = real_dlvsym(where, name, version);
    return found != NULL ? ask_instead_of(found, name, false) : NULL;
}
