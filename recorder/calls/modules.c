/* A library that is opened later has its place in the map of modules, and may have another malloc than the program.

   Called: by the program's dlopen and dlmopen, in the thread that opens, not in a signal handler, with no lock of the
   recorder's: the C library takes the loader's, and constructors of the library run. Then note_deeply_bound takes the
   loader's for a moment, and note_modules_changed that and then the stream's. */
#define _GNU_SOURCE
#include <dlfcn.h>

#include "calls/stubs.h"
#include "interface/hooks.h"
#include "stacks/cfi.h"

#ifndef IN_SHARED_OBJECT /* an opened library may call any function */
TOP_ASM(".pushsection .text\n\t.balign 4\n\t.long asancol_every_call - .\n.popsection\n");
#endif

REAL(void *, dlopen, (const char *, int));
REAL(void *, dlmopen, (Lmid_t, const char *, int));

static void note_opened(void *opened, int mode)
{
    if (opened == NULL)
        return;
    if ((mode & RTLD_DEEPBIND) != 0)
        note_deeply_bound(opened);
    note_modules_changed();
}

GUARD_OWN_OF_CALLER(dlopen);
CHECK void *checked_dlopen(const char *file, int mode)
{
    IS_OWN_FRAME; /* a constructor of the library may run */
    note_before_init(NULL);
    void *opened = real_dlopen(file, mode);
    note_opened(opened, mode);
    return opened;
}

GUARD_OWN_OF_CALLER(dlmopen);
CHECK void *checked_dlmopen(Lmid_t namespace, const char *file, int mode)
{
    IS_OWN_FRAME;
    note_before_init(NULL);
    void *opened = real_dlmopen(namespace, file, mode);
    note_opened(opened, mode);
    return opened;
}
