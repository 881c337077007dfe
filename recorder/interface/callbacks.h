/* How the functions are defined that compiled checks call.

   They are compiled three times. In libasancol_shared.a they are a member that comes in only if the object's own checks
   ask for it, and so they are, as checks.o, in the archives of programs. So that this member came in says that
   something was compiled by asancol-cc. Programs have them a third time, weak and always: an object that is opened
   later, and was linked by something else, finds these in the program.

   Called: by compiled code, in any thread, also in a signal handler, from before the first constructor on. Lock: the
   program holds what it likes, and none of the recorder's. None is taken here; but the record of an access that is bad
   or past a full segment, note_each_access, and note_checks, if that begins the recording (preload_wait.h), take the
   allocator's and the stream's, and note_checks then the loader's; a finding (note_pair) may take the stream's. Either
   record may run the program's code (telling.h). Nothing is allocated. */
#ifndef ASANCOL_CALLBACKS_H
#define ASANCOL_CALLBACKS_H

#include <stdbool.h>

#include "base/platform.h"
#include "process/preload_wait.h"

#if defined IN_SHARED_OBJECT
#define CALLBACK /* hidden: each shared object calls its own */
#elif defined IN_CHECKS
#define CALLBACK VISIBLE
#else
#define CALLBACK REPLACES
#endif

/* Notes that something compiled is here, which the member's presence does not say. */
static inline void note_checks(void)
{
#if !defined IN_SHARED_OBJECT && !defined IN_CHECKS
    static bool is_noted;
    if (UNLIKELY(!is_noted))
        recorder_found_checks();
    is_noted = true;
#endif
}

#endif
