/* Frames of fake stacks, as code of a shared object asks for them.

   Called: by registering.c, in the first call into a shared object, in the thread that loads it, with the loader's
   lock. It takes none. What compiled code calls, in any thread, is in fake_frames.c (callbacks.h says how). */
#ifndef ASANCOL_FAKE_FRAMES_H
#define ASANCOL_FAKE_FRAMES_H

#include "base/platform.h"

/* Before the constructors of a shared object. */
void fake_frames_begin(void) OWN_NAME(fake_frames_begin);

#endif
