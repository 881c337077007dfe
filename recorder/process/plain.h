/* What plain libraries call: those that asancol-cc did not link.

   Called: plain_begin by first_call.c, in the first thread, or if this is preloaded by preload_wait.c, once, with the
   first checks or fault, in any thread, perhaps in a signal handler; plain_look_again by hooks.c after a dlopen and by
   preload_wait.c, in the thread that loads the library; plain_instead_of by finding.c (hooks.def), in the thread that
   calls dlsym: both not in a handler.
   plain_is_of_library also by unchecked.c, in any thread and in a handler, with the stream's or the allocator's lock.
   Lock: the first three take the loader's, so their callers have none of the recorder's; the last takes none. */
#ifndef ASANCOL_PLAIN_H
#define ASANCOL_PLAIN_H

#include <stdbool.h>

/* Has their calls of the C library checked, from here on: of all that are loaded. Once, before there are threads, or if
   this is preloaded when the recording begins. Does nothing if no call is checked, or ASANCOL_LIBRARIES says
   so. */
void plain_begin(void);
/* Those that were loaded since, too. Not in a signal handler. */
void plain_look_again(void);
/* What stands for a function that was found by its name: the program's stub, so that a function has one address, and
   its calls by that are checked; and for one of the C library's allocator, whose blocks are not known, the recorder's.
   `is_new`: it is the version that new programs get. */
void *plain_instead_of(void *found, const char *name, bool is_new);
/* Whether a module that is called so, without its folders, is the C library or belongs to it: its calls are not the
   program's. */
bool plain_is_of_library(const char *name);

#endif
