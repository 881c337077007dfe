/* A preloaded recorder waits for the first shared object of asancol-cc, or the first bad access or free.

   Called: recorder_wait_no_more by halt.c, in the thread with the first fault, and recorder_found_checks by compiled
   code (callbacks.h), in any thread, both perhaps in a signal handler; recorder_module_comes by the first constructor
   of a shared object (callbacks.c), not in a handler, with the loader's lock. In a recorder that is not preloaded the
   last two only note that there are checks. Lock: the caller has none of the recorder's. To begin process.c takes the
   allocator's and the stream's, and then plain.c the loader's. */
#ifndef ASANCOL_PRELOAD_WAIT_H
#define ASANCOL_PRELOAD_WAIT_H

/* Begins the recording, if it waits. Where a handler has interrupted the allocator, the next fault does. */
void recorder_wait_no_more(void);
/* A shared object, or what calls an exported callback, has the calls of a compiler before its accesses. */
void recorder_found_checks(void);
/* A shared object of asancol-cc is loaded, before its constructors. */
void recorder_module_comes(void);

#endif
