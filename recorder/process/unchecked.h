/* What of the process was not checked: code that asancol-cc did not compile, and blocks of other allocators.

   Called: unchecked_start by start.c, once, while there is one thread, and unchecked_note_malloc by calls/modules.c
   (hooks.def), in the thread that opens a library: both not in a handler, with no lock of the recorder's, since they
   take the loader's. unchecked_list and unchecked_state by stream/modules.c (`above`), with the lock of the stream, or
   as a stream begins with the allocator's, while no other thread is in the stream: in any thread, also in a signal
   handler; they take none. Nothing is allocated. */
#ifndef ASANCOL_UNCHECKED_H
#define ASANCOL_UNCHECKED_H

#include <stdint.h>

/* Looks whose malloc the C library finds. At the start, while there is one thread. */
void unchecked_start(void);
/* A library was opened with RTLD_DEEPBIND: it calls the malloc that it finds itself, or those do that it brings. */
void unchecked_note_malloc(void *opened);
/* Adds to a list, which has SIDE_UNCHECKED_ROOM bytes, what this map of modules has and is not in it yet: lines, and
   zeros after them. A malloc that turns out to take its blocks from the recorder's is removed. The list is the stream's
   own: the copy beside the trace, which others read, is made after that. */
void unchecked_list(char *list, const char *maps);
/* A number for what the list has from elsewhere than the map: another one if the list may be another one. */
uint64_t unchecked_state(void);

#endif
