/* From where the process can come to its blocks: registers, stacks and thread-local memory of its threads, the writable
   parts of its modules, and what it has named.

   Called: by leaks.c, in the thread that looks for leaks, maybe in a handler (leaks.h), while all others stand still.
   Lock: the allocator's, and the loader's too where leaks.h says so: leaks.c has taken them. There dl_iterate_phdr
   takes the loader's once more, as a thread may; nothing else that takes a lock is called. */
#ifndef ASANCOL_ROOTS_H
#define ASANCOL_ROOTS_H

#include <stdint.h>

/* Marks all that they lead to (marking.h). Of the running thread's stack what lies from `frame` on. */
void roots_mark(uintptr_t frame);

#endif
