/* Who this process is, and what it has, as far as the recorder's parts ask.

   Called: self_note_process by process/process.c at the start and in a forked child; self_note_main there by a
   constructor; self_note_checks by process/preload_wait.c when a module with checks comes; recorder_has_checks and
   recorder_has_begun by stream/, with its lock or before there is a stream. The other two by any file, in any
   thread, also in a handler. No lock here: each fact is one atomic variable. */
#ifndef ASANCOL_SELF_H
#define ASANCOL_SELF_H

#include <stdbool.h>

/* Not in a child of vfork, which runs in its parent's memory, nor in one that no fork has announced. */
bool recorder_is_own_process(void);
/* At the start, and in a child after a fork: it is this one. */
void self_note_process(void);
/* The number that was noted then. */
int self_process(void);
/* Whether the program or a shared object has the calls of a compiler before its accesses. If not, the trace gets no
   close: what the process did was not seen. */
bool recorder_has_checks(void);
/* It has. */
void self_note_checks(void);
/* Whether the constructors of the program are over. */
bool recorder_has_begun(void);
/* They are. */
void self_note_main(void);

#endif
