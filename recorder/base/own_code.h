/* Which code is the recorder's own, so that a fault in there is its mistake. The build (Makefile) gives it a section
   for itself. The checks of calls and accesses are not there: they touch what the program has given.

   Called: own_code_has by process/signals.c, in the handler of a fault; program_clear by heap/allocating.c and
   arena.c, and program_copy by heap/allocating.c, in the thread that allocates, also in a handler, for the block
   that it is about to get. No lock, nor is any held: nothing here has a state. */
#ifndef ASANCOL_OWN_CODE_H
#define ASANCOL_OWN_CODE_H

#include <stdbool.h>
#include <stddef.h>
#include <stdint.h>

/* The same for a function among the recorder's own that touches memory for the program, as its C library would: a
   fault there is the program's. */
#define OF_PROGRAM __attribute__((noinline, section(".text.of_program")))

/* Whether this instruction is there, by the frame pointer too: own.c works for any of the recorder's functions, and the
   one that has called it counts. */
bool own_code_has(uintptr_t instruction, uintptr_t frame);

/* Into blocks. */
void program_clear(void *to, size_t size);
void program_copy(void *to, const void *from, size_t size);

#endif
