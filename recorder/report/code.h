/* Places in code, as a report has them: modules and offsets, which symbolizers read.

   Called: by report/ and interface/reports.c; module_of also by the program, through its table `reports`; in any
   thread, also in a signal handler. Lock: none: the loader is asked without one. Nothing is allocated. */
#ifndef ASANCOL_CODE_H
#define ASANCOL_CODE_H

#include <stdbool.h>
#include <stddef.h>
#include <stdint.h>

#include "report/text.h"
#include "stacks/stacks.h"

/* The module that has an instruction, and how far it is from where the module was linked for: so of a program that is
   not PIE it is the whole address. False: it is in none. */
bool module_of(uintptr_t instruction, char *path, size_t room, uintptr_t *offset);
/* "(MODULE+0xOFFSET)" */
void text_put_module(struct text *text, uintptr_t instruction);
/* A frame as a line. The function may be null. */
void text_put_frame(struct text *text, unsigned number, uintptr_t instruction, const char *function);
/* The frames of a call site from that number on, and an empty line; below the function of a library that the innermost
   one has called, or null. */
void text_put_stack(struct text *text, call_site of, unsigned number, const char *function);
/* The frames of a call site, as addresses after calls; one, if only the call itself is known. */
unsigned frames_of(call_site of, uint64_t frames[MAX_FRAMES]);

#endif
