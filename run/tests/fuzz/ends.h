/* In the place of say.c: what fails comes back to where it was called, and nothing is printed. */
#ifndef ASANCOL_FUZZ_ENDS_H
#define ASANCOL_FUZZ_ENDS_H

#ifndef _GNU_SOURCE
#define _GNU_SOURCE
#endif
#include <setjmp.h>

extern jmp_buf fuzz_end;
_Noreturn void fuzz_exit(int status);

#endif
