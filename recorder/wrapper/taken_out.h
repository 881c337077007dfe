/* Words that the compiler does not get.

   Called: by asancol-cc.c, in the one thread of the wrapper; no lock. */
#ifndef ASANCOL_WRAPPER_TAKEN_OUT_H
#define ASANCOL_WRAPPER_TAKEN_OUT_H

struct job;

/* Takes words out of the compiler's and the caller's, also in response files. Those that say whether accesses to
   variables of functions that have returned are to be found: Clang and GCC have words of their own, and each is
   understood with both. The last one holds. Fails at a value that is none. And those that link AddressSanitizer's
   runtime or LeakSanitizer's. */
void taken_out(struct job *job);

#endif
