/* Globals that two modules have defined, against the rule of one definition. As AddressSanitizer's
   detect_odr_violation.

   Called: by the constructors and destructors of a module (variables.c and registering.c, by hooks.def), in the thread
   that loads or unloads it, never in a signal handler. Lock: the loader's, or there is one thread: so nothing is
   guarded here. dlsym takes it once more, as a thread may. */
#ifndef ASANCOL_ODR_H
#define ASANCOL_ODR_H

#include <stdbool.h>
#include <stdint.h>

struct global;

/* A table of globals comes, whose redzones are not painted yet, or goes (globals_note). */
void odr_globals_note(const struct global *table, uint64_t count, bool is_there);

#endif
