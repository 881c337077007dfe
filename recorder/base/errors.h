/* The system's errors in words.

   Called: by say.c, shadow/mapping.c, stream/, process/waiter.c and process/halt_report.c, in any thread, also in a
   handler; no lock: a constant table. Shared objects have it too. */
#ifndef ASANCOL_ERRORS_H
#define ASANCOL_ERRORS_H

#include "base/platform.h"

/* The C library's text for an error, as errno has it. */
const char *error_text(int error) OWN_NAME(error_text);

#endif
