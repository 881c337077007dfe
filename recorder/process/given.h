/* Memory that the program gives to the system, of which nothing is known.

   Called: given_is_there and given_text_length by calls/there.c (hooks.def), given_is_there and given_text_is_there by
   exec_notice.c, in any thread, also in a signal handler and in a child of vfork. Lock: none: it looks at the shadow,
   and asks the system. */
#ifndef ASANCOL_GIVEN_H
#define ASANCOL_GIVEN_H

#include <stdbool.h>
#include <stddef.h>
#include <stdint.h>
#include <string.h>

#include "base/platform.h"

/* Whether this many bytes can be read. The system is asked unless they are in the program's file, in a live block,
   above us on the thread's own stack, or what the process was started with. */
bool given_is_there(uintptr_t start, size_t size);
/* Whether a text can, up to its end. */
bool given_text_is_there(const char *text);

/* How many of the first bytes of a text can be read, at most up to its end and with that; `is_there` answers for each
   page. */
static inline size_t given_text_length(const char *text, bool (*is_there)(uintptr_t start, size_t size))
{
    const char *at = text, *end = NULL;
    while (text != NULL && end == NULL && is_there((uintptr_t)at, 1)) {
        size_t piece = PAGE - (uintptr_t)at % PAGE;
        end = memchr(at, 0, piece);
        at += piece;
    }
    return (size_t)((end != NULL ? end + 1 : at) - text);
}

#endif
