/* What a compiler is given for a link: the recorder, and the functions that the linker wraps.

   Called: by running.c, in the one thread of the wrapper; no lock. */
#ifndef ASANCOL_LINKING_H
#define ASANCOL_LINKING_H

#include "wrapper/job.h"

/* Before the caller's arguments: what comes first in the program. */
void linking_add_before(struct strings *line, const struct job *job);
/* After them. */
void linking_add_after(struct strings *line, const struct job *job);
/* Whether a program gets the C library into itself. Then no function is wrapped. */
bool linking_is_static(const struct link_request *link);
/* Whether a program gets of the calls that are checked no more than its objects ask for. */
bool linking_has_some_calls(const struct job *job);
/* Examines the linked file. True: it must be linked again. A function is left alone if the program has a variable
   of its name, whose uses would be wrapped too; and weak references bring no call in. Fails if a function of
   the program's would be called that is not in a plain build. */
bool linking_needs_another(struct job *job, const char *output);

#endif
