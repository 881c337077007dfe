/* Blocks that nothing leads to any more, as LeakSanitizer finds them. They become findings beside the stream
   (findings.h), one for each stack that has allocated some.

   Called: leaks_are_wanted and leaks_look_at_end by start/start.c at an exit, the others by the program (__lsan_.. of
   interface.c, by hooks.def), in the thread that does so; in a handler too, but nothing is found if that has
   interrupted the allocator. Lock: the caller has none of the recorder's. Taken here are the loader's, the allocator's
   and for a moment the stream's; in a static program, and in a child forked from threads while it has one thread, not
   the loader's; leaks.c says what may be called with them. Findings are noted once they are given back. */
#ifndef ASANCOL_LEAKS_H
#define ASANCOL_LEAKS_H

#include <stdbool.h>

#include "base/platform.h"

/* Whether leaks_look_at_end will look for them. */
bool leaks_are_wanted(void);
/* Looks for them at an exit, after all that the process runs there; unless that was done by leaks_look_once. The other
   threads stay stopped if this is the end (world.h). */
void leaks_look_at_end(bool is_end);
/* Looks now, and neither at the end nor when this is called again. */
void leaks_look_once(void) OWN_NAME(leaks_look_once);
/* Looks now. Returns whether there are any; false also if nobody has asked for leaks. */
bool leaks_look_now(void) OWN_NAME(leaks_look_now);

#endif
