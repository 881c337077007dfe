/* Where the shadow lies, the page beside it, and the tables (base/tables.h). An object is the program or a shared
   object: each has this file.

   Called: shadow_map by the first call into an object (start/, interface/variables.c, heap/arena.c), shadow_map_early
   by start/resolvers.c before that, shadow_try_to_map by process/preload_choice.c: in the thread of that call. There is
   no second one yet, or the loader's lock is held, as when a shared object maps while it is relocated. shadow_switch
   by process/process.c with the allocator's lock, when a recording begins. is_in_guard by
   process/signals.c, in a handler, and report/describing.c; is_in_own_file by stacks/ and process/given.c, in any
   thread, also in a handler. No lock: these two read constants. */
#ifndef ASANCOL_MAPPING_H
#define ASANCOL_MAPPING_H

#include "base/platform.h"
#include "libc/hook_page.h"
#include "shadow/shadow.h"

/* Maps all of this, once in a process, before any code of the compilers' that has a variable on its stack. Without
   room for them the process ends with status 127 and a line. */
void shadow_map(void) OWN_NAME(shadow_map);
/* Maps the shadow and the page, if there is room, for a program's calls and code that come before that. It calls the
   system alone. */
void shadow_map_early(void) OWN_NAME(shadow_map_early);
/* The same for a preloaded recorder. False: there is no room, and the process goes on without it. */
bool shadow_try_to_map(void);
/* What checks read of options, in `hook_page`. */
void shadow_switch(const struct switches *switches);
/* The object's own code, as the program's in `hook_page`. */
extern struct code_range own_code OWN_NAME(own_code);
/* Whether this is in the shadow of the shadow itself, which can't be read: nothing leads there but a wild pointer of
   the program's. */
bool is_in_guard(uint64_t address);
/* Whether the bytes are in a part of the object's file that is in memory. */
bool is_in_own_file(uint64_t start, uint64_t size);

#endif
