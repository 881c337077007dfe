/* Whether the preloaded recorder records this process, or steps aside: if the program has a recorder, as all that
   asancol-cc has linked, or if there is no room for the shadow.

   Called: preload_choice_is_own by start.c and first_call.c, and for the first time perhaps by way_of, while there is
   one thread; way_of by the first call of each name (exports.c), in any thread, also in a signal handler; the others by
   plain.c, as plain_begin and plain_instead_of are (plain.h). Lock: the first preload_choice_is_own, way_of, if the
   recorder steps aside, and preload_choice_find_behind take the loader's for a moment; the rest takes none. Nothing is
   allocated. */
#ifndef ASANCOL_PRELOAD_CHOICE_H
#define ASANCOL_PRELOAD_CHOICE_H

#include <stdbool.h>
#include <stdint.h>

#include "base/platform.h"

/* Where a name of the C library's leads that the recorder has too (exports.c): relaxed, since who does not find it
   decided asks again. */
struct exported {
    _Atomic uintptr_t to;
    uintptr_t own, code; /* the recorder's function, and where a call of the name leads */
    const char *name;
    uintptr_t behind; /* the C library's function of the name, if that is hidden; or 0 (preload_choice_find_behind) */
};

#ifdef IS_PRELOAD
/* Decided at the first call. */
bool preload_choice_is_own(void);
#else
static inline bool preload_choice_is_own(void)
{
    return true;
}
#endif

struct object;
/* Finds what the names hide of this object, the C library. Once, before the first slot is looked at (plain.c). */
void preload_choice_find_behind(const struct object *of);
/* Where a call of a name leads, if the recorder has that; or 0. */
uintptr_t preload_choice_function_behind(const char *name);
/* Whether a pointer leads to a hidden function. */
#ifdef IS_PRELOAD
bool preload_choice_is_behind(const void *pointer);
#else
static inline bool preload_choice_is_behind(const void *pointer)
{
    (void)pointer;
    return false;
}
#endif

/* Of a name that is called: the recorder's function, or that of an object after it. */
uintptr_t way_of(struct exported *it) OWN_NAME(way_of);

#endif
