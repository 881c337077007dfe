/* A program may ask to be told of each report while it runs, and a run may print the first one of each place there
   (interface/reports.h). Bad accesses and frees come from here.

   Called: is_telling by record.h, watched.c, findings.c, heap/allocating.c, interface/reports.c and process/halt.c,
   is_showing by all of these but halt.c, in any thread, also in a handler; no lock: one atomic each. `above.tell`
   (state.h) then tells both, or puts that off until no lock is held. */
#ifndef ASANCOL_TELLING_H
#define ASANCOL_TELLING_H

#include <stdatomic.h>
#include <stdint.h>

#include "base/platform.h"
#include "common/format.h"

/* A bad access, a bad free or a finding. */
struct told {
    enum finding_kind finding; /* FINDING_NONE: an access or a free, by its code */
    enum code code;
    uintptr_t caller;       /* the address after the call */
    uint64_t address, size; /* of a call that makes an access, its first bad byte */
    const char *call;       /* the library's function; null: the program itself */
    uint64_t event;         /* its number in the stream, or 0: then it is a finding with this number in the list */
    uint32_t entry;         /* of faults; or 0: it is in neither */
};

/* Whether the program has asked. Relaxed: who asks is told of what comes after. */
extern _Atomic bool telling_is_on OWN_NAME(telling_is_on);

static inline bool is_telling(void)
{
    return UNLIKELY(atomic_load_explicit(&telling_is_on, memory_order_relaxed));
}

/* Whether the run prints reports where they come up. Relaxed: it is written once, at the start. */
extern _Atomic bool showing_is_on OWN_NAME(showing_is_on);

static inline bool is_showing(void)
{
    return UNLIKELY(atomic_load_explicit(&showing_is_on, memory_order_relaxed));
}

#endif
