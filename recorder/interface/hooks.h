/* How code that is linked into programs and into shared objects reaches the recorder: by the table of the program,
   which a shared object finds if there is one (hooks.def).

   Called: by the checks of calls (note_ended by rows.h, note_operator and its end by new.c), by callbacks
   (note_each_access) and by the interface (is_first_crash), in any thread, also in a signal handler, and where there is
   no recorder. Lock: none is taken here, and the caller has none of the recorder's; the functions of the table have
   their own rules. A record may take the allocator's and the stream's, where its segment is full (places.c). */
#ifndef ASANCOL_HOOKS_H
#define ASANCOL_HOOKS_H

#include <limits.h>
#include <stdatomic.h>
#include <stdbool.h>
#include <stddef.h>
#include <stdint.h>

#include "libc/hook_page.h"
#include "process/exec_notice.h"
#include "process/halt.h"
#include "heap/heap.h"
#include "process/process.h"
#include "shadow/shadow.h"
#include "stacks/fake_stack.h"
#include "stream/findings.h"
#include "stream/record.h"
#include "process/threads.h"

struct sigaction;
struct filter;
struct global;
struct reports;

/* What shared objects find in the program. They are built with the small libasancol_shared.a, whose functions do
   nothing where no recorder is there. */
struct recorder_hooks {
#define TELL_OFTEN TELL
#define ASK_OFTEN ASK
#define TELL(name, function, parameters, arguments) void(*name) parameters;
#define ASK(type, name, function, otherwise, parameters, arguments) type(*name) parameters;
#include "interface/hooks.def"
#undef TELL
#undef ASK
#undef TELL_OFTEN
#undef ASK_OFTEN
    bool (*is_first_crash)(void);
    int (*set_action)(int number, const struct sigaction *action, struct sigaction *old);
    const struct stream *stream;
    const struct reports *reports;
    const int *takes_frames;
};

#ifdef IN_SHARED_OBJECT

#define asancol_hooks (*HOOK_PAGE->hooks)
#define TELL_OFTEN TELL
#define ASK_OFTEN ASK

#else

extern const struct recorder_hooks asancol_hooks;
#define TELL_OFTEN(name, function, parameters, arguments)                                                              \
    static inline void note_##name parameters                                                                          \
    {                                                                                                                  \
        function arguments;                                                                                            \
    }
#define ASK_OFTEN(type, name, function, otherwise, parameters, arguments)                                              \
    static inline type ask_##name parameters                                                                           \
    {                                                                                                                  \
        return function arguments;                                                                                     \
    }

#endif

#define TELL(name, function, parameters, arguments)                                                                    \
    static inline void note_##name parameters                                                                          \
    {                                                                                                                  \
        if (HAS_HOOKS)                                                                                                 \
            asancol_hooks.name arguments;                                                                              \
    }
#define ASK(type, name, function, otherwise, parameters, arguments)                                                    \
    static inline type ask_##name parameters                                                                           \
    {                                                                                                                  \
        return HAS_HOOKS ? asancol_hooks.name arguments : (otherwise);                                                 \
    }
#include "interface/hooks.def"
#undef TELL
#undef ASK
#undef TELL_OFTEN
#undef ASK_OFTEN

/* Always: the frame of who calls this is that of the operator. */
static inline __attribute__((always_inline)) void note_operator(struct said *before, uintptr_t caller, struct use use)
{
#ifdef IN_SHARED_OBJECT
    before->use.family = FAMILY_MALLOC;
    note_operator_begins(before, caller, use);
#else
    heap_operator_begins(before, caller, use);
#endif
}

static inline void note_operator_end(const struct said *before)
{
#ifdef IN_SHARED_OBJECT
    note_operator_ends(before);
#else
    heap_operator_ends(before);
#endif
}

static inline bool is_first_crash(void)
{
    static _Atomic bool is_taken; /* where no recorder is there */
    return HAS_HOOKS ? asancol_hooks.is_first_crash() : !atomic_exchange(&is_taken, true);
}

/* Each access is noted here, and not a bad one alone: then mallocs and frees are recorded too. To begin that takes the
   allocator's lock and the stream's (recorder_go_full). */
static inline void note_each_access(void)
{
    static bool is_noted;
    if (UNLIKELY(!is_noted))
        is_noted = ask_go_full();
}

/* How a child has ended, if a signal has ended it. */
static inline void note_ended(int child, const int *status)
{
    enum { SIGNAL_BITS = 0x7f, STOPPED = 0x7f };
    int number = child > 0 ? *status & SIGNAL_BITS : 0;
    if (UNLIKELY(number != 0 && number != STOPPED))
        note_child_killed(child, number);
}

#endif
