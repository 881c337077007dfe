/* No state of its own: whether the recorder waits is known by process.c, and who comes first begins the recording. */
#include "process/preload_wait.h"

#include <stdatomic.h>
#include <stdbool.h>

#include "base/disturbance.h"
#include "base/self.h"
#include "process/plain.h"
#include "heap/heap.h"
#include "process/preload_choice.h"
#include "process/process.h"
#include "process/signals.h"
#include "stream/side.h"

void recorder_wait_no_more(void)
{
    if (!IS_PRELOADED || heap_is_entered() || !recorder_end_waiting())
        return;
#ifndef IS_STATIC
    plain_begin();
#endif
    struct disturbance before;
    undisturbed_begin(&before);
    signals_handle();
    undisturbed_end(&before);
}

/* What a program says at its start, one that has this preloaded says once it has a module. */
void recorder_found_checks(void)
{
    static _Atomic bool has_said;
    self_note_checks();
    side_note_checks();
    if (IS_PRELOADED && !atomic_exchange(&has_said, true))
        recorder_say_who();
    if (recorder_waits_for_checks())
        recorder_wait_no_more();
}

/* Its own slots are looked at now: a constructor may allocate. */
void recorder_module_comes(void)
{
    recorder_found_checks();
#ifdef IS_PRELOAD
    plain_look_again();
#endif
}
