/* The table that shared objects find in the program, `asancol_hooks`.

   Called: by the table, in any thread, with no lock of the recorder's: modules_changed by calls/modules.c, not in a
   signal handler; finish_at_exit by exits.c, also in one. Both take the loader's and then the stream's for a moment;
   finish_at_exit also the allocator's (root.h). */
#define _GNU_SOURCE
#include "interface/hooks.h"

#include "base/filters.h"
#include "base/system.h"
#include "base/descriptors.h"
#include "libc/library.h"
#include "environment/other_threads.h"
#include "process/root.h"
#include "process/plain.h"
#include "shadow/globals.h"
#include "heap/heap.h"
#include "interface/odr.h"
#include "interface/pairs.h"
#include "interface/reports.h"
#include "leaks/leaks.h"
#include "leaks/root_regions.h"
#include "process/given.h"
#include "process/halt.h"
#include "process/init_order.h"
#include "process/process.h"
#include "process/signals.h"
#include "process/unchecked.h"
#include "process/world.h"
#include "process/preload_wait.h"
#include "stacks/fake_stack.h"
#include "stacks/own_stack.h"
#include "stacks/walks.h"
#include "stacks/unwinding.h"
#include "stream/thread_list.h"
#include "stream/sending.h"
#include "stream/side.h"

static void modules_changed(void)
{
    library_look_again();
#ifndef IS_STATIC
    plain_look_again();
#endif
    unwinding_modules_changed();
    stream_write_modules();
}

/* Whether the end of this thread is one of the process that is to be seen. */
static bool ends_process(void)
{
    return !recorder_is_absent() && !has_other_threads();
}

/* Answers the status with which the process is to end. */
static int finish_at_exit(int status)
{
    if (recorder_is_absent())
        return status;
    halt_is_waited_for();
    recorder_exit(true);
    int of_run = root_end_at_exit((status & 0xff) << 8, true);
    status = of_run != STATUS_STAYS ? of_run : status;
    if (world_is_stopped())
        system_exit(status);
    return status;
}

#ifdef IS_STATIC
/* There are no stubs. */
#define plain_instead_of the_same

static void *the_same(void *found, const char *name, bool is_new)
{
    (void)name, (void)is_new;
    return found;
}
#endif

const struct recorder_hooks asancol_hooks = {
#define TELL_OFTEN TELL
#define ASK_OFTEN ASK
#define TELL(name, function, parameters, arguments) .name = function,
#define ASK(type, name, function, otherwise, parameters, arguments) .name = function,
#include "interface/hooks.def"
    .is_first_crash = halt_is_first_crash,
    .set_action = signals_set_action,
    .stream = &stream_page.stream,
    .reports = &reports,
    .takes_frames = &__asan_option_detect_stack_use_after_return,
};
