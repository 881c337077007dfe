/* One flag, with the stream's lock. */
#include "stream/held.h"

#include "base/say.h"
#include "base/self.h"
#include "base/system.h"
#include "environment/dormant.h"
#include "stream/locked.h"
#include "stream/side.h"
#include "stream/state.h"

bool held_is_wanted(void)
{
    return dormant_is_there() && locked.segment == 0;
}

void held_begin(void)
{
    locked.is_held = true;
    output_keep_memory(&locked.side);
}

bool held_is_quiet(void)
{
    bool has_records = locked.checked > locked.start + HEADER_LENGTH;
    return locked.is_held && !has_records && !side_has_news();
}

void held_end(void)
{
    if (!dormant_is_there() || !stream_lock_at_once())
        return;
    if (locked.is_held && is_on())
        held_send();
    stream_unlock();
}

const char *held_send(void)
{
    int files[SIDE_FILES], patience_ms = plan.settings->patience_ms;
    locked.is_held = false;
    dormant_wake();
    if (locked.has_side && locked.side.descriptor < 0)
        recorder_say("no data are kept beside the trace: ", locked.trace.path, "no memory can be shared");
    if (!locked.has_side || locked.side.descriptor < 0)
        return output_send(&locked.trace, HEADER_LENGTH, true, patience_ms);
    unsigned count = side_open_files(files);
    const char *why = output_send_first(&locked.trace, HEADER_LENGTH, &locked.side, files, count, patience_ms);
    while (count-- > 0)
        system_close(files[count]);
    if (why == NULL && plan.settings->root != (uint64_t)self_process())
        dormant_await();
    return why;
}
