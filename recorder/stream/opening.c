/* Fills `locked` and `plan`: first the trace, then the side memory, then the header. The state is STARTING at
   the start, OFF where a recording begins late or in a forked child, and SWITCHING for a next segment. */
#define _GNU_SOURCE
#include "stream/opening.h"

#include <string.h>
#include <sys/mman.h>

#include "base/platform.h"
#include "base/say.h"
#include "base/system.h"
#include "environment/dormant.h"
#include "environment/hub_folder.h"
#include "environment/stale_trace.h"
#include "environment/hub_word.h"
#include "stream/faults.h"
#include "stream/growing.h"
#include "stream/held.h"
#include "stream/locked.h"
#include "stream/segments.h"
#include "stream/sending.h"
#include "stream/side.h"
#include "stream/state.h"
#include "stream/windows.h"

static const char *open_side_file(struct output *side, const char *trace, unsigned number)
{
    static AS_TABLE char path[PATH_MAX + 8]; /* the lock is held; and a stack may be small */
    size_t length = strlen(trace);
    memcpy(path, trace, length);
    strcpy(path + length, ".where");
    const char *why = output_open_file(side, path, NAME_TAKEN_OVER, windows_of_side(number), SIDE_INDEX);
    if (why == NULL && !side->is_mapped)
        why = "it can't be mapped";
    return why;
}

bool opening_side(struct output *side, const struct output *trace, unsigned number)
{
    const char *of = trace->path, *why = "it is not a file";
    if (trace->is_mapped) {
        why = open_side_file(side, trace->path, number);
        of = side->path;
    }
    if (why != NULL)
        recorder_say("no data are kept beside the trace: ", of, why);
    return why == NULL;
}

static void begin_side(void)
{
    side_forget();
    faults_begin(locked.side.bytes, locked.window);
    side_begin(locked.side.bytes, locked.segment, plan.settings);
}

const char *opening_hub(const struct settings *settings)
{
    struct window window = windows_of_stream(locked.window);
    const char *why = output_connect(&locked.trace, settings->hub, true, window, settings->patience_ms);
    if (why != NULL) {
        dormant_note_lost();
        return why;
    }
    hub_folder_keep(settings->hub);
    memcpy(locked.trace.bytes, HEADER, HEADER_LENGTH);
    window = windows_of_side(locked.window);
    bool is_held = held_is_wanted();
    const struct output *giver = is_held ? NULL : &locked.trace;
    const char *why_not = output_open_memory(&locked.side, window, giver, settings->patience_ms);
    if (why_not != NULL && is_held)
        why_not = output_open_plain(&locked.side, window);
    if (why_not != NULL) {
        recorder_say("no data are kept beside the trace: ", settings->hub, why_not);
        return held_send();
    }
    locked.has_side = true;
    begin_side();
    if (!is_held)
        return held_send();
    held_begin();
    return NULL;
}

void opening_take_back(void)
{
    side_forget();
    output_close(&locked.trace);
    output_close(&locked.side);
    locked.has_side = locked.is_held = false;
}

void stream_forget(void)
{
    state_forget();
    opening_take_back();
}

/* Says which file the trace went to, if it is not the one that was asked for. The further processes of a run take other
   names in the usual course: only the first says so, and only of a file that was there before. */
static void say_other_name(const char *asked)
{
    static AS_TABLE char name[PATH_MAX], why[PATH_MAX + 32]; /* the lock is held; and a stack may be small */
    static bool was_asked; /* by this process, or by the one that has forked it */
    bool is_first = !was_asked;
    was_asked = true;
    unsigned number = locked.trace.number;
    if (!is_first || number == 0 || !output_number(name, asked, number - 1) || !is_of_earlier_run(name))
        return;
    strcat(strcpy(why, asked), " was there before");
    recorder_say("the trace goes to ", locked.trace.path, why);
}

/* The statements of one access must fit into a segment, with the records of other threads meanwhile. */
enum { LEAST_LEAN_LIMIT = 16 };

/* Before the first side memory, which says so. */
static void go_way(enum way way, const struct settings *settings)
{
    plan.way = way;
    atomic_store(&lean_is_on, !settings->is_full && has_segments() && settings->limit >= LEAST_LEAN_LIMIT);
}

static const char *open_trace(const struct settings *settings)
{
    struct window window = windows_of_stream(locked.window);
    const char *why;
    if (settings->trace != NULL)
        why = output_open_file(&locked.trace, settings->trace, NAME_NUMBERED, window, FILE_STEP);
    else
        why = output_connect(&locked.trace, settings->socket, false, window, settings->patience_ms);
    if (why != NULL)
        return why;
    go_way(settings->trace == NULL ? WAY_SOCKET : locked.trace.is_mapped ? WAY_FILE : WAY_PIECES, settings);
    if (settings->trace != NULL && settings->hub == NULL)
        say_other_name(settings->trace);
    if (settings->with_side)
        locked.has_side = opening_side(&locked.side, &locked.trace, locked.window);
    return NULL;
}

static const char *open_output(const struct settings *settings)
{
    locked.has_side = false;
    if (windows_start() == NULL)
        return "there is no room for it";
    if (settings->hub == NULL)
        return open_trace(settings);
    go_way(WAY_HUB, settings);
    const char *why = opening_hub(settings);
    if (why == NULL || settings->trace == NULL)
        return why;
    opening_take_back();
    recorder_say("the hub can't be reached, so the trace goes to a file: ", settings->hub, why);
    return open_trace(settings);
}

void opening_segment(void)
{
    locked.start = locked.window * WINDOW_BYTES;
    locked.checked = locked.start + HEADER_LENGTH;
    locked.checked_events = 0;
    locked.is_overfull = false;
    atomic_store_explicit(&shared.seen_events, 0, memory_order_relaxed);
    atomic_store(&shared.has_missed, false);
    atomic_store(&shared.has_close, false);
    atomic_store(&shared.is_cut, false);
    atomic_store(&shared.is_closed_off, false);
    atomic_store(&shared.is_side_full, false);
    atomic_fetch_add(&shared.segments_begun, 1);
    sending_begin();
    memcpy(locked.trace.bytes, HEADER, HEADER_LENGTH);
    if (!locked.has_side)
        side_forget();
    else if (is_file())
        begin_side();
    bool is_watched = locked.has_side || plan.way == WAY_SOCKET || is_hub() || is_lean();
    atomic_store_explicit(&STREAM->has_side, locked.has_side, memory_order_relaxed);
    atomic_store_explicit(&STREAM->is_watched, is_watched, memory_order_relaxed);
    atomic_store(&STREAM->ready, locked.start + (is_file() ? FILE_STEP : PIECES_STEP));
}

/* What stands in the first segment of a process. */
static void begin_process(const struct settings *settings)
{
    static bool is_advised; /* and with it each child */
    if (!is_advised)
        is_advised = system_madvise(&stream_page, sizeof stream_page, MADV_WIPEONFORK) == 0;
    locked.said_unseen = false;
    atomic_store(&shared.is_closing, false);
    atomic_store(&shared.is_late, false);
    atomic_store(&shared.left_out, 0);
    atomic_store(&shared.stop, settings->stop);
    STREAM->bytes = windows_start();
    state_set_events_end(settings->stop);
    if (is_file())
        segments_begin(&locked.trace);
}

bool stream_begin(const struct settings *settings)
{
    plan.settings = settings;
    locked.segment = 0;
    locked.window = (locked.window + 1) % WINDOWS;
    const char *why = open_output(settings);
    if (why != NULL) {
        const char *of = settings->trace ? settings->trace : settings->hub ? settings->hub : settings->socket;
        recorder_say("nothing is recorded: ", of, why);
        hub_word_note(settings->hub, why);
        return false;
    }
    begin_process(settings);
    opening_segment();
    atomic_store(&STREAM->window, locked.window);
    return state_record(stream_state());
}
