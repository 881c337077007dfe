/* One question to the run (run_connection.h). The answer comes with no limit of time: the run ends before us if it
   must. */
#define _GNU_SOURCE
#include "process/root.h"

#include <errno.h>
#include <limits.h>
#include <stdatomic.h>
#include <string.h>
#include <sys/prctl.h>

#include "base/digits.h"
#include "base/disturbance.h"
#include "base/say.h"
#include "base/self.h"
#include "base/system.h"
#include "common/inherited.h"
#include "environment/dormant.h"
#include "environment/other_threads.h"
#include "environment/settings.h"
#include "environment/startup.h"
#include "heap/heap.h"
#include "process/process.h"
#include "process/run_connection.h"
#include "process/waiter.h"
#include "process/world.h"
#include "stream/sending.h"

/* What asancol-run ends with if it has not seen a process to its end. */
enum { NOT_SEEN = 98 };

static _Atomic bool has_asked, is_asking;
static _Atomic int answered = STATUS_STAYS, held; /* the signal that waits for the answer, or 0 */
static _Atomic int quick_status = -1;

static bool is_root(void)
{
    uint64_t root = recorder_settings()->root;
    return root != 0 && root == (uint64_t)self_process() && recorder_hub() != NULL && recorder_is_own_process();
}

/* A text of digits, or any other: STATUS_STAYS. */
static int number_of(const char *text)
{
    int number = 0;
    for (; *text >= '0' && *text <= '9' && number <= UCHAR_MAX; text++)
        number = number * 10 + *text - '0';
    return *text == 0 ? number : STATUS_STAYS;
}

static int ask_for_status(int status)
{
    char request[64] = "\n", answer[16], digits[DIGITS_ROOM];
    strcat(request, put_digits(digits + sizeof digits, (uint64_t)status, 1));
    long length = run_connection_ask(recorder_hub(), request, answer, sizeof answer - 1);
    if (length > 0) {
        answer[length] = 0;
        return number_of(answer);
    }
    bool is_over = length == 0 || length == -EPIPE || length == -ECONNRESET || length == -ECONNREFUSED;
    recorder_say("the end was not checked: ", startup_name(),
                 is_over ? "its run has ended before it, or was ended" : "its run can't be asked for the status");
    return is_over || run_connection_was_made() ? NOT_SEEN : STATUS_STAYS;
}

void root_becomes(bool becomes)
{
    static unsigned long slack_before;
    if (!is_root() || !waiter_has_begun())
        return;
    const char *hub = recorder_hub();
    unsigned long slack = becomes ? (unsigned long)system_prctl(PR_GET_TIMERSLACK) : slack_before;
    dormant_note_exec(becomes);
    slack_before = becomes && !dormant_is_asleep() && slack >= SLACK_STEP ? slack : 0;
    if (slack_before != 0)
        slack = slack_for(hub, strlen(hub), slack);
    if (slack_before != 0 || (!becomes && slack != 0))
        system_call3(SYS_prctl, PR_SET_TIMERSLACK, (long)slack, 0);
}

void root_has_no_child(void)
{
    if (is_root() && dormant_is_there())
        run_connection_leave(dormant_is_asleep());
}

void root_note_quick_exit(int status)
{
    atomic_store(&quick_status, status & UCHAR_MAX);
}

int root_quick_status(void)
{
    return atomic_load(&quick_status);
}

bool root_is_to_ask(void)
{
    return is_root() && !atomic_load(&has_asked);
}

/* Asks the run, once. It answers as root_end_at_exit. */
static int end_once(int status)
{
    if (!is_root() || atomic_exchange(&has_asked, true))
        return STATUS_STAYS;
    if (dormant_has_lost()) {
        recorder_say("the end was not checked: ", startup_name(), "a process that it forked could not reach the run");
        return NOT_SEEN;
    }
    stream_hang_up();
    if (dormant_is_asleep()) { /* none of its processes has anything to report */
        run_connection_retire();
        return STATUS_STAYS;
    }
    atomic_store(&is_asking, true);
    int ends_with = ask_for_status(status);
    if (dormant_is_there())
        waiter_reap();
    atomic_store(&answered, ends_with);
    atomic_store(&is_asking, false);
    if (ends_with == STATUS_STAYS && atomic_load(&held) != 0)
        system_tgkill(system_getpid(), system_gettid(), atomic_load(&held));
    return ends_with;
}

int root_end_by_signal(int number)
{
    int ends_with = end_once(number);
    return ends_with != STATUS_STAYS ? ends_with : atomic_load(&answered);
}

bool root_holds(int number)
{
    int none = 0;
    return atomic_load(&is_asking) && recorder_is_own_process() && atomic_compare_exchange_strong(&held, &none, number);
}

/* A thread that stands still may hold any lock but that of the allocator: nothing but system calls is made. */
int root_end_at_exit(int status, bool is_end)
{
    struct disturbance before;
    if (!is_root() || !has_other_threads() || heap_is_entered())
        return end_once(status);
    recorder_finish(FINISH_CLOSED); /* else it would go on until they are gone */
    undisturbed_begin(&before);
    heap_lock();
    bool is_stopped = world_stop(is_end) == NULL;
    int ends_with = end_once(status);
    if (is_stopped && !is_end)
        world_go_on();
    heap_unlock();
    undisturbed_end(&before);
    return ends_with;
}
