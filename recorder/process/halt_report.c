/* Unless its run gives it the words, frames are modules and offsets, as tools know them from AddressSanitizer. */
#define _GNU_SOURCE
#include "process/halt_report.h"

#include <fcntl.h>
#include <limits.h>
#include <string.h>
#include <unistd.h>

#include "base/digits.h"
#include "base/disturbance.h"
#include "base/errors.h"
#include "base/platform.h"
#include "base/say.h"
#include "base/system.h"
#include "environment/asan_options.h"
#include "environment/asking.h"
#include "report/wording.h"

/* What waits to be written. */
static AS_TABLE char room[1 << 12];

int halt_report_descriptor(void)
{
    const char *log = asan_options_log();
    return log[0] == 0 ? STDERR_FILENO : strcmp(log, "stdout") == 0 ? STDOUT_FILENO : -1;
}

/* Where the text goes; of a file that can't be opened to standard error, which is said. */
static int open_target(void)
{
    static AS_TABLE char path[PATH_MAX + 1 + DIGITS_ROOM];
    char digits[DIGITS_ROOM];
    int usual = halt_report_descriptor();
    if (usual >= 0)
        return usual;
    strcpy(path, asan_options_log());
    strcat(path, ".");
    strcat(path, put_digits(digits + sizeof digits, (unsigned)system_getpid(), 1));
    int target = system_open(path, O_WRONLY | O_CREAT | O_TRUNC | O_CLOEXEC | O_NOCTTY, 0666);
    if (target >= 0)
        return target;
    recorder_say("the report is on standard error: ", path, error_text(-target));
    return STDERR_FILENO;
}

static void close_target(int descriptor)
{
    if (descriptor != halt_report_descriptor() && descriptor != STDERR_FILENO)
        system_close(descriptor);
}

/* Signals come through while it waits. */
bool halt_report_of_run(int connection, int patience_ms)
{
    struct text text = {.start = room, .end = room + sizeof room - 1};
    bool came = false;
    long count;
    if (connection < 0)
        return false;
    for (; (count = ask_read(connection, room, sizeof room - 1, &patience_ms)) > 0; came = true) {
        struct disturbance before;
        undisturbed_begin(&before);
        if (!came)
            text.descriptor = open_target();
        text.at = room + count;
        text_flush(&text);
        undisturbed_end(&before);
    }
    if (came)
        close_target(text.descriptor);
    system_close(connection);
    return came;
}

void halt_report(const struct told *told)
{
    struct disturbance before;
    struct report report;
    undisturbed_begin(&before);
    struct text text = text_to(open_target(), room, sizeof room);
    report_make(&report, told, (uintptr_t)__builtin_frame_address(0));
    report_put(&text, &report, told);
    text_put(&text, "==");
    text_put_number(&text, (unsigned)system_getpid());
    text_put(&text, "==ABORTING\n");
    text_flush(&text);
    close_target(text.descriptor);
    undisturbed_end(&before);
}
