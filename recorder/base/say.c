/* What the recorder has to say: a line on standard error, or in the file that ASANCOL_LOG names. `say` has where, as it
   was at the start. A line is made on the stack. */
#define _GNU_SOURCE
#include "base/say.h"

#include <errno.h>
#include <fcntl.h>
#include <limits.h>
#include <signal.h>
#include <string.h>
#include <unistd.h>

#include "base/digits.h"
#include "base/disturbance.h"
#include "base/errors.h"
#include "base/platform.h"
#include "base/system.h"

static struct {
    dev_t error_device; /* standard error as it was at the start */
    ino_t error_node;
    bool has_error;
    bool has_failed; /* the log could not be written, and that was said */
    const char *log; /* a pattern, or null */
} say;
static AS_TABLE char log_name[PATH_MAX]; /* that the pattern gives this process */

/* Less than what a pipe takes at once; and a thread's stack may be small. */
struct line {
    char text[1024];
    size_t length;
};

static void append(struct line *line, const char *text)
{
    /* The last byte is left for the line's end. */
    while (*text != 0 && line->length < sizeof line->text - 1)
        line->text[line->length++] = *text++;
}

/* "asancol: WHAT OF: WHY", cut where the line is full. */
static void make_line(struct line *line, const char *what, const char *of, const char *why)
{
    line->length = 0;
    append(line, "asancol: ");
    append(line, what);
    append(line, of);
    append(line, ": ");
    append(line, why);
    line->text[line->length++] = '\n';
}

void say_to(const char *log)
{
    struct stat seen;
    say.has_error = system_fstat(STDERR_FILENO, &seen) == 0;
    say.error_device = seen.st_dev;
    say.error_node = seen.st_ino;
    say.log = log;
    say_again();
}

void say_again(void)
{
    if (say.log != NULL && !name_of_pattern(say.log, log_name, sizeof log_name))
        log_name[0] = 0;
}

bool name_of_pattern(const char *pattern, char *name, size_t room)
{
    char digits[DIGITS_ROOM];
    const char *process = put_digits(digits + sizeof digits, (unsigned)system_getpid(), 1);
    size_t length = 0;
    for (const char *from = pattern; *from != 0; from++) {
        char one[2] = {*from, 0};
        const char *piece = one;
        if (*from == '%' && from[1] == 'p')
            piece = process;
        if (*from == '%' && (from[1] == 'p' || from[1] == '%'))
            from++;
        while (*piece != 0 && length < room)
            name[length++] = *piece++;
    }
    if (length == room)
        return false;
    name[length] = 0;
    return true;
}

/* Whether standard error is what it was at the start, and takes a line at once. */
static bool takes_line(void)
{
    struct stat seen;
    struct pollfd error = {STDERR_FILENO, POLLOUT, 0};
    return say.has_error && system_fstat(STDERR_FILENO, &seen) == 0 && seen.st_dev == say.error_device
           && seen.st_ino == say.error_node && system_poll(&error, 1, 0) == 1 && error.revents == POLLOUT;
}

static void write_line(int descriptor, const struct line *line)
{
    ssize_t count = system_write(descriptor, line->text, line->length);
    if (count < 0)
        signal_take_away(count == -EPIPE ? SIGPIPE : SIGXFSZ);
}

/* Appends the line to the log. Answers why it could not be opened, or 0. */
static int write_log(const struct line *line)
{
    /* A pipe without a reader is not waited for. */
    int log = system_open(log_name, O_WRONLY | O_CREAT | O_APPEND | O_CLOEXEC | O_NOCTTY | O_NONBLOCK, 0666);
    if (log < 0)
        return -log;
    write_line(log, line);
    system_close(log);
    return 0;
}

/* On standard error, with the cause if there is a log that does not take it. */
static void write_error(struct line *line, int error, const char *what, const char *of, const char *why)
{
    if (say.log != NULL && !say.has_failed) {
        make_line(line, "the log can't be opened: ", say.log, error_text(error));
        if (takes_line())
            write_line(STDERR_FILENO, line);
        say.has_failed = true;
    }
    make_line(line, what, of, why);
    if (takes_line())
        write_line(STDERR_FILENO, line);
}

void recorder_say(const char *what, const char *of, const char *why)
{
    struct line line;
    struct disturbance before;
    undisturbed_begin(&before);
    make_line(&line, what, of, why);
    int error = say.log != NULL ? write_log(&line) : 0;
    if (say.log == NULL || error != 0)
        write_error(&line, error, what, of, why);
    undisturbed_end(&before);
}
