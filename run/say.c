/* All lines go by one function, to standard error and to the log. */
#define _GNU_SOURCE
#include "say.h"

#include <errno.h>
#include <fcntl.h>
#include <stdarg.h>
#include <stdio.h>
#include <stdlib.h>
#include <string.h>
#include <time.h>
#include <unistd.h>

#include "names.h"
#include "printable.h"

static int log_descriptor = STDERR_FILENO;
static bool has_failed, is_progress_allowed, is_progress_shown;

void say_open(const char *path)
{
    if (path == NULL)
        return;
    int of = name_descriptor(path);
    int descriptor = of >= 0 ? fcntl(of, F_DUPFD_CLOEXEC, STDERR_FILENO + 1)
                             : open(path, O_WRONLY | O_CREAT | O_TRUNC | O_CLOEXEC | O_NOCTTY, 0666);
    if (descriptor < 0)
        fail(OWN_FAILURE, path, strerror(errno));
    log_descriptor = descriptor;
}

int say_descriptor(void)
{
    return log_descriptor;
}

static bool write_all(int descriptor, const char *text, size_t length)
{
    while (length > 0) {
        ssize_t count = write(descriptor, text, length);
        if (count < 0 && errno != EINTR)
            return false;
        if (count > 0) {
            text += count;
            length -= (size_t)count;
        }
    }
    return true;
}

void say_text(const char *text, size_t length)
{
    progress_erase();
    if (!write_all(log_descriptor, text, length))
        has_failed = true;
}

/* The line of a text, as it is printed. It frees the text. */
static char *line_of(char *text)
{
    char *shown = printable(text), *line;
    if (asprintf(&line, "%s\n", shown) < 0)
        must(NULL);
    free(shown);
    free(text);
    return line;
}

void say(const char *form, ...)
{
    va_list rest;
    char *text;
    va_start(rest, form);
    int length = vasprintf(&text, form, rest);
    va_end(rest);
    if (length < 0)
        must(NULL);
    char *line = line_of(text);
    say_text(line, strlen(line)); /* one line is one write */
    free(line);
}

bool say_close(void)
{
    progress_erase();
    if (log_descriptor != STDERR_FILENO && close(log_descriptor) != 0)
        has_failed = true;
    return !has_failed;
}

void fail(int status, const char *of, const char *what)
{
    char *text;
    if (asprintf(&text, "asancol-run: %s: %s", of, what) < 0)
        must(NULL);
    char *line = line_of(text);
    progress_erase();
    write_all(STDERR_FILENO, line, strlen(line));
    exit(status);
}

void no_memory(void)
{
    static const char line[] = "asancol-run: cannot go on: no memory\n";
    progress_erase();
    write_all(STDERR_FILENO, line, sizeof line - 1);
    exit(OWN_FAILURE);
}

double now(void)
{
    struct timespec time;
    clock_gettime(CLOCK_MONOTONIC, &time);
    return (double)time.tv_sec + (double)time.tv_nsec / 1e9;
}

void progress_allow(void)
{
    const char *terminal = getenv("TERM");
    is_progress_allowed = isatty(STDERR_FILENO) && terminal != NULL && *terminal != 0 && strcmp(terminal, "dumb") != 0;
}

/* Writes a line to the terminal, whole or up to its end. Answers whether it stands there. */
static bool show(const char *end, const char *form, va_list rest)
{
    char text[160];
    int length = is_progress_allowed ? vsnprintf(text, sizeof text - strlen(end), form, rest) : -1;
    if (length < 0)
        return false;
    progress_erase();
    strcat(text, end);
    return write_all(STDERR_FILENO, text, strlen(text));
}

void progress(const char *form, ...)
{
    va_list rest;
    va_start(rest, form);
    is_progress_shown = show("", form, rest);
    va_end(rest);
}

void progress_line(const char *form, ...)
{
    va_list rest;
    va_start(rest, form);
    show("\n", form, rest);
    va_end(rest);
}

void progress_erase(void)
{
    static const char erase[] = "\r\033[K";
    if (is_progress_shown)
        write_all(STDERR_FILENO, erase, sizeof erase - 1);
    is_progress_shown = false;
}

const char *plural(uint64_t count, const char *end)
{
    return count == 1 ? "" : end;
}
