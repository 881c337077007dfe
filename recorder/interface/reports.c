/* A report is told once for each place, as AddressSanitizer does if it goes on. One thread tells at a time: `telling`
   is its lock, which guards `report`, its texts and `places`: `tell` takes it, and makes the text with it. No thread
   waits for it, since a callback may do anything: a report that comes meanwhile is dropped. */
#define _GNU_SOURCE
#include "interface/reports.h"

#include <errno.h>
#include <fcntl.h>
#include <limits.h>
#include <stdio.h>
#include <string.h>
#include <unistd.h>

#include "base/lock.h"
#include "base/system.h"
#include "heap/heap.h"
#include "process/process.h"
#include "process/showing.h"
#include "report/code.h"
#include "report/describing.h"
#include "stacks/stacks.h"

static struct lock telling;
static struct report report;
static const struct report *_Atomic now; /* or null */
static char report_text[1 << 14];

static void (*on_error)(void); /* written at the start */
static void (*_Atomic callback)(const char *text);

/* Of a report that was found in the allocator, which the program may not call there. */
static _Thread_local struct told waiting;
static _Thread_local bool has_waiting;

/* Where reports were told: the address after the call, plus 1; 0: a free entry. Once it is full, no other one is
   told. */
enum { MOST_PLACES = 1 << 10 };
static uintptr_t places[MOST_PLACES];

/* Notes the place of a report. False: it was noted before, or there is no room. A place may be 0, where a function is
   left by a jump to another one and nothing has called it: as at the bottom of a stack that the program has made. */
static bool note_place(uintptr_t place)
{
    size_t i = 0;
    while (i < MOST_PLACES && places[i] != 0 && places[i] != place + 1)
        i++;
    if (i == MOST_PLACES || places[i] != 0)
        return false;
    places[i] = place + 1;
    return true;
}

/* The lock comes before the place: a report that is dropped leaves its place to the next one there. */
static void tell(const struct told *told, uintptr_t frame)
{
    void (*tell_text)(const char *) = atomic_load(&callback);
    int before = errno;
    if (!lock_try(&telling))
        return;
    if (note_place(told->caller)) {
        report_make(&report, told, frame);
        atomic_store(&now, &report);
        struct text text = text_in(report_text, sizeof report_text);
        if (tell_text != NULL)
            report_put(&text, &report, told);
        if (on_error != NULL)
            on_error();
        if (tell_text != NULL)
            tell_text(report_text);
        if (!recorder_halts()) /* a callback at the end may ask, too */
            atomic_store(&now, NULL);
    }
    lock_give(&telling);
    errno = before;
}

void reports_tell(const struct told *told)
{
    if (heap_is_entered()) {
        waiting = *told;
        has_waiting = true;
        return;
    }
    if (is_showing())
        show_report(told);
    if (is_telling())
        tell(told, (uintptr_t)__builtin_frame_address(0));
}

void reports_tell_waiting(void)
{
    if (!has_waiting || heap_is_entered())
        return;
    struct told told = waiting;
    has_waiting = false;
    reports_tell(&told);
}

void reports_call_on_error(void (*function)(void))
{
    on_error = function;
    atomic_store(&telling_is_on, true);
}

static void set_callback(void (*function)(const char *))
{
    atomic_store(&callback, function);
    if (function != NULL)
        atomic_store(&telling_is_on, true);
}

static const struct report *report_now(void)
{
    return atomic_load(&now);
}

/* Where the process has its texts. The program sets it, as its own variables without a lock. */
static struct {
    char path[PATH_MAX]; /* of a file, which gets the number of the process; empty: there is none */
    char name[PATH_MAX];
    int descriptor;      /* it is not opened yet: -1 */
    int process;         /* that has opened it */
} output = {.descriptor = STDERR_FILENO};

static void set_descriptor(int descriptor)
{
    output.path[0] = output.name[0] = 0;
    output.descriptor = descriptor;
}

static void set_path(const char *path)
{
    if (path == NULL || path[0] == 0 || strcmp(path, "stderr") == 0 || strcmp(path, "stdout") == 0) {
        set_descriptor(path != NULL && strcmp(path, "stdout") == 0 ? STDOUT_FILENO : STDERR_FILENO);
        return;
    }
    set_descriptor(-1);
    struct text text = text_in(output.path, sizeof output.path);
    text_put(&text, path);
}

/* The file of this process: a child has its own. */
static const char *report_path(void)
{
    int process = system_getpid();
    if (output.path[0] == 0)
        return output.descriptor == STDOUT_FILENO ? "stdout" : "stderr";
    if (output.process == process && output.name[0] != 0)
        return output.name;
    struct text text = text_in(output.name, sizeof output.name);
    text_put(&text, output.path);
    text_put(&text, ".");
    text_put_number(&text, (unsigned)process);
    output.process = process;
    output.descriptor = -1;
    return output.name;
}

/* Writes to where the program wants texts, which is opened for the first of them. */
static void write_text(const char *text)
{
    const char *path = report_path();
    size_t length = strlen(text);
    if (output.descriptor < 0)
        output.descriptor = system_open(path, O_WRONLY | O_CREAT | O_TRUNC | O_CLOEXEC, 0660);
    for (ssize_t count; length != 0; text += count, length -= (size_t)count)
        if ((count = system_write(output.descriptor, text, length)) <= 0)
            return;
}

static void print_stack(uintptr_t caller)
{
    char room[1 << 14];
    struct text text = text_in(room, sizeof room);
    text_put_frame(&text, 0, CALLER(), "__sanitizer_print_stack_trace");
    text_put_stack(&text, call_site_of(caller), 1, NULL);
    write_text(room);
}

static void describe(uintptr_t address)
{
    char room[1 << 14];
    struct text text = text_in(room, sizeof room);
    text_put_description(&text, &(struct place){address, address, 1});
    write_text(room);
}

const struct reports reports = {
    .set_callback = set_callback,
    .now = report_now,
    .print_stack = print_stack,
    .describe = describe,
    .locate = locate,
    .stack_of = stack_of_block,
    .set_path = set_path,
    .set_descriptor = set_descriptor,
    .path = report_path,
    .module = module_of,
};
