/* The child runs in our memory up to its exec (vfork). */
#define _GNU_SOURCE
#include "command.h"

#include <errno.h>
#include <fcntl.h>
#include <stdint.h>
#include <stdio.h>
#include <stdlib.h>
#include <string.h>
#include <sys/prctl.h>
#include <sys/stat.h>
#include <sys/wait.h>
#include <unistd.h>

#include "common/hub_name.h"
#include "common/inherited.h"
#include "common/text.h"
#include "hub.h"
#include "names.h"
#include "say.h"
#include "signals.h"

/* Where our text goes: a process that halts there leaves its report to us, unless nothing is there to print it. */
static void set_text(const struct options *options)
{
    struct stat seen;
    char file[48] = "log";
    char *report = find_own_program("asancol-report", "ASANCOL_REPORT");
    unsetenv("ASANCOL_TEXT");
    unsetenv("ASANCOL_LIVE");
    bool is_there = report != NULL && (options->log_is_alone || fstat(say_descriptor(), &seen) == 0);
    free(report);
    if (!is_there)
        return;
    if (!options->log_is_alone)
        snprintf(file, sizeof file, "%ju:%ju", (uintmax_t)seen.st_dev, (uintmax_t)seen.st_ino);
    setenv("ASANCOL_TEXT", file, 1);
    if (options->live == LIVE_ACCESS && !options->log_is_alone && options->log == NULL)
        setenv("ASANCOL_LIVE", "1", 1);
}

/* Nothing else of the command's environment changes. */
static void set_environment(const struct options *options, const char *hub)
{
    char number[24];
    snprintf(number, sizeof number, "%ju", (uintmax_t)options->served);
    unsetenv("ASANCOL_ROOT");
    if (options->served != 0)
        setenv("ASANCOL_ROOT", number, 1);
    setenv("ASANCOL_HUB", hub, 1);
    set_text(options);
    unsetenv("ASANCOL_TRACE");
    unsetenv("ASANCOL_SOCKET");
    unsetenv("ASANCOL_STOP"); /* a debugger is run by itself */
    setenv("ASANCOL_LEAKS", options->demands_leaks ? "2" : options->leaks != LEAKS_NO ? "1" : "0", 1);
    if (options->quarantine != NULL)
        setenv("ASANCOL_QUARANTINE", options->quarantine, 1);
    if (options->no_mismatches)
        setenv("ASANCOL_MISMATCHES", "0", 1);
    if (options->records_full)
        setenv("ASANCOL_FULL", "1", 1);
    if (options->for_inner != NULL)
        setenv("ASANCOL_OUTER", options->for_inner, 1);
    else
        unsetenv("ASANCOL_OUTER");
    if (options->preloaded != NULL)
        setenv("LD_PRELOAD", options->preloaded, 1);
}

/* The settings in it, which hub_ask_name's socket gives. The log's name is from the root. */
static struct {
    char text[SETTINGS_MOST];
    size_t length;
} settings;

static void add_setting(const char *entry)
{
    static const char log[] = "ASANCOL_LOG=";
    char *folder = begins_with(entry, log) && entry[strlen(log)] != '/' && entry[strlen(log)] != 0 ? getcwd(NULL, 0)
                                                                                                   : NULL;
    const char *front = folder != NULL ? log : "", *rest = folder != NULL ? entry + strlen(log) : entry;
    size_t room = sizeof settings.text - settings.length;
    int count = snprintf(settings.text + settings.length, room, "%s%s%s%s", front, folder != NULL ? folder : "",
                         folder != NULL ? "/" : "", rest);
    if (count >= 0 && (size_t)count < room - 1)
        settings.length += (size_t)count + 1;
    free(folder);
}

static void note_settings(char *const *environment)
{
    for (; *environment != NULL; environment++)
        if (begins_with(*environment, "ASANCOL_") || begins_with(*environment, "ASAN_OPTIONS=")
            || begins_with(*environment, "LSAN_OPTIONS="))
            add_setting(*environment);
}

const char *command_settings(size_t *length)
{
    *length = settings.length;
    return settings.text;
}

/* What it inherits also without its environment; 0: nothing. */
static unsigned long marked_slack(const char *hub)
{
    size_t length = hub_public_length();
    int slack = prctl(PR_GET_TIMERSLACK, 0, 0, 0, 0);
    return length > 0 && slack >= SLACK_STEP ? slack_for(hub, length, (unsigned long)slack) : 0;
}

/* That of the command. Ours becomes a copy: setenv may free the array that it made earlier. */
static char **environment_for(const struct options *options, const char *hub)
{
    size_t count = 0;
    while (environ[count] != NULL)
        count++;
    char **ours = must(calloc(count + 1, sizeof *ours));
    memcpy(ours, environ, count * sizeof *ours);
    set_environment(options, hub);
    char **made = environ;
    environ = ours;
    return made;
}

/* In the child, which has our memory until it is another program. */
static _Noreturn void become(const struct options *options, const char *hub, char **environment, volatile int *error)
{
    unsigned long slack = marked_slack(hub);
    if (slack != 0)
        prctl(PR_SET_TIMERSLACK, slack, 0, 0, 0);
    signals_restore();
    execvpe(options->command[0], options->command, environment);
    *error = errno;
    _exit(OWN_FAILURE);
}

pid_t command_start(const struct options *options, const char *hub, int *status)
{
    char **environment = environment_for(options, hub);
    note_settings(environment);
    if (options->served != 0)
        return (pid_t)options->served; /* it runs already */
    volatile int error = 0;
    pid_t command = vfork(); /* we wait for the exec in any case */
    if (command < 0) {
        *status = OWN_FAILURE;
        return 0;
    }
    if (command == 0)
        become(options, hub, environment, &error);
    if (error == 0)
        return command;
    while (waitpid(command, NULL, 0) < 0 && errno == EINTR)
        continue;
    errno = error;
    *status = error == ENOENT ? NOT_FOUND : NOT_EXECUTABLE;
    return 0;
}
