/* A link runs up to four times (running_link). It is tried, and tried again with all stubs if that fails (link_first).
   If the linked file shows that names are the program's own, it is linked again; and if that fails, once more, to show
   why. What the linker says is read from a pipe into a struct link. */
#define _GNU_SOURCE
#include "wrapper/running.h"

#include <errno.h>
#include <fcntl.h>
#include <signal.h>
#include <spawn.h>
#include <stdatomic.h>
#include <stdbool.h>
#include <stdio.h>
#include <stdlib.h>
#include <string.h>
#include <sys/mman.h>
#include <sys/types.h>
#include <sys/wait.h>
#include <unistd.h>

#include "common/array.h"
#include "common/must.h"
#include "wrapper/checked_names.h"
#include "wrapper/compiling.h"
#include "wrapper/linking.h"
#include "wrapper/say.h"
#include "wrapper/taken.h"

/* Whether the compiler gets this word when the link is only tried. */
static bool keeps_symbols(const char *word)
{
    return strcmp(word, "-s") != 0 && strcmp(word, "-Wl,-s") != 0 && strcmp(word, "-Wl,--strip-all") != 0;
}

/* Standard error is a terminal, and the compiler that is run does not see it. */
static bool shows_colors;

static bool is_at_terminal(void)
{
    const char *terminal = getenv("TERM");
    return isatty(STDERR_FILENO) && terminal != NULL && strcmp(terminal, "dumb") != 0;
}

/* The command: the compiler with its caller's arguments and ours. */
static struct strings make_line(const struct job *job, bool is_try)
{
    struct strings line = {0};
    strings_add_all(&line, job->command.items, job->command.count);
    if (shows_colors)
        strings_add(&line, "-fdiagnostics-color=always");
    if (job->takes_part)
        compiling_add_before(&line, job);
    if (job->takes_part && job->links)
        linking_add_before(&line, job);
    for (char **word = job->arguments; *word != NULL; word++)
        if (!is_try || keeps_symbols(*word))
            strings_add(&line, *word);
    if (job->takes_part)
        compiling_add_after(&line, job);
    else
        compiling_add_note(&line, job);
    if (job->takes_part && job->links)
        linking_add_after(&line, job);
    /* BFD and LLD heed the last: one may stand among other arguments, or in a response file. */
    if (is_try && job->request.link.is_stripped)
        strings_add(&line, "-Wl,-S");
    return line;
}

void running_become(const struct job *job)
{
    struct strings line = make_line(job, false);
    execv(line.items[0], (char *const *)line.items);
    fail(line.items[0], strerror(errno));
}

/* What a link has said, and what it has taken in. */
struct link {
    off_t input_start; /* where the source in standard input begins */
    struct taken taken;
    char *said; /* what --trace has not written */
    size_t length;
};

/* All that the compiler and the linker print, with a zero after it. */
static char *read_all(int from)
{
    char *text = must(malloc(1));
    size_t length = 0, room = 1;
    for (ssize_t count = 1; count > 0;) {
        if (room - length < BUFSIZ)
            text = must(realloc(text, room += room + BUFSIZ));
        count = read(from, text + length, room - length - 1);
        length += count > 0 ? (size_t)count : 0;
    }
    close(from);
    text[length] = 0;
    return text;
}

/* Takes the lines of a link that has ended: the objects that the compiler has made for it are gone. */
static void take_lines(struct link *link, bool is_traced, char *text)
{
    FILE *said = must(open_memstream(&link->said, &link->length));
    for (char *line = text, *end; *line != 0; line = end) {
        end = strchrnul(line, '\n');
        bool has_end = *end != 0;
        *end = 0;
        if (!taken_line(&link->taken, line) || is_traced)
            fprintf(said, has_end ? "%s\n" : "%s", line);
        end += has_end;
    }
    fclose(said);
    taken_end(&link->taken);
}

/* A link may be done more than once, and each reads what comes from standard input. What can be read but once, as from
   a pipe, is kept. Returns where it begins. */
static off_t keep_standard_input(void)
{
    char bytes[BUFSIZ];
    off_t start = lseek(STDIN_FILENO, 0, SEEK_CUR);
    if (start >= 0)
        return start;
    int kept = memfd_create("source", MFD_CLOEXEC);
    for (ssize_t count; (count = read(STDIN_FILENO, bytes, sizeof bytes)) != 0;)
        if (count < 0 || write(kept, bytes, (size_t)count) != count)
            fail("-", strerror(errno));
    dup2(kept, STDIN_FILENO);
    close(kept);
    return 0;
}

/* Where standard error of a compiler goes: to ours, nowhere, or else into a file of this number. */
enum { ERRORS_OURS = -1, ERRORS_NOWHERE = -2 };

/* Starts the compiler: its standard output goes to the descriptor `output`, its standard error as `errors` says. */
static pid_t start_compiler(const struct strings *line, int output, int errors)
{
    posix_spawn_file_actions_t actions;
    pid_t child;
    posix_spawn_file_actions_init(&actions);
    posix_spawn_file_actions_adddup2(&actions, output, STDOUT_FILENO);
    if (errors == ERRORS_NOWHERE)
        posix_spawn_file_actions_addopen(&actions, STDERR_FILENO, "/dev/null", O_WRONLY, 0);
    else if (errors != ERRORS_OURS)
        posix_spawn_file_actions_adddup2(&actions, errors, STDERR_FILENO);
    int error = posix_spawn(&child, line->items[0], &actions, NULL, (char *const *)line->items, environ);
    if (error != 0)
        fail(line->items[0], strerror(error));
    posix_spawn_file_actions_destroy(&actions);
    return child;
}

/* Returns the status of the compiler, or ends as it has ended. */
static int wait_for(pid_t child, const char *name)
{
    int status = 0;
    if (waitpid(child, &status, 0) != child)
        fail(name, strerror(errno));
    if (WIFSIGNALED(status)) {
        signal(WTERMSIG(status), SIG_DFL);
        raise(WTERMSIG(status));
    }
    return WIFEXITED(status) ? WEXITSTATUS(status) : 1;
}

int running_version(const struct job *job)
{
    struct strings line = make_line(job, false);
    int status = wait_for(start_compiler(&line, STDOUT_FILENO, ERRORS_OURS), line.items[0]);
    printf("%s (asancol) %s\n", job->front->name, RELEASE);
    return fflush(stdout) != 0 ? 1 : status;
}

/* The compiler that makes an object, and the signal that came meanwhile to end the wrapper. */
static _Atomic pid_t compiler;
static volatile sig_atomic_t ending;

/* The handler: touches `ending` and reads `compiler`, no more. It is the compiler that is meant, which then leaves no
   object. */
static void pass_on(int number)
{
    pid_t child = atomic_load(&compiler);
    ending = number;
    if (child > 0)
        kill(child, number);
}

static void pass_signals_on(void)
{
    static const int numbers[] = {SIGTERM, SIGINT, SIGHUP};
    struct sigaction action = {.sa_handler = pass_on, .sa_flags = SA_RESTART}, before;
    sigemptyset(&action.sa_mask);
    for (size_t i = 0; i < COUNT(numbers); i++)
        if (sigaction(numbers[i], NULL, &before) == 0 && before.sa_handler != SIG_IGN)
            sigaction(numbers[i], &action, NULL);
}

/* Ends by a signal that was passed on. */
static void end_if_ended(void)
{
    int number = ending;
    if (number == 0)
        return;
    signal(number, SIG_DFL);
    raise(number);
}

int running_compile(struct job *job)
{
    struct strings line = make_line(job, false);
    pass_signals_on();
    end_if_ended();
    atomic_store(&compiler, start_compiler(&line, STDOUT_FILENO, ERRORS_OURS));
    if (ending != 0) /* it came while nobody knew the compiler's number */
        kill(atomic_load(&compiler), ending);
    int status = wait_for(atomic_load(&compiler), line.items[0]);
    atomic_store(&compiler, 0);
    bool is_done = status != 0 || checked_names_give(job->object);
    end_if_ended();
    if (is_done)
        return status;
    job->object = NULL; /* it is not what it was taken for, and the compiler makes it again as it is for all others */
    running_become(job);
}

/* Links, and returns the status. */
static int link_once(const struct job *job, bool is_try, struct link *link, int errors)
{
    int ends[2];
    struct strings line = make_line(job, is_try);
    if (job->request.inputs.has_standard)
        lseek(STDIN_FILENO, link->input_start, SEEK_SET);
    if (pipe2(ends, O_CLOEXEC) != 0)
        fail(line.items[0], strerror(errno));
    pid_t child = start_compiler(&line, ends[1], errors);
    close(ends[1]);
    char *text = read_all(ends[0]);
    int status = wait_for(child, line.items[0]);
    take_lines(link, job->request.link.is_traced, text);
    free(text);
    return status;
}

/* Ends with what the last link has said. What it has made gets its note. */
static int end_link(const struct job *job, struct link *link, int status, const char *output)
{
    const struct request *request = &job->request;
    const struct names *assembly = &request->inputs.assembly, *sources = &request->inputs.sources;
    bool lacks_checks = request->refusal != NULL
                        || (job->compiler != NULL && left_out_any(&request->left_out, job->compiler->checks_of));
    if (linking_is_static(&request->link) && !request->link.is_bare)
        names_add(&link->taken.own, "calls to the C library (-static)");
    for (size_t i = 0; i < assembly->count; i++)
        names_add(&link->taken.own, assembly->names[i]);
    for (size_t i = 0; lacks_checks && i < sources->count; i++)
        names_add(&link->taken.own, sources->names[i]);
    link->taken.is_for_other = job->target != NULL;
    if (status == 0)
        taken_write(&link->taken, output);
    fwrite(link->said, 1, link->length, stdout);
    return fflush(stdout) == 0 || status != 0 ? status : 1;
}

/* Copies what a compiler has said to standard error. */
static void give_errors(int errors)
{
    char bytes[BUFSIZ];
    ssize_t count;
    for (off_t at = 0; errors >= 0 && (count = pread(errors, bytes, sizeof bytes, at)) > 0; at += count)
        if (write(STDERR_FILENO, bytes, (size_t)count) != count)
            return;
}

/* The first link. If it fails, what came in behind the recorder may have asked for calls that are not there: so it is
   done again with all of them, and is as it was if that fails too. What the one that counts has said is given then. */
static int link_first(struct job *job, struct link *link, bool is_try, bool is_silent)
{
    struct link again = *link;
    if (!linking_has_some_calls(job))
        return link_once(job, is_try, link, is_silent ? ERRORS_NOWHERE : ERRORS_OURS);
    int first = is_silent ? ERRORS_NOWHERE : memfd_create("errors", MFD_CLOEXEC), counts = first;
    int second = is_silent ? ERRORS_NOWHERE : memfd_create("errors", MFD_CLOEXEC);
    shows_colors = !is_silent && is_at_terminal();
    int status = link_once(job, is_try, link, first);
    if (status != 0 && link->taken.has_begun) {
        job->request.link.needs_every_call = true;
        if (link_once(job, is_try, &again, second) == 0) {
            *link = again;
            counts = second;
            status = 0;
        }
    }
    shows_colors = false;
    give_errors(counts);
    return status;
}

/* Whether it is to be linked again, by the members taken in and by its contents. */
static bool needs_another(struct job *job, const struct link *link, const char *output)
{
    bool lacks_calls = link->taken.has_library && linking_has_some_calls(job);
    job->request.link.needs_every_call |= lacks_calls;
    return linking_needs_another(job, output) || lacks_calls;
}

/* Few programs have names of their own. Warnings come once: with the first link, or with the second if there is one in
   any case. */
int running_link(struct job *job)
{
    const struct link_request *request = &job->request.link;
    const char *output = request->output != NULL ? request->output : "a.out";
    bool is_static = linking_is_static(request), is_twice = request->is_stripped && !is_static;
    off_t input_start = job->request.inputs.has_standard ? keep_standard_input() : 0;
    struct link first = {.input_start = input_start}, second = first, third = first;
    int status = link_first(job, &first, !is_static, is_twice);
    bool is_again = status == 0 && !is_static && needs_another(job, &first, output);
    if (!is_twice && !is_again)
        return end_link(job, &first, status, output);
    status = link_once(job, false, &second, is_twice ? ERRORS_OURS : ERRORS_NOWHERE);
    if (status == 0 || is_twice)
        return end_link(job, &second, status, output);
    status = link_once(job, false, &third, ERRORS_OURS);
    return end_link(job, &third, status, output);
}
