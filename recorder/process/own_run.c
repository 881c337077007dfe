/* The settings that a run gives to the command are put where the answer of a run would be (orphan.h), so the
   environment of the program stays as it is: each program that it executes has a run of its own. With
   ASANCOL_RUN_OPTIONS there may be something to write also if nothing is found, so the run begins at once, and is asked
   for the settings. */
#define _GNU_SOURCE
#include "process/own_run.h"

#include <limits.h>
#include <stdbool.h>
#include <string.h>
#include <sys/mman.h>
#include <sys/stat.h>
#include <unistd.h>

#include "base/digits.h"
#include "base/platform.h"
#include "base/say.h"
#include "base/system.h"
#include "common/hub_name.h"
#include "common/text.h"
#include "environment/asking.h"
#include "environment/dormant.h"
#include "environment/hub_names.h"
#include "environment/link_note.h"
#include "environment/orphan.h"
#include "environment/startup.h"
#include "process/preload_choice.h"
#include "process/waiter.h"

#define PROGRAM "asancol-run"
#define NO_MEMORY "there is no memory"

/* There if the link was asked for it: by -fsanitize=address (by_flag.c), and by --asancol-no-run (by_option.c). */
extern const char asancol_by_flag[] __attribute__((visibility("default"), weak));
extern const char asancol_by_option[] __attribute__((visibility("default"), weak));
extern const struct link_note asancol_link_note;

/* What libFuzzer and others call is a target, which reports its first fault itself. */
extern int LLVMFuzzerTestOneInput(const unsigned char *, size_t) __attribute__((weak));

/* With which it ends if it cannot be checked. */
enum { NOT_CHECKED = 98 };

/* Why there is no run; null: there is one, or nobody wants one. */
static const char *failure;
static bool is_only_tried;

/* The run begins at a halt: the process prints its words, and it nothing itself. The status is that of the program. */
static bool is_for_words;

/* The value of a variable that is not empty, or null. */
static const char *value_of(const char *name)
{
    size_t length = strlen(name);
    for (char **entry = startup.variables; entry != NULL && *entry != NULL; entry++)
        if (strncmp(*entry, name, length) == 0 && (*entry)[length] == '=')
            return (*entry)[length + 1] != 0 ? *entry + length + 1 : NULL;
    return NULL;
}

/* Whether the process records already, or a run is found whose setting it has lost. A run that a program has started
   for itself may be over, while others of its processes go on that were never recorded. */
static bool has_output(void)
{
    const char *hub = value_of("ASANCOL_HUB");
    if (value_of("ASANCOL_TRACE") != NULL || value_of("ASANCOL_SOCKET") != NULL)
        return true;
    if (hub != NULL)
        return value_of("ASANCOL_ROOT") == NULL || is_asked_at(hub);
    orphan_ask();
    return orphan_value("ASANCOL_HUB") != NULL || orphan_is_in_the_way();
}

#define OWN_FILE "/proc/self/exe"

/* Memory that is never given back. Null: there is none. */
static void *take_memory(size_t bytes)
{
    long made = system_mmap(NULL, bytes, PROT_READ | PROT_WRITE, MAP_PRIVATE | MAP_ANONYMOUS, -1, 0);
    return made > 0 ? (void *)made : NULL;
}

/* The words of ASANCOL_RUN_OPTIONS, separated by blanks; quotes keep blanks in a word. They are taken apart in this
   copy. Answers how many; null: they are counted. */
static size_t split(char *text, const char **list)
{
    size_t count = 0;
    char *to = text;
    for (char *at = text; *(at += strspn(at, " \t\n")) != 0; count++) {
        char quote = 0;
        if (list != NULL)
            list[count] = to;
        for (; *at != 0 && (quote != 0 || strchr(" \t\n", *at) == NULL); at++) {
            if (quote == *at || (quote == 0 && (*at == '"' || *at == '\'')))
                quote = quote == 0 ? *at : 0;
            else if (list != NULL)
                *to++ = *at;
        }
        bool is_last = *at == 0;
        if (list != NULL)
            *to++ = 0;
        at += !is_last;
    }
    return count;
}

/* Copies of the texts in memory of their own: the list ends with a null. Null: there is no memory. */
static const char **copy_list(const char *const *list, size_t count)
{
    size_t room = (count + 1) * sizeof *list;
    for (size_t i = 0; i < count; i++)
        room += strlen(list[i]) + 1;
    const char **copy = take_memory(room);
    char *at = copy != NULL ? (char *)(copy + count + 1) : NULL;
    for (size_t i = 0; at != NULL && i < count; at += strlen(at) + 1, i++)
        copy[i] = strcpy(at, list[i]);
    return copy;
}

/* Whether the run is to begin also if there is nothing to report. */
static bool begins_at_once(void)
{
    return value_of("ASANCOL_RUN_OPTIONS") != NULL && !is_for_words;
}

/* What the run is started with, before the words of the program. Who has come from AddressSanitizer, by its flag or its
   options, may have parsers of its text. Answers how many words. */
enum { MOST_FRONT = 12, MOST_OPTIONS = 256 };
static size_t put_front(const char **list, struct waiter_command *command)
{
    static char digits[DIGITS_ROOM];
    bool is_asan = asancol_by_flag != NULL || value_of("ASAN_OPTIONS") != NULL;
    const char *const front[] = {
        PROGRAM,     "-q",
        "--format",  is_asan ? "asan" : "asancol",
        "--serve",   put_digits(digits + sizeof digits, (uint64_t)system_getpid(), 1),
        "--sockets", ""};
    enum { WORDS = sizeof front / sizeof *front };
    memcpy(list, front, sizeof front);
    command->sockets_at = WORDS - 1;
    list[WORDS] = "--held";
    list[WORDS + 1] = "--log-file";
    list[WORDS + 2] = "/dev/null";
    return is_for_words ? WORDS + 3 : WORDS + !begins_at_once();
}

/* Answers what went wrong, or null. */
static const char *make_words(struct waiter_command *command, const char *const *words)
{
    const char *list[MOST_FRONT + MOST_OPTIONS], *options = is_for_words ? NULL : value_of("ASANCOL_RUN_OPTIONS");
    size_t at = put_front(list, command), of_words = 0;
    char *text = take_memory(options != NULL ? strlen(options) + 1 : 1);
    if (text == NULL)
        return NO_MEMORY;
    if (options != NULL && split(strcpy(text, options), NULL) > MOST_OPTIONS)
        return "ASANCOL_RUN_OPTIONS has more than 256 words";
    if (options != NULL)
        at += split(text, list + at);
    list[at++] = "--";
    while (words[of_words] != NULL)
        of_words++;
    const char **all = take_memory((at + of_words + 1) * sizeof *all);
    if (all == NULL)
        return NO_MEMORY;
    memcpy(all, list, at * sizeof *all);
    memcpy(all + at, words, of_words * sizeof *all);
    command->argv = copy_list(all, at + of_words);
    return command->argv != NULL ? NULL : NO_MEMORY;
}

/* Whether it can be executed, which no folder can. */
static bool is_program(const char *path)
{
    struct stat seen;
    return system_access(path, X_OK) == 0 && system_stat(path, &seen) == 0 && S_ISREG(seen.st_mode);
}

/* Looks for asancol-run: where the user says it is; else where it was at the link, beside the program, and in each
   folder of PATH. False: it is nowhere. */
static bool find_run(char path[PATH_MAX], const char *wanted)
{
    struct joined joined = {.text = path, .room = PATH_MAX};
    if (wanted != NULL && strchr(wanted, '/') != NULL) {
        joined_add(&joined, wanted, PATH_MAX);
        return !joined.is_cut && is_program(path);
    }
    joined_add(&joined, asancol_link_note.run, sizeof asancol_link_note.run);
    if (joined.length > 0 && is_program(path))
        return true;
    ssize_t length = system_readlink(OWN_FILE, path, PATH_MAX - 1);
    joined.length = length > 0 ? (size_t)length : 0;
    while (joined.length > 0 && path[joined.length - 1] != '/')
        joined.length--;
    joined_add(&joined, PROGRAM, sizeof PROGRAM);
    if (length > 0 && !joined.is_cut && is_program(path))
        return true;
    const char *at = value_of("PATH");
    for (at = at != NULL ? at : "/usr/local/bin:/usr/bin:/bin"; *at != 0; at += *at == ':') {
        size_t of_folder = strcspn(at, ":");
        joined = (struct joined){.text = path, .room = PATH_MAX};
        joined_add(&joined, at, of_folder);
        joined_add(&joined, "/" PROGRAM, sizeof PROGRAM + 1);
        if (of_folder > 0 && !joined.is_cut && is_program(path))
            return true;
        at += of_folder;
    }
    return false;
}

/* Why asancol-run was not found, and what to do. */
static const char *why_not_found(const char *wanted)
{
    static char text[PATH_MAX + 256];
    bool is_path = wanted != NULL && strchr(wanted, '/') != NULL;
    struct joined joined = {.text = text, .room = sizeof text};
    joined_add(&joined, PROGRAM, sizeof text);
    if (is_path || asancol_link_note.run[0] != 0) {
        joined_add(&joined, " can't be executed at ", sizeof text);
        joined_add(&joined, is_path ? wanted : asancol_link_note.run, PATH_MAX);
        joined_add(&joined, is_path ? "" : ", and", sizeof text);
    }
    joined_add(&joined, is_path ? "" : " is not beside the program or in PATH", sizeof text);
    joined_add(&joined, ": install it, set ASANCOL_RUN to its path, or set ASANCOL_RUN=0 to run unchecked",
               sizeof text);
    return text;
}

/* Whether the options of AddressSanitizer name a log. */
static bool has_log(void)
{
    static const char name[] = "log_path=";
    const char *at = value_of("ASAN_OPTIONS");
    while (at != NULL && *at != 0 && !begins_with(at, name))
        at++;
    return at != NULL && *at != 0;
}

/* The settings that asancol-run would give to its command. The text that it prints goes to the standard error of
   the program; a log has to be known by its options. */
static void give_settings(const char *hub)
{
    char text[SETTINGS_MOST] = "", digits[DIGITS_ROOM];
    struct stat seen;
    struct joined joined = {.text = text, .room = sizeof text};
    joined_add(&joined, "ASANCOL_HUB=", SETTINGS_MOST);
    joined_add(&joined, hub, WAITER_NAME_ROOM);
    if (is_for_words) {
        joined_add(&joined, "\nASANCOL_TEXT=words", SETTINGS_MOST);
        orphan_give(text);
        return;
    }
    joined_add(&joined, "\nASANCOL_ROOT=", SETTINGS_MOST);
    joined_add(&joined, put_digits(digits + sizeof digits, (uint64_t)system_getpid(), 1), sizeof digits);
    joined_add(&joined, "\nASANCOL_LEAKS=1", SETTINGS_MOST);
    if (has_log()) {
        joined_add(&joined, "\nASANCOL_TEXT=log", SETTINGS_MOST);
    } else if (system_fstat(STDERR_FILENO, &seen) == 0) {
        joined_add(&joined, "\nASANCOL_TEXT=", SETTINGS_MOST);
        joined_add(&joined, put_digits(digits + sizeof digits, seen.st_dev, 1), sizeof digits);
        joined_add(&joined, ":", 1);
        joined_add(&joined, put_digits(digits + sizeof digits, seen.st_ino, 1), sizeof digits);
        joined_add(&joined, "\nASANCOL_LIVE=1", SETTINGS_MOST);
    }
    orphan_give(text);
}

/* Answers why it did not. */
static const char *begin(struct waiter_command *command)
{
    char hub[WAITER_NAME_ROOM];
    const char *why = make_words(command, (const char *const *)startup.argv);
    if (why == NULL)
        why = waiter_begin(command, hub);
    if (why != NULL)
        return why;
    give_settings(hub);
    if (!begins_at_once())
        return NULL;
    dormant_begin(NULL);
    return orphan_ask_at(hub) ? NULL : PROGRAM " did not begin";
}

/* Whether the user wants none: of a fuzzer's target only who asks for it has one. */
static bool is_refused(const char *wanted)
{
    if (wanted != NULL)
        return strcmp(wanted, "0") == 0;
    return asancol_by_option != NULL || LLVMFuzzerTestOneInput != NULL || value_of("__AFL_SHM_ID") != NULL;
}

void own_run_begin(void)
{
    static char path[PATH_MAX];
    struct waiter_command command = {.path = path};
    const char *wanted = value_of("ASANCOL_RUN");
    if (IS_PRELOADED || startup.argv == NULL || startup.is_set_user || is_refused(wanted) || has_output())
        return;
    is_only_tried = wanted != NULL && strcmp(wanted, "try") == 0;
    if (!find_run(path, wanted))
        failure = why_not_found(wanted);
    else
        failure = begin(&command);
}

bool own_run_begin_at_halt(void)
{
    static char path[PATH_MAX];
    struct waiter_command command = {.path = path};
    bool is_target = LLVMFuzzerTestOneInput != NULL && asancol_by_option == NULL && value_of("__AFL_SHM_ID") == NULL;
    if (IS_PRELOADED || !is_target || startup.argv == NULL || startup.is_set_user || value_of("ASANCOL_RUN") != NULL)
        return false;
    is_for_words = true;
    return find_run(path, NULL) && begin(&command) == NULL;
}

void own_run_say(void)
{
    if (failure == NULL)
        return;
    recorder_say(is_only_tried ? "not checked: " : "not started: ", startup_name(), failure);
    if (!is_only_tried)
        system_exit(NOT_CHECKED);
}
