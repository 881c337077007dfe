/* Each word of the two variables takes effect by the row of its option. The words are listed by what became of them: in
   at most one line of the verdict for each variable, and with --verbose in two more. */
#define _GNU_SOURCE
#include "asan.h"

#include <errno.h>
#include <inttypes.h>
#include <signal.h>
#include <stdio.h>
#include <stdlib.h>
#include <string.h>
#include <sys/stat.h>
#include <unistd.h>

#include "common/asan_options.h"
#include "common/distance.h"
#include "common/format.h"
#include "common/path.h"
#include "names.h"
#include "say.h"

/* What became of a word. */
enum done { TAKEN, OVERRULED, WITHOUT_EFFECT, UNKNOWN, HARMLESS, DONE_COUNT };

#if defined __has_feature
#define IS_SANITIZED __has_feature(address_sanitizer)
#elif defined __SANITIZE_ADDRESS__
#define IS_SANITIZED 1
#else
#define IS_SANITIZED 0
#endif

/* A line says no more of one variable than this. */
enum { MAX_LIST = 1000 };

static char *value_of(const struct asan_word *word)
{
    return must(strndup(word->value, word->value_length));
}

/* Whether the value is a number in this range. */
static bool is_number_to(const struct asan_word *word, uint64_t most)
{
    uint64_t number;
    return asan_number(word, &number) && number <= most;
}

static enum done give(struct options *options, const char *name, const char *value)
{
    return options_give(options, name, value) ? TAKEN : OVERRULED;
}

/* The name of a file in which each percent sign stands for itself. */
static char *escaped(const char *name)
{
    char *text = must(malloc(2 * strlen(name) + 1)), *to = text;
    for (; *name != 0; name++) {
        if (*name == '%')
            *to++ = '%';
        *to++ = *name;
    }
    *to = 0;
    return text;
}

static bool is_readable_file(const char *path)
{
    struct stat seen;
    return stat(path, &seen) == 0 && !S_ISDIR(seen.st_mode) && access(path, R_OK) == 0;
}

/* The path of a file in the folder where the command's own file is, links followed; or null. */
static const char *beside_command(const struct options *options, const char *name)
{
    char served[48], *program = served;
    snprintf(served, sizeof served, "/proc/%ju/exe", (uintmax_t)options->served);
    if (options->served == 0)
        program = path_of_program(options->command[0], NULL);
    char *file = program != NULL ? realpath(program, NULL) : NULL;
    char *slash = file != NULL ? strrchr(file, '/') : NULL;
    return slash != NULL ? path_in(file, (size_t)(slash - file), name) : NULL;
}

/* A relative path is looked for from here, and then beside the command, as AddressSanitizer does. */
static enum done take_suppressions(struct options *options, const char *path)
{
    if (*path == 0)
        return HARMLESS;
    if (*path != '/' && !is_readable_file(path))
        path = beside_command(options, path);
    if (path == NULL || !is_readable_file(path))
        return WITHOUT_EFFECT;
    return give(options, "suppressions", escaped(path));
}

static enum done take_prefix(struct options *options, const char *path)
{
    struct stat seen;
    bool is_folder = stat(path, &seen) == 0 && S_ISDIR(seen.st_mode) && access(path, X_OK) == 0;
    return is_folder ? give(options, "source-root", escaped(path)) : HARMLESS;
}

static enum done take_quarantine(struct options *options, const struct asan_word *word)
{
    char *text;
    uint64_t bytes;
    const char *own = getenv("ASANCOL_QUARANTINE");
    if (asan_is_word(word, "-1"))
        return HARMLESS;
    if (!asan_quarantine(word, MAX_QUARANTINE, &bytes))
        return WITHOUT_EFFECT;
    if (own != NULL && *own != 0)
        return OVERRULED;
    if (asprintf(&text, "%" PRIu64, bytes) < 0)
        must(NULL);
    return give(options, "quarantine", text);
}

static enum done take_symbolizer(const char *path)
{
    if (*path == 0)
        return HARMLESS;
    if (getenv("ASANCOL_SYMBOLIZER") != NULL)
        return OVERRULED;
    setenv("ASANCOL_SYMBOLIZER", path, 1);
    return TAKEN;
}

static int log_error; /* why no file of the last log_path can be made */

static enum done take_log(struct options *options, const char *path)
{
    if (*path == 0 || strcmp(path, "stderr") == 0)
        return HARMLESS;
    if (strcmp(path, "stdout") == 0)
        return give(options, "log-file", "/dev/stdout");
    if (!names_make_folders(path)) {
        log_error = errno;
        return WITHOUT_EFFECT;
    }
    enum done done = give(options, "log-path", escaped(path));
    if (done == TAKEN)
        strings_add(&options->report, "--log-alone");
    options->log_is_alone |= done == TAKEN;
    return done;
}

static enum done take_verbosity(struct options *options, const struct asan_word *word)
{
    uint64_t level;
    if (!asan_number(word, &level))
        return WITHOUT_EFFECT;
    options->verbose |= level > 0;
    return level > 0 ? TAKEN : HARMLESS;
}

/* Names of options that are taken or said: what no report depends on is not meant. */
static const char *const meant[] = {
#define OPTION(name, fate, value, here) ASAN_IS_##fate != ASAN_IS_HARMLESS ? #name : "",
#include "common/asan_options.def"
#undef OPTION
};

/* The processes print it. */
static enum done take_help(const struct asan_word *word)
{
    if (asan_is_no(word))
        return HARMLESS;
    return asan_is_yes(word) ? TAKEN : WITHOUT_EFFECT;
}

/* With which status AddressSanitizer ends a program, by its options: of each, the last word counts. */
static struct {
    bool has_exitcode, halts, aborts;
} asked;

/* Takes them where the command line has no status. Leaves 99 if halt_on_error=0 asks for the program's own. */
static void take_statuses(struct options *options)
{
    char number[8];
    bool halts = asked.halts && getenv("ASANCOL_HALT") == NULL;
    snprintf(number, sizeof number, "%d", asked.aborts ? 128 + SIGABRT : 1);
    if (asked.aborts || (halts && !asked.has_exitcode))
        asked.has_exitcode = give(options, "exitcode", must(strdup(number))) == TAKEN;
    options->of_crash = asked.has_exitcode ? options->exitcode : 0;
}

static enum done take_exitcode(struct options *options, const struct asan_word *word)
{
    if (!is_number_to(word, UINT8_MAX))
        return WITHOUT_EFFECT;
    asked.has_exitcode = options_give(options, "exitcode", value_of(word));
    return asked.has_exitcode ? TAKEN : OVERRULED;
}

/* Gives our own option for it its value. */
static enum done take_for_run(struct options *options, const struct asan_word *word)
{
    switch (word->option) {
    case ASAN_exitcode:
        return take_exitcode(options, word);
    case ASAN_detect_leaks:
        if (asan_is_yes(word) || asan_is_no(word))
            return give(options, "leaks", asan_is_yes(word) ? "yes" : "no");
        return WITHOUT_EFFECT;
    case ASAN_suppressions:
        return take_suppressions(options, value_of(word));
    case ASAN_quarantine_size_mb:
    case ASAN_quarantine_size:
        return take_quarantine(options, word);
    case ASAN_external_symbolizer_path:
        return take_symbolizer(value_of(word));
    case ASAN_strip_path_prefix:
        return take_prefix(options, value_of(word));
    case ASAN_verbosity:
        return take_verbosity(options, word);
    case ASAN_help:
        return take_help(word);
    default:
        return take_log(options, value_of(word));
    }
}

/* The recorder takes it: here it counts the expected ones. */
static enum done note_for_processes(struct options *options, const struct asan_word *word)
{
    bool has_levels = word->option == ASAN_detect_odr_violation || word->option == ASAN_detect_invalid_pointer_pairs;
    if (has_levels ? !is_number_to(word, UINT8_MAX) : !asan_is_yes(word) && !asan_is_no(word))
        return WITHOUT_EFFECT;
    if (word->option == ASAN_halt_on_error)
        options->may_halt = asked.halts = asan_is_yes(word);
    if (word->option == ASAN_abort_on_error)
        options->may_halt |= asked.aborts = asan_is_yes(word);
    return TAKEN;
}

static enum done take_word(struct options *options, const struct asan_word *word)
{
    switch (word->fate) {
    case ASAN_IS_RUN:
        return take_for_run(options, word);
    case ASAN_IS_PROCESS:
        return note_for_processes(options, word);
    case ASAN_IS_FIXED:
        return word->is_fixed_value ? HARMLESS : WITHOUT_EFFECT;
    case ASAN_IS_HARMLESS:
        return HARMLESS;
    default:
        return UNKNOWN;
    }
}

/* The name that an unknown one is nearest to, if it is at most two letters away, and a third of it; or null. */
static const char *meant_by(const struct asan_word *word)
{
    const char *nearest = NULL;
    size_t least = 3;
    for (size_t i = 0; i < sizeof meant / sizeof *meant && word->name_length < DISTANCE_ROOM; i++) {
        size_t away = edit_distance(word->name, word->name_length, meant[i]);
        if (away < least && 3 * away <= word->name_length) {
            least = away;
            nearest = meant[i];
        }
    }
    return nearest;
}

/* In parentheses, which name was meant, or why the word has no effect if that does not go without saying. */
static const char *remark_on(const struct asan_word *word, enum done done)
{
    static char text[DISTANCE_ROOM + 64]; /* until the next word */
    const char *nearest = done == UNKNOWN ? meant_by(word) : NULL;
    if (done == WITHOUT_EFFECT && word->option == ASAN_suppressions)
        return " (not a readable file)";
    bool is_log = done == WITHOUT_EFFECT && word->option == ASAN_log_path;
    if (!is_log && nearest == NULL)
        return "";
    snprintf(text, sizeof text, is_log ? " (%s)" : " (is %s meant?)", is_log ? strerror(log_error) : nearest);
    return text;
}

static void add_word(char **list, const struct asan_word *word, const char *remark)
{
    size_t length = *list != NULL ? strlen(*list) : 0;
    char *more;
    if (length > MAX_LIST)
        return;
    int shown = word->value_length < 200 ? (int)word->value_length : 200;
    if (asprintf(&more, "%s%s%.*s%s%.*s%s", length > 0 ? *list : "", length > 0 ? ", " : "",
                 word->name_length < 80 ? (int)word->name_length : 80, word->name, shown > 0 ? "=" : "", shown,
                 word->value, remark)
        < 0)
        must(NULL);
    free(*list);
    *list = more;
}

/* Adds "VARIABLE: FIRST: WORDS; SECOND: WORDS" of what there is. */
static void add_line(struct strings *lines, const char *variable, const char *first, const char *of_first,
                     const char *second, const char *of_second)
{
    char *line;
    if (of_first == NULL && of_second == NULL)
        return;
    if (asprintf(&line, "%s: %s%s%s%s%s", variable, of_first != NULL ? first : "", of_first != NULL ? of_first : "",
                 of_first != NULL && of_second != NULL ? "; " : "", of_second != NULL ? second : "",
                 of_second != NULL ? of_second : "")
        < 0)
        must(NULL);
    strings_add(lines, line);
}

/* Takes all words of a variable, and keeps a line for those of each kind. */
static void take_variable(struct options *options, const char *variable)
{
    const char *at = getenv(variable);
    char *lists[DONE_COUNT] = {NULL};
    struct asan_word word;
    while (at != NULL && asan_next(&at, &word))
        if (word.name_length > 0) {
            enum done done = take_word(options, &word);
            add_word(&lists[done], &word, remark_on(&word, done));
        }
    add_line(&options->asan_notes, variable, "without effect here: ", lists[WITHOUT_EFFECT],
             "unknown: ", lists[UNKNOWN]);
    add_line(&options->asan_taken, variable, "taken: ", lists[TAKEN],
             "the command line or an ASANCOL variable wins: ", lists[OVERRULED]);
    add_line(&options->asan_taken, variable, "no report depends on ", lists[HARMLESS], "", NULL);
}

void asan_take(struct options *options)
{
    if (IS_SANITIZED) /* they are for this program itself */
        return;
    take_variable(options, "ASAN_OPTIONS");
    take_variable(options, "LSAN_OPTIONS");
    take_statuses(options);
}

const char *asan_hint(const char *name, size_t length)
{
    static const struct {
        const char *name, *hint;
    } known[] = {
        {"halt", "ASANCOL_HALT=1 in the environment ends each process at its first bad access"},
        {"halt_on_error", "ASANCOL_HALT=1 in the environment ends each process at its first bad access"},
        {"detect_leaks", "did you mean --leaks=yes or --leaks=no?"},
        {"log_path", "did you mean --log-path?"},
        {"quarantine_size_mb", "did you mean --quarantine, in bytes?"},
    };
    static char hint[160]; /* the program ends with it */
    char text[80];
    struct asan_word word = {.name = text, .value = "", .name_length = length};
    if (length >= sizeof text)
        return NULL;
    for (size_t i = 0; i < length; i++)
        text[i] = name[i] == '-' ? '_' : name[i];
    text[length] = 0;
    for (size_t i = 0; i < sizeof known / sizeof *known; i++)
        if (strcmp(text, known[i].name) == 0)
            return known[i].hint;
    asan_look_up(&word);
    if (word.fate != ASAN_IS_RUN && word.fate != ASAN_IS_PROCESS)
        return NULL;
    snprintf(hint, sizeof hint, "ASAN_OPTIONS=%s=.. in the environment is read", text);
    return hint;
}
