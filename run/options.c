/* The table generated from options/asancol-run.options (option_table.h): a row has the field that an option sets and
   its range, or the program that gets it. */
#define _GNU_SOURCE
#include "options.h"

#include <errno.h>
#include <fcntl.h>
#include <inttypes.h>
#include <limits.h>
#include <stdio.h>
#include <stdlib.h>
#include <string.h>
#include <sys/stat.h>
#include <unistd.h>

#include "common/array.h"
#include "common/distance.h"
#include "common/format.h"
#include "asan.h"
#include "names.h"
#include "option_table.h"
#include "outer.h"
#include "preload.h"
#include "say.h"
#include "source_url.h"

_Static_assert(MAX_OF_QUARANTINE == MAX_QUARANTINE && DEFAULT_OF_QUARANTINE == QUARANTINE_BOUND
                   && MAX_OF_LIMIT == EVENT_LIMIT,
               "asancol and the recorder have the same bounds");

static const char help[] = OPTION_HELP;

/* What happens to an option. */
enum action {
    SET_FLAG,    /* a bool at the offset */
    SET_NUMBER,  /* a uint64_t, in the range */
    SET_SECONDS, /* a double, in the range of thousandths */
    SET_OUTPUT,  /* the name of a file, with its marks expanded */
    SET_FOLDER,  /* the same */
    SET_INPUT,   /* as it is */
    PASS_CHECK,  /* a number in the range, for the checker */
    PASS_FLAG,   /* a word for the report, and a bool if there is an offset */
    PASS_WORDS,  /* one of some words, for the report, and its place among them if there is an offset */
    PASS_INPUT,  /* a file that the report reads */
    PASS_OUTPUT, /* a file that the report writes */
    PASS_FOLDER, /* a folder that the report is given */
    PASS_PREFIX, /* the beginning of the names of files that the report writes */
    PASS_NAME,   /* a word for the report */
    PASS_URL,    /* a template of addresses, for the report */
    SHOW_DOCTOR,
    SHOW_HELP,
    SHOW_VERSION
};

struct option {
    const char *name;
    char letter;
    enum action action;
    size_t offset;
    uint64_t least, most;
    const char *const *words; /* up to a null, or null */
};

#define AT(field) offsetof(struct options, field)

static const struct option table[] = {OPTION_ROWS};

/* Whether the command line has given them. */
static bool is_given[COUNT(table)];

/* The option whose name is nearest, or null if none is near. */
static const char *nearest(const char *name, size_t length)
{
    const char *found = NULL;
    size_t least = length / 3 + 1;
    if (length > 40)
        return NULL;
    for (size_t i = 0; i < COUNT(table); i++) {
        size_t offset = table[i].offset;
        if (offset == AT(are_files) || offset == AT(served) || offset == AT(sockets) || offset == AT(are_held))
            continue; /* asancol-report's or the recorder's alone */
        size_t away = edit_distance(name, length, table[i].name);
        if (length >= 3 && strncmp(name, table[i].name, length) == 0)
            away = 0; /* the beginning of a name is meant, and does not serve */
        if (away < least || (away == least && found == NULL)) {
            least = away;
            found = table[i].name;
        }
    }
    return found;
}

static _Noreturn void fail_unknown(const char *word, size_t length)
{
    const char *hint = word[1] == '-' ? asan_hint(word + 2, length - 2) : NULL;
    const char *name = word[1] == '-' ? nearest(word + 2, length - 2) : NULL;
    if (hint != NULL)
        say("asancol-run: unknown option %.*s; %s", (int)length, word, hint);
    else if (name != NULL)
        say("asancol-run: unknown option %.*s; did you mean --%s?", (int)length, word, name);
    else
        say("asancol-run: unknown option %.*s", (int)length, word);
    const char *given = getenv("ASANCOL_RUN_OPTIONS");
    if (given != NULL && strstr(given, word) != NULL)
        say("asancol-run: it is in ASANCOL_RUN_OPTIONS=%s", given);
    say("asancol-run --help lists the options");
    exit(OWN_FAILURE);
}

static const struct option *find(const char *word, size_t length)
{
    for (size_t i = 0; i < COUNT(table); i++) {
        const struct option *option = &table[i];
        bool is_short = length == 2 && option->letter != 0 && word[1] == option->letter;
        bool is_long = word[1] == '-' && strlen(option->name) == length - 2
                       && strncmp(word + 2, option->name, length - 2) == 0;
        if (is_short || is_long)
            return option;
    }
    fail_unknown(word, length);
}

/* A number in decimal digits, with up to three digits after a point if it is in thousandths. */
static bool read_number(const char *text, bool has_fraction, uint64_t *number)
{
    uint64_t value = 0;
    int after = -1;
    if (text[0] < '0' || text[0] > '9')
        return false;
    for (; *text != 0; text++) {
        if (has_fraction && after < 0 && *text == '.') {
            after = 0;
            continue;
        }
        if (*text < '0' || *text > '9' || value > UINT64_MAX / 10 - 10)
            return false;
        if (after == 3)
            continue; /* less than a thousandth */
        value = value * 10 + (uint64_t)(*text - '0');
        after += after >= 0;
    }
    for (after = after < 0 ? 0 : after; has_fraction && after < 3; after++) {
        if (value > UINT64_MAX / 10)
            return false;
        value *= 10;
    }
    *number = value;
    return true;
}

static uint64_t number_of(const struct option *option, const char *text)
{
    uint64_t number;
    if (read_number(text, false, &number) && number >= option->least && number <= option->most)
        return number;
    say("asancol-run: --%s: '%s' is not a number (%" PRIu64 " to %" PRIu64 ")", option->name, text,
        option->least, option->most);
    exit(OWN_FAILURE);
}

/* Its least is in thousandths, and its most in seconds. */
static double seconds_of(const struct option *option, const char *text)
{
    uint64_t number;
    if (read_number(text, true, &number) && number >= option->least && number <= option->most * 1000)
        return (double)number / 1000;
    say("asancol-run: --%s: '%s' is not a number of seconds (%s to %" PRIu64 ")", option->name, text,
        option->least > 0 ? "0.001" : "0", option->most);
    exit(OWN_FAILURE);
}

static void demand_beginning(const char *dashed, const char *path)
{
    if (names_make_folders(path))
        return;
    say("asancol-run: %s: %s: %s", dashed, path, strerror(errno));
    exit(OWN_FAILURE);
}

/* Fails if a file neither can be made nor is there and can be written. Missing folders are made. */
static void demand_output(const char *dashed, const char *path)
{
    struct stat seen;
    if (stat(path, &seen) == 0) {
        if (S_ISDIR(seen.st_mode))
            errno = EISDIR;
        else if (access(path, W_OK) == 0)
            return;
    } else if (errno == ENOENT && names_make_folders(path)) {
        return;
    }
    say("asancol-run: %s: %s: %s", dashed, path, strerror(errno));
    exit(OWN_FAILURE);
}

/* Files that are written. */
static struct output {
    const char *option;
    struct stat seen; /* of its folder */
    char *name;       /* in it */
} *outputs;
static size_t output_count;

/* Fails if another option has this file too: one of them would be lost. */
static void demand_alone(const char *dashed, const char *path)
{
    struct stat seen, folder;
    const char *slash = strrchr(path, '/');
    char *of = must(strndup(path, slash == path ? 1 : (size_t)(slash - path)));
    bool is_other = (stat(path, &seen) == 0 && !S_ISREG(seen.st_mode)) || stat(of, &folder) != 0;
    free(of);
    for (size_t i = 0; i < output_count && !is_other; i++)
        if (strcmp(outputs[i].option, dashed) != 0 && strcmp(outputs[i].name, slash + 1) == 0
            && outputs[i].seen.st_dev == folder.st_dev && outputs[i].seen.st_ino == folder.st_ino) {
            say("asancol-run: %s: %s is the file of %s too", dashed, path, outputs[i].option);
            exit(OWN_FAILURE);
        }
    if (is_other)
        return;
    outputs = must(realloc(outputs, (output_count + 1) * sizeof *outputs));
    outputs[output_count].option = dashed;
    outputs[output_count].seen = folder;
    outputs[output_count++].name = must(strdup(slash + 1));
}

/* Fails if there is no such file, or folder. */
static void demand(const char *dashed, const char *path, bool is_folder)
{
    struct stat seen;
    if (stat(path, &seen) == 0) {
        if ((bool)S_ISDIR(seen.st_mode) != is_folder)
            errno = is_folder ? ENOTDIR : EISDIR;
        else if (access(path, is_folder ? X_OK : R_OK) == 0)
            return;
    }
    say("asancol-run: %s: %s: %s", dashed, path, strerror(errno));
    exit(OWN_FAILURE);
}

static void pass(struct options *options, const char *dashed, const char *value)
{
    strings_add(&options->report, dashed);
    if (value != NULL)
        strings_add(&options->report, value);
}

/* An output that is a descriptor of ours. The report has others under these numbers: it is given a copy. */
static void pass_descriptor(struct options *options, const char *dashed, const char *name)
{
    int copy = fcntl(name_descriptor(name), F_DUPFD_CLOEXEC, STDERR_FILENO + 1);
    char *path;
    if (copy < 0 || (fcntl(copy, F_GETFL) & O_ACCMODE) == O_RDONLY) {
        say("asancol-run: %s: %s: %s", dashed, name, strerror(EBADF));
        exit(OWN_FAILURE);
    }
    if (asprintf(&path, "/dev/fd/%d", copy) < 0)
        must(NULL);
    if (options->output_count < COUNT(options->outputs))
        options->outputs[options->output_count++] = copy;
    pass(options, dashed, path);
    options->has_output = true;
}

/* Whether it is given already, as where a run round this one and this one name the same file. */
static bool is_passed(const struct options *options, const char *dashed, const char *value)
{
    for (size_t i = 0; i + 1 < options->report.count; i++)
        if (strcmp(options->report.items[i], dashed) == 0 && strcmp(options->report.items[i + 1], value) == 0)
            return true;
    return false;
}

static void demand_file(const char *dashed, const char *value)
{
    if (strcmp(value, "-") == 0)
        fail(OWN_FAILURE, dashed, "- is not a file: standard input and output are the command's");
}

/* A file or a folder that the report is given. */
static void pass_name(struct options *options, enum action action, const char *dashed, const char *value)
{
    demand_file(dashed, value);
    const char *name = name_expanded(dashed, value);
    if (action == PASS_OUTPUT && name_descriptor(name) >= 0) {
        pass_descriptor(options, dashed, name);
        return;
    }
    if (action == PASS_OUTPUT) {
        demand_output(dashed, name);
        demand_alone(dashed, name);
    } else if (action == PASS_PREFIX) {
        demand_beginning(dashed, name);
    } else {
        demand(dashed, name, action == PASS_FOLDER);
    }
    if (action == PASS_INPUT && is_passed(options, dashed, name))
        return;
    pass(options, dashed, name);
    options->has_output |= action == PASS_OUTPUT;
    options->has_rules |= action == PASS_INPUT;
}

static void pass_url(struct options *options, const char *dashed, const char *value)
{
    const char *fault = source_url_fault(value);
    if (fault != NULL) {
        say("asancol-run: %s: '%s' %s", dashed, value, fault);
        exit(OWN_FAILURE);
    }
    pass(options, dashed, value);
}

/* One of the words of an option. */
static void pass_word(struct options *options, const struct option *option, const char *dashed, const char *value)
{
    size_t place = 0;
    while (option->words[place] != NULL && strcmp(option->words[place], value) != 0)
        place++;
    if (option->words[place] == NULL) {
        char words[160] = "";
        for (size_t i = 0, length = 0; i < place && length < sizeof words; i++)
            length += (size_t)snprintf(words + length, sizeof words - length, "%s%s", option->words[i],
                                       i + 2 < place ? ", " : i + 1 < place ? " and " : "");
        say("asancol-run: %s: '%s' is not one of %s", dashed, value, words);
        exit(OWN_FAILURE);
    }
    if (option->offset == AT(unchecked))
        options->unchecked = (enum unchecked)place;
    if (option->offset == AT(leaks))
        options->leaks = (enum leaks)place;
    if (option->offset == AT(live))
        options->live = (enum live)place;
    options->has_output |= strcmp(value, "github") == 0; /* annotations are made by the report alone */
    if (strcmp(option->name, "format") == 0)
        options->are_lines = strcmp(value, "gcc") == 0 || strcmp(value, "github") == 0;
    pass(options, dashed, value);
}

/* The last value of an option for the checker counts: it refuses one that is given twice. */
static void pass_check(struct options *options, const struct option *option, const char *dashed, const char *value)
{
    number_of(option, value);
    if (option->offset != 0) /* --quarantine alone has a field of this kind */
        options->quarantine = value;
    for (size_t i = 0; i < options->check.count; i += 2)
        if (strcmp(options->check.items[i], dashed) == 0) {
            options->check.items[i + 1] = value;
            return;
        }
    strings_add(&options->check, dashed);
    strings_add(&options->check, value);
}

static _Noreturn void show(const char *text)
{
    fputs(text, stdout);
    if (fflush(stdout) != 0)
        fail(OWN_FAILURE, "standard output", strerror(errno));
    exit(0);
}

/* Becomes asancol-report, which looks at the machine. */
static _Noreturn void show_doctor(void)
{
    char *program = find_own_program("asancol-report", "ASANCOL_REPORT"), *self = realpath("/proc/self/exe", NULL);
    if (program != NULL && self != NULL)
        execl(program, program, "--doctor-of", self, (char *)NULL);
    fail(OWN_FAILURE, program != NULL ? program : "asancol-report", strerror(program != NULL ? errno : ENOENT));
}

static void take_flag(struct options *options, const struct option *option, const char *dashed)
{
    if (option->action == SHOW_DOCTOR)
        show_doctor();
    if (option->action == SHOW_HELP)
        show(help);
    if (option->action == SHOW_VERSION)
        show("asancol-run " RELEASE "\n");
    if (option->offset != 0)
        *(bool *)((char *)options + option->offset) = true;
    if (option->action == PASS_FLAG)
        pass(options, dashed, NULL);
}

static void take_value(struct options *options, const struct option *option, const char *dashed, const char *value)
{
    void *field = (char *)options + option->offset;
    switch (option->action) {
    case SET_NUMBER:
        *(uint64_t *)field = number_of(option, value);
        break;
    case SET_SECONDS:
        *(double *)field = seconds_of(option, value);
        break;
    case SET_OUTPUT:
        demand_file(dashed, value);
        *(const char **)field = name_expanded(dashed, value);
        if (name_descriptor(*(const char **)field) < 0) {
            demand_output(dashed, *(const char **)field);
            demand_alone(dashed, *(const char **)field);
        }
        break;
    case SET_FOLDER:
        *(const char **)field = name_expanded(dashed, value);
        break;
    case SET_INPUT:
        *(const char **)field = value;
        break;
    case PASS_CHECK:
        pass_check(options, option, dashed, value);
        break;
    case PASS_WORDS:
        pass_word(options, option, dashed, value);
        break;
    case PASS_NAME:
        pass(options, dashed, value);
        break;
    case PASS_URL:
        pass_url(options, dashed, value);
        break;
    default:
        pass_name(options, option->action, dashed, value);
    }
}

/* One of two names of an option stands for both. */
static void note_given(const struct option *option)
{
    for (size_t i = 0; i < COUNT(table); i++)
        is_given[i] |= option == &table[i] || (option->action <= SET_INPUT && option->action == table[i].action
                                               && option->offset == table[i].offset);
}

/* Takes the option that begins at this word, and answers the word after it. */
static char **take(struct options *options, char **argv)
{
    char *word = *argv++;
    char *equals = strchr(word, '=');
    const struct option *option = find(word, equals != NULL ? (size_t)(equals - word) : strlen(word));
    char *dashed;
    note_given(option);
    if (asprintf(&dashed, "--%s", option->name) < 0)
        must(NULL);
    if (option->action == SET_FLAG || option->action == PASS_FLAG || option->action >= SHOW_DOCTOR) {
        if (equals != NULL)
            fail(OWN_FAILURE, dashed, "it takes no value");
        take_flag(options, option, dashed);
        return argv;
    }
    const char *value = equals != NULL ? equals + 1 : *argv++;
    if (value == NULL || (equals == NULL && strcmp(value, "--") == 0))
        fail(OWN_FAILURE, dashed, "it needs a value");
    take_value(options, option, dashed, value);
    return argv;
}

/* Of what may be repeated, each counts. */
bool options_give(struct options *options, const char *name, const char *value)
{
    char *dashed;
    if (asprintf(&dashed, "--%s", name) < 0)
        must(NULL);
    const struct option *option = find(dashed, strlen(dashed));
    if (is_given[option - table] && option->action != PASS_INPUT)
        return false;
    take_value(options, option, dashed, value);
    return true;
}

/* What the recorder holds back, the checker has to hold too. A value that the recorder refuses is left to it. */
static void follow_recorder(struct options *options)
{
    const char *value = options->quarantine != NULL ? options->quarantine : getenv("ASANCOL_QUARANTINE");
    if (value == NULL || !read_number(value, false, &options->held) || options->held > MAX_QUARANTINE) {
        options->held = QUARANTINE_BOUND;
    } else if (options->quarantine == NULL) {
        strings_add(&options->check, "--quarantine");
        strings_add(&options->check, value);
    }
}

/* Takes what the command line of a run round this one says for this one too, where ours says nothing. A file that is
   not seen from here is left to that run. */
static void take_from_outer(struct options *options)
{
    const char *said = outer_options();
    char *text = must(strdup(said != NULL ? said : ""));
    for (char *line = strtok(text, "\n"); line != NULL; line = strtok(NULL, "\n")) {
        const char *equals = strchr(line, '=');
        const struct option *option = find(line, equals != NULL ? (size_t)(equals - line) : strlen(line));
        bool is_file = option->action == PASS_INPUT;
        if (is_file ? access(equals + 1, R_OK) == 0 : !is_given[option - table])
            take(options, (char *[]){must(strdup(line)), NULL});
    }
    free(text);
}

/* The given part of this, for runs inside this one. */
static void note_for_inner(struct options *options)
{
    static const char rules[] = "--suppressions";
    const struct option *leaks = find("--leaks", strlen("--leaks"));
    bool gives_leaks = is_given[leaks - table];
    char *text = NULL;
    size_t length = 0;
    FILE *to = must(open_memstream(&text, &length));
    options->demands_leaks = gives_leaks && options->leaks == LEAKS_YES;
    if (gives_leaks)
        fprintf(to, "--leaks=%s\n", leaks->words[options->leaks]);
    if (options->no_mismatches)
        fputs("--no-mismatches\n", to);
    for (size_t i = 0; i + 1 < options->report.count; i++)
        if (strcmp(options->report.items[i], rules) == 0 && strpbrk(options->report.items[i + 1], "\n%") == NULL)
            fprintf(to, "%s=%s\n", rules, options->report.items[++i]);
    if (fclose(to) != 0)
        must(NULL);
    options->for_inner = length > 0 ? text : NULL;
}

struct options options_read(char **argv)
{
    struct options options = {OPTION_DEFAULTS};
    for (argv++; *argv != NULL && (*argv)[0] == '-' && (*argv)[1] != 0;) {
        if (strcmp(*argv, "--") == 0) {
            argv++;
            break;
        }
        argv = take(&options, argv);
    }
    if (*argv == NULL)
        fail(OWN_FAILURE, "no command was given", "asancol-run --help shows how");
    options.command = argv;
    if (!options.are_files) {
        take_from_outer(&options);
        note_for_inner(&options);
    }
    if (options.are_files)
        unsetenv("ASANCOL_QUARANTINE"); /* it does not cover earlier recordings */
    else
        asan_take(&options);
    follow_recorder(&options);
    if (options.are_lines && options.live == LIVE_ACCESS)
        options.live = LIVE_END; /* no process waits for a text that does not come */
    bool has_marker = options.unchecked != UNCHECKED_NO && options.served == 0;
    if (!options.are_files)
        options.preloaded = preload_value(options.preloads, has_marker, &options.preload_note);
    return options;
}
