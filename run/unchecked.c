/* Three lists of names: of the user's modules, of programs, and of the system's modules; and the list that came last,
   since most processes have the same. */
#define _GNU_SOURCE
#include "unchecked.h"

#include <fcntl.h>
#include <limits.h>
#include <stdlib.h>
#include <string.h>
#include <unistd.h>

#include "json.h"
#include "say.h"

/* The most names that are kept, and the most in a summary. */
enum { MAX_NAMES = 4096, MAX_SAID = 5 };
/* A packet for asancol-report has at most 65,536 bytes: these parts of it for the lists. */
enum { MAX_OWN_BYTES = 28000, MAX_PROGRAM_BYTES = 14000, MAX_SYSTEM_BYTES = 10000 };

struct names {
    char **names;
    size_t count, room, more;
};

static struct {
    struct names own, programs, system;
    char last[SIDE_UNCHECKED_ROOM + 1]; /* what the process before had: most have the same */
} unchecked;

static void add(struct names *names, const char *name)
{
    for (size_t i = 0; i < names->count; i++)
        if (strcmp(names->names[i], name) == 0)
            return;
    if (names->count == MAX_NAMES) {
        names->more++;
        return;
    }
    if (names->count == names->room) {
        names->room = names->room == 0 ? 16 : 2 * names->room;
        names->names = must(realloc(names->names, names->room * sizeof *names->names));
    }
    names->names[names->count++] = must(strdup(name));
}

/* Nothing in a name does anything to a terminal. */
static void make_printable(char *name)
{
    for (; *name != 0; name++)
        if ((unsigned char)*name < ' ' || *name == 0x7f)
            *name = '?';
}

/* A line: a name, or a library of the system after a slash, or how many more there are after a plus sign. A suppression
   of the program, after an exclamation mark, is for asancol-report. */
static void take_line(char *line)
{
    make_printable(line);
    if (line[0] == '+')
        unchecked.own.more += strtoull(line + 1, NULL, 10) % INT_MAX;
    else if (line[0] == '/' && line[1] != 0)
        add(&unchecked.system, line + 1);
    else if (line[0] != '!' && line[0] != 0)
        add(&unchecked.own, line);
}

/* Takes the kinds of checks that a process has left out, as names of their own. */
static void take_skipped(uint64_t skipped)
{
    static const struct {
        enum side_skipped what;
        const char *name;
    } names[] = {
        {SKIPPED_FAMILIES, "families and sizes of frees (ASANCOL_MISMATCHES=0)"},
        {SKIPPED_RETURNS, "uses after return (ASANCOL_USE_AFTER_RETURN=0)"},
        {SKIPPED_LEAKS, "leaks (ASANCOL_LEAKS is not 1)"},
        {SKIPPED_FRAMES, "frames in a block, from another stack"},
        {SKIPPED_SPARE, "blocks from a signal handler that interrupted the allocator"},
        {SKIPPED_BEYOND, "accesses at addresses that no trace has"},
        {SKIPPED_ODR, "globals defined twice (ASANCOL_ODR is not 2)"},
        {SKIPPED_NULL, "requests for too much memory (ASANCOL_MAY_RETURN_NULL=1)"},
    };
    for (size_t i = 0; i < sizeof names / sizeof *names; i++)
        if (skipped & names[i].what)
            add(&unchecked.own, names[i].name);
}

static int open_where(const char *trace)
{
    char path[PATH_MAX + 8];
    snprintf(path, sizeof path, "%s.where", trace);
    return open(path, O_RDONLY | O_CLOEXEC | O_NONBLOCK);
}

void unchecked_take(const struct segment *segment)
{
    static char text[SIDE_UNCHECKED_ROOM + 1];
    int from = segment->trace != NULL ? open_where(segment->trace) : segment->side_memory;
    ssize_t length = from >= 0 && segment->side != NULL ? pread(from, text, SIDE_UNCHECKED_ROOM, SIDE_UNCHECKED) : 0;
    if (segment->trace != NULL && from >= 0)
        close(from);
    text[length > 0 ? length : 0] = 0;
    take_skipped(segment->outcome.skipped);
    if (strcmp(text, unchecked.last) == 0)
        return;
    strcpy(unchecked.last, text);
    for (char *line = text, *end; (end = strchr(line, '\n')) != NULL; line = end + 1) {
        *end = 0;
        take_line(line);
    }
}

void unchecked_add_program(const char *path, const char *file)
{
    for (size_t i = 0; i < unchecked.own.count; i++)
        if (strcmp(unchecked.own.names[i], file) == 0)
            return;
    char *name = must(strdup(path));
    make_printable(name);
    add(&unchecked.programs, name);
    free(name);
}

const char *unchecked_program(size_t number)
{
    return number < unchecked.programs.count ? unchecked.programs.names[number] : NULL;
}

static int by_name(const void *left, const void *right)
{
    return strcmp(*(char *const *)left, *(char *const *)right);
}

/* The addresses of libraries, in whose order processes name them, are others in each run. */
static void sort(struct names *names)
{
    if (names->count > 0)
        qsort(names->names, names->count, sizeof *names->names, by_name);
}

static size_t count_of(const struct names *names)
{
    return names->count + names->more;
}

size_t unchecked_count(void)
{
    return count_of(&unchecked.own) + count_of(&unchecked.programs);
}

bool unchecked_is_news(void)
{
    size_t told = 0;
    for (size_t i = 0; i < unchecked.own.count; i++)
        told += strncmp(unchecked.own.names[i], CHECKS_TURNED_OFF, strlen(CHECKS_TURNED_OFF)) == 0;
    return unchecked_count() > told;
}

bool unchecked_is_any(void)
{
    return unchecked_count() + count_of(&unchecked.system) > 0;
}

static const char *find_sanitizer(const struct names *names)
{
    static const char *const fronts[] = {"libasan.so", "libclang_rt.asan"};
    for (size_t i = 0; i < names->count; i++)
        for (size_t j = 0; j < sizeof fronts / sizeof *fronts; j++)
            if (strncmp(names->names[i], fronts[j], strlen(fronts[j])) == 0)
                return names->names[i];
    return NULL;
}

const char *unchecked_sanitizer(void)
{
    const char *found = find_sanitizer(&unchecked.system);
    return found != NULL ? found : find_sanitizer(&unchecked.own);
}

static void say_first(FILE *to, struct names *names)
{
    size_t said = names->count < MAX_SAID ? names->count : MAX_SAID;
    sort(names);
    for (size_t i = 0; i < said; i++)
        fprintf(to, "%s%s", i == 0 ? "" : ", ", names->names[i]);
    if (count_of(names) > said)
        fprintf(to, " and %zu more", count_of(names) - said);
}

void unchecked_say(FILE *to)
{
    size_t own = count_of(&unchecked.own), programs = count_of(&unchecked.programs);
    size_t libraries = count_of(&unchecked.system);
    say_first(to, &unchecked.own);
    if (programs > 0) {
        const char *front = own == 0 ? "" : libraries > 0 ? ", " : ", and ";
        fprintf(to, "%s%zu program%s: ", front, programs, plural(programs, "s"));
        say_first(to, &unchecked.programs);
        fputs(" (not built with asancol-cc)", to);
    }
    if (libraries > 0)
        fprintf(to, "%s%zu librar%s of the system", own + programs > 0 ? ", and " : "", libraries,
                libraries == 1 ? "y" : "ies");
}

static void say_names(const char *what, struct names *names)
{
    sort(names);
    for (size_t i = 0; i < names->count; i++)
        say("asancol: %s: %s", what, names->names[i]);
    if (names->more > 0)
        say("asancol: %s: %zu more", what, names->more);
}

void unchecked_say_all(void)
{
    say_names("not checked", &unchecked.own);
    say_names("program not built with asancol-cc, not checked", &unchecked.programs);
    say_names("library of the system, not checked", &unchecked.system);
}

/* Writes as many names as fit, and answers how many are left out. */
static size_t put(FILE *to, struct names *names, size_t most)
{
    size_t used = 0, i = 0;
    sort(names);
    fputc('[', to);
    for (; i < names->count; i++) {
        used += 6 * strlen(names->names[i]) + 3; /* at most */
        if (used > most)
            break;
        if (i > 0)
            fputc(',', to);
        json_text(to, names->names[i]);
    }
    fputc(']', to);
    return names->count - i + names->more;
}

void unchecked_put(FILE *to)
{
    fputs(",\"unchecked\":", to);
    size_t more = put(to, &unchecked.own, MAX_OWN_BYTES);
    fprintf(to, ",\"unchecked_more\":%zu,\"unrecorded\":", more);
    more = put(to, &unchecked.programs, MAX_PROGRAM_BYTES);
    fprintf(to, ",\"unrecorded_more\":%zu,\"system\":", more);
    more = put(to, &unchecked.system, MAX_SYSTEM_BYTES);
    fprintf(to, ",\"system_more\":%zu", more);
}
