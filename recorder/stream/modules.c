/* How the note is made: the map is read from the system, and compared with the one that was noted. If the code in it is
   the same, nothing else is done: lines of data and of memory that is of no file are no matter to who reads the note.
   Else the heads of all modules' files are read, by one call for many of them.

   All of this is in variables that a fork copies, and is guarded by the lock of the stream, which a fork holds. */
#define _GNU_SOURCE
#include "stream/modules.h"

#include <elf.h>
#include <fcntl.h>
#include <string.h>

#include "base/descriptors.h"
#include "base/memory.h"
#include "base/platform.h"
#include "base/system.h"
#include "base/tables.h"
#include "environment/link_note.h"
#include "shadow/unused.h"
#include "stream/state.h"

enum { MAPS_ROOM = SIDE_UNCHECKED - SIDE_MAPS };

static struct noted {
    uint64_t generation;      /* of modules, as the loader counted them; 0: nobody has asked it */
    uint64_t unchecked_state; /* the other source of the list of unchecked code, beside the map */
    size_t open, length;      /* of the map up to the closed modules, and of all of it; 0: there is no note */
    size_t builds_count;
    struct side_build builds[SIDE_BUILD_COUNT];
    char unchecked[SIDE_UNCHECKED_ROOM];
    char map[MAPS_ROOM];
} *const noted = TABLE(struct noted, modules_noted);
TABLE_HAS_ROOM(modules_noted, sizeof *noted);

const char *modules_map(void)
{
    return noted->map;
}

/* The heads of files. */

enum { HEADS = 16, MODULES = 256 };

static AS_TABLE struct module modules[MODULES]; /* of the map that is being noted, by their starts */
static unsigned modules_count;

/* What the head of a module's file says of it. */
static void take_head(struct module *module, const struct map_head *head)
{
    struct note build = {0};
    *module = (struct module){.start = head->start};
    module->build.start = head->start;
    if (!map_head_find_note(head, LINK_NOTE_OWNER, LINK_NOTE_TYPE, &module->link))
        module->link.size = 0;
    if (map_head_find_note(head, "GNU", NT_GNU_BUILD_ID, &build) && build.size <= SIDE_ID
        && map_head_read(head, build.start, module->build.id, build.size))
        module->build.length = (unsigned char)build.size;
}

/* Takes modules that were found, and of which only the starts are known. */
static void take_heads(struct module *first, unsigned count)
{
    static AS_TABLE struct map_head heads[HEADS];
    uint64_t starts[HEADS];
    unsigned char *bytes[HEADS];
    for (unsigned i = 0; i < count; i++) {
        heads[i].start = starts[i] = first[i].start;
        bytes[i] = heads[i].bytes;
    }
    for (unsigned next = 0; next < count; next++) {
        unsigned end = next + (unsigned)memory_read_each(starts + next, bytes + next, count - next, MAP_HEAD);
        for (; next < end; next++)
            heads[next].is_read = true;
        if (next < count)
            heads[next].is_read = false; /* it is shorter, or not there */
    }
    for (unsigned i = 0; i < count; i++)
        take_head(&first[i], &heads[i]);
}

void module_at(struct module *module, uint64_t start)
{
    unsigned low = 0, high = modules_count;
    while (low < high) {
        unsigned middle = low + (high - low) / 2;
        if (modules[middle].start < start)
            low = middle + 1;
        else
            high = middle;
    }
    if (low < modules_count && modules[low].start == start) {
        *module = modules[low];
        return;
    }
    module->start = start;
    take_heads(module, 1);
}

/* The lines of a map go up. */
static void find_modules(const char *map)
{
    struct map_line line;
    modules_count = 0;
    for (const char *at = map; modules_count < MODULES && maps_take_line(at, &line); at = line.next)
        if (maps_is_module(&line))
            modules[modules_count++].start = line.start;
    for (unsigned i = 0, count; i < modules_count; i += count) {
        count = modules_count - i < HEADS ? modules_count - i : HEADS;
        take_heads(&modules[i], count);
    }
}

/* The map. */

/* The length of the line at `at`, with its end; 0: the end is not there. */
static size_t line_length(const char *at, size_t size)
{
    const char *end = memchr(at, '\n', size);
    return end != NULL ? (size_t)(end + 1 - at) : 0;
}

/* Whether a line is of data without a name, or of the shadow of unused memory: nobody asks for those, and a process may
   have 65,530. */
static bool is_nameless_data(const char *line, size_t size)
{
    static const char unused[] = "/memfd:" UNUSED_NAME;
    enum { UNUSED = sizeof unused - 1 };
    const char *end = line + size, *rights = memchr(line, ' ', size), *name = memchr(line, '/', size);
    if (rights == NULL || end - rights <= 4 || rights[3] == 'x')
        return false;
    return name != NULL ? end - name > UNUSED && memcmp(name, unused, UNUSED) == 0 : memchr(line, '[', size) == NULL;
}

/* Takes them out of a part of a map, whose last line may end later. Answers the length of the rest. */
static size_t without_nameless_data(char *lines, size_t length)
{
    size_t from = 0, to = 0, size;
    for (; (size = line_length(lines + from, length - from)) != 0; from += size) {
        if (is_nameless_data(lines + from, size))
            continue;
        memmove(lines + to, lines + from, size);
        to += size;
    }
    memmove(lines + to, lines + from, length - from);
    return to + length - from;
}

/* Reads the map of the process, and puts a zero after it. 0: it can't be read. */
static size_t read_map(char *to, size_t room)
{
    /* The last line of all, where there is one: after it nothing needs to be asked for. */
    static const char last[] = "[vsyscall]\n";
    enum { LAST = sizeof last - 1, PIECE = 4096 };
    size_t length = 0;
    ssize_t count;
    int file = descriptor_of_file("/proc/self/maps", O_RDONLY | O_CLOEXEC);
    if (file < 0)
        return 0;
    while (length < room && (count = system_read(file, to + length, room - length)) > 0) {
        length += (size_t)count;
        if (length >= LAST && memcmp(to + length - LAST, last, LAST) == 0)
            break;
        if (room - length < PIECE)
            length = without_nameless_data(to, length);
    }
    system_close(file);
    to[length] = 0;
    return length;
}

/* A part of a map that is gone through, and the line of code in front of it. */
struct rest {
    const char *line, *at, *end;
};

/* Goes to the next line of code of a file. False: there is none. Most lines are of other memory, and need not be taken
   apart: after the first space are the rights. */
static bool take_code(struct rest *rest)
{
    while (rest->at < rest->end) {
        size_t size = (size_t)(rest->end - rest->at);
        const char *next = memchr(rest->at, '\n', size), *rights = memchr(rest->at, ' ', size);
        rest->line = rest->at;
        rest->at = next != NULL ? next + 1 : rest->end;
        if (rights != NULL && rest->at - rights > 4 && rights[3] == 'x'
            && memchr(rights, '/', (size_t)(rest->at - rights)) != NULL)
            return true;
    }
    return false;
}

/* Whether a map has the same lines of code as the noted one. */
static bool has_noted_code(const char *map, size_t length)
{
    struct rest now = {.at = map, .end = map + length}, before = {.at = noted->map, .end = noted->map + noted->open};
    for (;;) {
        bool has_line = take_code(&now), had_line = take_code(&before);
        if (!has_line || !had_line)
            return has_line == had_line;
        size_t size = (size_t)(now.at - now.line);
        if (size != (size_t)(before.at - before.line) || memcmp(now.line, before.line, size) != 0)
            return false;
    }
}

/* Whether the line of a file need not be kept: the file, or code of no file, lies there now. Where data lies, nobody
   takes an address of code for one of it. If the code of another file does, who reads both lines sees that it is not
   known which of them an address meant. */
static bool is_taken(const char *map, const struct map_line *old)
{
    struct map_line line;
    for (const char *at = map; maps_take_line(at, &line); at = line.next)
        if (line.start < old->end && old->start < line.end
            && (line.has_file ? maps_is_same_file(&line, old) : line.is_code))
            return true;
    return false;
}

/* Of two maps with more bytes than this the lines are not compared. */
enum { MAX_COMPARED = 1 << 16 };

/* A library that was closed keeps its lines, as long as no other code lies there: its faults are not gone. */
static size_t keep_closed(char *map, size_t length, size_t room)
{
    struct map_line line;
    size_t now = length;
    if (now > MAX_COMPARED)
        return length;
    for (const char *at = noted->map; maps_take_line(at, &line); at = line.next) {
        size_t size = (size_t)(line.next - line.text);
        if (!line.has_file || !(line.is_code || maps_is_module(&line)) || size >= room - length || is_taken(map, &line))
            continue;
        memcpy(map + length, line.text, size);
        length += size;
        map[length] = 0;
    }
    return length;
}

/* The build ids. */

/* The notes on a closed module. */
static bool find_before(struct side_build *build, const struct side_build *before, size_t count)
{
    for (size_t i = 0; i < count; i++) {
        if (before[i].start == build->start) {
            *build = before[i];
            return true;
        }
    }
    return false;
}

/* Notes the build ids of the map's modules; one that can't be read now keeps the id that it had. */
static void note_builds(void)
{
    static AS_TABLE struct side_build before[SIDE_BUILD_COUNT];
    const char *at = noted->map;
    struct map_line line;
    size_t count_before = noted->builds_count, count = 0;
    memcpy(before, noted->builds, count_before * sizeof *before);
    for (; count < SIDE_BUILD_COUNT && maps_take_line(at, &line); at = line.next) {
        struct module module;
        if (!maps_is_module(&line))
            continue;
        module_at(&module, line.start);
        if (module.build.length != 0 || find_before(&module.build, before, count_before))
            noted->builds[count++] = module.build;
    }
    noted->builds_count = count;
}

/* The note. Answers whether it is another one. */
static bool note(void)
{
    static char *const now = TABLE(char, modules_now);
    size_t length = read_map(now, MAPS_ROOM - 1);
    uint64_t state = above.unchecked_state();
    if (length == 0) /* as after a change of root: the old note stays */
        return false;
    if (noted->length != 0 && state == noted->unchecked_state && has_noted_code(now, length))
        return false;
    noted->unchecked_state = state;
    find_modules(now);
    /* Without the closed ones, whose notes are gone: they were listed when they came. */
    above.list_unchecked(noted->unchecked, now);
    noted->open = length;
    noted->length = keep_closed(now, length, MAPS_ROOM);
    memcpy(noted->map, now, noted->length + 1);
    note_builds();
    return true;
}

/* New memory has zeros, which are not even looked at: that would take memory for them. */
static void copy(struct side *side, bool is_new)
{
    char *bytes = (char *)side, *unchecked = bytes + SIDE_UNCHECKED;
    size_t length = strlen(noted->unchecked), before = is_new ? 0 : strlen(unchecked);
    struct side_build *builds = (struct side_build *)(bytes + SIDE_BUILDS);
    memcpy(bytes + SIDE_MAPS, noted->map, noted->length + 1);
    memcpy(builds, noted->builds, noted->builds_count * sizeof *builds);
    if (noted->builds_count < SIDE_BUILD_COUNT)
        builds[noted->builds_count].start = 0;
    memcpy(unchecked, noted->unchecked, length);
    if (before > length)
        memset(unchecked + length, 0, before - length);
}

void modules_show(struct side *side)
{
    if (noted->length != 0 || note())
        copy(side, true);
}

void modules_look(struct side *side)
{
    if (note())
        copy(side, false);
}

void modules_look_at_generation(struct side *side, uint64_t generation)
{
    if (generation == noted->generation && above.unchecked_state() == noted->unchecked_state)
        return;
    modules_look(side);
    noted->generation = generation;
}

void modules_are_of_generation(uint64_t generation)
{
    if (noted->length != 0)
        noted->generation = generation;
}
