/* A list of lines, which goes beside the stream. When modules have changed it is kept, and gets lines by the map of
   modules and the notes of their links; only its last line, "+N" for N that had no room, is made anew.

   dlsym is the C library's (`library`), since a program may define that name. memmove and the like are the recorder's
   own (own.c), by whichever name they are called. */
#define _GNU_SOURCE
#include "process/unchecked.h"

#include <dlfcn.h>
#include <stdatomic.h>
#include <stdlib.h>
#include <string.h>

#include "libc/library.h"
#include "process/plain.h"
#include "base/digits.h"
#include "common/format.h"
#include "common/text.h"
#include "heap/blocks.h"
#include "heap/heap.h"
#include "environment/asan_options.h"
#include "environment/link_note.h"
#include "environment/startup.h"
#include "process/process.h"
#include "base/memory.h"
#include "base/platform.h"
#include "stream/maps.h"
#include "stream/modules.h"

extern const struct link_note asancol_link_note;

/* There if the program has all stubs of the C library (calls/every.c). */
extern const char asancol_every_call[] __attribute__((visibility("default"), weak));

/* Before the module in which that is. */
#define MALLOC_OF "malloc of "

/* Of a malloc that is not the recorder's; 0: it is the recorder's. Written at the start. */
static uintptr_t other_malloc;

/* Those that libraries find for themselves; and how many more there were than fit. */
enum { APART = 64 };
static _Atomic uintptr_t mallocs_apart[APART];
static _Atomic uint64_t more_apart;

void unchecked_start(void)
{
#if defined IS_STATIC
    uintptr_t found = (uintptr_t)&malloc;
#elif defined IS_PRELOAD
    uintptr_t found = (uintptr_t)library_first("malloc"); /* where a program only calls it, dlsym may find that call */
#else
    uintptr_t found = (uintptr_t)library.dlsym(RTLD_DEFAULT, "malloc");
#endif
    if (found != EXPORTED(malloc))
        other_malloc = found;
}

void unchecked_note_malloc(void *opened)
{
#ifdef IS_STATIC
    (void)opened; /* it is said that the C library is inside */
#else
    uintptr_t found = (uintptr_t)library.dlsym(opened, "malloc");
    if (found == 0)
        library.dlerror(); /* the program has made no error */
    if (found == 0 || found == EXPORTED(malloc))
        return;
    for (size_t i = 0; i < APART; i++) {
        uintptr_t there = 0;
        if (atomic_compare_exchange_strong(&mallocs_apart[i], &there, found) || there == found)
            return;
    }
    atomic_fetch_add(&more_apart, 1);
#endif
}

/* Room for the line that says how many more there are. */
enum { MORE_LENGTH = DIGITS_ROOM + 2 };

/* A list that is being made. */
struct list {
    char *lines;
    size_t length;
    uint64_t more; /* lines that did not fit */
};

/* The line that is made of these two, or null. */
static char *find_line(const struct list *list, const char *front, const char *text, size_t length)
{
    size_t before = strlen(front);
    for (char *at = list->lines; *at != 0; at = strchr(at, '\n') + 1)
        if (begins_with(at, front) && strncmp(at + before, text, length) == 0 && at[before + length] == '\n')
            return at;
    return NULL;
}

static void put(struct list *list, const char *text, size_t length)
{
    memcpy(list->lines + list->length, text, length);
    list->length += length;
}

/* Adds the line that is made of these two, or counts it if there is no room. */
static void add(struct list *list, const char *front, const char *text, size_t length)
{
    if (find_line(list, front, text, length) != NULL)
        return;
    if (list->length + strlen(front) + length + 1 + MORE_LENGTH > SIDE_UNCHECKED_ROOM) {
        list->more++;
        return;
    }
    put(list, front, strlen(front));
    put(list, text, length);
    put(list, "\n", 1);
}

/* Removes the line that is made of these two, if it is there. */
static void take_away(struct list *list, const char *front, const char *text, size_t length)
{
    char *line = find_line(list, front, text, length), *end = list->lines + list->length;
    if (line == NULL)
        return;
    size_t size = strlen(front) + length + 1;
    memmove(line, line + size, (size_t)(end - line) - size);
    memset(end - size, 0, size);
    list->length -= size;
}

/* The list as it is, without the line that says how many more there are: these are counted again. */
static struct list begin(char *lines)
{
    struct list list = {lines, 0, 0};
    size_t before = strlen(lines);
    for (const char *at = lines, *next; *at != 0; at = next) {
        next = strchr(at, '\n') + 1;
        if (*at == '+')
            continue;
        memmove(lines + list.length, at, (size_t)(next - at));
        list.length += (size_t)(next - at);
    }
    memset(lines + list.length, 0, before - list.length);
    return list;
}

static void end(struct list *list)
{
    char digits[DIGITS_ROOM], *number = put_digits(digits + sizeof digits, list->more, 1);
    if (list->more == 0)
        return;
    put(list, "+", 1);
    put(list, number, strlen(number));
    put(list, "\n", 1);
}

/* A file of the map by its name, without folders. */
struct name {
    const char *text;
    size_t length;
};

static struct name name_of(const struct map_line *line)
{
    static const char deleted[] = " (deleted)";
    const char *slash = memrchr(line->path, '/', (size_t)(line->next - line->path));
    struct name name = {slash + 1, (size_t)(line->next - slash) - 2};
    size_t length = sizeof deleted - 1;
    if (name.length > length && memcmp(name.text + name.length - length, deleted, length) == 0)
        name.length -= length;
    return name;
}

static bool is_of_system(const struct map_line *line)
{
    static const char *const folders[] = {"/lib/", "/lib32/", "/lib64/", "/libx32/",
                                          "/usr/lib/", "/usr/lib32/", "/usr/lib64/", "/usr/libx32/",
                                          "/usr/libexec/"};
    for (size_t i = 0; i < sizeof folders / sizeof *folders; i++)
        if (begins_with(line->path, folders[i]))
            return true;
    return false;
}

/* What each program of a language stands on: it is not named. */
static bool is_of_language(struct name name)
{
    static const char *const names[] = {"ld-linux", "libc.so", "libm.so", "libpthread.so", "libdl.so", "librt.so",
                                        "libgcc_s.so", "libstdc++.so", "libc++.so", "libc++abi.so", "libgfortran.so",
                                        "libquadmath.so", "libgphobos.so", "libgdruntime.so"};
    for (size_t i = 0; i < sizeof names / sizeof *names; i++)
        if (name.length > strlen(names[i]) && begins_with(name.text, names[i]))
            return true;
    return false;
}

/* Adds a module that asancol-cc did not link. A program is the user's, wherever it lies. */
static void add_plain(struct list *list, const struct map_line *first, struct name name, bool is_program)
{
#ifndef IS_STATIC
    static const char off[] = "calls by libraries (ASANCOL_LIBRARIES=0)";
    static const char unknown[] = "calls by libraries (none known at link time)";
    bool may_call = !is_of_language(name) && !begins_with(name.text, "libmvec.so");
    if (!recorder_checks_libraries() && !plain_is_of_library(name.text))
        add(list, "", off, sizeof off - 1);
    else if (asancol_every_call == NULL && may_call)
        add(list, "", unknown, sizeof unknown - 1);
#endif
    if (!is_of_language(name))
        add(list, is_of_system(first) && !is_program ? "/" : "", name.text, name.length);
}

/* Adds what the link of a module has noted. */
static void add_noted(struct list *list, const char *text, struct name module)
{
    static const char unknown[] = "unknown objects in ";
    if (!begins_with(text, LINK_NOTE_KNOWN)) {
        add(list, unknown, module.text, module.length);
        return;
    }
    text += strlen(LINK_NOTE_KNOWN);
    for (const char *line_end; (line_end = strchr(text, '\n')) != NULL; text = line_end + 1) {
        if (*text != '+')
            add(list, "", text, (size_t)(line_end - text));
        for (uint64_t more = 0; *text == '+' && text++ != NULL;) {
            while (*text >= '0' && *text <= '9')
                more = more * 10 + (uint64_t)(*text++ - '0');
            list->more += more;
        }
    }
}

static bool has_address(const struct map_line *line, const void *address)
{
    return line->start <= (uintptr_t)address && (uintptr_t)address < line->end;
}

/* A module whose file is mapped from this line on, and its code in a later one. */
static void add_module(struct list *list, const struct map_line *first, const struct map_line *code)
{
    static AS_TABLE char text[LINK_NOTE_ROOM + 1]; /* of who lists */
    struct module module;
    struct name name = name_of(first);
    if (has_address(first, &asancol_link_note)) {
        memcpy(text, asancol_link_note.text, LINK_NOTE_TEXT);
        text[LINK_NOTE_TEXT] = 0;
        add_noted(list, text, name);
        return;
    }
    module_at(&module, first->start);
    memset(text, 0, sizeof text);
    if (module.link.size != 0 && module.link.size <= LINK_NOTE_ROOM
        && memory_read(module.link.start, text, module.link.size))
        add_noted(list, text, name);
    else
        add_plain(list, first, name, startup.entry != 0 && has_address(code, (const void *)startup.entry));
}

/* The malloc that the C library finds may turn out to take its blocks from the recorder's. */
static void look_at_malloc(struct list *list, const struct map_line *line)
{
    struct name name = name_of(line);
    if (other_malloc != 0 && has_address(line, (const void *)other_malloc))
        (heap_is_below() ? take_away : add)(list, MALLOC_OF, name.text, name.length);
    for (size_t i = 0; i < APART && atomic_load(&mallocs_apart[i]) != 0; i++)
        if (has_address(line, (const void *)atomic_load(&mallocs_apart[i])))
            add(list, MALLOC_OF, name.text, name.length);
}

/* In another namespace there is another C library. */
static void look_for_second(struct list *list, const struct map_line *first, unsigned *count)
{
    struct name name = name_of(first);
    if (begins_with(name.text, "libc.so.") && ++*count > 1)
        add(list, MALLOC_OF, name.text, name.length);
}

uint64_t unchecked_state(void)
{
    uint64_t count = 0;
    while (count < APART && atomic_load(&mallocs_apart[count]) != 0)
        count++;
    return (atomic_load(&more_apart) + count) << 1 | heap_is_below();
}

void unchecked_list(char *lines, const char *maps)
{
    struct list list = begin(lines);
    struct map_line line, first = {0};
    unsigned libraries = 0;
    bool is_added = true;
    list.more = atomic_load(&more_apart);
    for (const char *at = asan_options_lines(), *line_end; (line_end = strchr(at, '\n')) != NULL; at = line_end + 1)
        add(&list, "", at, (size_t)(line_end - at));
    for (const char *at = maps; maps_take_line(at, &line); at = line.next) {
        if (!line.has_file)
            continue;
        if (line.is_first) {
            first = line;
            is_added = false;
        }
        /* A module that is mapped and never run is data. */
        if (line.is_code && !is_added && (line.is_first || maps_is_same_file(&line, &first))) {
            add_module(&list, &first, &line);
            look_for_second(&list, &first, &libraries);
            is_added = true;
        }
        look_at_malloc(&list, &line);
    }
    end(&list);
}
