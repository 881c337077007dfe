/* A list of the archives that a link has named, with how their members are, and the lines of the note. */
#define _GNU_SOURCE
#include "wrapper/taken.h"

#include <fcntl.h>
#include <limits.h>
#include <stdio.h>
#include <stdlib.h>
#include <string.h>
#include <sys/stat.h>
#include <unistd.h>

#include "common/array.h"
#include "common/text.h"
#include "environment/link_note.h"
#include "plugin/plugin.h"
#include "wrapper/archive.h"
#include "wrapper/linked.h"
#include "wrapper/say.h"
#include "wrapper/self.h"

#define LACKING_PLUGIN "intrinsics and complex numbers (no plugin for GCC %u)"

struct taken_archive {
    struct taken_archive *next;
    char *path;
    struct view view;
    bool has_ours, is_system;
    struct names others; /* members */
};

/* Where rustc has the crates of its library. */
#define RUST_LIBRARIES "/lib/rustlib/"

/* Whether a file is the system's, or the compiler's. */
static bool is_of_system(const char *path)
{
    static const char *const folders[] = {"/lib/", "/lib32/", "/lib64/", "/libx32/",
                                          "/usr/lib/", "/usr/lib32/", "/usr/lib64/", "/usr/libx32/"};
    char real[PATH_MAX];
    if (realpath(path, real) == NULL)
        return false;
    for (size_t i = 0; i < COUNT(folders); i++)
        if (begins_with(real, folders[i]))
            return true;
    return strstr(real, "/lib/gcc/") != NULL || strstr(real, "/lib/clang/") != NULL
           || strstr(real, "-linux-gnu/lib/") != NULL /* of another processor */
           || strstr(real, RUST_LIBRARIES) != NULL;
}

/* What the compiler adds to each link: how a program begins and ends, its own helpers and its language's library; and
   the C library, which the note has in other words if it comes into a static program. The recorder's archives too. */
static bool is_of_each_link(const char *path)
{
    static const char *const fronts[] = {"crt", "libgcc", "libc.a", "libc_nonshared.a", "libm.a", "libm-", "libmvec",
                                         "libpthread", "libdl.a", "librt.a", "libutil.a", "libssp_nonshared.a",
                                         "libstdc++.a", "libsupc++.a", "libc++.a", "libc++abi.a",
                                         "libgfortran.a", "libquadmath.a", "libgphobos.a", "libgdruntime.a",
                                         "libclang_rt.builtins", "clang_rt.crt"};
    const char *name = base_name(path);
    if (begins_with(name, "libasancol_"))
        return true;
    bool is_one = strstr(name, "crt1.o") != NULL || strstr(path, RUST_LIBRARIES) != NULL;
    for (size_t i = 0; i < COUNT(fronts); i++)
        is_one |= begins_with(name, fronts[i]);
    return is_one && is_of_system(path);
}

/* Whether a shared object is a part of the C library, or of the compiler. */
static bool is_of_c(const char *path)
{
    static const char *const fronts[] = {"libc.so",  "libm.so",    "ld-linux",   "libpthread.so", "libdl.so",
                                         "librt.so", "libutil.so", "libmvec.so", "libgcc_s.so"};
    for (size_t i = 0; i < COUNT(fronts); i++)
        if (begins_with(base_name(path), fronts[i]))
            return true;
    return false;
}

static bool is_file(const char *path)
{
    struct stat seen;
    return stat(path, &seen) == 0 && S_ISREG(seen.st_mode);
}

/* Takes a file that the linker has named. */
static void take_file(struct taken *taken, const char *path)
{
    taken->has_begun = true;
    if (is_of_each_link(path))
        return;
    struct view view = view_map(path);
    taken->has_library |= linked_is_library(view) && !is_of_c(path);
    if (linked_origin(view) == ORIGIN_OTHERS)
        names_add(is_of_system(path) ? &taken->system : &taken->own, base_name(path));
    view_unmap(view);
}

static struct taken_archive *archive_of(struct taken *taken, const char *path)
{
    struct taken_archive **at = &taken->archives;
    for (; *at != NULL; at = &(*at)->next)
        if (strcmp((*at)->path, path) == 0)
            return *at;
    struct taken_archive *made = calloc(1, sizeof *made);
    if (made == NULL || (made->path = strdup(path)) == NULL)
        return NULL;
    made->view = view_map(path);
    made->is_system = is_of_system(path);
    return *at = made;
}

static void take_member(struct taken *taken, const char *path, const char *name)
{
    struct taken_archive *archive = is_of_each_link(path) ? NULL : archive_of(taken, path);
    if (archive == NULL)
        return;
    enum origin origin = archive_origin(archive->view, path, name);
    archive->has_ours |= origin == ORIGIN_OURS;
    if (origin == ORIGIN_OTHERS)
        names_add(&archive->others, name);
}

/* "(ARCHIVE)MEMBER", or "ARCHIVE(MEMBER)". Either may have such signs too, and the archive is there. */
static bool take_named_member(struct taken *taken, char *line, size_t length)
{
    bool is_first = line[0] == '(', is_taken = false;
    char between = is_first ? ')' : '(';
    if (!is_first && (length == 0 || line[length - 1] != ')'))
        return false;
    for (char *at = line; !is_taken && (at = strchr(at + 1, between)) != NULL;) {
        *at = 0;
        char *path = is_first ? line + 1 : line;
        if (is_file(path)) {
            if (!is_first)
                line[length - 1] = 0;
            take_member(taken, path, at + 1);
            is_taken = true;
        }
        *at = between;
    }
    return is_taken;
}

/* An object that the compiler has made for this link, and removed. */
static bool is_passing(const char *line, size_t length)
{
    return line[0] == '/' && length > 2 && strcmp(line + length - 2, ".o") == 0 && strchr(line, ' ') == NULL;
}

bool taken_line(struct taken *taken, const char *line)
{
    static const char mold[] = "trace: "; /* which mold writes before each */
    if (begins_with(line, mold))
        line += sizeof mold - 1;
    char *copy = strdup(line);
    bool is_taken = copy != NULL;
    size_t length = strlen(line);
    if (copy != NULL && is_file(line))
        take_file(taken, line);
    else if (copy != NULL)
        is_taken = take_named_member(taken, copy, length) || is_passing(line, length);
    free(copy);
    return is_taken;
}

/* Notes what asancol-cc did not compile of an archive: its members if it has others too, else the archive. */
static void end_archive(struct taken *taken, const struct taken_archive *archive)
{
    char text[2 * PATH_MAX];
    const char *name = base_name(archive->path);
    if (archive->others.count == 0)
        return;
    if (archive->is_system || !archive->has_ours) {
        names_add(archive->is_system ? &taken->system : &taken->own, name);
        return;
    }
    for (size_t i = 0; i < archive->others.count; i++) {
        snprintf(text, sizeof text, "%s(%s)", name, archive->others.names[i]);
        names_add(&taken->own, text);
    }
    taken->own.more += archive->others.more;
}

void taken_end(struct taken *taken)
{
    for (struct taken_archive *archive = taken->archives; archive != NULL; archive = archive->next) {
        end_archive(taken, archive);
        view_unmap(archive->view);
    }
    taken->archives = NULL;
}

/* The note. */

/* Room for the line that says how many more there are. */
enum { MORE_LENGTH = 24 };

struct text {
    char bytes[LINK_NOTE_ROOM]; /* the text, and the path of asancol-run */
    size_t length, more;
};

/* Adds a line, with the sign of its kind. What would end the line is replaced. */
static void put_line(struct text *text, const char *sign, const char *name)
{
    size_t length = strlen(sign) + strlen(name) + 1;
    if (text->length + length + MORE_LENGTH > LINK_NOTE_TEXT) {
        text->more += sign[0] == 0;
        return;
    }
    char *at = stpcpy(text->bytes + text->length, sign), *end = stpcpy(at, name);
    for (; at < end; at++)
        if ((unsigned char)*at < ' ')
            *at = '?';
    *end = '\n';
    text->length += length;
}

/* Where the text of a note of ours begins in a section of notes; 0: there is none. */
static size_t find_text(struct view notes)
{
    const struct link_note *note;
    char front[offsetof(struct link_note, text)];
    const uint32_t head[] = {sizeof note->owner, LINK_NOTE_ROOM, LINK_NOTE_TYPE};
    memcpy(front, head, sizeof head);
    memcpy(front + sizeof head, LINK_NOTE_OWNER, sizeof note->owner);
    const char *found = notes.size != 0 ? memmem(notes.bytes, notes.size, front, sizeof front) : NULL;
    if (found == NULL || (size_t)(notes.bytes + notes.size - found) < sizeof *note)
        return 0;
    return (size_t)(found - notes.bytes) + sizeof front;
}

/* Where it is in the file, or 0. */
static size_t find_note(const char *path)
{
    struct view view = view_map(path);
    size_t found = 0;
    for (size_t i = view_section_count(view); found == 0 && i-- > 0;) {
        Elf64_Shdr section = view_section(view, i);
        if (section.sh_type == SHT_NOTE && (found = find_text(view_of_section(view, &section))) != 0)
            found += section.sh_offset;
    }
    view_unmap(view);
    return found;
}

/* The objects' notes on themselves, which a merged object keeps. */
static void take_said(struct taken *taken, const char *output)
{
    struct view view = view_map(output), said = view_find(view, LINK_NOTE_LINES);
    for (size_t length; said.size != 0; said = (struct view){said.bytes + length, said.size - length}) {
        length = strnlen(said.bytes, said.size);
        if (length != said.size && length != 0)
            names_add(&taken->own, said.bytes);
        length += length < said.size;
    }
    view_unmap(view);
}

/* The major version of GCC by which an object was compiled with checks and without our plugin, by its switches; or 0.
   They begin with its name, the language and the version. */
static unsigned version_without_plugin(const char *switches)
{
    unsigned major;
    if (strstr(switches, COMPILED_SO) == NULL || strstr(switches, PLUGIN_NAME) != NULL
        || sscanf(switches, "GNU %*s %u.", &major) != 1)
        return 0;
    return major;
}

/* The accesses that only a plugin would check. */
static void take_lacking_plugin(struct taken *taken, const char *output)
{
    char text[sizeof LACKING_PLUGIN + 16];
    struct view view = view_map(output), switches = view_find(view, LINKED_SWITCHES);
    for (size_t length; switches.size != 0; switches = (struct view){switches.bytes + length, switches.size - length}) {
        length = strnlen(switches.bytes, switches.size);
        unsigned major = length != switches.size ? version_without_plugin(switches.bytes) : 0;
        snprintf(text, sizeof text, LACKING_PLUGIN, major);
        if (major != 0)
            names_add(&taken->own, text);
        length += length < switches.size;
    }
    view_unmap(view);
}

void taken_write(struct taken *taken, const char *output)
{
    take_said(taken, output);
    if (!taken->is_for_other)
        take_lacking_plugin(taken, output);
    struct text *text = calloc(1, sizeof *text);
    size_t at = text != NULL ? find_note(output) : 0;
    int file = at != 0 ? open(output, O_WRONLY | O_CLOEXEC) : -1;
    if (file >= 0) {
        text->length = (size_t)(stpcpy(text->bytes, LINK_NOTE_KNOWN) - text->bytes);
        for (size_t i = 0; i < taken->own.count; i++)
            put_line(text, "", taken->own.names[i]);
        for (size_t i = 0; i < taken->system.count; i++)
            put_line(text, "/", taken->system.names[i]);
        if (text->more + taken->own.more != 0)
            snprintf(text->bytes + text->length, MORE_LENGTH, "+%zu\n", text->more + taken->own.more);
        const char *run = self_run();
        if (strlen(run) < LINK_NOTE_RUN)
            strcpy(text->bytes + LINK_NOTE_TEXT, run);
        if (pwrite(file, text->bytes, sizeof text->bytes, (off_t)at) < 0)
            warn(output, "the list of unchecked code could not be added");
        close(file);
    }
    free(text);
}
