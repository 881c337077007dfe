/* A walk over the headers of members, with the member of long names at hand. */
#define _GNU_SOURCE
#include "wrapper/archive.h"

#include <ar.h>
#include <limits.h>
#include <stdio.h>
#include <stdlib.h>
#include <string.h>

#include "common/text.h"

#define THIN_MAGIC "!<thin>\n"

struct member {
    char name[PATH_MAX];
    struct view bytes;
};

static struct view part(struct view whole, size_t at, size_t size)
{
    if (at > whole.size)
        at = whole.size;
    return (struct view){whole.bytes + at, size < whole.size - at ? size : whole.size - at};
}

/* A number in decimal digits, with blanks after it. */
static size_t number_in(const char *text, size_t length)
{
    size_t number = 0;
    for (size_t i = 0; i < length && text[i] >= '0' && text[i] <= '9'; i++)
        number = number * 10 + (size_t)(text[i] - '0');
    return number;
}

/* A name ends with a slash. A long one is where its number says, in the member of long names. */
static void read_name(struct member *member, const struct ar_hdr *header, struct view long_names)
{
    struct view text = {header->ar_name, sizeof header->ar_name};
    if (text.bytes[0] == '/')
        text = part(long_names, number_in(text.bytes + 1, text.size - 1), PATH_MAX - 1);
    const char *line = memchr(text.bytes, '\n', text.size);
    size_t length = line != NULL ? (size_t)(line - text.bytes) : text.size;
    while (length > 0 && text.bytes[length - 1] == ' ')
        length--;
    length -= length > 0 && text.bytes[length - 1] == '/';
    memcpy(member->name, text.bytes, length);
    member->name[length] = 0;
}

/* Goes to the next member that is an object. False: there is none. */
static bool next(struct view archive, size_t *at, struct view *long_names, struct member *member)
{
    bool is_thin = view_begins(archive, THIN_MAGIC);
    struct ar_hdr header;
    while (*at + sizeof header <= archive.size) {
        memcpy(&header, archive.bytes + *at, sizeof header);
        bool is_index = memcmp(header.ar_name, "/ ", 2) == 0 || memcmp(header.ar_name, "/SYM64/", 7) == 0;
        bool is_names = memcmp(header.ar_name, "//", 2) == 0;
        size_t size = number_in(header.ar_size, sizeof header.ar_size);
        size_t inside = is_thin && !is_index && !is_names ? 0 : size;
        member->bytes = part(archive, *at + sizeof header, inside);
        if (memcmp(header.ar_fmag, ARFMAG, sizeof header.ar_fmag) != 0)
            return false;
        *at += sizeof header + inside + inside % 2;
        if (is_names)
            *long_names = member->bytes;
        if (is_names || is_index)
            continue;
        read_name(member, &header, *long_names);
        return true;
    }
    return false;
}

/* A thin archive has the names of its members, from the folder that it is in. */
static enum origin origin_in_file(const char *archive, const char *name)
{
    char path[2 * PATH_MAX];
    int folder = name[0] == '/' ? 0 : (int)(base_name(archive) - archive);
    snprintf(path, sizeof path, "%.*s%s", folder, archive, name);
    struct view view = view_map(path);
    enum origin origin = linked_origin(view);
    view_unmap(view);
    return origin;
}

enum origin archive_origin(struct view archive, const char *path, const char *name)
{
    enum origin origin = ORIGIN_NONE;
    struct view long_names = {archive.bytes, 0};
    struct member *member = malloc(sizeof *member);
    size_t at = SARMAG;
    while (member != NULL && next(archive, &at, &long_names, member)) {
        if (strcmp(member->name, name) != 0 && strcmp(base_name(member->name), name) != 0)
            continue;
        enum origin one = view_begins(archive, THIN_MAGIC) ? origin_in_file(path, member->name)
                                                           : linked_origin(member->bytes);
        origin = one > origin ? one : origin;
    }
    free(member);
    return origin;
}
