/* No state: lines of /proc/self/maps taken apart, and notes of ELF files that are mapped. */
#define _GNU_SOURCE
#include "stream/maps.h"

#include <elf.h>
#include <string.h>

#include "base/memory.h"

/* A number in hexadecimal digits, and what comes after it. */
static uint64_t take_number(const char **at)
{
    uint64_t number = 0;
    for (;; (*at)++) {
        if (**at >= '0' && **at <= '9')
            number = number * 16 + (uint64_t)(**at - '0');
        else if (**at >= 'a' && **at <= 'f')
            number = number * 16 + (uint64_t)(**at - 'a') + 10;
        else
            return number;
    }
}

bool maps_take_line(const char *text, struct map_line *line)
{
    static const char rights[] = " rwx";
    const char *end = strchr(text, '\n'), *at = text;
    if (end == NULL)
        return false;
    *line = (struct map_line){.text = text, .next = end + 1};
    line->start = take_number(&at);
    at += *at == '-';
    line->end = take_number(&at);
    line->path = memchr(at, '/', (size_t)(end - at));
    line->has_file = line->path != NULL;
    line->is_code = (size_t)(end - at) > sizeof rights && at[sizeof rights - 2] == 'x';
    const char *offset = *at == ' ' ? memchr(at + 1, ' ', (size_t)(end - at - 1)) : NULL;
    if (line->has_file && offset != NULL) {
        offset++;
        line->is_first = take_number(&offset) == 0;
        line->file = offset;
    }
    return true;
}

bool maps_is_same_file(const struct map_line *one, const struct map_line *other)
{
    size_t length = (size_t)(one->next - one->file);
    return length == (size_t)(other->next - other->file) && memcmp(one->file, other->file, length) == 0;
}

enum { MAX_SEGMENTS = 16, MAX_OWNER = 8 };

static uint64_t padded(uint64_t size, uint64_t alignment)
{
    return (size + alignment - 1) / alignment * alignment;
}

bool maps_is_module(const struct map_line *line)
{
    struct map_line next;
    return line->is_first
           && (line->is_code || (maps_take_line(line->next, &next) && next.has_file && maps_is_same_file(line, &next)));
}

bool map_head_read(const struct map_head *head, uint64_t from, void *to, size_t size)
{
    uint64_t at = from - head->start;
    if (!head->is_read || at > MAP_HEAD || size > MAP_HEAD - at)
        return memory_read(from, to, size);
    memcpy(to, head->bytes + at, size);
    return true;
}

/* Goes over the notes from here on. */
static bool find_among(const struct map_head *head, const Elf64_Phdr *segment, const char *owner, uint32_t type,
                       struct note *found)
{
    struct {
        Elf64_Nhdr head;
        char owner[MAX_OWNER];
    } note;
    /* What lies in the first segment is as far from its start as in the file. */
    uint64_t at = head->start + segment->p_offset, end = at + segment->p_filesz;
    uint64_t alignment = segment->p_align == 8 ? 8 : 4;
    size_t length = strlen(owner) + 1;
    while (at + sizeof note <= end && map_head_read(head, at, &note, sizeof note)) {
        uint64_t bytes = at + sizeof note.head + padded(note.head.n_namesz, alignment);
        at = bytes + padded(note.head.n_descsz, alignment);
        if (at > end)
            return false;
        *found = (struct note){bytes, note.head.n_descsz};
        if (note.head.n_type == type && note.head.n_namesz == length && memcmp(note.owner, owner, length) == 0)
            return true;
    }
    return false;
}

bool map_head_find_note(const struct map_head *head, const char *owner, uint32_t type, struct note *found)
{
    Elf64_Ehdr file;
    Elf64_Phdr segments[MAX_SEGMENTS];
    if (!map_head_read(head, head->start, &file, sizeof file) || memcmp(file.e_ident, ELFMAG, SELFMAG) != 0)
        return false;
    unsigned count = file.e_phnum < MAX_SEGMENTS ? file.e_phnum : MAX_SEGMENTS;
    if (!map_head_read(head, head->start + file.e_phoff, segments, count * sizeof *segments))
        return false;
    for (unsigned i = 0; i < count; i++)
        if (segments[i].p_type == PT_NOTE && find_among(head, &segments[i], owner, type, found))
            return true;
    return false;
}

bool maps_find_note(uint64_t start, const char *owner, uint32_t type, struct note *found)
{
    struct map_head head = {.start = start};
    head.is_read = memory_read(start, head.bytes, sizeof head.bytes);
    return map_head_find_note(&head, owner, type, found);
}
