/* The first 1,024 bytes of a file say whether it is a program, whose segments of notes are read, or a script, whose
   interpreter is looked at in its place. */
#define _GNU_SOURCE
#include "process/link_mark.h"

#include <elf.h>
#include <errno.h>
#include <fcntl.h>
#include <stdbool.h>
#include <stddef.h>
#include <stdint.h>

#include "environment/link_note.h"
#include "base/system.h"

/* A program's head with its segments, or the first line of a script. What has more is looked at no further. */
enum { HEAD_BYTES = 1024, NOTE_BYTES = 1024, MAX_SCRIPTS = 4 };

static bool is_same(const unsigned char *one, const char *other, size_t size)
{
    for (size_t i = 0; i < size; i++)
        if (one[i] != (unsigned char)other[i])
            return false;
    return true;
}

static size_t padded(uint32_t size)
{
    return ((size_t)size + 3) / 4 * 4;
}

/* Whether the note of asancol-cc is among these notes. */
static bool has_note(const unsigned char *notes, size_t size)
{
    for (size_t at = 0; at + sizeof(Elf64_Nhdr) <= size;) {
        const Elf64_Nhdr *note = (const void *)(notes + at);
        at += sizeof *note;
        if (note->n_type == LINK_NOTE_TYPE && note->n_namesz == sizeof LINK_NOTE_OWNER
            && at + sizeof LINK_NOTE_OWNER <= size
            && is_same(notes + at, LINK_NOTE_OWNER, sizeof LINK_NOTE_OWNER))
            return true;
        at += padded(note->n_namesz) + padded(note->n_descsz);
    }
    return false;
}

/* Whether the open file of a program has the note: its head is read already, its segments of notes are read here. */
static bool is_marked(int file, const unsigned char *head, size_t size)
{
    _Alignas(8) unsigned char notes[NOTE_BYTES];
    const Elf64_Ehdr *elf = (const void *)head;
    if (size < sizeof *elf || !is_same(head, ELFMAG, SELFMAG) || elf->e_ident[EI_CLASS] != ELFCLASS64
        || elf->e_phentsize != sizeof(Elf64_Phdr) || elf->e_phoff % 8 != 0 || elf->e_phoff > size)
        return false;
    const Elf64_Phdr *segment = (const void *)(head + elf->e_phoff);
    size_t count = (size - elf->e_phoff) / sizeof *segment;
    for (size_t i = 0; i < count && i < elf->e_phnum; i++) {
        if (segment[i].p_type != PT_NOTE)
            continue;
        size_t wanted = segment[i].p_filesz < sizeof notes ? segment[i].p_filesz : sizeof notes;
        ssize_t length = system_pread(file, notes, wanted, (off_t)segment[i].p_offset);
        if (length > 0 && has_note(notes, (size_t)length))
            return true;
    }
    return false;
}

/* The interpreter of a script, in its first line; or null. */
static const char *interpreter_in(char *head, size_t size)
{
    size_t at = 2;
    if (size < 2 || head[0] != '#' || head[1] != '!')
        return NULL;
    while (at < size && (head[at] == ' ' || head[at] == '\t'))
        at++;
    size_t end = at;
    while (end < size && head[end] != ' ' && head[end] != '\t' && head[end] != '\n' && head[end] != 0)
        end++;
    if (end == size || end == at)
        return NULL;
    head[end] = 0;
    return head + at;
}

enum built link_mark_of(const char *path)
{
    _Alignas(8) char head[HEAD_BYTES];
    for (int scripts = 0; path != NULL && scripts <= MAX_SCRIPTS; scripts++) {
        int file = system_open(path, O_RDONLY | O_CLOEXEC | O_NONBLOCK | O_NOCTTY, 0);
        if (file < 0)
            return file == -EMFILE || file == -ENFILE ? BUILT_BY_UNKNOWN : BUILT_BY_OTHERS;
        ssize_t length = system_read(file, head, sizeof head);
        size_t size = length > 0 ? (size_t)length : 0;
        bool is_found = is_marked(file, (const unsigned char *)head, size);
        system_close(file);
        if (is_found)
            return BUILT_BY_US;
        path = interpreter_in(head, size);
    }
    return BUILT_BY_OTHERS;
}
