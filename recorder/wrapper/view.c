/* A view is a pointer and a size, and each look into it is bounded. view_section alone has no bound of its own: it is
   asked for numbers below view_section_count. */
#define _GNU_SOURCE
#include "wrapper/view.h"

#include <fcntl.h>
#include <string.h>
#include <sys/mman.h>
#include <sys/stat.h>
#include <unistd.h>

struct view view_map(const char *path)
{
    struct view view = {NULL, 0};
    struct stat seen;
    int descriptor = open(path, O_RDONLY | O_CLOEXEC);
    if (descriptor < 0)
        return view;
    if (fstat(descriptor, &seen) == 0 && S_ISREG(seen.st_mode) && seen.st_size > 0) {
        void *bytes = mmap(NULL, (size_t)seen.st_size, PROT_READ, MAP_PRIVATE, descriptor, 0);
        if (bytes != MAP_FAILED)
            view = (struct view){bytes, (size_t)seen.st_size};
    }
    close(descriptor);
    return view;
}

void view_unmap(struct view view)
{
    if (view.bytes != NULL)
        munmap((void *)view.bytes, view.size);
}

bool view_begins(struct view view, const char *front)
{
    return view.size >= strlen(front) && memcmp(view.bytes, front, strlen(front)) == 0;
}

bool view_has_text(struct view view, const char *text)
{
    return view.size != 0 && memmem(view.bytes, view.size, text, strlen(text)) != NULL;
}

static bool is_inside(struct view view, uint64_t offset, uint64_t size)
{
    return offset <= view.size && size <= view.size - offset;
}

/* What lies in a file may lie anywhere. */
Elf64_Shdr view_section(struct view view, size_t number)
{
    Elf64_Ehdr header;
    Elf64_Shdr section;
    memcpy(&header, view.bytes, sizeof header);
    memcpy(&section, view.bytes + header.e_shoff + number * sizeof section, sizeof section);
    return section;
}

size_t view_section_count(struct view view)
{
    Elf64_Ehdr header;
    if (view.size < sizeof header || memcmp(view.bytes, ELFMAG, SELFMAG) != 0)
        return 0;
    memcpy(&header, view.bytes, sizeof header);
    if (header.e_ident[EI_CLASS] != ELFCLASS64 || header.e_shentsize != sizeof(Elf64_Shdr) || header.e_shoff == 0
        || !is_inside(view, header.e_shoff, sizeof(Elf64_Shdr)))
        return 0;
    /* Where there are too many of them for the header, the first section has their number. */
    uint64_t count = header.e_shnum != 0 ? header.e_shnum : view_section(view, 0).sh_size;
    return count <= (view.size - header.e_shoff) / sizeof(Elf64_Shdr) ? (size_t)count : 0;
}

struct view view_of_section(struct view view, const Elf64_Shdr *section)
{
    if (section->sh_type == SHT_NOBITS || !is_inside(view, section->sh_offset, section->sh_size))
        return (struct view){NULL, 0};
    return (struct view){view.bytes + section->sh_offset, section->sh_size};
}

static bool is_constant(const Elf64_Shdr *section)
{
    const Elf64_Xword flags = section->sh_flags & (SHF_ALLOC | SHF_WRITE | SHF_EXECINSTR);
    return flags == SHF_ALLOC && (section->sh_type == SHT_PROGBITS || section->sh_type == SHT_STRTAB);
}

bool view_has_constant(struct view view, const char *bytes, size_t size)
{
    size_t count = view_section_count(view);
    for (size_t i = 0; i < count; i++) {
        Elf64_Shdr section = view_section(view, i);
        struct view inside = is_constant(&section) ? view_of_section(view, &section) : (struct view){NULL, 0};
        if (inside.size != 0 && memmem(inside.bytes, inside.size, bytes, size) != NULL)
            return true;
    }
    return false;
}

struct view view_texts(struct view view, size_t number)
{
    struct view texts = {NULL, 0};
    if (number < view_section_count(view)) {
        Elf64_Shdr section = view_section(view, number);
        texts = view_of_section(view, &section);
    }
    return texts.size != 0 && texts.bytes[texts.size - 1] == 0 ? texts : (struct view){NULL, 0};
}

/* Where there are too many sections for the header, the first has the number of that with their names. */
struct view view_names(struct view view)
{
    Elf64_Ehdr header;
    if (view_section_count(view) == 0)
        return (struct view){NULL, 0};
    memcpy(&header, view.bytes, sizeof header);
    return view_texts(view, header.e_shstrndx == SHN_XINDEX ? view_section(view, 0).sh_link : header.e_shstrndx);
}

struct view view_find(struct view view, const char *name)
{
    struct view names = view_names(view);
    size_t count = names.size != 0 ? view_section_count(view) : 0;
    for (size_t i = 0; i < count; i++) {
        Elf64_Shdr section = view_section(view, i);
        if (section.sh_name < names.size && strcmp(names.bytes + section.sh_name, name) == 0)
            return view_of_section(view, &section);
    }
    return (struct view){NULL, 0};
}
