/* Files that the wrappers of compilers look at, mapped.

   Called: view_find by taken.c, view_has_text and view_names by linked.c, view_has_constant by whoever looks at a
   compiler (compilers.c, passes.c, plugin.c, target.c), the rest by whoever looks into a file, in the one thread of the
   wrapper; no lock. */
#ifndef ASANCOL_VIEW_H
#define ASANCOL_VIEW_H

#include <elf.h>
#include <stdbool.h>
#include <stddef.h>
#include <stdint.h>

struct view {
    const char *bytes;
    size_t size;
};

/* No bytes if it can't be read. */
struct view view_map(const char *path);
void view_unmap(struct view view);

bool view_begins(struct view view, const char *front);
bool view_has_text(struct view view, const char *text);
/* Whether bytes are in a section that is read as it is in the file, and not run: texts and names of libraries are in
   such. */
bool view_has_constant(struct view view, const char *bytes, size_t size);
/* How many sections it has, as a file of ELF for 64 bits. */
size_t view_section_count(struct view view);
/* The header of the section with this number. */
Elf64_Shdr view_section(struct view view, size_t number);
/* The bytes of a section; none, if it has none in the file. */
struct view view_of_section(struct view view, const Elf64_Shdr *section);
/* The names of its sections. */
struct view view_names(struct view view);
/* The bytes of the first section of this name, or none. */
struct view view_find(struct view view, const char *name);
/* The texts of names, which end with a zero; none, if there are no such. */
struct view view_texts(struct view view, size_t number);

#endif
