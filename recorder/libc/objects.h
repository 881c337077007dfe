/* What a loaded object says of its names, in the tables that the loader reads. The tables are not checked: the loader
   has believed them.

   Called: by library.c, preload_choice.c, plain.c and odr.c, in the thread that starts the recorder or loads a library,
   or that looks for a function (library_next), or if this is preloaded begins to record (plain_begin), in these two
   also in a signal handler. Lock: it takes none, and only reads, but object_find may run a resolver: the caller has the
   loader's, or there is one thread, or the object is the C library, which stays (preload_choice.c). */
#ifndef ASANCOL_OBJECTS_H
#define ASANCOL_OBJECTS_H

#include <elf.h>
#include <stdbool.h>
#include <stddef.h>
#include <stdint.h>

#include "libc/hook_page.h"

struct dl_phdr_info;

struct object {
    uintptr_t base;
    const Elf64_Sym *symbols;
    const char *texts;
    const uint16_t *versions;
    const uint32_t *hash;
    const Elf64_Rela *relocations;
    size_t relocations_size;
    const Elf64_Rela *calls; /* the relocations of calls, which may wait for their first one */
    size_t calls_size;
    const Elf64_Verneed *needed;
    const Elf64_Verdef *defined;
    bool is_symbolic; /* it takes its own definitions itself */
};

/* Reads the entries of an object that is loaded there. What it does not have is null. */
struct object object_read(uintptr_t base, const Elf64_Dyn *entries);
/* The hash of a name, as the tables have it. */
uint32_t object_hash(const char *name);
/* The address of a name that the object defines, in the version that new programs get; or 0. */
uintptr_t object_find(const struct object *object, const char *name);
/* The version in which it defines the symbol of this number, or null. */
const char *object_version(const struct object *object, size_t number);
/* The place of a variable of a library that the linker has moved into the program, where all use it; or 0. */
uintptr_t object_find_moved(const struct object *program, const char *name);
/* Whether the symbol of this number, which `asking` needs, is to `library` what new programs get by its name. */
bool object_asks_for_new(const struct object *asking, size_t number, const struct object *library);
/* The addresses of a module: of its code and all else that its file says. */
struct code_range object_range(const struct dl_phdr_info *module);
/* Whether the name of a file begins so, without its folders. */
bool object_is_named(const char *path, const char *front);

static inline bool range_has(struct code_range range, uintptr_t address)
{
    return address - range.start < range.size;
}

#endif
