/* Nothing is copied: a struct object points into the object's own tables, and a search walks one hash chain. */
#define _GNU_SOURCE
#include "libc/objects.h"

#include <link.h>
#include <string.h>

/* Where it is, by what the loader has made of its address, or has left as it was. */
static const void *place_in(uintptr_t base, const Elf64_Dyn *entry)
{
    uintptr_t at = entry->d_un.d_ptr;
    return (const void *)(at < base ? base + at : at);
}

/* Takes an entry of the dynamic section, if it is one that is needed here. */
static void read_entry(struct object *object, const Elf64_Dyn *it)
{
    const void *place = place_in(object->base, it);
    switch (it->d_tag) {
    case DT_SYMTAB:
        object->symbols = place;
        break;
    case DT_STRTAB:
        object->texts = place;
        break;
    case DT_VERSYM:
        object->versions = place;
        break;
    case DT_GNU_HASH:
        object->hash = place;
        break;
    case DT_RELA:
        object->relocations = place;
        break;
    case DT_RELASZ:
        object->relocations_size = it->d_un.d_val;
        break;
    case DT_JMPREL:
        object->calls = place;
        break;
    case DT_PLTRELSZ:
        object->calls_size = it->d_un.d_val;
        break;
    case DT_VERNEED:
        object->needed = place;
        break;
    case DT_VERDEF:
        object->defined = place;
        break;
    case DT_SYMBOLIC:
        object->is_symbolic = true;
        break;
    case DT_FLAGS:
        object->is_symbolic = object->is_symbolic || (it->d_un.d_val & DF_SYMBOLIC) != 0;
        break;
    default:
        break;
    }
}

struct object object_read(uintptr_t base, const Elf64_Dyn *entries)
{
    struct object object = {.base = base};
    for (const Elf64_Dyn *it = entries; it->d_tag != DT_NULL; it++)
        read_entry(&object, it);
    return object;
}

uint32_t object_hash(const char *name)
{
    uint32_t hash = 5381;
    for (const char *letter = name; *letter != 0; letter++)
        hash = hash * 33 + (unsigned char)*letter;
    return hash;
}

/* A walk over what the object defines by a name: one symbol for each version. */
struct walk {
    const struct object *object;
    const char *name;
    const uint32_t *chains; /* from the first number on that has a hash; null: there is nothing more */
    uint32_t hash, first, number;
};

static struct walk walk_begin(const struct object *object, const char *name)
{
    struct walk walk = {.object = object, .name = name, .hash = object_hash(name)};
    if (object->hash == NULL || object->symbols == NULL || object->texts == NULL || object->hash[0] == 0)
        return walk;
    const uint32_t *buckets = object->hash + 4 + 2 * (size_t)object->hash[2];
    walk.first = object->hash[1];
    walk.number = buckets[walk.hash % object->hash[0]];
    walk.chains = walk.number >= walk.first ? buckets + object->hash[0] : NULL;
    return walk;
}

/* The next symbol, or null. */
static const Elf64_Sym *walk_next(struct walk *walk, uint32_t *number)
{
    while (walk->chains != NULL) {
        *number = walk->number++;
        uint32_t it = walk->chains[*number - walk->first];
        if (it & 1)
            walk->chains = NULL;
        const Elf64_Sym *symbol = &walk->object->symbols[*number];
        if ((it | 1) == (walk->hash | 1) && symbol->st_shndx != SHN_UNDEF
            && strcmp(walk->object->texts + symbol->st_name, walk->name) == 0)
            return symbol;
    }
    return NULL;
}

/* Of a symbol's version: its number, and whether new programs do not get it. */
enum { VERSION_NUMBER = 0x7fff, OLD_VERSION = 0x8000 };

static bool is_new(const struct object *object, uint32_t number)
{
    return object->versions == NULL || !(object->versions[number] & OLD_VERSION);
}

uintptr_t object_find(const struct object *object, const char *name)
{
    struct walk walk = walk_begin(object, name);
    uint32_t number;
    for (const Elf64_Sym *symbol; (symbol = walk_next(&walk, &number)) != NULL;) {
        uintptr_t address = object->base + symbol->st_value;
        if (is_new(object, number))
            return ELF64_ST_TYPE(symbol->st_info) == STT_GNU_IFUNC ? ((uintptr_t(*)(void))address)() : address;
    }
    return 0;
}

uintptr_t object_find_moved(const struct object *program, const char *name)
{
    for (size_t i = 0; i < program->relocations_size / sizeof *program->relocations; i++) {
        const Elf64_Rela *it = &program->relocations[i];
        const Elf64_Sym *symbol = &program->symbols[ELF64_R_SYM(it->r_info)];
        if (ELF64_R_TYPE(it->r_info) == RELOCATES_COPY && strcmp(program->texts + symbol->st_name, name) == 0)
            return program->base + it->r_offset;
    }
    return 0;
}

static const void *after(const void *at, size_t bytes)
{
    return (const unsigned char *)at + bytes;
}

/* The hash of the version that is needed, or 0 if none is. */
static uint32_t needed_version(const struct object *object, size_t number)
{
    if (object->versions == NULL || object->needed == NULL)
        return 0;
    unsigned wanted = object->versions[number] & VERSION_NUMBER;
    for (const Elf64_Verneed *from = object->needed;; from = after(from, from->vn_next)) {
        const Elf64_Vernaux *it = after(from, from->vn_aux);
        for (unsigned i = 0; i < from->vn_cnt; i++, it = after(it, it->vna_next))
            if ((it->vna_other & VERSION_NUMBER) == wanted)
                return it->vna_hash;
        if (from->vn_next == 0)
            return 0;
    }
}

/* The version in which an object with versions defines a symbol, or null. */
static const Elf64_Verdef *defined_version(const struct object *object, size_t number)
{
    unsigned own = object->versions[number] & VERSION_NUMBER;
    for (const Elf64_Verdef *it = object->defined;; it = after(it, it->vd_next)) {
        if (it->vd_ndx == own)
            return it;
        if (it->vd_next == 0)
            return NULL;
    }
}

const char *object_version(const struct object *object, size_t number)
{
    bool has_versions = object->versions != NULL && object->defined != NULL;
    const Elf64_Verdef *version = has_versions ? defined_version(object, number) : NULL;
    if (version == NULL || (version->vd_flags & VER_FLG_BASE))
        return NULL;
    const Elf64_Verdaux *name = after(version, version->vd_aux);
    return object->texts + name->vda_name;
}

/* Whether a symbol has this version. Where none is needed, any may be meant. */
static bool has_version(const struct object *library, uint32_t number, uint32_t version)
{
    if (version == 0 || library->versions == NULL || library->defined == NULL)
        return true;
    const Elf64_Verdef *own = defined_version(library, number);
    return own != NULL && own->vd_hash == version;
}

bool object_asks_for_new(const struct object *asking, size_t number, const struct object *library)
{
    uint32_t version = needed_version(asking, number), at;
    struct walk walk = walk_begin(library, asking->texts + asking->symbols[number].st_name);
    uintptr_t new_one = 0, meant = 0;
    bool is_one = true;
    for (const Elf64_Sym *symbol; (symbol = walk_next(&walk, &at)) != NULL;) {
        if (is_new(library, at))
            new_one = symbol->st_value;
        if (has_version(library, at, version)) {
            is_one &= meant == 0 || meant == symbol->st_value;
            meant = symbol->st_value;
        }
    }
    return is_one && meant != 0 && meant == new_one;
}

struct code_range object_range(const struct dl_phdr_info *module)
{
    uintptr_t size = 0;
    for (int i = 0; i < module->dlpi_phnum; i++)
        if (module->dlpi_phdr[i].p_type == PT_LOAD)
            size = module->dlpi_phdr[i].p_vaddr + module->dlpi_phdr[i].p_memsz;
    return (struct code_range){module->dlpi_addr, size};
}

bool object_is_named(const char *path, const char *front)
{
    const char *slash = strrchr(path, '/');
    return strncmp(slash != NULL ? slash + 1 : path, front, strlen(front)) == 0;
}
