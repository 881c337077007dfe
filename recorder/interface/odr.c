/* Clang has the address by which all modules know a global, so that two definitions have one start; or, by an option, a
   byte that they share, the indicator. GCC has that of the module itself, and no indicator for kernel-address: there
   two definitions are found by the names that their modules show to the loader.

   `names` says by bits of hashes which names have come. Tables come one after another, with the loader's lock or before
   there are threads. */
#define _GNU_SOURCE
#include "interface/odr.h"

#include <dlfcn.h>
#include <elf.h>
#include <link.h>
#include <stdatomic.h>
#include <stddef.h>
#include <string.h>

#include "base/tables.h"
#include "libc/library.h"
#include "libc/objects.h"
#include "process/process.h"
#include "environment/settings.h"
#include "shadow/globals.h"
#include "shadow/shadow.h"
#include "stream/findings.h"
#include "stream/near.h"
#include "stream/state.h"

enum { BY_SIZE = 1 };
#define NO_INDICATOR UINTPTR_MAX /* of a global that others do not see */

/* The names that have come, by bits of their hashes: most are of one global alone. */
enum { NAME_BITS = 1 << 19, BYTE = 8 };
static _Atomic unsigned char *const names = TABLE(_Atomic unsigned char, names_seen);
enum { NAME_BYTES = NAME_BITS / BYTE };
TABLE_HAS_ROOM(names_seen, NAME_BYTES);

/* Notes a name. Answers whether it may have come before. */
static bool has_come(const char *name)
{
    uint64_t hash = 0;
    for (const char *at = name; *at != 0; at++)
        hash = (hash ^ (unsigned char)*at) * UINT64_C(0x9e3779b97f4a7c15), hash ^= hash >> 29;
    unsigned char bit = (unsigned char)(1 << hash % BYTE);
    return (atomic_fetch_or(&names[hash / BYTE % NAME_BYTES], bit) & bit) != 0;
}

/* Those that GCC gives to texts: they are often the same, and never shown. */
static bool is_of_text(const char *name)
{
    static const char *const of_functions[] = {"__func__", "__FUNCTION__", "__PRETTY_FUNCTION__"};
    for (size_t i = 0; i < sizeof of_functions / sizeof *of_functions; i++)
        if (strcmp(name, of_functions[i]) == 0)
            return true;
    return name[0] == '*';
}

#ifndef IS_STATIC
/* A symbol of the loader's. */
struct shown {
    const struct link_map *module;
    const char *name;
    uintptr_t taken; /* what its module gets by it */
};

static uintptr_t first_of(const char *name, const char *version)
{
    uintptr_t found = (uintptr_t)(version != NULL ? library.dlvsym(RTLD_DEFAULT, name, version)
                                                  : library.dlsym(RTLD_DEFAULT, name));
    if (found == 0)
        library.dlerror(); /* the program has made no error */
    return found;
}

/* What begins at an address. Not a name that may be defined often: that is weak. Nor one of the module alone. */
static bool is_shown(uintptr_t address, struct shown *shown)
{
#if __GLIBC_PREREQ(2, 35)
    struct dl_find_object found = {0};
    if (library._dl_find_object == NULL || library._dl_find_object((void *)address, &found) != 0
        || found.dlfo_link_map == NULL || found.dlfo_link_map->l_ld == NULL)
        return false;
    const struct object object = object_read(found.dlfo_link_map->l_addr, found.dlfo_link_map->l_ld);
    const ElfW(Sym) *symbols = object.symbols;
    /* The strings come after the symbols, and after what tells how many these are. */
    for (size_t i = 0; symbols != NULL && (uintptr_t)&symbols[i + 1] <= (uintptr_t)object.texts; i++) {
        if (symbols[i].st_value != address - object.base || symbols[i].st_shndx == SHN_UNDEF
            || symbols[i].st_info != ELF64_ST_INFO(STB_GLOBAL, STT_OBJECT))
            continue;
        shown->module = found.dlfo_link_map;
        shown->name = object.texts + symbols[i].st_name;
        bool is_own = object.is_symbolic || ELF64_ST_VISIBILITY(symbols[i].st_other) != STV_DEFAULT;
        shown->taken = is_own ? address : first_of(shown->name, object_version(&object, i));
        return true;
    }
#else
    (void)address, (void)shown;
#endif
    return false;
}
#endif

/* The target of the search: another definition of this one. */
struct search {
    const struct global *global;
    uintptr_t other; /* where that begins; 0: by its start or its indicator */
    uintptr_t caller;
};

static void note(const struct global *global, const struct global *other, uintptr_t caller)
{
    char name[SIDE_NAME] = "", other_name[SIDE_NAME] = "";
    near_name_global(global, name);
    near_name_global(other, other_name);
    finding_note(&(struct finding){.kind = FINDING_ODR, .call_site = call_site_of(caller), .name = name,
                                   .other_name = other_name, .block = other->start, .block_size = other->size,
                                   .start = global->start, .size = global->size});
}

static bool is_other(const struct search *search, const struct global *other)
{
    const struct global *global = search->global;
    if (search->other != 0)
        return other->start == search->other;
    return global->odr_indicator != 0 ? other->odr_indicator == global->odr_indicator : other->start == global->start;
}

static void visit(const struct global *other, void *with)
{
    const struct search *search = with;
    bool may_have_same_size = recorder_settings()->odr > BY_SIZE;
    if (is_other(search, other) && (may_have_same_size || other->size != search->global->size))
        note(search->global, other, search->caller);
}

/* Looks for definitions of the name in other modules, of which one is what both modules get by it. A static program is
   one module. */
static void look_in_modules(struct search *search)
{
#ifdef IS_STATIC
    (void)search;
#else
    struct shown shown, other;
    if (!is_shown(search->global->start, &shown))
        return;
    const struct link_map *it = shown.module;
    while (it->l_prev != NULL)
        it = it->l_prev;
    for (; it != NULL; it = it->l_next) {
        const struct object object = object_read(it->l_addr, it->l_ld);
        search->other = it != shown.module ? object_find(&object, shown.name) : 0;
        bool is_taken = shown.taken == search->other || shown.taken == search->global->start;
        if (search->other != 0 && is_taken && is_shown(search->other, &other) && other.taken == shown.taken)
            globals_each(visit, search);
    }
#endif
}

/* Looks for another definition of a global that comes: by its indicator, by its redzones, or by its name. */
static void look_at(const struct global *global, uintptr_t caller)
{
    struct search search = {.global = global, .caller = caller};
    if (global->odr_indicator == NO_INDICATOR)
        return;
    if (global->odr_indicator != 0) {
        unsigned char *indicator = (unsigned char *)global->odr_indicator;
        bool is_first = *indicator == 0;
        *indicator = 1;
        if (is_first)
            return;
    } else if (shadow_is_clean(global->start, global->size_with_redzone)) {
        if (!is_of_text(global->name) && has_come(global->name))
            look_in_modules(&search);
        return;
    }
    globals_each(visit, &search);
}

void odr_globals_note(const struct global *table, uint64_t count, bool is_there)
{
    bool is_looked_at = is_there && is_on() && recorder_settings()->odr != 0;
    for (uint64_t i = 0; is_looked_at && i < count; i++)
        look_at(&table[i], CALLER());
    globals_note(table, count, is_there);
}
