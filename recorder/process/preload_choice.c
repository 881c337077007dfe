/* `exported` has an entry for each name that the preloaded recorder shows (exports.c): calls go by its `to`. */
#define _GNU_SOURCE
#include "process/preload_choice.h"

#include <link.h>
#include <stdatomic.h>
#include <stddef.h>
#include <string.h>

#include "libc/library.h"
#include "libc/objects.h"
#include "environment/link_note.h"
#include "shadow/mapping.h"
#include "stream/maps.h"

extern struct exported exported[] NAMED("__start_asancol_exported") __attribute__((visibility("hidden")));
extern struct exported exported_end[] NAMED("__stop_asancol_exported") __attribute__((visibility("hidden")));

/* Where its file begins in memory, or 0. */
static uintptr_t start_of(const struct dl_phdr_info *module)
{
    for (int i = 0; i < module->dlpi_phnum; i++)
        if (module->dlpi_phdr[i].p_type == PT_LOAD && module->dlpi_phdr[i].p_offset == 0)
            return module->dlpi_addr + module->dlpi_phdr[i].p_vaddr;
    return 0;
}

/* Visits the first module, the program, with the loader's lock. */
static int look_for_recorder(struct dl_phdr_info *module, size_t size, void *has_recorder)
{
    struct note note;
    uintptr_t start = start_of(module);
    (void)size;
    *(bool *)has_recorder = start != 0 && maps_find_note(start, LINK_NOTE_OWNER, LINK_NOTE_TYPE, &note);
    return 1;
}

/* The first call comes from the dynamic linker, or from the first constructor: there is no other thread yet. */
bool preload_choice_is_own(void)
{
    static bool is_decided, is_own;
    bool has_recorder = false;
    if (is_decided)
        return is_own;
    is_decided = true;
    library_begin();
    library.dl_iterate_phdr(look_for_recorder, &has_recorder);
    is_own = !has_recorder && shadow_try_to_map();
    for (struct exported *it = exported; is_own && it != exported_end; it++)
        atomic_store_explicit(&it->to, it->own, memory_order_relaxed);
    return is_own;
}

/* A name that nobody else has is one that nobody can have called. */
uintptr_t way_of(struct exported *it)
{
    uintptr_t to = preload_choice_is_own() ? it->own : (uintptr_t)library_next(it->name);
    atomic_store_explicit(&it->to, to, memory_order_relaxed);
    return to;
}

uintptr_t preload_choice_function_behind(const char *name)
{
    for (struct exported *it = exported; it != exported_end; it++)
        if (strcmp(it->name, name) == 0)
            return it->code;
    return 0;
}

void preload_choice_find_behind(const struct object *of)
{
    for (struct exported *it = exported; it != exported_end; it++)
        if ((uintptr_t)library_first(it->name) == it->code)
            it->behind = object_find(of, it->name);
}

bool preload_choice_is_behind(const void *pointer)
{
    return (uintptr_t)pointer >= (uintptr_t)exported && (uintptr_t)pointer < (uintptr_t)exported_end;
}
