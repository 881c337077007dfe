/* Maps what the program's calls and code need, and counts the relocations of the program that ask a resolver, before
   any of them is called: its tables are read as they lie in the file.

   Called: as preinit.h says. */
#define _GNU_SOURCE
#include "start/preinit.h"

#include <elf.h>
#include <stdbool.h>
#include <stddef.h>
#include <stdint.h>

#include "process/exec_notice.h"
#include "environment/startup.h"
#include "environment/hub_names.h"
#include "environment/hub_word.h"
#include "shadow/mapping.h"

extern void *__libc_stack_end;
extern const Elf64_Ehdr __ehdr_start __attribute__((visibility("hidden")));
extern const Elf64_Dyn _DYNAMIC[] __attribute__((visibility("hidden")));
extern const void *const __preinit_array_start[] __attribute__((visibility("hidden")));
/* The program's entry there (preinit.c), if it is linked. */
extern const void *const asancol_first __attribute__((visibility("hidden"), weak));

/* A part of the table of relocations. The dynamic linker may have made addresses of what stands there. */
struct part {
    uintptr_t start;
    size_t size;
};

static size_t count_resolvers(struct part part, size_t passed)
{
    uintptr_t base = (uintptr_t)&__ehdr_start;
    const Elf64_Rela *row = (const void *)(part.start < base ? part.start + base : part.start);
    size_t count = 0;
    for (size_t i = passed; part.start != 0 && i < part.size / sizeof *row; i++)
        count += ELF64_R_TYPE(row[i].r_info) == RELOCATES_BY_RESOLVER;
    return count;
}

/* Whether there are others than ours. */
static bool has_resolvers(void)
{
    struct part all = {0}, calls = {0};
    size_t relative = 0;
    for (const Elf64_Dyn *entry = _DYNAMIC; entry->d_tag != DT_NULL; entry++) {
        if (entry->d_tag == DT_RELA)
            all.start = entry->d_un.d_ptr;
        else if (entry->d_tag == DT_RELASZ)
            all.size = entry->d_un.d_val;
        else if (entry->d_tag == DT_JMPREL)
            calls.start = entry->d_un.d_ptr;
        else if (entry->d_tag == DT_PLTRELSZ)
            calls.size = entry->d_un.d_val;
        else if (entry->d_tag == DT_RELACOUNT)
            relative = entry->d_un.d_val;
    }
    return count_resolvers(all, relative) + count_resolvers(calls, 0) > 1;
}

static const char *value_after(const char *entry, const char *front)
{
    while (*front != 0 && *entry == *front) {
        entry++;
        front++;
    }
    return *front == 0 ? entry : NULL;
}

/* The hub, by the arguments and variables with which the system begins each process; or null. */
static const char *hub_at_start(char *const **argv)
{
    const long *at = __libc_stack_end;
    const char *hub = NULL;
    *argv = (char *const *)(at + 1);
    char *const *variables = *argv + *at + 1;
    for (char *const *it = variables; *it != NULL && hub == NULL; it++)
        hub = value_after(*it, HUB_ENTRY);
    return hub != NULL && *hub != 0 && !startup_is_set_user(variables) ? hub : NULL;
}

/* Whether other functions of .preinit_array come first, such as UndefinedBehaviorSanitizer's. */
static bool has_entries_before(void)
{
    return (const void *)&asancol_first != (const void *)__preinit_array_start;
}

void preinit_resolver(void)
{
    char *const *argv;
    shadow_map_early();
    const char *hub = has_resolvers() || has_entries_before() ? hub_at_start(&argv) : NULL;
    if (hub != NULL)
        hub_word_expect(hub, *argv != NULL ? *argv : "", NEVER_BEGAN);
}
