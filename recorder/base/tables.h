/* The large tables of the recorder. They lie at fixed addresses behind the hook page, in memory that is mapped with the
   shadow (shadow/mapping.c), and not among the program's variables: a collector that looks for pointers there would go
   through them. They begin as zeros. Of each a page gets memory when it is written to.

   Called: by the file that has the table, in any thread, also in a handler, once the shadow is mapped; no lock: nothing
   here has a state. */
#ifndef ASANCOL_TABLES_H
#define ASANCOL_TABLES_H

#include <stddef.h>
#include <stdint.h>

#include "base/platform.h"

/* How many bytes each has. The first ones share the page tables that each process needs. */
struct tables {
    char modules_noted[272 << 10];
    char modules_now[240 << 10];
    char stack_rules[1 << 20];
    char known_stacks[2 << 20];
    char thread_notes[1 << 20];
    char contexts_made[64 << 10];
    char context_hints[8 << 10];
    char heap_kept[256 << 10];
    char heap_retired[256 << 10];
    char heap_forgotten[256 << 10];
    char fake_free[132 << 10];
    char files_begun[128 << 10];
    char names_seen[64 << 10];
    _Alignas(MOST_PAGE) char known_faults[1 << 20];
    _Alignas(MOST_PAGE) char stack_words[32 << 20];
    _Alignas(MOST_PAGE) char walks[35 << 20];
    _Alignas(MOST_PAGE) char contexts_waiting[32 << 20];
};

#ifndef TABLES /* as a test of a part has its own */
#define TABLES ((char *)(HOOK_PAGE_START + MOST_PAGE))
#endif

/* The first entry of a table of this name. */
#define TABLE(type, name) ((type *)(TABLES + offsetof(struct tables, name)))
#define TABLE_HAS_ROOM(name, bytes)                                                                                    \
    _Static_assert(offsetof(struct tables, name) % 64 == 0, "it is aligned");                                          \
    _Static_assert(sizeof((struct tables *)0)->name >= (bytes), "there is room")

#endif
