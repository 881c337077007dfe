/* The page by which shared objects find the recorder of the program, and stubs what they check: no symbol has to be
   exported or found for it.

   Called: its macros by checks and stubs, in any thread, also in a signal handler, without a lock. Written by the
   program's recorder alone: at the start (mapping.c, library.c), when a recording begins (shadow_switch) or nothing is
   to be recorded any more (library_leave_unchecked), both with the allocator's lock, and after a library was opened
   (library_look_again, with the loader's lock). */
#ifndef ASANCOL_HOOK_PAGE_H
#define ASANCOL_HOOK_PAGE_H

#include <stdbool.h>
#include <stdint.h>

#include "base/processor.h"

/* Behind the shadow and the allocator's memory (HOOK_PAGE_START in processor.h). */
#define HOOK_PAGE ((const struct hook_page *)HOOK_PAGE_START)

struct recorder_hooks;
struct library;

struct code_range {
    uintptr_t start, size;
};

/* What AddressSanitizer's options change in checks. */
struct switches {
    bool has_whole_strings; /* a call reads all of a string, wherever it stops */
    bool has_no_containers; /* what containers say of their bytes is passed over, */
    bool has_no_poison;     /* what the program poisons, */
    bool has_no_counts;     /* and the counts before arrays of C++ */
    bool has_no_formats;    /* no call of printf's kind reads its format, nor the values by it */
    bool has_short_memcmp;  /* a comparison reads no farther than the first difference */
};

struct hook_page {
    uint64_t release; /* of the program's recorder; 0: it has none. Objects of another release use nothing else here. */
    /* The code whose functions are checked when they are called: the C library's, what the system has of it, and that
       of its mathematics (library.c). Zeros if no call is checked. */
    struct code_range library, system, mathematics;
    /* The program's, whose functions may have any name. */
    struct code_range program;
    const struct recorder_hooks *hooks; /* of the program (hooks.h) */
    const struct library *functions;    /* too (library.h) */
    struct switches switches;
};

/* Whether there is a recorder; */
#ifdef IN_SHARED_OBJECT
#define HAS_HOOKS (HOOK_PAGE->release == RELEASE)
/* and whether there is one of any release. */
#define HAS_ANY_HOOKS (HOOK_PAGE->release != 0)
#else
#define HAS_HOOKS true
#endif

#endif
