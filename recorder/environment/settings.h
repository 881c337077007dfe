/* What the environment says.

   Called: settings_read by process.c, in the thread that starts the recorder, once, not in a signal handler;
   settings_read_outputs by that in the one thread that ends the process, also in a handler; settings_hub at the start,
   and by mapping.c in the only thread, before the process ends because its shadow has no room.
   Lock: none: process.c keeps the settings, and changes `trace` and `is_full` later, with the allocator's lock. Others
   read them, in any thread, also in a handler. */
#ifndef ASANCOL_SETTINGS_H
#define ASANCOL_SETTINGS_H

#include <stdbool.h>
#include <stdint.h>

/* From this many segments on the oldest can be removed; or 0. */
enum { MAX_SEGMENTS_KEPT = 1000 };
#define ALL_SEGMENTS UINT64_MAX

/* Whether the process ends at its first fault; and whether nothing is recorded until then. */
enum halt { HALT_NEVER, HALT, HALT_AND_RECORD };

struct settings {
    const char *hub;    /* its socket, or null */
    const char *trace;  /* the name of the trace with %p, from the root, or null; with a hub, where it goes if the hub
                           can't be reached */
    const char *socket; /* or null */
    const char *text;   /* the file to which the run prints: "DEVICE:NODE", "log" (of log_path), or null */
    bool is_live;       /* reports are printed where they come up */
    uint64_t limit;    /* of events in a stream */
    uint64_t segments; /* how many of a process are kept; 0: the limit ends the recording */
    uint64_t stop; /* the event at which the process stops; 0: none */
    uint64_t quarantine;
    int patience_ms;
    bool use_after_return; /* is detected by code compiled for that; */
    bool says_returns;     /* or a variable of ASANCOL refuses that, which the first such code says */
    uint64_t skipped;      /* enum side_skipped: what else variables of ASANCOL turn off */
    bool with_side; /* what stands beside a trace is wanted too, */
    bool with_leaks; /* and with it what leaks */
    bool is_full; /* each malloc and free is recorded */
    bool mismatches; /* a free by another family of functions is noted, */
    bool other_sizes; /* and one with another size or alignment */
    /* As AddressSanitizer's detect_odr_violation and detect_invalid_pointer_pairs; 1: check_initialization_order, and
       2: with strict_init_order. */
    int odr, pointer_pairs, init_order;
    bool may_return_null; /* where memory is refused, that is no mistake */
    /* As strict_string_checks, detect_container_overflow, allow_user_poisoning, poison_array_cookie, check_printf and
       strict_memcmp. */
    bool whole_strings, containers, user_poison, counts, formats, whole_memcmp;
    bool keeps_empty; /* realloc to no bytes gives a block, as without
                         allocator_frees_and_returns_null_on_realloc_zero */
    enum halt halt;
    int halt_status; /* with which a process that halts exits; below 0: SIGABRT ends it */
    bool checks_libraries; /* what plain libraries call, too */
    const char *passed_over; /* the hub that the environment names beside a trace, or null */
    uint64_t root;           /* the process that has started the run for itself (process/root.h); 0: none */
};

/* The hub that the environment names, or null. */
const char *settings_hub(void);

/* Reads all settings, and names unknown ones and invalid values. In the environment the names of the trace
   and of the log are from the root afterwards, so that a process that this one starts elsewhere finds them. */
void settings_read(struct settings *settings);
/* Where the recording goes alone, again, once a run of its own has said that. */
void settings_read_outputs(struct settings *settings);

#endif
