/* A report in AddressSanitizer's words: its class by the shadow, and its text.

   Called: by interface/reports.c, by one thread at a time, and by process/halt_report.c, in the one thread that ends
   the process: perhaps in a signal handler that has interrupted the allocator. Lock: none: what it reads of the
   allocator and of the loader needs none. Nothing is allocated. */
#ifndef ASANCOL_WORDING_H
#define ASANCOL_WORDING_H

#include <stdbool.h>
#include <stddef.h>
#include <stdint.h>

#include "report/text.h"
#include "stream/telling.h"

/* What the program may ask for of a report. */
struct report {
    const char *description; /* the class. Of a finding it is put together, up to the next report */
    uintptr_t instruction, frame, stack, address;
    size_t size;
    bool is_store, is_access;
};

/* The registers are those of the recorder, which AddressSanitizer has of its own functions too. */
void report_make(struct report *report, const struct told *told, uintptr_t frame);
void report_put(struct text *text, const struct report *report, const struct told *told);

#endif
