/* What a process says that ends by ASANCOL_HALT: a report in AddressSanitizer's words, by its run or by itself.

   Called: by halt.c, in the one thread that ends the process, perhaps in a signal handler that has interrupted the
   allocator. Lock: none: what it reads of the allocator and of the loader needs none. Nothing is allocated. */
#ifndef ASANCOL_HALT_REPORT_H
#define ASANCOL_HALT_REPORT_H

#include <stdbool.h>

#include "stream/telling.h"

/* Prints it on descriptor 2, whatever is there. By one thread, once. */
void halt_report(const struct told *told);
/* Prints the words of its run in the same place, which come on a connection, and closes that; below zero there is none.
   False: no words came in this time. */
bool halt_report_of_run(int connection, int patience_ms);
/* The open descriptor to which it writes, or -1: it opens a file for that. */
int halt_report_descriptor(void);

#endif
