/* Faults: the circumstances of an access or a free that is bad by the shadow. Each is one entry beside the stream, with
   the block or the variable that is nearest. An index there has for each event the number of its fault. So a loop over
   bad bytes is one fault, and good ones cost nothing.

   Called: faults_begin by opening.c, in any thread, also in a handler, with the stream's lock, or before there is a
   stream (opening.h); fault_begin and fault_end by watched.c and findings.c, fault_of by watched.c and fault_note by
   group.c, in the thread of the bad access or free, also in a handler, with or without the allocator's lock; fault_key
   there by process/showing.c, without; fault_note_last by process/signals.c, in a handler. All but the first take no
   lock, only atomics; but a side file may have to get room on the disk, and then side_back takes the stream's for a
   moment. Nothing is allocated. */
#ifndef ASANCOL_FAULTS_H
#define ASANCOL_FAULTS_H

#include <stdint.h>

#include "stacks/stacks.h"
#include "stream/access.h"

/* Faults of the stream in this window are noted in these bytes (side.h). It is the newest. */
void faults_begin(unsigned char *bytes, unsigned window);
/* A bad access or free is being noted from here on, and has an event now, or none in this window. The first is before
   the system is called: if that ends the process, who reads the memory knows that something is missing. */
void fault_begin(unsigned window);
void fault_end(unsigned window);
/* What the index is to have of a bad piece of an access, this many bytes from an address on: the number of its fault,
   from 1, with SIDE_IS_PIECE if another piece was noted before; 0 if there is no room for it. All pieces in a list have
   the fault that the first of them has there. It is found before its event has its place in the stream, for which other
   threads may wait. */
uint32_t fault_of(unsigned window, struct access *access, unsigned width, uint64_t address);
/* What tells the fault of an event of the newest window from others; 0: it has none. */
uint64_t fault_key(uint64_t event);
/* Notes where a signal has met the process, the address that could not be accessed, and enum side_how. */
void fault_note_last(call_site last, uint64_t address, uint32_t how);
/* Writes that to the index. */
void fault_note(unsigned window, uint32_t entry, uint64_t event);

#endif
