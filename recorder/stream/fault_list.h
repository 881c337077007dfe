/* The list of faults in the memory beside a stream (struct side in common/format.h), with the findings among them: what
   the recorder knows to be wrong and no event shows (findings.h). And a table that knows by a hash which are there, in
   the newest list (list_newest, lists.h).

   Called: fault_list_forget by faults.c when a list begins, in any thread, also in a handler, with the stream's
   lock, or before there is a stream; the rest by faults.c, findings.c and test_name.c, in any thread, also in a
   handler. They take no lock, only atomics; but list_back may take the stream's for a moment, to get room on the disk.
   Nothing is allocated. */
#ifndef ASANCOL_FAULT_LIST_H
#define ASANCOL_FAULT_LIST_H

#include <stddef.h>
#include <stdint.h>

#include "stream/lists.h"

/* The bits of a hash that tell no two entries apart: a number has room there. */
#define FAULT_NUMBER (((uint64_t)1 << 17) - 1)

/* A list begins: the known entries are of another one. */
void fault_list_forget(void);
/* Adds a text to a hash, with zeros after it, up to the end of its room. */
uint64_t fault_list_mix(uint64_t hash, const char *text, size_t room);
/* Puts the name of a function as a program has it: `memcpy`, if that was compiled as a call of `__memcpy_chk`. Null:
   there is none. */
void fault_list_put_call(char *call, const char *name);
/* The entry with this number, which fault_list_add has answered for this list. Any thread may have it: so only three
   of its words are written, as atomics: `event` by faults.c, `size` and `found.count` by findings.c. */
struct side_fault *fault_list_at(const struct list *list, uint32_t number);
/* The number of the entry that has this hash, from 1. It is added if it is not there: then the numbers of threads in
   `fault` become places in the list of threads. 0: there is no room. An entry is filled before anybody gets its number.
   But the count beside the stream (fault_count) may already be that of a later one: who reads the list passes over an
   entry that has no event, or of a finding the count 0. So is the second one, if two threads add the same at once. */
uint32_t fault_list_add(struct list *list, uint64_t hash, const struct side_fault *fault);

#endif
