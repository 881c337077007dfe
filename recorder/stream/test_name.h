/* The test that a framework or a harness says is running, by a variable of the environment: `ASANCOL_TEST`, or else
   that of pytest. It is read at each fault, since both change while the process runs.

   Called: by faults.c and findings.c, in any thread, also in a handler, with or without the allocator's lock. No lock:
   what may be gone is asked for before it is read (memory_is_there), and the number that was given last is one atomic;
   but a text takes room as in lists.h. Nothing is allocated. */
#ifndef ASANCOL_TEST_NAME_H
#define ASANCOL_TEST_NAME_H

#include <stdint.h>

#include "stream/lists.h"

struct test_name {
    uint64_t hash;   /* what tells it from others; 0: no test is known */
    uint32_t number; /* of the text in the list; 0: there is none, or no room */
};

/* The test that is running. Its name is put into the list. */
struct test_name test_name_put(struct list *list);

#endif
