/* Memory that a program of ours cannot go on without.

   Called: by programs of ours alone (run, wrapper), in their one thread; no lock. Never by the recorder. */
#ifndef ASANCOL_MUST_H
#define ASANCOL_MUST_H

#include <stddef.h>

/* Says that there is no memory, as each program says what ends it, and ends. */
_Noreturn void no_memory(void);

/* What an allocation gives, unless it is null. */
static inline void *must(void *memory)
{
    if (memory == NULL)
        no_memory();
    return memory;
}

#endif
