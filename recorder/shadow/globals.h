/* The globals of the program and of its shared objects, as the compilers register them.

   Called: globals_note by interface/odr.c, for the constructors and destructors of modules, and globals_each by that
   and by process/init_order.c, in the thread that runs these. globals_find by stream/near.c, interface/pairs.c and
   report/describing.c, globals_may_have by that and by stream/faults.c, which has globals_generation too: in any
   thread, also in a handler. No lock: the tables' places are atomic, and their bytes, which may be gone, are read by
   memory_read. So results are copies. */
#ifndef ASANCOL_GLOBALS_H
#define ASANCOL_GLOBALS_H

#include <stdbool.h>
#include <stddef.h>
#include <stdint.h>

/* Where one is declared. */
struct location {
    const char *file;
    uint32_t line, column;
};

/* A global, as the compilers lay it out. */
struct global {
    uintptr_t start;
    size_t size, size_with_redzone;
    const char *name, *module;
    uintptr_t has_dynamic_init;
    const struct location *location; /* or null */
    uintptr_t odr_indicator;
};

/* Notes a table of them. Or, if it is not there any more, all tables that have lain in so much memory. */
void globals_note(const struct global *table, uint64_t count, bool is_there);
/* Another number after each change of the tables. */
uint64_t globals_generation(void);
/* Whether an address is where globals are, as far as the ends of their tables say. */
bool globals_may_have(uint64_t address);
/* The global that is nearest to an address in it or in a redzone. False: there is none. Its name may be gone. */
bool globals_find(uint64_t address, struct global *nearest);

/* Visits all that are registered: copies. */
void globals_each(void visit(const struct global *global, void *with), void *with);

#endif
