/* Reports, as the process is told of them while it runs: by the program's __asan_on_error and by its callback, which
   may ask for the report meanwhile. The checker's own reports come later, and from elsewhere.

   Called: reports_tell by the stream and by halt.c, and reports_tell_waiting by allocating.c once the allocator is
   left, both through the table `above` (state.h), in the thread with the fault, perhaps in a signal handler that has
   interrupted the allocator. reports_call_on_error by interface.c at the start; the table `reports` by the program
   (interface.c), in any thread.
   Lock: a report that is found in the allocator waits until its thread has left it, since the program's callbacks may
   do anything; apart from that the caller has none of the recorder's. One thread tells at a time, and others do not
   wait (reports.c). Where the process has its texts is set and used without a lock, as are the program's own variables.
   */
#ifndef ASANCOL_REPORTS_H
#define ASANCOL_REPORTS_H

#include <stdbool.h>
#include <stddef.h>
#include <stdint.h>

#include "report/wording.h"
#include "stream/telling.h"

/* Shared objects find these in the program (hooks.h). */
struct reports {
    void (*set_callback)(void (*callback)(const char *text));
    /* Null: nothing is being reported. */
    const struct report *(*now)(void);
    void (*print_stack)(uintptr_t caller);
    void (*describe)(uintptr_t address);
    const char *(*locate)(uintptr_t address, char *name, size_t room, uintptr_t *start, size_t *size);
    size_t (*stack_of)(uintptr_t address, bool of_free, uintptr_t *frames, size_t room, int *thread);
    void (*set_path)(const char *path);
    void (*set_descriptor)(int descriptor);
    const char *(*path)(void);
    bool (*module)(uintptr_t instruction, char *path, size_t room, uintptr_t *offset);
};

extern const struct reports reports;

/* At the start: the program has a function of this name. */
void reports_call_on_error(void (*on_error)(void));
/* Prints the first report of each place in the run's words (process/showing.h), and tells the program, unless it knows
   of this place. While it is being told of another report this one is dropped: then
   the next one at this place is told. In the allocator the report waits, in its thread. */
void reports_tell(const struct told *told);
/* Tells the report that this thread has waiting, if there is one and the thread has left the allocator. */
void reports_tell_waiting(void);

#endif
