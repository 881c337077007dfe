/* What differs between processors is in one header for each, and nowhere else: calls of the system, the registers of a
   signal's frame, the thread pointer, what a relocation is called, where the shadow lies. processor_stubs.h has the
   assembly.

   Called: by any file, in any thread, also in a handler; no lock: nothing here has a state. */
#ifndef ASANCOL_PROCESSOR_H
#define ASANCOL_PROCESSOR_H

#include <stdatomic.h>
#include <stdbool.h>

#if defined __x86_64__
#include "base/x86_64.h"
#elif defined __aarch64__
#include "base/aarch64.h"
#else
#error "asancol has no header for this processor (base/processor.h)"
#endif

/* Calls of the system. Once the process has filters of its own (filters.h), a call by which one of them would end it
   fails with EPERM. */
#if defined FOLLOWS_FILTERS && !defined IN_SHARED_OBJECT
extern _Atomic bool filters_are_there __asm__("asancol_filters_are_there") __attribute__((visibility("hidden")));
long filtered_call(long number, long first, long second, long third, long fourth, long fifth, long sixth)
    __asm__("asancol_filtered_call") __attribute__((visibility("hidden"), cold));
#define IS_FILTERED __builtin_expect(atomic_load_explicit(&filters_are_there, memory_order_relaxed), 0)
#else
#define IS_FILTERED 0
#define filtered_call direct_call
#endif

SYSTEM_CALL long system_call6(long number, long first, long second, long third, long fourth, long fifth, long sixth)
{
    return IS_FILTERED ? filtered_call(number, first, second, third, fourth, fifth, sixth)
                       : direct_call(number, first, second, third, fourth, fifth, sixth);
}

SYSTEM_CALL long system_call4(long number, long first, long second, long third, long fourth)
{
    return IS_FILTERED ? filtered_call(number, first, second, third, fourth, 0, 0)
                       : direct_call4(number, first, second, third, fourth);
}

SYSTEM_CALL long system_call3(long number, long first, long second, long third)
{
    return IS_FILTERED ? filtered_call(number, first, second, third, 0, 0, 0)
                       : direct_call3(number, first, second, third);
}

#endif
