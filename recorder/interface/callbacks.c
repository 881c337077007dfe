/* The compilers' calls for accesses. By default their inline check calls only if it finds the access bad, and with
   ASANCOL_ALL=1 there is a call before each access. Names end in _noabort as asked for by -fsanitize=kernel-address,
   and without as by -fsanitize=address. */
#include "interface/callbacks.h"

#include "process/foreign.h"
#include "interface/hooks.h"

#if defined IN_SHARED_OBJECT || defined IN_CHECKS
/* The wrapper asks for this one by name if it knows that what it links was compiled by it. */
const char asancol_checks = 1;
#endif

#ifdef IN_SHARED_OBJECT
/* Before the constructors of the object, and those of the program if it is loaded with that. The loader calls it, in
   the thread that loads the object, with its lock. */
__attribute__((constructor(101))) static void say_that_checks_are_here(void)
{
    note_found_checks();
    if (!HAS_HOOKS)
        foreign_note(HAS_ANY_HOOKS);
}
#endif

#define ACCESS(name, code, width)                                                                                      \
    CALLBACK void __asan_##name##width(uintptr_t address)                                                              \
    {                                                                                                                  \
        note_checks();                                                                                                 \
        note_each_access();                                                                                            \
        note_access(code, width, address, CALLER());                                                                   \
    }                                                                                                                  \
    CALLBACK void __asan_##name##width##_noabort(uintptr_t address)                                                    \
    {                                                                                                                  \
        note_checks();                                                                                                 \
        note_each_access();                                                                                            \
        note_access(code, width, address, CALLER());                                                                   \
    }

#define RANGE(name, code)                                                                                              \
    CALLBACK void __asan_##name##16(uintptr_t address)                                                                 \
    {                                                                                                                  \
        note_checks();                                                                                                 \
        note_each_access();                                                                                            \
        note_range(code, address, 16, CALLER());                                                                       \
    }                                                                                                                  \
    CALLBACK void __asan_##name##16_noabort(uintptr_t address)                                                         \
    {                                                                                                                  \
        note_checks();                                                                                                 \
        note_each_access();                                                                                            \
        note_range(code, address, 16, CALLER());                                                                       \
    }                                                                                                                  \
    CALLBACK void __asan_##name##N(uintptr_t address, size_t size)                                                     \
    {                                                                                                                  \
        note_checks();                                                                                                 \
        note_each_access();                                                                                            \
        note_range(code, address, size, CALLER());                                                                     \
    }                                                                                                                  \
    CALLBACK void __asan_##name##N_noabort(uintptr_t address, size_t size)                                             \
    {                                                                                                                  \
        note_checks();                                                                                                 \
        note_each_access();                                                                                            \
        note_range(code, address, size, CALLER());                                                                     \
    }

ACCESS(load, CODE_LOAD, 1)
ACCESS(load, CODE_LOAD, 2)
ACCESS(load, CODE_LOAD, 4)
ACCESS(load, CODE_LOAD, 8)
ACCESS(store, CODE_STORE, 1)
ACCESS(store, CODE_STORE, 2)
ACCESS(store, CODE_STORE, 4)
ACCESS(store, CODE_STORE, 8)
RANGE(load, CODE_LOAD)
RANGE(store, CODE_STORE)

/* What an inline check has found bad, by GCC and, with `exp`, by Clang: asancol-cc asks it for our own names,
   since the two mean different things by `_n`.

   An access of an odd size, or one that may be unaligned, is checked by its first and its last byte. GCC then reports
   the address and the size of all, once. Clang reports either byte with the size of all, and nothing says which of
   the two it is. That byte is known to be accessed, and no other is: so it alone is recorded, with the size. */

#define REPORT(name, code, width)                                                                                      \
    CALLBACK void __asan_report_##name##width##_noabort(uintptr_t address)                                             \
    {                                                                                                                  \
        note_checks();                                                                                                 \
        note_access(code, width, address, CALLER());                                                                   \
    }                                                                                                                  \
    CALLBACK void __asan_report_exp_##name##width##_noabort(uintptr_t address, uint32_t unused)                        \
    {                                                                                                                  \
        (void)unused;                                                                                                  \
        note_checks();                                                                                                 \
        note_access(code, width, address, CALLER());                                                                   \
    }

#define REPORT_RANGE(name, code)                                                                                       \
    CALLBACK void __asan_report_##name##16_noabort(uintptr_t address)                                                  \
    {                                                                                                                  \
        note_checks();                                                                                                 \
        note_bad_range(code, address, 16, CALLER());                                                                   \
    }                                                                                                                  \
    CALLBACK void __asan_report_exp_##name##16_noabort(uintptr_t address, uint32_t unused)                             \
    {                                                                                                                  \
        (void)unused;                                                                                                  \
        note_checks();                                                                                                 \
        note_bad_range(code, address, 16, CALLER());                                                                   \
    }                                                                                                                  \
    CALLBACK void __asan_report_##name##_n_noabort(uintptr_t address, size_t size)                                     \
    {                                                                                                                  \
        note_checks();                                                                                                 \
        note_bad_range(code, address, size, CALLER());                                                                 \
    }                                                                                                                  \
    CALLBACK void __asan_report_exp_##name##_n_noabort(uintptr_t address, size_t size, uint32_t unused)                \
    {                                                                                                                  \
        (void)unused;                                                                                                  \
        note_checks();                                                                                                 \
        note_first_of(code, 1, address, size, CALLER());                                                               \
    }

REPORT(load, CODE_LOAD, 1)
REPORT(load, CODE_LOAD, 2)
REPORT(load, CODE_LOAD, 4)
REPORT(load, CODE_LOAD, 8)
REPORT(store, CODE_STORE, 1)
REPORT(store, CODE_STORE, 2)
REPORT(store, CODE_STORE, 4)
REPORT(store, CODE_STORE, 8)
REPORT_RANGE(load, CODE_LOAD)
REPORT_RANGE(store, CODE_STORE)

/* From objects that were compiled for AddressSanitizer itself. */
CALLBACK void __asan_init(void)
{
    note_checks();
}

CALLBACK void __asan_version_mismatch_check_v8(void)
{
}

/* Round the initialisers of a file in C++, by the constructors of a module (init_order.h). */

CALLBACK void __asan_before_dynamic_init(const char *module)
{
    note_before_init(module);
}

CALLBACK void __asan_after_dynamic_init(void)
{
    note_after_init();
}

/* By -fsanitize=pointer-compare and pointer-subtract. */

CALLBACK void __sanitizer_ptr_cmp(uintptr_t one, uintptr_t other)
{
    note_pair(one, other, CALLER());
}

CALLBACK void __sanitizer_ptr_sub(uintptr_t one, uintptr_t other)
{
    note_pair(one, other, CALLER());
}
