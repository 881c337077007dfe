/* Operators of C++. The malloc of a `new` is recorded with the call site of that, and with the size that was asked for.
   And a block is known by the operator that has allocated it: another family of functions must not free it.

   Called: by the program, in any thread, also in a signal handler as far as a program may allocate there. Lock: the
   caller has none of the recorder's, but may have the loader's, as a constructor of a module that is being loaded. The
   malloc or free that the operator calls takes the allocator's. The first operators of a module, maybe in several
   threads at once, take the loader's for a moment (dladdr), so no thread may wait here for another one. */
#define _GNU_SOURCE
#include <dlfcn.h>
#include <stdatomic.h>
#include <stdlib.h>

#include "libc/library.h"
#include "calls/stubs.h"
#include "interface/hooks.h"
#include "stacks/cfi.h"

/* A library of C++ that takes these from another one, as libc++ does, refers to them. */
#define WRAPPED __attribute__((visibility("protected")))

REAL(void *, _Znwm, (size_t size));
REAL(void *, _Znam, (size_t size));
REAL(void *, _ZnwmRKSt9nothrow_t, (size_t size, const void *tag));
REAL(void *, _ZnamRKSt9nothrow_t, (size_t size, const void *tag));
REAL(void *, _ZnwmSt11align_val_t, (size_t size, size_t alignment));
REAL(void *, _ZnamSt11align_val_t, (size_t size, size_t alignment));
REAL(void *, _ZnwmSt11align_val_tRKSt9nothrow_t, (size_t size, size_t alignment, const void *tag));
REAL(void *, _ZnamSt11align_val_tRKSt9nothrow_t, (size_t size, size_t alignment, const void *tag));
REAL(void, _ZdlPv, (void *pointer));
REAL(void, _ZdaPv, (void *pointer));
REAL(void, _ZdlPvm, (void *pointer, size_t size));
REAL(void, _ZdaPvm, (void *pointer, size_t size));
REAL(void, _ZdlPvRKSt9nothrow_t, (void *pointer, const void *tag));
REAL(void, _ZdaPvRKSt9nothrow_t, (void *pointer, const void *tag));
REAL(void, _ZdlPvSt11align_val_t, (void *pointer, size_t alignment));
REAL(void, _ZdaPvSt11align_val_t, (void *pointer, size_t alignment));
REAL(void, _ZdlPvmSt11align_val_t, (void *pointer, size_t size, size_t alignment));
REAL(void, _ZdaPvmSt11align_val_t, (void *pointer, size_t size, size_t alignment));
REAL(void, _ZdlPvSt11align_val_tRKSt9nothrow_t, (void *pointer, size_t alignment, const void *tag));
REAL(void, _ZdaPvSt11align_val_tRKSt9nothrow_t, (void *pointer, size_t alignment, const void *tag));

/* Whether a function is that of a library of C++, and not one with which the program has replaced it. */
static bool is_of_library(uintptr_t function)
{
    Dl_info found;
    return LIBRARY->dladdr((const void *)function, &found) != 0 && found.dli_fname != NULL
           && library_is_of_cxx(found.dli_fname);
}

static bool are_all_of_library(const uintptr_t *forms, size_t count)
{
    size_t of_library = 0;
    while (of_library < count && is_of_library(forms[of_library]))
        of_library++;
    return of_library == count;
}

#define WORD(name) (uintptr_t)&real_##name

/* The library's, as this module calls them. Some call others, so all of them have to be. */
static bool new_is_of_library(void)
{
    const uintptr_t forms[] = {
        WORD(_Znwm), WORD(_Znam), WORD(_ZnwmRKSt9nothrow_t), WORD(_ZnamRKSt9nothrow_t), WORD(_ZnwmSt11align_val_t),
        WORD(_ZnamSt11align_val_t), WORD(_ZnwmSt11align_val_tRKSt9nothrow_t), WORD(_ZnamSt11align_val_tRKSt9nothrow_t),
    };
    return are_all_of_library(forms, sizeof forms / sizeof *forms);
}

static bool delete_is_of_library(void)
{
    const uintptr_t forms[] = {
        WORD(_ZdlPv), WORD(_ZdaPv), WORD(_ZdlPvm), WORD(_ZdaPvm), WORD(_ZdlPvRKSt9nothrow_t),
        WORD(_ZdaPvRKSt9nothrow_t), WORD(_ZdlPvSt11align_val_t), WORD(_ZdaPvSt11align_val_t),
        WORD(_ZdlPvmSt11align_val_t), WORD(_ZdaPvmSt11align_val_t), WORD(_ZdlPvSt11align_val_tRKSt9nothrow_t),
        WORD(_ZdaPvSt11align_val_tRKSt9nothrow_t),
    };
    return are_all_of_library(forms, sizeof forms / sizeof *forms);
}

static _Atomic signed char known; /* 1: all operators are the library's; -1: one is not; 0: it is not known yet */

static __attribute__((noinline, cold)) bool look_at_operators(void)
{
    if (!HAS_HOOKS || LIBRARY->dladdr == NULL)
        return false;
    bool are_of_library = new_is_of_library() && delete_is_of_library();
    atomic_store_explicit(&known, are_of_library ? 1 : -1, memory_order_relaxed);
    return are_of_library;
}

/* Whether nobody has replaced any of them. */
static inline bool operators_are_of_library(void)
{
    signed char now = atomic_load_explicit(&known, memory_order_relaxed);
    return LIKELY(now != 0) ? now > 0 : look_at_operators();
}

static inline enum family family_or_any(enum family family)
{
    return LIKELY(operators_are_of_library()) ? family : FAMILY_ANY;
}

#define NEW(name, family, parameters, arguments)                                                                       \
    WRAPPED void *__wrap_##name parameters                                                                             \
    {                                                                                                                  \
        IS_OWN_FRAME;                                                                                                  \
        struct said before;                                                                                            \
        note_operator(&before, CALLER(), (struct use){family_or_any(family), 0, 0});                                   \
        void *made = real_##name arguments;                                                                            \
        note_operator_end(&before);                                                                                    \
        return made;                                                                                                   \
    }

/* One without an alignment says 0, as one without a size does. One that knows the size says one more. */
#define DELETE(name, family, alignment, size_and_one, parameters, arguments)                                           \
    WRAPPED void __wrap_##name parameters                                                                              \
    {                                                                                                                  \
        IS_OWN_FRAME;                                                                                                  \
        struct said before;                                                                                            \
        note_operator(&before, CALLER(), (struct use){family_or_any(family), alignment, size_and_one});                \
        real_##name arguments;                                                                                         \
        note_operator_end(&before);                                                                                    \
    }

/* The library rounds the size up to the alignment, so that what lies between would belong to the block. Null: it has to
   be asked. If there is no memory, it calls the new handler, and throws. */
static void *aligned_new(size_t size, size_t alignment)
{
    bool is_power = alignment != 0 && (alignment & (alignment - 1)) == 0;
    return is_power && operators_are_of_library() ? aligned_alloc(alignment, size != 0 ? size : 1) : NULL;
}

#define ALIGNED_NEW(name, family, parameters, arguments)                                                               \
    WRAPPED void *__wrap_##name parameters                                                                             \
    {                                                                                                                  \
        IS_OWN_FRAME;                                                                                                  \
        struct said before;                                                                                            \
        note_operator(&before, CALLER(), (struct use){family_or_any(family), alignment, 0});                           \
        void *made = aligned_new(size, alignment);                                                                     \
        if (made == NULL)                                                                                              \
            made = real_##name arguments;                                                                              \
        note_operator_end(&before);                                                                                    \
        return made;                                                                                                   \
    }

#define TAG const void *tag
#define ALIGNMENT_TO size_t alignment
NEW(_Znwm, FAMILY_NEW, (size_t size), (size))
NEW(_Znam, FAMILY_NEW_ARRAY, (size_t size), (size))
NEW(_ZnwmRKSt9nothrow_t, FAMILY_NEW, (size_t size, TAG), (size, tag))
NEW(_ZnamRKSt9nothrow_t, FAMILY_NEW_ARRAY, (size_t size, TAG), (size, tag))
ALIGNED_NEW(_ZnwmSt11align_val_t, FAMILY_NEW, (size_t size, ALIGNMENT_TO), (size, alignment))
ALIGNED_NEW(_ZnamSt11align_val_t, FAMILY_NEW_ARRAY, (size_t size, ALIGNMENT_TO), (size, alignment))
ALIGNED_NEW(_ZnwmSt11align_val_tRKSt9nothrow_t, FAMILY_NEW, (size_t size, ALIGNMENT_TO, TAG), (size, alignment, tag))
ALIGNED_NEW(_ZnamSt11align_val_tRKSt9nothrow_t, FAMILY_NEW_ARRAY, (size_t size, ALIGNMENT_TO, TAG),
            (size, alignment, tag))
DELETE(_ZdlPv, FAMILY_NEW, 0, 0, (void *pointer), (pointer))
DELETE(_ZdaPv, FAMILY_NEW_ARRAY, 0, 0, (void *pointer), (pointer))
DELETE(_ZdlPvm, FAMILY_NEW, 0, size + 1, (void *pointer, size_t size), (pointer, size))
DELETE(_ZdaPvm, FAMILY_NEW_ARRAY, 0, size + 1, (void *pointer, size_t size), (pointer, size))
DELETE(_ZdlPvRKSt9nothrow_t, FAMILY_NEW, 0, 0, (void *pointer, TAG), (pointer, tag))
DELETE(_ZdaPvRKSt9nothrow_t, FAMILY_NEW_ARRAY, 0, 0, (void *pointer, TAG), (pointer, tag))
DELETE(_ZdlPvSt11align_val_t, FAMILY_NEW, alignment, 0, (void *pointer, ALIGNMENT_TO), (pointer, alignment))
DELETE(_ZdaPvSt11align_val_t, FAMILY_NEW_ARRAY, alignment, 0, (void *pointer, ALIGNMENT_TO), (pointer, alignment))
DELETE(_ZdlPvmSt11align_val_t, FAMILY_NEW, alignment, size + 1, (void *pointer, size_t size, ALIGNMENT_TO),
       (pointer, size, alignment))
DELETE(_ZdaPvmSt11align_val_t, FAMILY_NEW_ARRAY, alignment, size + 1, (void *pointer, size_t size, ALIGNMENT_TO),
       (pointer, size, alignment))
DELETE(_ZdlPvSt11align_val_tRKSt9nothrow_t, FAMILY_NEW, alignment, 0, (void *pointer, ALIGNMENT_TO, TAG),
       (pointer, alignment, tag))
DELETE(_ZdaPvSt11align_val_tRKSt9nothrow_t, FAMILY_NEW_ARRAY, alignment, 0, (void *pointer, ALIGNMENT_TO, TAG),
       (pointer, alignment, tag))
