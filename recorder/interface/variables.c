/* What compiled code calls for variables on the stack, for globals and for arrays: each call writes the shadow. Most
   redzones of a frame compiled code writes itself.

   Called: for variables and arrays by compiled code, in any thread, also in a signal handler, without a lock; but
   redzones of fields and counts of elements are recorded, which may take the allocator's and the stream's, as
   note_checks may (callbacks.h). For globals by the constructors and destructors of a module, not in a handler, with
   the loader's lock, or before there are threads. */
#include <string.h>

#include "interface/callbacks.h"
#include "shadow/globals.h"
#include "interface/hooks.h"
#include "interface/registering.h"
#include "libc/hook_page.h"
#include "shadow/mapping.h"

/* By the redzone that the table itself is, of what lies beside it. Of its globals some may be in other tables too: a
   shared object's that the program has defined in their place. */
static bool is_registered(const struct global *globals)
{
    return *shadow_of((uintptr_t)globals) == SHADE_GLOBAL;
}

/* A constructor of the compilers' calls this, which may come before the recorder's, or after this was called for it
   (registering.c). */
CALLBACK void __asan_register_globals(const struct global *globals, uintptr_t count)
{
    note_checks();
    shadow_map();
    if (count == 0 || is_registered(globals))
        return;
    note_globals(globals, count, true); /* it looks for redzones of others */
    for (uintptr_t i = 0; i < count; i++)
        shadow_poison(globals[i].start + globals[i].size, globals[i].size_with_redzone - globals[i].size, SHADE_GLOBAL);
    shadow_poison((uintptr_t)globals, count * sizeof *globals, SHADE_GLOBAL);
}

/* A destructor calls this, and others come after it, so what the module has itself stays up to its last one. */
CALLBACK void __asan_unregister_globals(const struct global *globals, uintptr_t count)
{
    struct image own = image_of_module();
    if ((uintptr_t)globals >= own.start && (uintptr_t)globals < own.end)
        return;
    note_globals(globals, count, false);
    for (uintptr_t i = 0; i < count; i++)
        shadow_clear(globals[i].start, globals[i].size_with_redzone);
    shadow_clear((uintptr_t)globals, count * sizeof *globals);
}

CALLBACK void __asan_register_elf_globals(uintptr_t *flag, const struct global *start, const struct global *end)
{
    if (*flag == 0 && start != end)
        __asan_register_globals(start, (uintptr_t)(end - start));
    *flag = 1;
}

CALLBACK void __asan_unregister_elf_globals(uintptr_t *flag, const struct global *start, const struct global *end)
{
    if (*flag != 0 && start != end)
        __asan_unregister_globals(start, (uintptr_t)(end - start));
    *flag = 0;
}

CALLBACK void __asan_register_image_globals(uintptr_t *flag)
{
    *flag = 1;
}

/* Long runs of a frame's shadow. */

#define SET_SHADOW(digits)                                                                                             \
    CALLBACK void __asan_set_shadow_##digits(uintptr_t shadow, size_t size)                                            \
    {                                                                                                                  \
        memset((void *)shadow, 0x##digits, size);                                                                      \
    }

SET_SHADOW(00)
SET_SHADOW(f1)
SET_SHADOW(f2)
SET_SHADOW(f3)
SET_SHADOW(f5)
SET_SHADOW(f8)

/* A variable whose scope ends, and begins again. It starts at a granule. */
CALLBACK void __asan_poison_stack_memory(uintptr_t address, size_t size)
{
    shadow_poison(address, size, SHADE_SCOPE);
}

CALLBACK void __asan_unpoison_stack_memory(uintptr_t address, size_t size)
{
    shadow_unpoison(address, size);
}

/* alloca, and arrays of variable length: the compiler leaves 32 bytes before and after, and fills up to a multiple. */
enum { ALLOCA_REDZONE = 32 };

CALLBACK void __asan_alloca_poison(uintptr_t address, size_t size)
{
    note_checks();
    uintptr_t end = (address + size + ALLOCA_REDZONE - 1) / ALLOCA_REDZONE * ALLOCA_REDZONE + ALLOCA_REDZONE;
    shadow_poison(address - ALLOCA_REDZONE, ALLOCA_REDZONE, SHADE_ALLOCA_LEFT);
    shadow_clear(address, size);
    shadow_poison(address + size, end - address - size, SHADE_ALLOCA_RIGHT);
}

CALLBACK void __asan_allocas_unpoison(uintptr_t top, uintptr_t bottom)
{
    if (top != 0 && top < bottom)
        shadow_clear(top, bottom - top);
}

/* What -fsanitize-address-field-padding puts between the fields of a class. */
CALLBACK void __asan_poison_intra_object_redzone(uintptr_t address, size_t size)
{
    note_poison_as(SHADE_FIELD, address, size);
}

CALLBACK void __asan_unpoison_intra_object_redzone(uintptr_t address, size_t size)
{
    note_regions(CODE_UNPOISON, address, size);
}

/* Clang's count of the elements of an array that `new` has made, if they have destructors. */
CALLBACK void __asan_poison_cxx_array_cookie(uintptr_t address)
{
    if (!HOOK_PAGE->switches.has_no_counts)
        note_poison_of_count(address);
}

/* Before they are called. Of an array that was freed there is none: the free that follows is reported. */
CALLBACK uintptr_t __asan_load_cxx_array_cookie(const uintptr_t *count)
{
    return *shadow_of((uintptr_t)count) == SHADE_FREED ? 0 : *count;
}

/* Before a call that does not return: frames from here up may be left without their returns. */
CALLBACK void __asan_handle_no_return(void)
{
    note_checks();
    note_frames_left((uintptr_t)__builtin_frame_address(0));
}
