/* What functions call that keep their variables in frames of a fake stack (fake_stack.h): two functions for each of the
   sizes of frames. They read __asan_option_detect_stack_use_after_return first, which says whether to ask. */
#include "interface/callbacks.h"
#include "interface/fake_frames.h"
#include "interface/hooks.h"

/* Those of a shared object read their own, which says the same as the program's from before the object's constructors
   on. Until then, and in a program without a recorder, they get no frames. */
CALLBACK int __asan_option_detect_stack_use_after_return;

#ifdef IN_SHARED_OBJECT
void fake_frames_begin(void)
{
    __asan_option_detect_stack_use_after_return = HAS_HOOKS ? *asancol_hooks.takes_frames : FRAMES_NEVER;
}
#endif

/* If they are refused, the first that asks says so, and no other of this module. */
static uintptr_t take_if_given(unsigned class, uintptr_t real)
{
    if (LIKELY(__asan_option_detect_stack_use_after_return != FRAMES_REFUSED))
        return ask_fake_frame(class, real);
    __atomic_store_n(&__asan_option_detect_stack_use_after_return, FRAMES_NEVER, __ATOMIC_RELAXED);
    note_skipped(SKIPPED_RETURNS);
    return 0;
}

#define FRAMES(class)                                                                                                  \
    CALLBACK uintptr_t __asan_stack_malloc_##class(size_t size)                                                        \
    {                                                                                                                  \
        (void)size;                                                                                                    \
        return take_if_given(class, (uintptr_t)__builtin_frame_address(0));                                            \
    }                                                                                                                  \
    CALLBACK uintptr_t __asan_stack_malloc_always_##class(size_t size)                                                 \
    {                                                                                                                  \
        (void)size;                                                                                                    \
        return ask_fake_frame(class, (uintptr_t)__builtin_frame_address(0));                                           \
    }                                                                                                                  \
    CALLBACK void __asan_stack_free_##class(uintptr_t frame, size_t size)                                              \
    {                                                                                                                  \
        (void)size;                                                                                                    \
        note_fake_frame_end(frame, class);                                                                             \
    }

FRAMES(0)
FRAMES(1)
FRAMES(2)
FRAMES(3)
FRAMES(4)
FRAMES(5)
FRAMES(6)
FRAMES(7)
FRAMES(8)
FRAMES(9)
FRAMES(10)
