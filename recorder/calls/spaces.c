/* Memory that becomes something else: a stack of the program's own may have been there, whose redzones must not stay.
   Here are mmap and the like, makecontext and switches of contexts; mlockall, which must not lock the shadow; and
   mprotect, which may forbid to read a part of the thread's own stack.

   Called: by the program's calls of these, in any thread, also in a signal handler. Lock: none: the shadow, the
   thread's own data and atomic tables are written; by mlockall only errno. A check also calls the function itself. */
#define _GNU_SOURCE
#include <errno.h>
#include <stdarg.h>
#include <sys/mman.h>
#include <ucontext.h>

#include "base/system.h"
#include "calls/stubs.h"
#include "interface/hooks.h"

#ifndef IN_SHARED_OBJECT /* what the program always has of the list */
KEEPS_LIST("asancol_calls_of_all")
#endif

REAL(int, munmap, (void *, size_t));
REAL(void *, mmap, (void *, size_t, int, int, int, off_t));
REAL(void *, mmap64, (void *, size_t, int, int, int, off_t));
REAL(void *, mremap, (void *, size_t, size_t, int, ...));
REAL(int, mprotect, (void *, size_t, int));

/* Whether the system looks at what lies there: it refuses other arguments at once. */
static bool may_unmap(uintptr_t start, size_t size)
{
    return start % SYSTEM_PAGE == 0 && size != 0 && start < MEMORY_END && size <= MEMORY_END - start;
}

/* Before the call: after it another thread may have the addresses. */
GUARD_OWN(munmap);
CHECK int checked_munmap(void *start, size_t size)
{
    if (may_unmap((uintptr_t)start, size))
        shadow_clear((uintptr_t)start, size);
    return real_munmap(start, size);
}

/* It has another name with _FILE_OFFSET_BITS=64. */
#define MMAP(name)                                                                                                     \
    GUARD_OWN(name);                                                                                                   \
    CHECK void *checked_##name(void *start, size_t size, int protection, int flags, int descriptor, off_t offset)      \
    {                                                                                                                  \
        void *found = real_##name(start, size, protection, flags, descriptor, offset);                                 \
        if (found != MAP_FAILED)                                                                                       \
            shadow_clear((uintptr_t)found, size);                                                                      \
        return found;                                                                                                  \
    }

MMAP(mmap)
MMAP(mmap64)

GUARD_OWN(mremap);
CHECK void *checked_mremap(void *old, size_t old_size, size_t size, int flags, ...)
{
    va_list rest;
    va_start(rest, flags);
    void *wanted = flags & MREMAP_FIXED ? va_arg(rest, void *) : NULL;
    va_end(rest);
    void *found = real_mremap(old, old_size, size, flags, wanted);
    if (found != MAP_FAILED && found != old)
        shadow_clear((uintptr_t)found, size);
    return found;
}

/* A walk over the stack reads no page that is forbidden. */
GUARD_OWN(mprotect);
CHECK int checked_mprotect(void *start, size_t size, int protection)
{
    bool can_be_read = (protection & PROT_READ) != 0;
    if (!can_be_read)
        note_rights((uintptr_t)start, size, false);
    int done = real_mprotect(start, size, protection);
    if (can_be_read && done == 0)
        note_rights((uintptr_t)start, size, true);
    return done;
}

/* Not untouched memory: the shadow has 32 TiB of addresses. Nor is it refused because of these, as by the limit
   of users who may lock little: then nothing is locked, as with AddressSanitizer. */
#ifdef IS_PRELOAD /* a plain program may call it before a module with checks has come (start/exports.c) */
int asancol_instead_mlockall(int flags);
int asancol_instead_mlockall(int flags)
#else
GUARD_OWN(mlockall);
CHECK int checked_mlockall(int flags)
#endif
{
    long failed = system_call3(SYS_mlockall, flags | MCL_ONFAULT, 0, 0);
    if (failed == 0 || failed == -ENOMEM)
        return 0;
    errno = (int)-failed;
    return -1;
}

/* Switches. The function is gone to, and not called: what it keeps of its caller may be gone to more than once. */

/* The stack of a context, if the address lies on it: only makecontext needs to know of one. */
static struct span stack_of(const ucontext_t *context, uintptr_t address)
{
    uintptr_t start = (uintptr_t)context->uc_stack.ss_sp;
    return address - start < context->uc_stack.ss_size ? (struct span){start, start + context->uc_stack.ss_size}
                                                       : (struct span){0, 0};
}

/* `old` is null if the caller is left for good. */
__attribute__((used)) static void before_switch(const ucontext_t *old, const ucontext_t *new, uintptr_t frame)
{
    uintptr_t target = CONTEXT_STACK(new);
    struct stack_switch it = {.frame = frame, .target = target, .goes_on = old != NULL, .says_stacks = true};
    it.to = stack_of(new, target);
    if (old != NULL)
        it.from = stack_of(old, frame);
    note_stack_switch(&it);
}

/* What follows calls `before` with the first two arguments and the frame of the caller, and goes to the function. */
#define NOTED(label, name, before, pass)                                                                               \
    TOP_ASM(".pushsection .text\n"                                                                                     \
            ".type " label ",@function\n" label ":\n"                                                                  \
            "\t.cfi_startproc\n"                                                                                       \
            LANDING CALL_WITH_STACK(#before, pass) GO_BY_SLOT("__real_" #name)                                         \
            "\t.cfi_endproc\n"                                                                                         \
            ".size " label ", .-" label "\n"                                                                           \
            ".popsection\n");

#define SWITCH(name, pass)                                                                                             \
    STUB(name)                                                                                                         \
    NOTED("checked_" #name, name, before_switch, pass)

SWITCH(swapcontext, "")
SWITCH(setcontext, FIRST_IS_SECOND)

/* A stack of the program's own begins anew. Functions interrupted on it will not continue. Any number of arguments may
   follow these. */
__attribute__((used)) static void before_makecontext(const ucontext_t *context, const void *function, uintptr_t frame)
{
    uintptr_t start = (uintptr_t)context->uc_stack.ss_sp;
    (void)function, (void)frame;
    note_stack_begins((struct span){start, start + context->uc_stack.ss_size});
}

GUARD_OWN(makecontext);
NOTED("checked_makecontext", makecontext, before_makecontext, "")

/* Those of Boost.Context, whose callers are its headers. A context is its stack pointer. */

__attribute__((used)) static void before_make(uintptr_t top, size_t size)
{
    note_stack_begins((struct span){top - size, top});
}

__attribute__((used)) static void before_jump(uintptr_t target, const void *unused, uintptr_t frame)
{
    (void)unused;
    note_stack_switch(&(struct stack_switch){.frame = frame, .target = target, .goes_on = true});
}

#define OF_BOOST(name, before)                                                                                         \
    TOP_ASM(".weak __real_" #name "\n" BIND("__wrap_" #name) HIDE("__wrap_" #name));                                   \
    NOTED("__wrap_" #name, name, before, "")

OF_BOOST(make_fcontext, before_make)
OF_BOOST(jump_fcontext, before_jump)
OF_BOOST(ontop_fcontext, before_jump)
