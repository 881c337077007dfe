/* What the linker calls in the place of a wrapped function: a stub before the check. A program may have a function of
   that name with other parameters. So the stub changes no argument, and asks whether the name is the C library's. Only
   then it goes to the check; else it goes to the function.

   Called: by the program's calls, in any thread, also in a signal handler, and before the recorder's start. Lock: none:
   a stub reads the hook page alone. */
#ifndef ASANCOL_STUBS_H
#define ASANCOL_STUBS_H

#include <stddef.h>

#include "base/processor_stubs.h"
#include "libc/hook_page.h"
#include "shadow/shadow.h"

#define TEXT_OF(word) #word
#define TEXT(word) TEXT_OF(word)

_Static_assert(offsetof(struct hook_page, library) == 8, "as the stubs have it");
_Static_assert(offsetof(struct hook_page, system) == 24, "as the stubs have it");
_Static_assert(offsetof(struct hook_page, mathematics) == 40, "as the stubs have it");
_Static_assert(offsetof(struct hook_page, program) == 56, "as the stubs have it");

/* A program shows its stubs, since a library that it is linked with may have unversioned calls: a linker that wraps
   takes these for calls of the stub. They are weak there: a program may wrap a function by itself, as tests do. If a
   shared object does, its calls would come to the stub of the program. */
#ifdef IN_SHARED_OBJECT
#define HIDE(label) ".hidden " label "\n"
#define BIND(label) ".globl " label "\n"
#else
#define HIDE(label)
#define BIND(label) ".weak " label "\n"
#endif

/* `label` goes to `check` if the code of `tested` is in one of the three ranges of the hook page, and else to
   `real`. */
#define GUARD(label, tested, check, real) GUARD_AFTER("", label, tested, check, real)
#define GUARD_AFTER(first, label, tested, check, real)                                                                 \
    TOP_ASM(".pushsection .text\n"                                                                                     \
            ".p2align 4\n"                                                                                             \
            HIDE(label) ".type " label ",@function\n" label ":\n.L" label ":\n"                                        \
            "\t.cfi_startproc\n"                                                                                       \
            LANDING first GO_IF_CHECKED(tested, check, real)                                                           \
            "\t.cfi_endproc\n"                                                                                         \
            ".size " label ", .-" label "\n"                                                                           \
            ".popsection\n");

/* The function itself, apart from what a header declares and from the recorder's own of that name. */
#define REAL(type, name, parameters) extern type real_##name parameters NAMED("__real_" #name)

/* The program's stubs of the C library are in a list (plain.c): how far from there the stub is, the pointer to its
   function, and the name. A program may wrap the function by itself, so the stub is not meant by its name. */
#define IN_LIST ".pushsection asancol_stubs,\"a\",@progbits\n\t.balign 4\n"
#define LISTED(name)                                                                                                   \
    TOP_ASM(SLOT_FOR_LIST("__real_" #name) IN_LIST                                                                     \
            "\t.long .L__wrap_" #name " - .\n"                                                                         \
            SLOT_OF_LIST("__real_" #name)                                                                              \
            "\t.long .Lname_of_" #name " - .\n"                                                                        \
            ".popsection\n"                                                                                            \
            ".pushsection .rodata.str1.1,\"aMS\",@progbits,1\n"                                                        \
            ".Lname_of_" #name ": .asciz \"" #name "\"\n"                                                              \
            ".popsection\n")
/* A linker that leaves out what nobody asks for keeps what a file has in the list if it keeps the file's code. */
#define KEEPS_LIST(label)                                                                                              \
    TOP_ASM(IN_LIST ".Llisted:\n.popsection\n"                                                                         \
            ".pushsection .text\n\t.balign 4\n.globl " label "\n" label ":\n\t.long .Llisted - .\n.popsection\n");

#if defined LISTS_STUBS || defined IS_PRELOAD
#define LIST(name) LISTED(name);
#else
#define LIST(name)
#endif

#define STUB(name)                                                                                                     \
    TOP_ASM(BIND("__wrap_" #name));                                                                                    \
    GUARD("__wrap_" #name, "__real_" #name, "checked_" #name, "__real_" #name)                                         \
    LIST(name)

/* Of a lock: its function is called as it is if the shadow of the lock is clean, whosever function that is. That is one
   word, of an object that begins a granule. */
_Static_assert(STUBS_SHADOW_START == SHADOW_START && GRANULE == 8, "as the stubs have it");
_Static_assert((int)STUBS_ADDRESS_BITS == (int)ADDRESS_BITS, "as the stubs have it");
#define STUB_OF_LOCK(name, bytes)                                                                                      \
    TOP_ASM(BIND("__wrap_" #name));                                                                                    \
    GUARD_AFTER(GO_IF_CLEAN(name, bytes), "__wrap_" #name, "__real_" #name, "checked_" #name, "__real_" #name)         \
    LIST(name)

/* For a function whose effect depends on its caller, and that the program calls to end, to go on otherwise or to give
   memory another use: what it does is seen as long as the name is not the object's own, or the program's. Before the
   recorder's start, as from .preinit_array, it is not. */
#define GUARD_OWN_OF_CALLER(name) GUARD_OWN_BUT(name, "")
#define GUARD_OWN_BUT(name, first)                                                                                     \
    TOP_ASM(".pushsection .text\n"                                                                                     \
            ".p2align 4\n" BIND("__wrap_" #name)                                                                       \
            HIDE("__wrap_" #name) ".type __wrap_" #name ",@function\n__wrap_" #name ":\n.L__wrap_" #name ":\n"         \
            "\t.cfi_startproc\n"                                                                                       \
            LANDING GO_UNLESS_OWN(name, first)                                                                         \
            "\t.cfi_endproc\n"                                                                                         \
            ".size __wrap_" #name ", .-__wrap_" #name "\n"                                                             \
            ".popsection\n")

/* For one whose effect is the same whoever calls it, plain libraries too; and a plain program that has the recorder
   preloaded. */
#ifndef IN_SHARED_OBJECT
#define GUARD_OWN(name)                                                                                                \
    GUARD_OWN_OF_CALLER(name);                                                                                         \
    LISTED(name)
#define GUARD_INTERCEPTED(name)                                                                                        \
    GUARD_OWN_BUT(name, IF_INTERCEPTED(name));                                                                         \
    LISTED(name)
#else
#define GUARD_OWN(name) GUARD_OWN_OF_CALLER(name)
#define GUARD_INTERCEPTED(name) GUARD_OWN_BUT(name, IF_INTERCEPTED(name))
#endif

/* The runtimes of Clang's sanitizers have a function of the name for the program's calls, which is the library's. */
#define IF_INTERCEPTED(name)                                                                                           \
    ".weak __interceptor_" #name "\n" GO_IF_IT_IS("__interceptor_" #name, "checked_" #name)

/* For a function whose check calls another one: both have to be the library's. */
#define STUB_OF_TWO(name, other)                                                                                       \
    TOP_ASM(BIND("__wrap_" #name));                                                                                    \
    GUARD("__wrap_" #name, "__real_" #name, "other_of_" #name, "__real_" #name)                                        \
    GUARD("other_of_" #name, "__real_" #other, "checked_" #name, "__real_" #name)                                      \
    LIST(name)

/* A check is reached by its stub alone. */
#define CHECK __attribute__((used)) static

#endif
