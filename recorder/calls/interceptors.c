/* The other names that AddressSanitizer's functions have which stand in the place of the C library's: `__interceptor_`
   and the name. Each goes to what the program calls by the name itself. The build leaves the names here as they are, so
   that the linker wraps them.

   A program that has the function itself may call the other name in it. It comes past its own function then: to the C
   library's, without a check, or to the allocator.

   One member of the library, that comes in only if it is asked for.

   Called: as stubs.h says; `next_functions`, with the functions after the program's, is filled by a constructor, in one
   thread, not in a handler: it takes the loader's lock for a moment. */
#include "base/processor_stubs.h"
#include "libc/library.h"
#include "shadow/mapping.h"

#define BEGIN(name)                                                                                                    \
    ".weak __interceptor_" #name "\n" SHOWN("__interceptor_" #name)                                                    \
    ".type __interceptor_" #name ",@function\n__interceptor_" #name ":\n"
#define GO(name) "\t.weak " #name "\n" GO_BY_SLOT(#name)
#define BY_NAME(name) BEGIN(name) GO(name)

#ifdef IN_SHARED_OBJECT
#define SHOWN(name) ".hidden " name "\n"
#define BELOW(name) BY_NAME(name)
#define WRAP(name) BY_NAME(name)
#else
#define SHOWN(name)
#define BELOW(name) BEGIN(name) GO(__libc_##name)
#define WRAP(name)                                                                                                     \
    BEGIN(name)                                                                                                        \
    "\t.weak __real_" #name "\n" GO_IF_OF_PROGRAM("__real_" #name, "program_size", "1f") GO(name)                      \
    "1:" GO_BY_POINTER("2f")                                                                                           \
    "\t.pushsection .data\n2:\t.quad 0, 3f\n\t.popsection\n"                                                           \
    "\t.pushsection .rodata\n3:\t.asciz \"" #name "\"\n\t.popsection\n"
#endif

/* A weak name brings no stub in. */
#if defined IN_SHARED_OBJECT || defined IS_STATIC
#define ASKS_FOR_STUBS
#else
#define ASKS_FOR_STUBS "\t.long asancol_every_call - .\n"
#endif

/* The text is longer than each compiler of the language has to take. */
#pragma GCC diagnostic ignored "-Woverlength-strings"

TOP_ASM(".pushsection .data\n\t.balign 8\nnext_functions:\n\t.popsection\n"
        ".pushsection .text\n"
        "\t.cfi_startproc\n"
        BELOW(malloc) BELOW(free) BELOW(calloc) BELOW(realloc) BELOW(reallocarray) BELOW(memalign) BELOW(valloc)
        BELOW(pvalloc) BY_NAME(aligned_alloc) BY_NAME(posix_memalign) BY_NAME(malloc_usable_size) BY_NAME(mallopt)
        BY_NAME(mallinfo) BY_NAME(malloc_stats)
#ifndef IS_STATIC /* there nothing is wrapped, and not each function is linked */
#include "out/calls.list"
#endif
        "\t.cfi_endproc\n"
        ASKS_FOR_STUBS
        ".popsection\n"
        ".pushsection .data\nnext_functions_end:\n\t.popsection\n");

#if !defined IN_SHARED_OBJECT && !defined IS_STATIC

struct next_function {
    void *code;
    const char *name;
};

extern struct next_function next_functions[] __attribute__((visibility("hidden")));
extern struct next_function next_functions_end[] __attribute__((visibility("hidden")));

/* Until they are found nothing is the program's own. */
__attribute__((used)) static size_t program_size;

__attribute__((constructor(101))) static void find_next_functions(void)
{
    for (struct next_function *it = next_functions; it != next_functions_end; it++)
        it->code = library_next(it->name);
    program_size = own_code.size;
}

#endif
