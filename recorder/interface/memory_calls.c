/* Objects that Clang has compiled call these in the place of three functions of the C library. They go to the stubs of
   these by a jump, so that the caller is the program; in a static program, which has no stubs, to the functions.

   Called: by compiled code, in any thread, also in a signal handler. Lock: none, as for any memcpy.

   For programs they are compiled twice, as callbacks.h says of the others. Those of the program's own objects bring the
   stubs in; the weak ones, which are always there, go to stubs if these are in the program for its libraries. */

#include "base/platform.h"
#include "base/processor_stubs.h"

#if defined IN_SHARED_OBJECT
#define BINDING ".globl", ".hidden"
#define STUB_OF(name) "__wrap_" #name
#elif defined IN_CHECKS
#define BINDING ".globl", ".globl"
#define STUB_OF(name) "__wrap_" #name
#else
#define BINDING ".weak", ".weak"
#define STUB_OF(name) "asancol_every_" #name
#endif

#ifdef IS_STATIC
#define GO_ON(name) GO_BY_SLOT(#name)
#elif defined IN_CHECKS
#define GO_ON(name) GO_BY_SLOT(STUB_OF(name))
#else
#define GO_ON(name) ".weak " STUB_OF(name) "\n" GO_TO_EITHER(STUB_OF(name), #name)
#endif

#define MEMORY_CALL_BOUND(binding, visibility, name)                                                                   \
    TOP_ASM(".pushsection .text\n"                                                                                     \
            ".p2align 4\n"                                                                                             \
            binding " __asan_" #name "\n"                                                                              \
            visibility " __asan_" #name "\n"                                                                           \
            ".type __asan_" #name ",@function\n"                                                                       \
            "__asan_" #name ":\n"                                                                                      \
            "\t.cfi_startproc\n"                                                                                       \
            LANDING GO_ON(name)                                                                                        \
            "\t.cfi_endproc\n"                                                                                         \
            ".size __asan_" #name ", .-__asan_" #name "\n"                                                             \
            ".popsection\n");
#define MEMORY_CALL_WITH(binding, name) MEMORY_CALL_BOUND(binding, name)
#define MEMORY_CALL(name) MEMORY_CALL_WITH(BINDING, name)

MEMORY_CALL(memcpy)
MEMORY_CALL(memmove)
MEMORY_CALL(memset)
