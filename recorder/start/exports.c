/* The preloaded recorder has names of the C library: these, which lead where preload_choice.c says. A call comes here
   with whatever its caller has given it, and its caller stays the caller.

   Called: by all that calls such a name, in any thread, also in a signal handler, from before the first constructor on.
   No lock is taken here; preload_choice.h has the first call of each name. */
#include "base/platform.h"
#include "base/processor_stubs.h"
#include "process/preload_choice.h"

/* The recorder's function of the name is called `asancol_instead_NAME` (Makefile). At its first call a way leads to
   find_way, with the way. A module that was opened with RTLD_DEEPBIND finds the C library's function first: so
   that is in the list of stubs too (LISTED in calls/stubs.h), and the module's slot is led here. */
#define EXPORT(name)                                                                                                   \
    TOP_ASM(".pushsection .text\n"                                                                                     \
            ".p2align 4\n"                                                                                             \
            ".globl " #name "\n.type " #name ",@function\n" #name ":\n"                                                \
            ".globl asancol_exported_" #name "\n.hidden asancol_exported_" #name "\n"                                  \
            "asancol_exported_" #name ":\n"                                                                            \
            "\t.cfi_startproc\n"                                                                                       \
            LANDING GO_BY_POINTER(".Lway_" #name)                                                                      \
            ".Lfirst_" #name ":\n"                                                                                     \
            LANDING GO_ASKING("find_way", ".Lway_" #name)                                                              \
            "\t.cfi_endproc\n"                                                                                         \
            ".size " #name ", .-" #name "\n"                                                                           \
            ".popsection\n"                                                                                            \
            ".pushsection asancol_exported,\"aw\",@progbits\n"                                                         \
            ".balign 8\n"                                                                                              \
            ".Lway_" #name ": .quad .Lfirst_" #name ", asancol_instead_" #name ", asancol_exported_" #name "\n"        \
            "\t.quad .Lname_" #name "\n"                                                                               \
            ".Lbehind_" #name ": .quad 0\n"                                                                            \
            ".popsection\n"                                                                                            \
            ".pushsection asancol_stubs,\"a\",@progbits\n"                                                             \
            "\t.long asancol_exported_" #name " - .\n"                                                                 \
            "\t.long .Lbehind_" #name " - .\n"                                                                         \
            "\t.long .Lname_" #name " - .\n"                                                                           \
            ".popsection\n"                                                                                            \
            ".pushsection .rodata.str1.1,\"aMS\",@progbits,1\n"                                                        \
            ".Lname_" #name ": .asciz \"" #name "\"\n"                                                                 \
            ".popsection\n");

#include "out/exported.def"
EXPORT(dlsym)
EXPORT(dlvsym)
EXPORT(mlockall)

TOP_ASM(".pushsection .text\n"
        ".p2align 4\n"
        ".type find_way,@function\nfind_way:\n"
        "\t.cfi_startproc\n"
        ASK_AND_GO("asancol_way_of")
        "\t.cfi_endproc\n"
        ".size find_way, .-find_way\n"
        ".popsection\n");
