/* Asks for all groups of calls, in a program that may have libraries which call any of them: asancol-cc asks for this,
   and so does what opens a library. No code is called here, and no lock or thread matters: it is a list of names. */
#include "base/platform.h"
#include "base/processor_stubs.h"

#define GROUP(name) "\t.long asancol_calls_" #name " - .\n"

/* For memory_calls.c. */
#define STUB(name)                                                                                                     \
    ".globl asancol_every_" #name "\n"                                                                                 \
    ".type asancol_every_" #name ",@function\n"                                                                        \
    "asancol_every_" #name ":\n"                                                                                       \
    "\t.cfi_startproc\n"                                                                                               \
    LANDING GO_BY_SLOT("__wrap_" #name)                                                                                \
    "\t.cfi_endproc\n"                                                                                                 \
    ".size asancol_every_" #name ", .-asancol_every_" #name "\n"

TOP_ASM(".pushsection .text\n"
        "\t.balign 16\n"
        ".globl asancol_every_call\nasancol_every_call:\n"
#include "out/groups.def"
        STUB(memcpy) STUB(memmove) STUB(memset)
        ".popsection\n");
