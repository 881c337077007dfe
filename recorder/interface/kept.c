/* The calls for a bad access from checks that a plugin of ours has made (plugin/): each gets the address, and keeps all
   registers, since the code that calls it goes on as after no call. So a check needs no room for what a call would
   destroy. The access's own instruction and frame are noted, as by callbacks.c.

   Called: as callbacks.h says, by compiled code; no lock. */
#include "interface/callbacks.h"

#include "base/processor_stubs.h"
#include "interface/hooks.h"

#ifdef REPORT_KEEPING

/* One of ours finds it in its own object, and others in the program. */
#if defined IN_SHARED_OBJECT
#define BIND_REPORT(label) ".globl " label "\n.hidden " label "\n"
#elif defined IN_CHECKS
#define BIND_REPORT(label) ".globl " label "\n"
#else
#define BIND_REPORT(label) ".weak " label "\n"
#endif

#define AS_FUNCTION(label, text)                                                                                       \
    TOP_ASM(".pushsection .text\n"                                                                                     \
            ".p2align 4\n"                                                                                             \
            ".type " label ",@function\n" label ":\n"                                                                  \
            "\t.cfi_startproc\n" text "\t.cfi_endproc\n"                                                               \
            ".size " label ", .-" label "\n"                                                                           \
            ".popsection\n");

/* The kind of the state, the same in all threads: 0 until the first call has asked. */
TOP_ASM(".pushsection .bss\n\t.balign 4\n.Lkind_of_state:\t.zero 4\n.popsection\n");
AS_FUNCTION("asancol_keeping_registers", KEEP_STATE_AND_CALL(".Lkind_of_state"))

#define KEPT_BY(name, width, note)                                                                                     \
    static void kept_##name##width(uintptr_t address, uintptr_t caller) NAMED("asancol_kept_" #name #width);           \
    __attribute__((used)) static void kept_##name##width(uintptr_t address, uintptr_t caller)                          \
    {                                                                                                                  \
        note_checks();                                                                                                 \
        note;                                                                                                          \
    }                                                                                                                  \
    TOP_ASM(BIND_REPORT("asancol_report_" #name #width));                                                              \
    AS_FUNCTION("asancol_report_" #name #width,                                                                        \
                REPORT_KEEPING("asancol_kept_" #name #width, "asancol_keeping_registers"))

#define KEPT(name, code, width) KEPT_BY(name, width, note_access(code, width, address, caller))
#define KEPT_RANGE(name, code, width) KEPT_BY(name, width, note_bad_range(code, address, width, caller))

KEPT(load, CODE_LOAD, 1)
KEPT(load, CODE_LOAD, 2)
KEPT(load, CODE_LOAD, 4)
KEPT(load, CODE_LOAD, 8)
KEPT_RANGE(load, CODE_LOAD, 16)
KEPT(store, CODE_STORE, 1)
KEPT(store, CODE_STORE, 2)
KEPT(store, CODE_STORE, 4)
KEPT(store, CODE_STORE, 8)
KEPT_RANGE(store, CODE_STORE, 16)

#endif
