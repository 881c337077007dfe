/* The assembly of AArch64: the texts of which stubs are made. processor_stubs.h includes it; what each is for stands in
   x86_64_stubs.h. In all of them x9 to x17 are free, and all that may bring an argument stays. */
#ifndef ASANCOL_AARCH64_STUBS_H
#define ASANCOL_AARCH64_STUBS_H

#define LANDING "\thint #34\n"
#define LOAD_SLOT(register, name)                                                                                      \
    "\tadrp " register ", :got:" name "\n\tldr " register ", [" register ", :got_lo12:" name "]\n"
#define LOAD_WORD(register, name)                                                                                      \
    "\tadrp " register ", " name "\n\tldr " register ", [" register ", :lo12:" name "]\n"
#define LOAD_ADDRESS(register, name)                                                                                   \
    "\tadrp " register ", " name "\n\tadd " register ", " register ", :lo12:" name "\n"
#define GO_BY_SLOT(name) LOAD_SLOT("x16", name) "\tbr x16\n"
#define GO_BY_POINTER(label) LOAD_WORD("x16", label) "\tbr x16\n"
#define RETURN "\tret\n"
/* No word says how far a slot is, so the list has a pointer of its own. */
#define SLOT_FOR_LIST(name)                                                                                            \
    ".pushsection .data.rel.ro,\"aw\",@progbits\n\t.balign 8\n.Lslot_of_" name ":\n\t.quad " name "\n.popsection\n"
#define SLOT_OF_LIST(name) "\t.long .Lslot_of_" name " - .\n"

/* The hook page, at a number with 16 bits from the 33rd on. */
#define LOAD_HOOK_PAGE(register) "\tmovz " register ", #" TEXT(HOOK_PAGE_START) " >> 32, lsl #32\n"

#define GO_IF_IN(start, check)                                                                                         \
    "\tldp x10, x11, [x17, #" start "]\n"                                                                              \
    "\tsub x10, x16, x10\n"                                                                                            \
    "\tcmp x10, x11\n"                                                                                                 \
    "\tb.hs 8f\n"                                                                                                      \
    "\tb " check "\n"                                                                                                  \
    "8:\n"
#define GO_IF_CHECKED(tested, check, real)                                                                             \
    LOAD_SLOT("x16", tested) LOAD_HOOK_PAGE("x17")                                                                     \
    GO_IF_IN("8", check) GO_IF_IN("24", check) GO_IF_IN("40", check)                                                   \
    GO_BY_SLOT(real)

#define STUBS_SHADOW_START ((uint64_t)0x10 << 32)
enum { STUBS_ADDRESS_BITS = 48 };
#define GO_IF_CLEAN(name, bytes)                                                                                       \
    "\ttst x0, #7\n"                                                                                                   \
    "\tb.ne 1f\n"                                                                                                      \
    "\tlsr x16, x0, #3\n"                                                                                              \
    "\tadd x17, x16, #8\n"                                                                                             \
    "\tlsr x17, x17, #45\n"                                                                                            \
    "\tcbnz x17, 1f\n"                                                                                                 \
    "\tmovz x17, #0x10, lsl #32\n"                                                                                     \
    "\tldr x16, [x16, x17]\n"                                                                                          \
    "\tlsl x16, x16, #64 - " #bytes "\n"                                                                               \
    "\tcbnz x16, 1f\n" GO_BY_SLOT("__real_" #name) "1:\n"

#define GO_UNLESS_OWN(name, first)                                                                                     \
    LOAD_ADDRESS("x17", "asancol_own_code")                                                                            \
    "\tldp x10, x11, [x17]\n"                                                                                          \
    LOAD_SLOT("x16", "__real_" #name)                                                                                  \
    "\tcbz x11, 1f\n" first                                                                                            \
    "\tsub x12, x16, x10\n"                                                                                            \
    "\tcmp x12, x11\n"                                                                                                 \
    "\tb.lo 1f\n"                                                                                                      \
    LOAD_HOOK_PAGE("x17")                                                                                              \
    "\tldp x10, x11, [x17, #56]\n"                                                                                     \
    "\tsub x12, x16, x10\n"                                                                                            \
    "\tcmp x12, x11\n"                                                                                                 \
    "\tb.lo 1f\n"                                                                                                      \
    "\tb checked_" #name "\n"                                                                                          \
    "1:\tbr x16\n"
#define GO_IF_IT_IS(other, check) LOAD_SLOT("x17", other) "\tcmp x16, x17\n\tb.ne 8f\n\tb " check "\n8:\n"

#define GO_TO_EITHER(one, other)                                                                                       \
    LOAD_SLOT("x16", one) "\tcbnz x16, 1f\n" LOAD_SLOT("x16", other) "1:\tbr x16\n"
#define GO_IF_OF_PROGRAM(name, size, label)                                                                            \
    LOAD_SLOT("x16", name) LOAD_ADDRESS("x17", "__ehdr_start") "\tsub x16, x16, x17\n"                                 \
    LOAD_WORD("x17", size) "\tcmp x16, x17\n\tb.lo " label "\n"

#define KEEP_THREE                                                                                                     \
    "\tstp x29, x30, [sp, #-48]!\n"                                                                                    \
    "\t.cfi_adjust_cfa_offset 48\n\t.cfi_rel_offset x29, 0\n\t.cfi_rel_offset x30, 8\n"                                \
    "\tmov x29, sp\n\tstp x0, x1, [sp, #16]\n\tstr x2, [sp, #32]\n"
#define TAKE_THREE                                                                                                     \
    "\tldp x0, x1, [sp, #16]\n\tldr x2, [sp, #32]\n\tldp x29, x30, [sp], #48\n"                                        \
    "\t.cfi_adjust_cfa_offset -48\n\t.cfi_restore x29\n\t.cfi_restore x30\n"
#define CALL_WITH_ARGUMENTS(function) KEEP_THREE "\tbl " function "\n" TAKE_THREE
#define KEEP_ALL                                                                                                       \
    KEEP_THREE "\tstp x3, x4, [sp, #-48]!\n\t.cfi_adjust_cfa_offset 48\n"                                              \
               "\tstp x5, x6, [sp, #16]\n\tstr x7, [sp, #32]\n"
#define TAKE_ALL                                                                                                       \
    "\tldp x5, x6, [sp, #16]\n\tldr x7, [sp, #32]\n"                                                                   \
    "\tldp x3, x4, [sp], #48\n\t.cfi_adjust_cfa_offset -48\n" TAKE_THREE
#define CALL_WITH_STACK(function, pass) KEEP_ALL "\tadd x2, sp, #96\n" pass "\tbl " function "\n" TAKE_ALL
#define FIRST_IS_SECOND "\tmov x1, x0\n\tmov x0, #0\n"
#define GO_TO_RESULT(function)                                                                                         \
    KEEP_THREE "\tbl " function "\n\tmov x16, x0\n" TAKE_THREE "\tcbz x16, 1f\n\tbr x16\n1:\tret\n"
#define RETURN_OR_GO(function)                                                                                         \
    KEEP_THREE "\tbl " function "\n\tmov x17, x0\n\tmov x16, x1\n" TAKE_THREE                                          \
    "\tcbz x17, 1f\n\tmov x0, x17\n\tret\n1:\tbr x16\n"
#define CALL_WITH_STACK_ALONE(function)                                                                                \
    "\tmov x0, sp\n"                                                                                                   \
    "\tstp x29, x30, [sp, #-16]!\n"                                                                                    \
    "\t.cfi_adjust_cfa_offset 16\n\t.cfi_rel_offset x29, 0\n\t.cfi_rel_offset x30, 8\n"                                \
    "\tmov x29, sp\n\tbl " function "\n\tldp x29, x30, [sp], #16\n"                                                    \
    "\t.cfi_adjust_cfa_offset -16\n\t.cfi_restore x29\n\t.cfi_restore x30\n"
#define CALL_WITH_REGISTERS(function)                                                                                  \
    "\tstp x29, x30, [sp, #-160]!\n"                                                                                   \
    ".cfi_adjust_cfa_offset 160\n.cfi_rel_offset x29, 0\n.cfi_rel_offset x30, 8\n"                                     \
    "\tmov x29, sp\n"                                                                                                  \
    "\tstp x19, x20, [sp, #16]\n\tstp x21, x22, [sp, #32]\n\tstp x23, x24, [sp, #48]\n"                                \
    "\tstp x25, x26, [sp, #64]\n\tstp x27, x28, [sp, #80]\n"                                                           \
    "\tstp d8, d9, [sp, #96]\n\tstp d10, d11, [sp, #112]\n\tstp d12, d13, [sp, #128]\n\tstp d14, d15, [sp, #144]\n"    \
    "\tmov x0, sp\n"                                                                                                   \
    "\tbl " function "\n"                                                                                              \
    "\tldp x29, x30, [sp], #160\n"                                                                                     \
    ".cfi_adjust_cfa_offset -160\n.cfi_restore x29\n.cfi_restore x30\n"                                                \
    "\tret\n"

#define GO_WITH_ALL_TO_RESULT(function)                                                                                \
    "\tstp x29, x30, [sp, #-80]!\n"                                                                                    \
    "\t.cfi_adjust_cfa_offset 80\n\t.cfi_rel_offset x29, 0\n\t.cfi_rel_offset x30, 8\n"                               \
    "\tmov x29, sp\n\tstp x0, x1, [sp, #16]\n\tstp x2, x3, [sp, #32]\n\tstp x4, x5, [sp, #48]\n\tstr x6, [sp, #64]\n" \
    "\tbl " function "\n\tmov x16, x0\n"                                                                              \
    "\tldp x0, x1, [sp, #16]\n\tldp x2, x3, [sp, #32]\n\tldp x4, x5, [sp, #48]\n\tldr x6, [sp, #64]\n"                \
    "\tldp x29, x30, [sp], #80\n\t.cfi_adjust_cfa_offset -80\n\t.cfi_restore x29\n\t.cfi_restore x30\n"              \
    "\tbr x16\n"

#define BEFORE_END_OF_HANDLER "\tnop\n"
#define END_OF_HANDLER "\tmov x8, #139\n\tsvc #0\n"

#define GO_ASKING(label, way) LOAD_ADDRESS("x16", way) "\tb " label "\n"
#define ASK_AND_GO(function)                                                                                           \
    "\tstp x29, x30, [sp, #-64]!\n"                                                                                    \
    "\t.cfi_adjust_cfa_offset 64\n\t.cfi_rel_offset x29, 0\n\t.cfi_rel_offset x30, 8\n"                                \
    "\tmov x29, sp\n\tstp x0, x1, [sp, #16]\n\tstp x2, x3, [sp, #32]\n\tstr x4, [sp, #48]\n"                           \
    "\tmov x0, x16\n\tbl " function "\n\tmov x16, x0\n"                                                                \
    "\tldp x0, x1, [sp, #16]\n\tldp x2, x3, [sp, #32]\n\tldr x4, [sp, #48]\n\tldp x29, x30, [sp], #64\n"               \
    "\t.cfi_adjust_cfa_offset -64\n\t.cfi_restore x29\n\t.cfi_restore x30\n"                                           \
    "\tbr x16\n"

#endif
