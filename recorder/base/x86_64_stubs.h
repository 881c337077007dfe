/* The assembly of x86-64: the texts of which stubs are made. processor_stubs.h includes it, and stubs.h and others say
   what they are for. In all of them r10 and r11 are free, and all that may bring an argument stays. */
#ifndef ASANCOL_X86_64_STUBS_H
#define ASANCOL_X86_64_STUBS_H

/* Where a function may be called by its address. */
#define LANDING "\tendbr64\n"
/* Goes to a function by the slot that the linker makes for it; or to what a pointer in the object leads to. */
#define GO_BY_SLOT(name) "\tjmp *" name "@GOTPCREL(%rip)\n"
#define GO_BY_POINTER(label) "\tjmp *" label "(%rip)\n"
#define RETURN "\tret\n"
/* A word with how far the slot of a function is from here, as a list of stubs has it; and what has to come before the
   list. */
#define SLOT_FOR_LIST(name)
#define SLOT_OF_LIST(name) "\t.long " name "@GOTPCREL\n"

/* Goes to `check` if the code of `tested` is in one of the three ranges of the hook page, and else to `real`. */
#define GO_IF_IN(start, size, tested, check)                                                                           \
    "\tmovq " tested "@GOTPCREL(%rip), %r11\n"                                                                         \
    "\tsubq " start "(%r10), %r11\n"                                                                                   \
    "\tcmpq " size "(%r10), %r11\n"                                                                                    \
    "\tjb " check "\n"
#define GO_IF_CHECKED(tested, check, real)                                                                             \
    "\tmovabsq $" TEXT(HOOK_PAGE_START) ", %r10\n"                                                                     \
    GO_IF_IN("8", "16", tested, check)                                                                                 \
    GO_IF_IN("24", "32", tested, check)                                                                                \
    GO_IF_IN("40", "48", tested, check)                                                                                \
    GO_BY_SLOT(real)

/* Goes to the function if the shadow is clean of an object that begins a granule and has this many bytes of shadow
   bits. That is read for addresses alone, short of the map's end. */
enum { STUBS_SHADOW_START = 0x7fff8000, STUBS_ADDRESS_BITS = 47 };
#define GO_IF_CLEAN(name, bytes)                                                                                       \
    "\tmovq %rdi, %r11\n"                                                                                              \
    "\ttestb $7, %dil\n"                                                                                               \
    "\tjne 1f\n"                                                                                                       \
    "\tshrq $3, %r11\n"                                                                                                \
    "\tleaq 8(%r11), %r10\n"                                                                                           \
    "\tshrq $44, %r10\n"                                                                                               \
    "\tjne 1f\n"                                                                                                       \
    "\tmovq 0x7fff8000(%r11), %r11\n"                                                                                  \
    "\tshlq $64 - " #bytes ", %r11\n"                                                                                  \
    "\tjne 1f\n"                                                                                                       \
    GO_BY_SLOT("__real_" #name)                                                                                        \
    "1:\n"

/* Goes to the check of a function, unless it is the object's own or the program's, or the object's code is not known
   yet: then it goes to the function. */
#define GO_UNLESS_OWN(name, first)                                                                                     \
    "\tcmpq $0, asancol_own_code+8(%rip)\n"                                                                            \
    "\tje 1f\n"                                                                                                        \
    "\tmovq __real_" #name "@GOTPCREL(%rip), %r11\n" first "\tmovq %r11, %r10\n"                                       \
    "\tsubq asancol_own_code(%rip), %r10\n"                                                                            \
    "\tcmpq asancol_own_code+8(%rip), %r10\n"                                                                          \
    "\tjb 1f\n"                                                                                                        \
    "\tmovabsq $" TEXT(HOOK_PAGE_START) ", %r10\n"                                                                     \
    "\tsubq 56(%r10), %r11\n"                                                                                          \
    "\tcmpq 64(%r10), %r11\n"                                                                                          \
    "\tjae checked_" #name "\n"                                                                                        \
    "1:" GO_BY_SLOT("__real_" #name)
/* As `first` there: if the function is this one. */
#define GO_IF_IT_IS(other, check)                                                                                      \
    "\tcmpq " other "@GOTPCREL(%rip), %r11\n"                                                                          \
    "\tje " check "\n"

/* Goes to one function if there is one, and else to the other. */
#define GO_TO_EITHER(one, other)                                                                                       \
    "\tmovq " one "@GOTPCREL(%rip), %r11\n"                                                                            \
    "\ttestq %r11, %r11\n"                                                                                             \
    "\tcmoveq " other "@GOTPCREL(%rip), %r11\n"                                                                        \
    "\tjmp *%r11\n"
/* Continues at `label` if a function lies in the program, the size of whose code is in a variable. */
#define GO_IF_OF_PROGRAM(name, size, label)                                                                            \
    "\tmovq " name "@GOTPCREL(%rip), %r11\n"                                                                           \
    "\tleaq __ehdr_start(%rip), %r10\n\tsubq %r10, %r11\n\tcmpq " size "(%rip), %r11\n\tjb " label "\n"

/* Calls a function of C with the three arguments that the stub has; in the second form with the first two, or by
   FIRST_IS_SECOND with none and the first, and the stack pointer of the caller; any number of arguments may follow. */
#define KEEP(name) "\tpushq %" name "\n\t.cfi_adjust_cfa_offset 8\n"
#define TAKE_BACK(name) "\tpopq %" name "\n\t.cfi_adjust_cfa_offset -8\n"
#define KEEP_THREE KEEP("rdi") KEEP("rsi") KEEP("rdx")
#define TAKE_THREE TAKE_BACK("rdx") TAKE_BACK("rsi") TAKE_BACK("rdi")
#define CALL_WITH_ARGUMENTS(function) KEEP_THREE "\tcall " function "\n" TAKE_THREE
#define KEEP_ALL KEEP_THREE KEEP("rcx") KEEP("r8") KEEP("r9") KEEP("rax")
#define TAKE_ALL TAKE_BACK("rax") TAKE_BACK("r9") TAKE_BACK("r8") TAKE_BACK("rcx") TAKE_THREE
#define CALL_WITH_STACK(function, pass) KEEP_ALL "\tleaq 64(%rsp), %rdx\n" pass "\tcall " function "\n" TAKE_ALL
#define FIRST_IS_SECOND "\tmovq %rdi, %rsi\n\txorl %edi, %edi\n"
/* And goes to its result, or returns if that is null; or returns its result, or goes to the second word of it if the
   first is null. */
#define GO_TO_RESULT(function) CALL_WITH_ARGUMENTS(function) "\ttestq %rax, %rax\n\tjz 1f\n\tjmp *%rax\n1:\tret\n"
#define RETURN_OR_GO(function)                                                                                         \
    KEEP_THREE "\tcall " function "\n\tmovq %rdx, %r11\n" TAKE_THREE                                                   \
    "\ttestq %rax, %rax\n\tjz 1f\n\tret\n1:\tjmp *%r11\n"
/* Calls one with the stack pointer of the caller alone. */
#define CALL_WITH_STACK_ALONE(function)                                                                                \
    "\tleaq 8(%rsp), %rdi\n"                                                                                           \
    "\tsubq $8, %rsp\n"                                                                                                \
    "\t.cfi_adjust_cfa_offset 8\n"                                                                                     \
    "\tcall " function "\n"                                                                                            \
    "\taddq $8, %rsp\n"                                                                                                \
    "\t.cfi_adjust_cfa_offset -8\n"
/* Stores the registers that belong to the caller, and calls a function with where they are. */
#define CALL_WITH_REGISTERS(function)                                                                                  \
    "\tpushq %rbp\n"                                                                                                   \
    ".cfi_def_cfa_offset 16\n"                                                                                         \
    ".cfi_offset 6, -16\n"                                                                                             \
    "\tmovq %rsp, %rbp\n"                                                                                              \
    ".cfi_def_cfa_register 6\n"                                                                                        \
    "\tpushq %rbx\n"                                                                                                   \
    "\tpushq %r12\n"                                                                                                   \
    "\tpushq %r13\n"                                                                                                   \
    "\tpushq %r14\n"                                                                                                   \
    "\tpushq %r15\n"                                                                                                   \
    "\tmovq %rsp, %rdi\n"                                                                                              \
    "\tpushq %rdi\n" /* the stack is at a multiple of 16 again */                                                      \
    "\tcall " function "\n"                                                                                            \
    "\tleave\n"                                                                                                        \
    ".cfi_def_cfa 7, 8\n"                                                                                              \
    "\tret\n"

/* Goes to what a function of C answers, which gets the first ones of seven arguments. */
#define GO_WITH_ALL_TO_RESULT(function)                                                                                \
    KEEP("rdi") KEEP("rsi") KEEP("rdx") KEEP("rcx") KEEP("r8") KEEP("r9")                                              \
    "\tsubq $8, %rsp\n"                                                                                                \
    "\t.cfi_adjust_cfa_offset 8\n"                                                                                     \
    "\tcall " function "\n"                                                                                            \
    "\tmovq %rax, %r11\n"                                                                                              \
    "\taddq $8, %rsp\n"                                                                                                \
    "\t.cfi_adjust_cfa_offset -8\n"                                                                                    \
    TAKE_BACK("r9") TAKE_BACK("r8") TAKE_BACK("rcx") TAKE_BACK("rdx") TAKE_BACK("rsi") TAKE_BACK("rdi")                \
    "\tjmp *%r11\n"

/* Makes a process with this one's memory and this stack (CLONE_VM, _FS, _FILES, _VFORK, _UNTRACED), which calls a
   function and ends. Returns its number, or an error. */
#define CALL_IN_HELPER(function)                                                                                       \
    "\tmovl $56, %eax\n"                                                                                               \
    "\tmovl $0x00804700, %edi\n"                                                                                       \
    "\txorl %esi, %esi\n"                                                                                              \
    "\txorl %edx, %edx\n"                                                                                              \
    "\txorl %r10d, %r10d\n"                                                                                            \
    "\txorl %r8d, %r8d\n"                                                                                              \
    "\tsyscall\n"                                                                                                      \
    "\ttestq %rax, %rax\n"                                                                                             \
    "\tjne 1f\n"                                                                                                       \
    "\tsubq $8, %rsp\n"                                                                                                \
    "\tcall " function "\n"                                                                                            \
    "\tmovl $60, %eax\n"                                                                                               \
    "\txorl %edi, %edi\n"                                                                                              \
    "\tsyscall\n"                                                                                                      \
    "1:\tret\n"

/* Calls a function with the address that is in rdi, and with the address after the call that led here, and keeps all
   registers. The first part is that of each function; the second is reached by a jump, with the function in rax, and
   saves the rest. That is the processor's extended state without tiles, at most 2.7 KB. The processor is asked once how
   to save it: by xsavec, by xsave, or, if it is an old one, by fxsave. The header in it has to be zero before. */
#define REPORT_KEEPING(function, label)                                                                                \
    LANDING "\tpushq %rbp\n\t.cfi_def_cfa_offset 16\n\t.cfi_offset 6, -16\n"                                          \
            "\tmovq %rsp, %rbp\n\t.cfi_def_cfa_register 6\n"                                                         \
            "\tpushq %rax\n\tleaq " function "(%rip), %rax\n\tjmp " label "\n"
#define SAVED_STATE "$0x800ef"
#define CLEAR_STATE_HEADER                                                                                             \
    "\txorl %edx, %edx\n"                                                                                              \
    "\tmovq %rdx, 512(%rsp)\n\tmovq %rdx, 520(%rsp)\n\tmovq %rdx, 528(%rsp)\n\tmovq %rdx, 536(%rsp)\n"               \
    "\tmovq %rdx, 544(%rsp)\n\tmovq %rdx, 552(%rsp)\n\tmovq %rdx, 560(%rsp)\n\tmovq %rdx, 568(%rsp)\n"
#define ASK_FOR_STATE(kind)                                                                                            \
    "\tmovl $1, %eax\n\tcpuid\n\tshrl $27, %ecx\n\tandl $1, %ecx\n\tje 1f\n"                                         \
    "\tmovl $13, %eax\n\tmovl $1, %ecx\n\tcpuid\n\tmovl %eax, %ecx\n\tandl $2, %ecx\n\torl $1, %ecx\n"             \
    "1:\tincl %ecx\n\tmovl %ecx, " kind "(%rip)\n"
#define KEEP_STATE_AND_CALL(kind)                                                                                      \
    "\t.cfi_def_cfa 6, 16\n\t.cfi_offset 6, -16\n"                                                                    \
    "\tpushq %rbx\n\t.cfi_offset 3, -32\n"                                                                            \
    "\tpushq %rcx\n\tpushq %rdx\n\tpushq %rsi\n\tpushq %rdi\n\tpushq %r8\n\tpushq %r9\n\tpushq %r10\n"               \
    "\tpushq %r11\n\tpushq %rax\n"                                                                                    \
    "\tsubq $2688, %rsp\n\tandq $-64, %rsp\n"                                                                         \
    "\tcmpl $0, " kind "(%rip)\n\tjne 2f\n" ASK_FOR_STATE(kind) "2:\tmovl " SAVED_STATE                              \
    ", %eax\n" CLEAR_STATE_HEADER "\tcmpl $2, " kind "(%rip)\n\tja 3f\n\tje 4f\n\tfxsave64 (%rsp)\n\tjmp 5f\n"         \
    "3:\txsavec64 (%rsp)\n\tjmp 5f\n4:\txsave64 (%rsp)\n"                                                           \
    "5:\tmovq 8(%rbp), %rsi\n\tcall *-88(%rbp)\n"                                                                     \
    "\tcmpl $2, " kind "(%rip)\n\tjb 6f\n\tmovl " SAVED_STATE                                                         \
    ", %eax\n\txorl %edx, %edx\n\txrstor64 (%rsp)\n\tjmp 7f\n6:\tfxrstor64 (%rsp)\n"                                \
    "7:\tleaq -80(%rbp), %rsp\n"                                                                                       \
    "\tpopq %r11\n\tpopq %r10\n\tpopq %r9\n\tpopq %r8\n\tpopq %rdi\n\tpopq %rsi\n\tpopq %rdx\n\tpopq %rcx\n"        \
    "\tpopq %rbx\n\t.cfi_restore 3\n\tpopq %rax\n\tpopq %rbp\n\t.cfi_def_cfa 7, 8\n\t.cfi_restore 6\n\tret\n"

/* The end of a handler. Debuggers and unwinders know it by these bytes, and look at the one before. */
#define BEFORE_END_OF_HANDLER "\tnop\n"
#define END_OF_HANDLER "\tmovq $15, %rax\n\tsyscall\n"

/* Goes where a way leads (start/exports.c); or asks first, with the way: all arguments are in these registers. */
#define GO_ASKING(label, way) "\tleaq " way "(%rip), %r11\n\tjmp " label "\n"
#define ASK_AND_GO(function)                                                                                           \
    KEEP("rdi") KEEP("rsi") KEEP("rdx") KEEP("rcx") KEEP("r8")                                                         \
    "\tmovq %r11, %rdi\n"                                                                                              \
    "\tcall " function "\n"                                                                                            \
    "\tmovq %rax, %r11\n"                                                                                              \
    TAKE_BACK("r8") TAKE_BACK("rcx") TAKE_BACK("rdx") TAKE_BACK("rsi") TAKE_BACK("rdi")                                \
    "\tjmp *%r11\n"

#endif
