/* All of x86-64 in the recorder, except the assembly of stubs (x86_64_stubs.h). processor.h includes it.

   Called: by any file, in any thread, also in a handler; no lock: nothing here has a state. */
#ifndef ASANCOL_X86_64_H
#define ASANCOL_X86_64_H

#include <emmintrin.h>
#include <stdbool.h>
#include <stddef.h>
#include <stdint.h>

/* Calls of the system. */

#define SYSTEM_CALL static inline __attribute__((always_inline))

SYSTEM_CALL long direct_call(long number, long first, long second, long third, long fourth, long fifth, long sixth)
{
    register long r10 __asm__("r10") = fourth, r8 __asm__("r8") = fifth, r9 __asm__("r9") = sixth;
    long result;
    __asm__ volatile("syscall"
                     : "=a"(result)
                     : "a"(number), "D"(first), "S"(second), "d"(third), "r"(r10), "r"(r8), "r"(r9)
                     : "rcx", "r11", "memory");
    return result;
}

SYSTEM_CALL long direct_call4(long number, long first, long second, long third, long fourth)
{
    register long r10 __asm__("r10") = fourth;
    long result;
    __asm__ volatile("syscall"
                     : "=a"(result)
                     : "a"(number), "D"(first), "S"(second), "d"(third), "r"(r10)
                     : "rcx", "r11", "memory");
    return result;
}

SYSTEM_CALL long direct_call3(long number, long first, long second, long third)
{
    long result;
    __asm__ volatile("syscall"
                     : "=a"(result)
                     : "a"(number), "D"(first), "S"(second), "d"(third)
                     : "rcx", "r11", "memory");
    return result;
}

/* How a filter of calls knows this processor (AUDIT_ARCH_X86_64). */
#define SYSTEM_ARCHITECTURE 0xc000003eu

/* Memory. */

/* How many bytes a page has: at least, at most, and in this system. Whoever looks at memory goes by the least; whoever
   takes memory, gives it back or changes its rights by those of the system. */
enum { PAGE = 4096, MOST_PAGE = PAGE, SYSTEM_PAGE = PAGE };
#define MAY_HAVE_LARGER_PAGES 0

/* Programs run under emulators of user processes, which don't know all calls of the system. */
#define MAY_BE_EMULATED 0

/* How many bits an address has, and the end of addresses: this one and greater ones lead nowhere. */
enum { ADDRESS_BITS = 47 };
#define MEMORY_END ((uint64_t)1 << ADDRESS_BITS)
/* All of it has a shadow, and an address is spelled in a trace as it is. */
#define MEMORY_VARIES 0

/* Where the shadow lies: free in all layouts of a process. Programs lie from 0x5555.. on, or below 2^32; libraries and
   stacks below 2^47; with an unlimited stack libraries lie below 0x1555.., and in the old layout (`setarch -L`) from
   0x2aaa.. on.

   The shadow begins at AddressSanitizer's own place, which fits into an instruction, and ends a little above 2^44.
   asancol-cc gives the compilers this number. */
#ifndef SHADOW_START /* as a test of the allocator alone has it */
#define SHADOW_START ((uint64_t)0x7fff8000)
#endif
/* The allocator's memory is from 2^45 up to 5 * 2^43 (arena.h). */
#define ARENA_SHIFT 43
#define ARENA_NUMBER 4
#define ARENA_UNITS (1 << 26)
#define ARENA_SPARE_BYTES ((uint64_t)1 << 34)
/* What follows. In the assembly of stubs it is a number. */
#define HOOK_PAGE_START 0x500000000000
/* Fake stacks lie behind that; the shift gives their number. */
#define FAKE_SLOTS_START UINT64_C(0x510000000000)
#define FAKE_SLOTS_SHIFT 15

/* The thread. */

/* What stands for a thread with the C library is the address of its block, which begins with that address. */
static inline uintptr_t processor_thread(void)
{
    uintptr_t thread;
    __asm__("movq %%fs:0x10, %0" : "=r"(thread));
    return thread;
}

/* By the size of that block. */
#define PROCESSOR_THREAD(control_size) processor_thread()

/* The thread pointer. */
static inline uintptr_t processor_thread_pointer(void)
{
    uintptr_t pointer;
    __asm__("movq %%fs:0, %0" : "=r"(pointer));
    return pointer;
}

/* The same from the system, where the thread may have no memory of its own: the number of a call, and its question. */
#define THREAD_POINTER_BY_SYSTEM(place) system_call3(SYS_arch_prctl, 0x1003 /* ARCH_GET_FS */, (long)(place), 0)

/* The stack pointer of a jmp_buf, which the C library keeps turned and mixed with a secret. */
enum { JUMP_STACK_POINTER = 6 * sizeof(uintptr_t), JUMP_TURN = 17 };
static inline uintptr_t processor_jump_target(uintptr_t mixed)
{
    uintptr_t secret;
    __asm__("movq %%fs:0x30, %0" : "=r"(secret));
    return (mixed >> JUMP_TURN | mixed << (64 - JUMP_TURN)) ^ secret;
}

/* The registers of a signal's frame, or of a context. */
#define CONTEXT_INSTRUCTION(context) ((uintptr_t)(context)->uc_mcontext.gregs[REG_RIP])
#define CONTEXT_STACK(context) ((uintptr_t)(context)->uc_mcontext.gregs[REG_RSP])
#define CONTEXT_FRAME(context) ((uintptr_t)(context)->uc_mcontext.gregs[REG_RBP])

/* How the signal came: a page fault by an access, and by which. */
enum processor_access { ACCESS_IS_UNKNOWN, ACCESS_BY_LOAD, ACCESS_BY_STORE, ACCESS_BY_JUMP };
enum { FAULT_NUMBER = 14, FAULT_BY_STORE = 2, FAULT_BY_JUMP = 16 };
#define CONTEXT_ACCESS(context)                                                                                        \
    processor_access((context)->uc_mcontext.gregs[REG_TRAPNO], (uint64_t)(context)->uc_mcontext.gregs[REG_ERR])
static inline enum processor_access processor_access(long long number, uint64_t error)
{
    if (number != FAULT_NUMBER)
        return ACCESS_IS_UNKNOWN;
    if (error & FAULT_BY_JUMP)
        return ACCESS_BY_JUMP;
    return error & FAULT_BY_STORE ? ACCESS_BY_STORE : ACCESS_BY_LOAD;
}

/* All of them: the words, and the registers of vectors, which lie where the system says. */
#define CONTEXT_WORDS(context) ((const uintptr_t *)(context)->uc_mcontext.gregs)
#define CONTEXT_WORD_COUNT NGREG
#define CONTEXT_VECTORS(context) ((uintptr_t)(context)->uc_mcontext.fpregs)
static inline size_t processor_vectors_size(uintptr_t vectors)
{
    enum { FORM = 0x46505853, FORM_AT = 464, SIZE_AT = 468, USUAL_SIZE = 512 };
    uint32_t form, size = USUAL_SIZE;
    __builtin_memcpy(&form, (const char *)vectors + FORM_AT, sizeof form);
    if (form == FORM)
        __builtin_memcpy(&size, (const char *)vectors + SIZE_AT, sizeof size);
    return size;
}

/* The same for a traced thread, from its registers. Its vectors get the number that says their form, and their size. */
#define CAN_TRACE 1
#ifdef _GNU_SOURCE
#include <sys/user.h>
#include <ucontext.h>

static inline void processor_context(ucontext_t *context, const struct user_regs_struct *from,
                                     unsigned char *vectors, size_t size)
{
    const uint32_t form[2] = {0x46505853, (uint32_t)size};
    *context = (ucontext_t){.uc_mcontext.gregs = {
        [REG_R8] = (greg_t)from->r8, [REG_R9] = (greg_t)from->r9, [REG_R10] = (greg_t)from->r10,
        [REG_R11] = (greg_t)from->r11, [REG_R12] = (greg_t)from->r12, [REG_R13] = (greg_t)from->r13,
        [REG_R14] = (greg_t)from->r14, [REG_R15] = (greg_t)from->r15, [REG_RDI] = (greg_t)from->rdi,
        [REG_RSI] = (greg_t)from->rsi, [REG_RBP] = (greg_t)from->rbp, [REG_RBX] = (greg_t)from->rbx,
        [REG_RDX] = (greg_t)from->rdx, [REG_RAX] = (greg_t)from->rax, [REG_RCX] = (greg_t)from->rcx,
        [REG_RSP] = (greg_t)from->rsp, [REG_RIP] = (greg_t)from->rip}};
    context->uc_mcontext.fpregs = (fpregset_t)vectors;
    if (vectors != NULL)
        __builtin_memcpy(vectors + 464, form, sizeof form);
}

/* Whether a call other than close has answered EINTR. Then the system repeats it, unless a handler comes first. */
static inline bool processor_repeats_call(struct user_regs_struct *registers)
{
    enum { INTERRUPTED = -4, REPEAT_WITHOUT_HANDLER = -514, CLOSE = 3 };
    bool repeats = (long)registers->orig_rax >= 0 && (long)registers->orig_rax != CLOSE
                   && (long)registers->rax == INTERRUPTED;
    if (repeats)
        registers->rax = (uint64_t)(long)REPEAT_WITHOUT_HANDLER;
    return repeats;
}
#endif

/* The bytes below the stack pointer that a leaf function may use. */
enum { RED_ZONE = 128 };

/* Where modules' thread-local memory and the C library's notes on the thread lie, of these sizes, beside the thread
   pointer; and which of the words there leads to the memory of modules that came later. */
#define LOCAL_START(pointer, local_size, control_size) ((pointer) - (local_size))
#define LOCAL_END(pointer, local_size, control_size) ((pointer) + (control_size))
enum { LOCAL_VECTOR_WORD = 1 };
/* The size of the C library's notes on a thread, if it does not say it. */
enum { USUAL_CONTROL_SIZE = 2304 };

/* How many bytes a mutex of the C library's has, as a number for stubs. */
#define MUTEX_BYTES 40

/* Stacks. */

/* The registers by their numbers in call frame information. */
enum { FRAME_POINTER = 6, STACK_POINTER = 7, RETURN_ADDRESS = 16 };
/* How the stubs are described through which a module calls another one. A stub has 16 bytes, and from the eleventh on
   one word more is on the stack: rsp + 8 + ((rip & 15) >= 11) * 8. */
#define STUB_EXPRESSION {0x77, 8, 0x80, 0, 0x3f, 0x1a, 0x3b, 0x2a, 0x33, 0x24, 0x22}
enum { STUB_BYTES = 16, STUB_HAS_NUMBER = 11 };
/* The system has stored these for the end of a handler, above the stack pointer. */
enum { STORED_FIRST = 40, STORED_FRAME = 120, STORED_STACK = 160, STORED_INSTRUCTION = 168 };
/* The address after a call lies below the end of a frame, and nothing else is in it. */
#define HAS_LINK_REGISTER 0
#define LINK_REGISTER
#define CODE_ADDRESS(word) (word)
/* How a rule is kept (stacks/cfi.h), and how many words it can say. */
#define RULE_PARTS unsigned char kind, frame, flags, address;
enum { MOST_FRAME_WORDS = 255 };
enum { ADDRESS_BESIDE_FRAME = 0 };
/* The bytes of a call, at most. */
enum { LONGEST_CALL = 7 };

/* The length of an instruction by its second byte, which says where its operand is; `there` bytes can be read. */
static inline unsigned length_of(const unsigned char *code, unsigned there)
{
    enum { SMALL_OFFSET = 1, OFFSET = 2, REGISTER = 3, HAS_INDEX = 4, NO_BASE = 5 };
    unsigned mode = code[1] >> 6, base = code[1] & 7, length = 2;
    if (mode != REGISTER && base == HAS_INDEX) {
        length++;
        base = there > 2 ? code[2] & 7 : 0;
    }
    if (mode == OFFSET || (mode == 0 && base == NO_BASE))
        return length + 4;
    return mode == SMALL_OFFSET ? length + 1 : length;
}

/* Whether a call ends behind these bytes. */
static inline bool processor_ends_call(const unsigned char code[LONGEST_CALL])
{
    enum { SHORTEST = 2, RELATIVE = 5, CALL_RELATIVE = 0xe8, OTHER_CALLS = 0xff, IS_CALL = 2 };
    if (code[LONGEST_CALL - RELATIVE] == CALL_RELATIVE)
        return true;
    for (unsigned length = SHORTEST; length <= LONGEST_CALL; length++) {
        const unsigned char *at = code + LONGEST_CALL - length;
        if (at[0] == OTHER_CALLS && (at[1] >> 3 & 7) == IS_CALL && length == length_of(at, length))
            return true;
    }
    return false;
}

/* What a handler returns to, which the recorder's own does not describe: a call of the system. */
enum { END_OF_HANDLER_BYTES = 9 };
static inline bool processor_ends_handler(const unsigned char code[END_OF_HANDLER_BYTES])
{
    return __builtin_memcmp(code, "\x48\xc7\xc0\x0f\x00\x00\x00\x0f\x05", END_OF_HANDLER_BYTES) == 0;
}

/* Whether code jumps by itself, as for __builtin_longjmp: it loads the stack pointer, and goes to a register soon. */
enum { JUMP_CODE = 128 };
static inline bool processor_jumps(const unsigned char code[JUMP_CODE])
{
    enum { OF_WORDS = 0x48, LOAD = 0x8b, TO_REGISTER = 0x38, TO_STACK = 0x20, OTHER = 0xff, TO_ANY = 0xe0, NEAR = 16 };
    for (unsigned at = 0; at + NEAR < JUMP_CODE; at++) {
        if ((code[at] & ~1) != OF_WORDS || code[at + 1] != LOAD || (code[at + 2] & TO_REGISTER) != TO_STACK)
            continue;
        for (unsigned next = at + 3; next < at + NEAR; next++)
            if (code[next] == OTHER && (code[next + 1] & ~7) == TO_ANY)
                return true;
    }
    return false;
}

/* Relocations of a module, by what they do: a slot for a call, one for an address, a word in its data; a variable that
   the program has a copy of; a function that says which one it is. */
enum { RELOCATES_CALL = 7, RELOCATES_SLOT = 6, RELOCATES_WORD = 1, RELOCATES_COPY = 5, RELOCATES_BY_RESOLVER = 37 };

/* Single instructions. */

/* Adds, and returns the number before. With one thread only a signal handler can come between, and none comes between
   the halves of an instruction. */
#define HAS_ADDITION_ALONE 1
static inline uint64_t processor_add_alone(_Atomic uint64_t *to, uint64_t step)
{
    __asm__ volatile("xaddq %0, %1" : "+r"(step), "+m"(*(uint64_t *)to) : : "memory", "cc");
    return step;
}

static inline void processor_count_alone(uint64_t *number)
{
    __asm__ volatile("incq %0" : "+m"(*number) : : "memory", "cc");
}

/* What comes after an atomic addition stays behind all of it; and it does so here by itself. */
#define PROCESSOR_STAYS_BEHIND (void)0

/* Makes a 1 of a 0, in one instruction, which no handler of this thread comes into. False: it was a 1. */
static inline bool processor_set_flag(volatile unsigned char *flag)
{
    unsigned char expected = 0;
    bool is_set;
    __asm__ volatile("cmpxchgb %3, %1"
                     : "=@ccz"(is_set), "+m"(*flag), "+a"(expected)
                     : "q"((unsigned char)1)
                     : "memory");
    return is_set;
}

/* Between two looks at what another thread is to change. */
static inline void processor_pause(void)
{
    __builtin_ia32_pause();
}

/* Stops for a debugger. */
static inline void processor_stop(void)
{
    __asm__ volatile("int3");
}

/* Blocks of 16 bytes. */

typedef __m128i bytes16;

static inline bytes16 bytes16_load(const void *from)
{
    return _mm_loadu_si128((const __m128i *)from);
}

static inline void bytes16_store(void *to, bytes16 bytes)
{
    _mm_storeu_si128((__m128i *)to, bytes);
}

static inline bytes16 bytes16_of(int byte)
{
    return _mm_set1_epi8((char)byte);
}

static inline bytes16 bytes16_of_zeros(void)
{
    return _mm_setzero_si128();
}

/* A bit for each byte that is the same in both; in the second form the first is in memory, at a multiple of 16. */
static inline unsigned bytes16_same(bytes16 one, bytes16 other)
{
    return (unsigned)_mm_movemask_epi8(_mm_cmpeq_epi8(one, other));
}

static inline unsigned bytes16_same_there(uintptr_t at, bytes16 bytes)
{
    return (unsigned)_mm_movemask_epi8(_mm_cmpeq_epi8(_mm_load_si128((const __m128i *)at), bytes));
}

/* A bit for each byte that is the same in both and not zero. */
static inline unsigned bytes16_same_text(bytes16 one, bytes16 other)
{
    __m128i is_end = _mm_cmpeq_epi8(one, _mm_setzero_si128());
    return (unsigned)_mm_movemask_epi8(_mm_andnot_si128(is_end, _mm_cmpeq_epi8(one, other)));
}

/* The size from which the processor's own instruction is the quickest. */
#define MANY_BYTES 512
static inline void processor_copy_many(void *to, const void *from, size_t size)
{
    __asm__ volatile("rep movsb" : "+D"(to), "+S"(from), "+c"(size) : : "memory");
}

static inline void processor_set_many(void *to, int byte, size_t size)
{
    __asm__ volatile("rep stosb" : "+D"(to), "+c"(size) : "a"(byte) : "memory");
}

#endif
