/* All of AArch64 in the recorder, except the assembly of stubs (aarch64_stubs.h). processor.h includes it; what
   each part is for stands in x86_64.h.

   Called: as x86_64.h, in any thread, also in a handler; no lock. system_page and memory_end are written
   once, by shadow/mapping.c. */
#ifndef ASANCOL_AARCH64_H
#define ASANCOL_AARCH64_H

#include <arm_neon.h>
#include <stdbool.h>
#include <stddef.h>
#include <stdint.h>

/* Calls of the system. */

#define SYSTEM_CALL static inline __attribute__((always_inline))

SYSTEM_CALL long direct_call(long number, long first, long second, long third, long fourth, long fifth, long sixth)
{
    register long x8 __asm__("x8") = number, x0 __asm__("x0") = first, x1 __asm__("x1") = second;
    register long x2 __asm__("x2") = third, x3 __asm__("x3") = fourth, x4 __asm__("x4") = fifth;
    register long x5 __asm__("x5") = sixth;
    __asm__ volatile("svc #0" : "+r"(x0) : "r"(x8), "r"(x1), "r"(x2), "r"(x3), "r"(x4), "r"(x5) : "memory", "cc");
    return x0;
}

SYSTEM_CALL long direct_call4(long number, long first, long second, long third, long fourth)
{
    register long x8 __asm__("x8") = number, x0 __asm__("x0") = first, x1 __asm__("x1") = second;
    register long x2 __asm__("x2") = third, x3 __asm__("x3") = fourth;
    __asm__ volatile("svc #0" : "+r"(x0) : "r"(x8), "r"(x1), "r"(x2), "r"(x3) : "memory", "cc");
    return x0;
}

SYSTEM_CALL long direct_call3(long number, long first, long second, long third)
{
    register long x8 __asm__("x8") = number, x0 __asm__("x0") = first, x1 __asm__("x1") = second;
    register long x2 __asm__("x2") = third;
    __asm__ volatile("svc #0" : "+r"(x0) : "r"(x8), "r"(x1), "r"(x2) : "memory", "cc");
    return x0;
}

/* How a filter of calls knows this processor (AUDIT_ARCH_AARCH64). */
#define SYSTEM_ARCHITECTURE 0xc00000b7u

/* Memory. */

/* A system has pages of 4, 16 or 64 KiB. */
enum { PAGE = 4096, MOST_PAGE = 1 << 16 };
#define MAY_HAVE_LARGER_PAGES 1
extern uintptr_t system_page __asm__("asancol_system_page") __attribute__((visibility("hidden")));
#define SYSTEM_PAGE system_page

/* Where the shadow lies. A system has addresses of 39, 47 or 48 bits, which is known once a process runs (mapping.c).
   So all that compiled code knows by number lies below 2^39. Programs lie at 2/3 of the addresses, such as 0x5555555000
   or 0xaaaaaaaaa000, and under QEMU from 0x5500000000 on; libraries and stacks below the end, or from 1/4 of it on.
   What has other addresses is told so. */
enum { ADDRESS_BITS = 48, MORE_BITS = 47, FEWEST_BITS = 39 };
#define MEMORY_VARIES 1
/* Of this process: the end of addresses (shadow/mapping.c). */
extern uint64_t memory_end __asm__("asancol_memory_end") __attribute__((visibility("hidden")));
#define MEMORY_END memory_end

/* The shadow is at AddressSanitizer's place: from 2^36 up to 2^37 that of memory below 2^39, */
#ifndef SHADOW_START /* as a test of the allocator alone has it */
#define SHADOW_START ((uint64_t)1 << 36)
#endif
#define FEWEST_END ((uint64_t)1 << FEWEST_BITS)
/* and from 5 * 2^36 on that of memory from 2^41 on. What follows, up to there, lies where the shadow of the addresses
   between would be: these are in the shadow themselves. */
#define HOLE_END ((uint64_t)1 << 41)
/* The allocator's memory is from 2^37 up to 3 * 2^36. */
#define ARENA_SHIFT 36
#define ARENA_NUMBER 2
#define ARENA_UNITS (1 << 19)
#define ARENA_SPARE_BYTES ((uint64_t)1 << 32)
#define HOOK_PAGE_START 0x4000000000
#define FAKE_SLOTS_START UINT64_C(0x4100000000)
#define FAKE_SLOTS_SHIFT 10

/* An emulator keeps notes of each page that is mapped, so the shadow there has only these parts of memory. It is known
   by where it puts the stack. */
#define MAY_BE_EMULATED 1
#define EMULATED_START UINT64_C(0x5500000000)
#define EMULATED_BYTES ((uint64_t)1 << 34)
enum { EMULATED_COUNT = 4 };
#define EMULATED_PARTS                                                                                                 \
    {0, (uint64_t)1 << 32}, {(uint64_t)ARENA_NUMBER << ARENA_SHIFT, (uint64_t)1 << ARENA_SHIFT},                       \
        {FAKE_SLOTS_START, (uint64_t)1 << (24 + FAKE_SLOTS_SHIFT)}, {EMULATED_START, EMULATED_BYTES},
static inline bool processor_is_emulated(uintptr_t stack)
{
    return stack - EMULATED_START < EMULATED_BYTES;
}

/* The thread. */

static inline uintptr_t processor_thread_pointer(void)
{
    return (uintptr_t)__builtin_thread_pointer();
}

/* What stands for a thread with the C library is the address of its block, which ends at the thread pointer. */
#define PROCESSOR_THREAD(control_size) (processor_thread_pointer() - (control_size))

/* It is in a register, and no memory. */
#define THREAD_POINTER_BY_SYSTEM(place) (void)(*(place) = processor_thread_pointer())

/* The stack pointer of a jmp_buf, which the C library keeps mixed with a secret, in a variable of this name. */
enum { JUMP_STACK_POINTER = 13 * sizeof(uintptr_t) };
#define JUMP_SECRET "__pointer_chk_guard"
static inline uintptr_t processor_jump_target(uintptr_t mixed, const uintptr_t *secret)
{
    return secret != NULL ? mixed ^ *secret : mixed;
}

/* The registers of a signal's frame, or of a context. */
#define CONTEXT_INSTRUCTION(context) ((uintptr_t)(context)->uc_mcontext.pc)
#define CONTEXT_STACK(context) ((uintptr_t)(context)->uc_mcontext.sp)
#define CONTEXT_FRAME(context) ((uintptr_t)(context)->uc_mcontext.regs[29])
#define CONTEXT_LINK(context) ((uintptr_t)(context)->uc_mcontext.regs[30])

enum processor_access { ACCESS_IS_UNKNOWN, ACCESS_BY_LOAD, ACCESS_BY_STORE, ACCESS_BY_JUMP };
/* How the signal came: the system may say so in a record, which has a number, its size, and the syndrome. */
#define CONTEXT_ACCESS(context)                                                                                        \
    processor_access((context)->uc_mcontext.__reserved, CONTEXT_INSTRUCTION(context),                                  \
                     (uintptr_t)(context)->uc_mcontext.fault_address)
static inline enum processor_access processor_access_by(uint64_t syndrome)
{
    enum { CLASS_SHIFT = 26, CLASS_MASK = 0x3e, BY_JUMP = 0x20, BY_ACCESS = 0x24, IS_STORE = 1 << 6 };
    uint64_t class = syndrome >> CLASS_SHIFT & CLASS_MASK;
    if (class == BY_JUMP)
        return ACCESS_BY_JUMP;
    return class != BY_ACCESS ? ACCESS_IS_UNKNOWN : syndrome & IS_STORE ? ACCESS_BY_STORE : ACCESS_BY_LOAD;
}

/* By the instruction, where the system says nothing: of those that access memory. */
static inline enum processor_access processor_access_of(uint32_t code)
{
    bool is_access = (code & 0x0a000000) == 0x08000000, is_literal = (code & 0x3b000000) == 0x18000000;
    bool is_single = (code & 0x3a000000) == 0x38000000, is_atomic = is_single && (code & 0x01200c00) == 0x00200000;
    bool is_of_vectors = (code & 1 << 26) != 0;
    unsigned kind = code >> 22 & 3;
    if (!is_access)
        return ACCESS_IS_UNKNOWN;
    if (is_atomic)
        return ACCESS_BY_STORE;
    return is_literal || (is_single && !is_of_vectors ? kind != 0 : (kind & 1) != 0) ? ACCESS_BY_LOAD : ACCESS_BY_STORE;
}

static inline enum processor_access processor_access(const unsigned char *records, uintptr_t instruction,
                                                     uintptr_t address)
{
    enum { SYNDROME = 0x45535201, LAST = 4096 - 16, HEAD = 8 };
    uint32_t head[2];
    for (unsigned at = 0; at <= LAST; at += head[1]) {
        uint64_t syndrome;
        __builtin_memcpy(head, records + at, sizeof head);
        __builtin_memcpy(&syndrome, records + at + HEAD, sizeof syndrome);
        if (head[0] == SYNDROME)
            return processor_access_by(syndrome);
        if (head[0] == 0 || head[1] < HEAD || head[1] > LAST)
            break;
    }
    if (instruction == address)
        return ACCESS_BY_JUMP;
    bool is_there = instruction % sizeof(uint32_t) == 0;
    return is_there ? processor_access_of(*(const uint32_t *)instruction) : ACCESS_IS_UNKNOWN;
}

/* All of them: the words, and the registers of vectors, which are in the first of these records. */
#define CONTEXT_WORDS(context) ((const uintptr_t *)(context)->uc_mcontext.regs)
#define CONTEXT_WORD_COUNT 33
#define CONTEXT_VECTORS(context) ((uintptr_t)(context)->uc_mcontext.__reserved)
static inline size_t processor_vectors_size(uintptr_t vectors)
{
    enum { HEAD = 16, REGISTERS = 32, REGISTER_BYTES = 16 };
    (void)vectors;
    return HEAD + REGISTERS * REGISTER_BYTES;
}

enum { RED_ZONE = 0 };

/* Other threads are not traced. */
#define CAN_TRACE 0

/* What the C library keeps of a thread comes before the thread pointer, and modules' memory after it. */
#define LOCAL_START(pointer, local_size, control_size) ((pointer) - (control_size))
#define LOCAL_END(pointer, local_size, control_size) ((pointer) + 2 * sizeof(uintptr_t) + (local_size))
enum { LOCAL_VECTOR_WORD = 0 };
enum { USUAL_CONTROL_SIZE = 1856 };

#define MUTEX_BYTES 48

/* Stacks. */

enum { FRAME_POINTER = 29, STACK_POINTER = 31, RETURN_ADDRESS = 30 };
#define STUB_EXPRESSION {0}
enum { STUB_BYTES = 16, STUB_HAS_NUMBER = 16 };
enum { STORED_FIRST = 312, STORED_FRAME = 544, STORED_LINK = 552, STORED_STACK = 560, STORED_INSTRUCTION = 568 };

/* The address after a call may be in a register, and its upper bits may be a signature. */
#define HAS_LINK_REGISTER 1
/* `is_below`: the stack pointer is not known, and lies at `stack` or above. */
#define LINK_REGISTER                                                                                                  \
    uintptr_t link;                                                                                                    \
    bool is_below;
/* What a function keeps lies below its variables, up to 64 KiB from the end of its frame. */
#define RULE_PARTS unsigned kind : 3, frame : 13, flags : 3, address : 13;
enum { MOST_FRAME_WORDS = 8191 };
#define CODE_ADDRESS(word) ((word) & (UINT64_MAX >> 16))
/* By how many words it lies below the end of the frame, if a frame pointer leads there. */
enum { ADDRESS_BESIDE_FRAME = 1 };
/* In a description: from here on it is signed, or not. */
enum { SIGNS_ADDRESS = 0x2d };

enum { LONGEST_CALL = 4 };
static inline bool processor_ends_call(const unsigned char code[LONGEST_CALL])
{
    uint32_t word;
    __builtin_memcpy(&word, code, sizeof word);
    bool is_relative = (word & 0xfc000000) == 0x94000000, is_by_register = (word & 0xfffffc1f) == 0xd63f0000;
    return is_relative || is_by_register || (word & 0xfefff800) == 0xd63f0800; /* the last checks a signature */
}

enum { JUMP_CODE = 128 };
static inline bool processor_jumps(const unsigned char code[JUMP_CODE])
{
    bool is_loaded = false;
    for (unsigned at = 0; at < JUMP_CODE; at += sizeof(uint32_t)) {
        uint32_t word;
        __builtin_memcpy(&word, code + at, sizeof word);
        is_loaded |= (word & 0xfffffc1f) == 0x9100001f;
        if ((word & 0xfffffc1f) == 0xd61f0000)
            return is_loaded;
    }
    return false;
}

/* What a handler returns to, which some emulators do not describe: a call of the system. */
enum { END_OF_HANDLER_BYTES = 8 };
static inline bool processor_ends_handler(const unsigned char code[END_OF_HANDLER_BYTES])
{
    return __builtin_memcmp(code, "\x68\x11\x80\xd2\x01\x00\x00\xd4", END_OF_HANDLER_BYTES) == 0;
}

enum {
    RELOCATES_CALL = 1026,
    RELOCATES_SLOT = 1025,
    RELOCATES_WORD = 257,
    RELOCATES_COPY = 1024,
    RELOCATES_BY_RESOLVER = 1032
};

/* Single instructions. */

/* None adds so that no handler comes between, but as an atomic one. */
#define HAS_ADDITION_ALONE 0

/* A store after it may be seen before the sum is. */
#define PROCESSOR_STAYS_BEHIND __atomic_thread_fence(__ATOMIC_SEQ_CST)

/* A handler that comes between the halves makes the second one fail, which is tried again. */
static inline bool processor_set_flag(volatile unsigned char *flag)
{
    unsigned char expected = 0;
    return __atomic_compare_exchange_n(flag, &expected, 1, false, __ATOMIC_RELAXED, __ATOMIC_RELAXED);
}

static inline void processor_pause(void)
{
    __asm__ volatile("yield");
}

static inline void processor_stop(void)
{
    __asm__ volatile("brk #0");
}

/* Blocks of 16 bytes. */

typedef uint8x16_t bytes16;

static inline bytes16 bytes16_load(const void *from)
{
    return vld1q_u8(from);
}

static inline void bytes16_store(void *to, bytes16 bytes)
{
    vst1q_u8(to, bytes);
}

static inline bytes16 bytes16_of(int byte)
{
    return vdupq_n_u8((unsigned char)byte);
}

static inline bytes16 bytes16_of_zeros(void)
{
    return vdupq_n_u8(0);
}

/* A bit for each byte that is not zero, where all are zeros or ones. */
static inline unsigned bytes16_bits(bytes16 bytes)
{
    static const unsigned char weights[16] = {1, 2, 4, 8, 16, 32, 64, 128, 1, 2, 4, 8, 16, 32, 64, 128};
    bytes16 bits = vandq_u8(bytes, vld1q_u8(weights));
    return vaddv_u8(vget_low_u8(bits)) | (unsigned)vaddv_u8(vget_high_u8(bits)) << 8;
}

static inline unsigned bytes16_same(bytes16 one, bytes16 other)
{
    return bytes16_bits(vceqq_u8(one, other));
}

static inline unsigned bytes16_same_there(uintptr_t at, bytes16 bytes)
{
    return bytes16_same(bytes16_load((const void *)at), bytes);
}

static inline unsigned bytes16_same_text(bytes16 one, bytes16 other)
{
    return bytes16_bits(vbicq_u8(vceqq_u8(one, other), vceqzq_u8(one)));
}

/* There is no single instruction for many bytes. */
#define MANY_BYTES SIZE_MAX
static inline void processor_copy_many(void *to, const void *from, size_t size)
{
    (void)to, (void)from, (void)size;
}

static inline void processor_set_many(void *to, int byte, size_t size)
{
    (void)to, (void)byte, (void)size;
}

#endif
