/* The common part of the programs of passes.py. Each bad value is multiplied by `zero`, so that no output depends on
   bytes beside a block. */
#ifndef BAD_H
#define BAD_H

#include <stdlib.h>

/* The interface of AddressSanitizer, whose headers not each compiler has. */
#ifdef __cplusplus
extern "C" {
#endif
void __asan_poison_memory_region(void const volatile *start, size_t size);
void __asan_unpoison_memory_region(void const volatile *start, size_t size);
void __asan_set_error_report_callback(void (*callback)(const char *text));
#ifdef __cplusplus
}
#endif

#ifdef __clang__
#define APART __attribute__((noinline)) static
#else
#define APART __attribute__((noinline, noclone)) static
#endif

static volatile long zero;

struct fields {
    int a, b;
    long c;
    char d;
    short e;
    double f;
    struct fields *next;
};

/* A block of zeros that is freed. */
static inline void *freed(size_t size)
{
    void *volatile block = calloc(1, size);
    free(block);
    return block;
}

#define ONES_OF_32(i)                                                                                                  \
    "vpcmpeqd %%xmm" #i ", %%xmm" #i ", %%xmm" #i "; vinsertf128 $1, %%xmm0, %%ymm" #i ", %%ymm" #i "\n\t"
#define ONES_OF_64(i) "vpternlogd $255, %%zmm" #i ", %%zmm" #i ", %%zmm" #i "\n\t"
#define LOW_HALF(DO) DO(0) DO(1) DO(2) DO(3) DO(4) DO(5) DO(6) DO(7)
#define HIGH_HALF(DO) DO(8) DO(9) DO(10) DO(11) DO(12) DO(13) DO(14) DO(15)
#define FURTHER(DO)                                                                                                    \
    DO(16) DO(17) DO(18) DO(19) DO(20) DO(21) DO(22) DO(23) DO(24) DO(25) DO(26) DO(27) DO(28) DO(29) DO(30) DO(31)
#define VECTORS_OF_AVX                                                                                                 \
    "xmm0", "xmm1", "xmm2", "xmm3", "xmm4", "xmm5", "xmm6", "xmm7", "xmm8", "xmm9", "xmm10", "xmm11", "xmm12",         \
        "xmm13", "xmm14", "xmm15"
#define FURTHER_VECTORS                                                                                                \
    "xmm16", "xmm17", "xmm18", "xmm19", "xmm20", "xmm21", "xmm22", "xmm23", "xmm24", "xmm25", "xmm26", "xmm27",        \
        "xmm28", "xmm29", "xmm30", "xmm31", "k1", "k2", "k3", "k4", "k5", "k6", "k7"

__attribute__((target("avx"))) static inline void use_avx(void)
{
    __asm__ volatile(LOW_HALF(ONES_OF_32) HIGH_HALF(ONES_OF_32)::: VECTORS_OF_AVX);
}

__attribute__((target("avx512f"))) static inline void use_avx512(void)
{
    __asm__ volatile(LOW_HALF(ONES_OF_64) HIGH_HALF(ONES_OF_64) FURTHER(ONES_OF_64)::: VECTORS_OF_AVX);
    __asm__ volatile(
        "kxnorw %%k0, %%k0, %%k1; kmovw %%k1, %%k2; kmovw %%k1, %%k3; kmovw %%k1, %%k4; kmovw %%k1, %%k5\n\t"
        "kmovw %%k1, %%k6; kmovw %%k1, %%k7" ::
            : FURTHER_VECTORS);
}

/* Uses all registers that a function may use without keeping them, as a callback of the program may. */
static inline void use_registers(void)
{
    __asm__ volatile("fld1; fld1; fld1; fld1; fld1; fld1; fld1; fld1\n\t"
                     "fstp %%st(0); fstp %%st(0); fstp %%st(0); fstp %%st(0)\n\t"
                     "fstp %%st(0); fstp %%st(0); fstp %%st(0); fstp %%st(0)" ::
                         : "st", "st(1)", "st(2)", "st(3)", "st(4)", "st(5)", "st(6)", "st(7)");
    __asm__ volatile("movq $-1, %%rax; movq %%rax, %%rcx; movq %%rax, %%rdx; movq %%rax, %%rsi; movq %%rax, %%rdi\n\t"
                     "movq %%rax, %%r8; movq %%rax, %%r9; movq %%rax, %%r10; movq %%rax, %%r11" ::
                         : "rax", "rcx", "rdx", "rsi", "rdi", "r8", "r9", "r10", "r11");
    if (__builtin_cpu_supports("avx512f"))
        use_avx512();
    else if (__builtin_cpu_supports("avx"))
        use_avx();
}

#endif
