/* Accesses that are neither a plain load or store to a compiler nor, once it has optimised, a call (hidden.def). The
   name of each that this processor can do is printed before it is done. With `good` all blocks are large, and at the
   end comes a sum of the values read and written. */
#define _GNU_SOURCE
#include <complex.h>
#include <x86intrin.h>
#include <stdbool.h>
#include <stdio.h>
#include <stdlib.h>
#include <string.h>
#include <strings.h>

#define ANY "sse2"
#define WIDE "avx2"
#define WIDEST "avx512f,avx512vl,avx512bw"
#define FOUR FOUR_FROM(0)
#define FOUR_FROM(first) _mm_set_epi32(first + 3, first + 2, first + 1, first)
#define FOUR_LONG _mm256_set_epi64x(3, 2, 1, 0)
#define FIRST _mm_set_epi32(0, 0, 0, -1)
#define LAST _mm_set_epi32(-1, 0, 0, 0)
#define THREE _mm_set_epi32(0, -1, -1, -1)
#define SEVENS _mm256_set1_epi32(7)
#define MANY_SEVENS _mm512_set1_epi32(7)
#define MANY_ONES _mm512_set1_epi32(1)
#define LAST_OF_16 _mm512_set1_epi32(15)

static bool is_good;
static volatile double sink;
static unsigned long long sum;

/* A block of this size, with zeros, about which the compiler knows nothing. */
static void *block(size_t size)
{
    void *made;
    size_t all = is_good ? 2048 : size;
    if (posix_memalign(&made, 64, all) != 0)
        abort();
    memset(made, 0, all);
    __asm__ volatile("" : "+r"(made) : : "memory");
    return made;
}

static void add(const void *bytes, size_t size)
{
    for (size_t i = 0; i < size; i++)
        sum = sum * 31 + ((const unsigned char *)bytes)[i];
}

#define ADD(vector, value)                                                                                             \
    {                                                                                                                  \
        vector all = value;                                                                                            \
        add(&all, sizeof all);                                                                                         \
    }

static void *at(char *p)
{
    return p;
}

#define BUG(name, features, ...)                                                                                       \
    static __attribute__((noinline, target(features))) void do_##name(void)                                            \
    {                                                                                                                  \
        __VA_ARGS__                                                                                                    \
    }
#define GOOD(name, features, ...) BUG(name, features, __VA_ARGS__)
#include "hidden.def"
#undef BUG

#define BUG(name, features, ...) {#name, features, do_##name},
static const struct {
    const char *name, *features;
    void (*run)(void);
} rows[] = {
#include "hidden.def"
};

static bool can(const char *features)
{
    if (strcmp(features, WIDEST) == 0)
        return __builtin_cpu_supports("avx512vl") && __builtin_cpu_supports("avx512bw");
    if (strcmp(features, WIDE) == 0)
        return __builtin_cpu_supports("avx2");
    return strcmp(features, ANY) == 0 || __builtin_cpu_supports("avx");
}

int main(int count, char **argv)
{
    is_good = count > 1 && strcmp(argv[1], "good") == 0;
    for (size_t i = 0; i < sizeof rows / sizeof *rows; i++) {
        if (!can(rows[i].features))
            continue;
        puts(rows[i].name);
        rows[i].run();
    }
    if (is_good)
        printf("%llx\n", sum);
    return 0;
}
