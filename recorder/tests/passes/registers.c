/* Values in registers across bad accesses come out as they went in, although the program's callback uses all
   registers. It is called at the first access of a place. */
#include <fenv.h>
#include <stdio.h>
#include <string.h>

#include "bad.h"

#define KEEP(value) __asm__ volatile("" : "+r"(value))
#define KEEP_VECTOR(value) __asm__ volatile("" : "+x"(value))
/* For each of twelve. */
#define ALL(DO) DO(0) DO(1) DO(2) DO(3) DO(4) DO(5) DO(6) DO(7) DO(8) DO(9) DO(10) DO(11)

static const long numbers[12] = {3, 5, 7, 11, 13, 17, 19, 23, 29, 31, 37, 41};

#define TAKE(i) long v##i = in[i] * 0x123456789;
#define KEEP_ONE(i) KEEP(v##i);
#define ADD(i) sum = sum * 31 + v##i;

APART long whole_numbers(const long *in, struct fields *bad)
{
    long sum = 0;
    ALL(TAKE)
    ALL(KEEP_ONE)
    sum += bad->a * zero;
    ALL(KEEP_ONE)
    bad->c = 1;
    ALL(KEEP_ONE)
    sum += bad->d * zero + bad->e * zero;
    ALL(ADD)
    return sum;
}

#define VECTORS(bytes, name, target_name)                                                                              \
    typedef long name##_vector __attribute__((vector_size(bytes), aligned(8)));                                        \
    __attribute__((target(target_name))) APART long name(const long *in, struct fields *bad)                           \
    {                                                                                                                  \
        name##_vector all[12], sum = {0};                                                                              \
        ALL(SPREAD)                                                                                                    \
        ALL(KEEP_WIDE)                                                                                                 \
        long rest = bad->a * zero;                                                                                     \
        ALL(KEEP_WIDE)                                                                                                 \
        bad->f = 1;                                                                                                    \
        ALL(KEEP_WIDE)                                                                                                 \
        rest += bad->e * zero;                                                                                         \
        ALL(SUM_WIDE)                                                                                                  \
        for (unsigned i = 0; i < bytes / 8; i++)                                                                       \
            rest = rest * 31 + sum[i];                                                                                 \
        return rest;                                                                                                   \
    }
#define SPREAD(i) all[i] = (__typeof__(sum)){0} + in[i] * (i + 99);
#define KEEP_WIDE(i) KEEP_VECTOR(all[i]);
#define SUM_WIDE(i) sum = sum * 31 + all[i];

VECTORS(16, sixteen, "sse2")
VECTORS(32, thirty_two, "avx2")
VECTORS(64, sixty_four, "avx512f")

__attribute__((target("avx512f"))) APART long masks(const long *in, struct fields *bad)
{
    unsigned short one = (unsigned short)in[3], two = (unsigned short)in[4];
    __asm__ volatile("" : "+Yk"(one), "+Yk"(two));
    long sum = bad->a * zero;
    __asm__ volatile("" : "+Yk"(one), "+Yk"(two));
    return sum + one * 31 + two;
}

APART long double long_reals(long double a, long double b, struct fields *bad)
{
    long double x = a * b, y = a / b;
    x += bad->a * zero;
    y -= x * a + (long double)(bad->f * (double)zero);
    return x * y + a - b;
}

APART double reals(const double *in, struct fields *bad)
{
    double a = in[0], b = in[1], c = in[2], d = in[3], e = a * b, f = c * d, g = a + c, h = b - d;
    e += bad->f * (double)zero;
    f += e * g;
    bad->f = 0;
    g += (double)bad->c * (double)zero + f * h;
    return a + b + c + d + e + f + g + h;
}

/* The carry of an addition, which a later one takes. */
APART long flags(unsigned long a, unsigned long b, struct fields *bad)
{
    unsigned long low = a + b;
    int carry = low < a;
    long other = bad->c * zero;
    unsigned long high = a + (unsigned long)carry;
    int is_less = (long)a < (long)b;
    other += bad->d * zero;
    return (long)high + is_less + other;
}

/* The direction flag is clear, as every caller has it, and a copy runs forwards. */
APART long direction(struct fields *bad)
{
    char from[16] = "forwards", to[16] = "";
    long sum = bad->a * zero;
    char *source = from, *target = to;
    size_t count = sizeof from;
    __asm__ volatile("rep movsb" : "+S"(source), "+D"(target), "+c"(count)::"memory");
    unsigned long all;
    __asm__ volatile("pushfq; popq %0" : "=r"(all));
    return sum + (all >> 10 & 1) + memcmp(from, to, sizeof from);
}

/* More than a dozen arguments, of which those in registers are still there. */
APART long arguments(long a, long b, long c, long d, long e, long f, double g, double h, long i, double j,
                     struct fields *bad)
{
    long sum = bad->a * zero + a + 2 * b + 3 * c;
    sum += bad->b * zero + 4 * d + 5 * e + 6 * f;
    sum += bad->e * zero + (long)(g * 7 + h * 8 + j * 9) + 10 * i;
    return sum;
}

/* Without a call, so that its variables may lie below the stack. */
APART long leaf(const long *in, const char *bad)
{
    long some[10];
    for (int i = 0; i < 10; i++)
        some[i] = in[i] * bad[0];
    long sum = bad[1] * zero;
    for (int i = 0; i < 10; i++)
        sum += some[i] * zero + in[i];
    return sum;
}

static void of(struct fields *bad)
{
    static const double in[] = {1.25, -2.5, 1e10, 3.75};
    printf("%lx\n", whole_numbers(numbers, bad));
    printf("%lx\n", sixteen(numbers, bad));
    printf("%lx\n", __builtin_cpu_supports("avx2") ? thirty_two(numbers, bad) : 0);
    if (__builtin_cpu_supports("avx512f"))
        printf("%lx %lx\n", sixty_four(numbers, bad), masks(numbers, bad));
    printf("%.20Lg\n", long_reals(1.75L, 3.1L, bad));
    printf("%.17g\n", reals(in, bad));
    printf("%ld %ld\n", flags(~0ul - 3, 9, bad), direction(bad));
    printf("%ld\n", arguments(1, 2, 3, 4, 5, 6, 7.5, 8.5, 9, 10.5, bad));
    printf("%ld\n", leaf(numbers, (char *)bad));
}

static void on_report(const char *text)
{
    (void)text;
    use_registers();
}

int main(void)
{
    static const int ways[] = {FE_TONEAREST, FE_DOWNWARD, FE_TOWARDZERO};
    struct fields *old = freed(sizeof *old), *cut = calloc(1, 2);
    __asan_set_error_report_callback(on_report);
    for (int i = 0; i < 3; i++) {
        fesetround(ways[i]);
        of(cut);
        of(old);
        of((struct fields *)((char *)cut + 32));
        printf("%d\n", fegetround() == ways[i]);
    }
    return 0;
}
