/* Accesses of blocks that are bad, bad again, or bad after a change, of all forms. */
#include <stdint.h>
#include <stdio.h>
#include <string.h>

#include "bad.h"

static int *volatile kept;

APART long twice(int *p)
{
    long sum = *p;
    kept = p;
    sum += *p;
    return sum + *p;
}

APART long stores_between(int *p, int *good)
{
    long sum = *p;
    *good = 1;
    sum += *p;
    *p = 3;
    *p = 4;
    return sum + *good;
}

APART long all_fields(struct fields *p)
{
    return p->a + p->b + p->c + p->d + p->e + (long)p->f + (p->next != NULL);
}

APART void set_fields(struct fields *p)
{
    p->a = 1;
    p->b = 2;
    p->c = 3;
    p->d = 4;
    p->e = 5;
    p->f = 6;
    p->next = NULL;
}

APART long branches(struct fields *p, int ways)
{
    long sum = p->a;
    if (ways & 1)
        sum += p->a;
    if (ways & 2)
        sum += p->c;
    else
        p->c = sum;
    return sum + p->a + p->c;
}

APART long up(int *p, int count)
{
    long sum = 0;
    for (int i = 0; i < count; i++)
        sum += p[i] + *p;
    return sum;
}

APART long down(long *p, long count)
{
    long sum = 0;
    for (long i = count - 1; i >= -1; i--)
        sum += p[i];
    return sum;
}

APART double two_places(double *p, int count, int apart)
{
    double sum = 0;
    for (int i = 0; i < count; i++)
        sum += p[i] * p[i + apart];
    return sum;
}

APART long rows(struct fields *p, long count)
{
    long sum = 0;
    for (long i = 0; i < count; i++) {
        sum += p[i].a + p[i].c;
        p[i].f = (double)i;
    }
    return sum;
}

/* The index is of 32 bits, and wraps. */
APART long wrapping(int *p, unsigned first, unsigned count)
{
    long sum = 0;
    for (unsigned i = 0; i < count; i++)
        sum += p[(first + i) % 16u];
    return sum;
}

APART long bounded(signed char *p, int8_t from)
{
    long sum = 0;
    for (int8_t i = from; i < 6; i++)
        sum += p[i];
    return sum;
}

APART void release(void *p)
{
    free(p);
}

APART long freed_between(struct fields *p)
{
    long sum = p->a + p->c;
    release(p);
    sum += p->a;
    return sum + p->c;
}

APART long moved_between(long *p)
{
    long sum = p[0];
    long *q = realloc(p, 4000);
    sum += p[0];
    sum += q[0];
    p[1] = 1;
    free(q);
    return sum + p[0] + q[1];
}

APART long poisoned_between(char *p)
{
    long sum = p[3];
    __asan_poison_memory_region(p, 32);
    sum += p[3];
    sum += *(int *)(p + 4);
    __asan_unpoison_memory_region(p, 12);
    sum += p[3];
    sum += *(long *)(p + 8);
    sum += *(int *)(p + 8);
    sum += *(long *)(p + 16);
    __asan_unpoison_memory_region(p, 32);
    return sum + *(long *)(p + 16);
}

APART long volatiles(volatile int *p)
{
    long sum = *p;
    sum += *p;
    *p = 1;
    *p += 1;
    return sum;
}

APART long larger(char *p)
{
    long sum = *p;
    sum += *(short *)p;
    sum += *(int *)p;
    sum += *(long *)p;
    return sum + (long)*(__int128 *)p;
}

APART long smaller(char *p)
{
    long sum = (long)*(__int128 *)p;
    sum += *(long *)p;
    sum += *(int *)p;
    sum += *(short *)p;
    return sum + *p;
}

APART void larger_stores(char *p)
{
    *(volatile char *)p = 0;
    *(volatile short *)p = 0;
    *(volatile int *)p = 0;
    *(volatile long *)p = 0;
}

typedef short any_short __attribute__((aligned(1)));
typedef int any_int __attribute__((aligned(1)));
typedef long any_long __attribute__((aligned(1)));
typedef __int128 any_16 __attribute__((aligned(1)));

/* Each size at each offset, as one that may be unaligned. */
APART long unaligned(char *p)
{
    long sum = *p;
    sum += *(any_short *)p;
    sum += *(any_int *)p;
    sum += *(any_long *)p;
    return sum + (long)*(any_16 *)p;
}

/* And those that are aligned, as one that is. */
APART long aligned(char *p, long offset)
{
    long sum = p[offset];
    if (offset % 2 == 0)
        sum += *(short *)(p + offset);
    if (offset % 4 == 0)
        sum += *(int *)(p + offset);
    if (offset % 8 == 0)
        sum += *(long *)(p + offset);
    if (offset % 16 == 0)
        sum += (long)*(__int128 *)(p + offset);
    return sum;
}

APART void aligned_stores(char *p, long offset)
{
    p[offset] = 0;
    if (offset % 2 == 0)
        *(short *)(p + offset) = 0;
    if (offset % 4 == 0)
        *(int *)(p + offset) = 0;
    if (offset % 8 == 0)
        *(long *)(p + offset) = 0;
}

APART long granules(void)
{
    long sum = 0;
    for (size_t size = 1; size <= 16; size++) {
        char *p = calloc(1, size);
        for (long offset = -2; offset < 18; offset++) {
            sum += unaligned(p + offset) * zero + aligned(p, offset) * zero;
            aligned_stores(p, offset);
        }
    }
    return sum;
}

typedef int four __attribute__((vector_size(16)));

APART long vectors(four *p)
{
    four a = p[0], b = p[1];
    p[1] = a + b;
    p[2] = a - b;
    return a[0] + b[1];
}

struct packed {
    char a;
    int b;
    long c;
    short d;
} __attribute__((packed));

APART long packed_fields(struct packed *p)
{
    p->d = 1;
    p->c = 2;
    return p->a + p->b + p->c + p->d;
}

struct bits {
    unsigned a : 3, b : 17;
    unsigned long c : 40, d : 9;
};

APART long bit_fields(struct bits *p)
{
    p->b = 5;
    p->d = 6;
    return p->a + p->b + (long)p->c + p->d;
}

struct large {
    long words[40];
};

APART void copies(struct large *to, const struct large *from)
{
    *to = *from;
    *to = *from;
}

struct medium {
    int words[7];
};

APART struct medium by_value(const struct medium *p)
{
    struct medium it = *p;
    it.words[0]++;
    return it;
}

APART long switches(const int *p, int way)
{
    long sum = 0;
    switch (way) {
    case 0:
        sum += p[0];
        /* fallthrough */
    case 1:
        sum += p[1];
        /* fallthrough */
    case 2:
        sum += p[0];
        break;
    case 3:
        sum += p[-1];
        break;
    default:
        sum += p[way];
    }
    return sum + p[1];
}

APART long interpreted(const unsigned char *code, long *stack)
{
    static void *const labels[] = {&&push, &&add, &&drop, &&end};
    long sum = 0;
    goto *labels[*code];
push:
    *stack++ = 1;
    goto *labels[*++code];
add:
    stack[-2] += stack[-1];
    stack--;
    goto *labels[*++code];
drop:
    sum += *stack--;
    goto *labels[*++code];
end:
    return sum + (long)*code;
}

APART long around_asm(int *p)
{
    long sum = *p;
    __asm__ volatile("" ::: "memory");
    sum += *p;
    int other;
    __asm__ volatile("leal 1(%1), %0" : "=r"(other) : "r"(p[1]));
    __asm__ volatile("movl %1, %0" : "=m"(p[1]) : "r"(other));
    __asm__ volatile("" : "+m"(*p));
    return sum + *p;
}

APART long of_everything(int *good, int *past, void *old, long round)
{
    long sum = twice(good) + (twice(past) + twice(old)) * zero;
    sum += (stores_between(past, good) + stores_between(old, good)) * zero;
    struct fields *whole = calloc(1, sizeof *whole), *cut = calloc(1, 20);
    sum += (all_fields(cut) + all_fields(old)) * zero + all_fields(whole);
    set_fields(whole);
    set_fields(cut);
    for (int ways = 0; ways < 4; ways++)
        sum += (branches(cut, ways) + branches(old, ways)) * zero + branches(whole, ways);
    int *ten = calloc(10, sizeof *ten);
    sum += (up(ten, 12) + up(ten - 1, 3) + wrapping(ten, 14u, 5) + bounded((signed char *)ten, -3)) * zero;
    sum += down(calloc(6, sizeof(long)), 7) * zero + rows(calloc(3, sizeof *whole), 4) * zero;
    double *reals = calloc(10, sizeof *reals);
    sum += (long)(two_places(reals, 10, 2) + two_places(reals, 5, -2)) * zero;
    sum += (freed_between(calloc(1, sizeof *whole)) + moved_between(calloc(2, 8))) * zero;
    sum += poisoned_between(calloc(1, 32)) * zero + volatiles(good);
    sum += (volatiles(past) + volatiles(old)) * zero + round;
    return sum;
}

APART long of_forms(void)
{
    long sum = 0;
    for (size_t size = 1; size <= 9; size += 2) {
        sum += (larger(calloc(1, size)) + smaller(calloc(1, size))) * zero;
        larger_stores(calloc(1, size));
    }
    sum += (vectors(calloc(1, 24)) + packed_fields(calloc(1, 10)) + packed_fields(calloc(1, 14))) * zero;
    sum += bit_fields(calloc(1, 8)) * zero;
    struct large *whole = calloc(1, sizeof *whole), *cut = calloc(1, sizeof *cut - 8);
    copies(cut, whole);
    copies(whole, cut);
    sum += by_value(calloc(1, 26)).words[2] * zero;
    int *four_bytes = calloc(1, 4);
    for (int way = 0; way < 6; way++)
        sum += switches(four_bytes, way) * zero;
    static const unsigned char code[] = {0, 0, 0, 1, 0, 1, 2, 2, 2, 3};
    sum += interpreted(code, calloc(2, 8)) * zero + around_asm(four_bytes) * zero;
    return sum;
}

int main(void)
{
    int *good = calloc(1, sizeof *good);
    void *old = freed(sizeof(struct fields));
    long sum = 0;
    for (long round = 0; round < 3; round++)
        sum += of_everything(good, good + 1, old, round) + of_forms();
    sum += granules();
    printf("%ld\n", sum);
    return 0;
}
