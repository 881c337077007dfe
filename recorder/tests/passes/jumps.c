/* Reports of which the program is told: its callbacks write what it reads, use wide registers, and jump away. Signals,
   and accesses where no memory is. */
#define _GNU_SOURCE
#include <fenv.h>
#include <setjmp.h>
#include <signal.h>
#include <stdint.h>
#include <stdio.h>
#include <string.h>
#include <sys/mman.h>

#include "bad.h"

static long told, told_at_once;
static volatile int is_jumping;
static jmp_buf back;
static sigjmp_buf out;

static void on_report(const char *text)
{
    told += text != NULL;
    use_registers();
    if (is_jumping) {
        is_jumping = 0;
        longjmp(back, 1);
    }
}

void __asan_on_error(void)
{
    told_at_once++;
}

APART long counts(const int *p)
{
    long before = told + told_at_once;
    long sum = *p * zero;
    return sum + told + told_at_once - before;
}

/* A place has one call of the callbacks, so there are eight. */
APART long counts_apart(const int *p)
{
    long sum = told;
    sum = 3 * sum + p[0] * zero + told;
    sum = 3 * sum + p[1] * zero + told;
    sum = 3 * sum + p[0] * zero + told_at_once;
    sum = 3 * sum + p[2] * zero + told;
    return sum;
}

APART double with_reals(const double *p, double a, double b, double c, double d)
{
    double x = a * b, y = c * d, z = a + d;
    x += p[0] * (double)zero;
    y += x * c + p[1] * (double)zero;
    return x + y * z + a + b + c + d;
}

APART long jumps(int *p)
{
    volatile long sum = 0;
    char local[20];
    memset(local, 1, sizeof local);
    if (setjmp(back) == 0) {
        is_jumping = 1;
        sum += *p * zero + 100;
    } else {
        sum += *p * zero + 1;
    }
    is_jumping = 0;
    return sum + local[zero + 19];
}

static int *shared;

static void on_signal(int number)
{
    (void)number;
    shared[0] = 5;
    told += shared[1] * zero;
}

APART long signals(int *p)
{
    shared = p;
    signal(SIGUSR1, on_signal);
    long sum = *p;
    raise(SIGUSR1);
    return (sum + *p) * zero;
}

static void on_fault(int number, siginfo_t *info, void *context)
{
    (void)context;
    printf("signal %d at %lx\n", number, (unsigned long)info->si_addr);
    siglongjmp(out, 1);
}

APART long field_of(struct fields *p, long index, int which)
{
    switch (which) {
    case 0:
        return p[index].a;
    case 1:
        return p[index].c;
    case 2:
        return p[index].d;
    case 3:
        p[index].e = 1;
        return 0;
    default:
        return (long)p[index].f + (long)p[index].b;
    }
}

APART long several_fields(struct fields *p)
{
    return p->c + p->d + p->e;
}

APART void wild(struct fields *p, long index)
{
    for (volatile int which = 0; which < 6; which++)
        if (sigsetjmp(out, 1) == 0)
            printf("%ld\n", which == 5 ? several_fields(p + index) * zero : field_of(p, index, which) * zero);
}

static void wild_all(void)
{
    struct sigaction action = {.sa_sigaction = on_fault, .sa_flags = SA_SIGINFO | SA_NODEFER};
    sigaction(SIGSEGV, &action, NULL);
    sigaction(SIGBUS, &action, NULL);
    char *page = mmap(NULL, 8192, PROT_READ | PROT_WRITE, MAP_PRIVATE | MAP_ANONYMOUS, -1, 0);
    munmap(page + 4096, 4096);
    wild(NULL, 0);
    wild(NULL, -1);
    wild(NULL, 1000);
    wild((struct fields *)-1, 0);
    wild((struct fields *)-1, -2);
    wild((struct fields *)-1, 3);
    wild((struct fields *)MAP_FAILED, 1);
    wild((struct fields *)0x1234567800000000, -1);
    wild((struct fields *)0x7fff8000, 0);
    wild((struct fields *)0x7ffffffff000, 100);
}

int main(void)
{
    int *block = calloc(1, sizeof *block), *old = freed(sizeof *old);
    double *reals = calloc(1, sizeof *reals);
    __asan_set_error_report_callback(on_report);
    fesetround(FE_UPWARD);
    for (int round = 0; round < 2; round++) {
        printf("%ld %ld\n", counts(block + 1), counts(old));
        printf("%ld %ld\n", counts_apart(block + 1), counts_apart(old));
        printf("%.17g\n", with_reals(reals, 1.1, 2.3, 1e-3, 5.7));
        printf("%ld %ld\n", jumps(block + 1), jumps(old));
        printf("%ld %ld\n", signals(block), signals(old));
    }
    printf("%d, told %ld %ld\n", fegetround() == FE_UPWARD, told, told_at_once);
    wild_all();
    return 0;
}
