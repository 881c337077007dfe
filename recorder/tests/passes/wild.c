/* Fields and elements of wild pointers: some lie past the end of all addresses, and so at the first, or the other way.
   Each access is printed with the address that the system says it faults at. */
#define _GNU_SOURCE
#include <setjmp.h>
#include <signal.h>
#include <stdint.h>
#include <stdio.h>

struct wide {
    long before[4], a, b, c;
    int d;
};

static sigjmp_buf back;
static volatile uintptr_t where;

static void handle(int number, siginfo_t *info, void *context)
{
    (void)number;
    (void)context;
    where = (uintptr_t)info->si_addr;
    siglongjmp(back, 1);
}

#define APART __attribute__((noinline)) static

APART long upwards(struct wide *p)
{
    return p->a + p->b + p->c + p->d;
}

APART long downwards(struct wide *p)
{
    return p->c + p->b + p->a + p->before[0] + p[-1].c;
}

APART long elements(long *p, long n)
{
    long x = 0;
    for (long i = 0; i < n; i++)
        x += p[i] + p[2 * i + 1];
    return x;
}

APART long narrow(long *p, int first)
{
    long x = 0;
    for (int i = first; i < first + 3; i++)
        x += p[i];
    return x;
}

APART long at(long *p, long i)
{
    return p[i] + p[i + 1];
}

/* By its number. */
static long read_at(uintptr_t base, int number)
{
    switch (number) {
    case 0:
        return upwards((struct wide *)base);
    case 1:
        return downwards((struct wide *)base);
    case 2:
        return elements((long *)base, 4);
    case 3:
        return narrow((long *)base, -1);
    case 4:
        return narrow((long *)base, 1);
    case 5:
        return at((long *)base, INT64_MAX);
    case 6:
        return at((long *)base, -2);
    default:
        return at((long *)base, 1);
    }
}

static void each(uintptr_t base)
{
    for (volatile int number = 0; number < 8; number++) {
        if (sigsetjmp(back, 1)) {
            printf("%lx, %d faults at %lx\n", base, number, where);
            continue;
        }
        printf("%lx, %d is read: %ld\n", base, number, read_at(base, number));
    }
}

int main(void)
{
    static const uintptr_t bases[] = {
        0, 1, 8, 32, 0x10000, UINTPTR_MAX, -8UL, -16UL, -32UL, -40UL, -64UL, 1UL << 47, 1UL << 63, 1UL << 61,
    };
    struct sigaction action = {.sa_sigaction = handle, .sa_flags = SA_SIGINFO | SA_NODEFER};
    sigaction(SIGSEGV, &action, NULL);
    sigaction(SIGBUS, &action, NULL);
    for (unsigned i = 0; i < sizeof bases / sizeof *bases; i++)
        each(bases[i]);
    /* An index that is right only since it wraps. */
    long number = 7;
    printf("%ld\n", at(&number - 1, 1L << 61) * 0);
    return 0;
}
