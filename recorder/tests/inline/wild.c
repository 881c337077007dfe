/* Reads at wild addresses, and what a handler is given of each. Into the recorder's own maps too. */
#define _GNU_SOURCE
#include <setjmp.h>
#include <signal.h>
#include <stdint.h>
#include <stdio.h>
#include <stdlib.h>

static sigjmp_buf back;
static void *volatile where;

static void handle(int number, siginfo_t *info, void *context)
{
    (void)number;
    (void)context;
    where = info->si_addr;
    siglongjmp(back, 1);
}

int main(void)
{
    static const uintptr_t wild[] = {
        0,
        8,
        0x7ffffffffff8,
        0x800000000000,
        0x4141414141414141,
        0xffffffff80000000,
        0xfffffffffffffff8,
        0x7fff8000,
        0x100000000000,
        0x400000000010,
        0x240000000000,
    };
    struct sigaction action = {.sa_sigaction = handle, .sa_flags = SA_SIGINFO | SA_NODEFER};
    sigaction(SIGSEGV, &action, NULL);
    sigaction(SIGBUS, &action, NULL);
    for (size_t i = 0; i < sizeof wild / sizeof *wild; i++) {
        if (sigsetjmp(back, 1)) {
            printf("%lx faults at %p\n", wild[i], where);
            continue;
        }
        (void)*(volatile char *)wild[i];
        printf("%lx is read\n", wild[i]);
    }
    return 0;
}
