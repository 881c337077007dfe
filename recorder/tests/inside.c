/* Faults that the recorder's own code meets, since the program takes memory away from it; and faults of the program
   that come while the recorder does something for it. */
#define _GNU_SOURCE
#include <errno.h>
#include <setjmp.h>
#include <signal.h>
#include <stdint.h>
#include <stdio.h>
#include <stdlib.h>
#include <string.h>
#include <sys/mman.h>
#include <sys/syscall.h>
#include <unistd.h>

#include "base/tables.h"

enum { BLOCK = 100 };

static void take_rights(uintptr_t address, int rights)
{
    if (mprotect((void *)(address / PAGE * PAGE), PAGE, rights) != 0)
        exit(3);
}

/* In the recorder. */

static void in_free(void)
{
    char *volatile block = malloc(BLOCK);
    take_rights(SHADOW_START + (uintptr_t)block / 8, PROT_READ);
    free(block);
}

static void at_a_fault(void)
{
    char bytes[8];
    char *volatile here = bytes;
    if (mprotect(TABLE(char, known_faults), sizeof((struct tables *)0)->known_faults, PROT_NONE) != 0)
        exit(3);
    here[sizeof bytes] = 1;
}

static void in_copying(void)
{
    char *volatile block = malloc(BLOCK);
    take_rights(SHADOW_START + (uintptr_t)block / 8, PROT_READ);
    block = realloc(block, 2 * BLOCK);
}

/* In the program. */

static void too_deep(void)
{
    char *volatile block = malloc(8);
    too_deep();
    free(block);
}

static void no_place_for_a_block(void)
{
    void **volatile nowhere = NULL;
    if (posix_memalign(nowhere, 64, BLOCK) != 0)
        exit(3);
}

static void block_without_rights(void)
{
    char *volatile block = aligned_alloc(PAGE, PAGE);
    take_rights((uintptr_t)block, PROT_NONE);
    block = realloc(block, (size_t)2 * PAGE);
}

static void no_text(void)
{
    char bytes[8];
    const char *volatile nowhere = NULL;
    strcpy(bytes, nowhere);
}

static void text_of_no_address(void)
{
    char *volatile to = malloc(8);
    const char *volatile nowhere = (const char *)((uintptr_t)1 << 62);
    memcpy(to, nowhere, 8);
}

static void no_jump(void)
{
    void *volatile nowhere = NULL;
    longjmp(nowhere, 1);
}

static void no_action(void)
{
    struct sigaction *volatile nowhere = (struct sigaction *)8;
    sigaction(SIGUSR1, nowhere, NULL);
}

static void no_address(void)
{
    char *volatile nowhere = (char *)((uintptr_t)1 << 62);
    *nowhere = 1;
}

static void is_sent(void)
{
    kill(getpid(), SIGSEGV);
}

static const struct fault {
    const char *name;
    void (*meet)(void);
} met[] = {
    {"in_free", in_free},
    {"at_a_fault", at_a_fault},
    {"in_copying", in_copying},
    {"too_deep", too_deep},
    {"no_place_for_a_block", no_place_for_a_block},
    {"block_without_rights", block_without_rights},
    {"no_text", no_text},
    {"text_of_no_address", text_of_no_address},
    {"no_jump", no_jump},
    {"no_action", no_action},
    {"no_address", no_address},
    {"is_sent", is_sent},
};

/* How the program handles it. */

static sigjmp_buf back;

static void leave(int number)
{
    (void)number;
    static const char text[] = "handled\n";
    if (write(STDOUT_FILENO, text, sizeof text - 1) < 0)
        abort();
    siglongjmp(back, 1);
}

static void leave_with_info(int number, siginfo_t *info, void *context)
{
    if (context == NULL || info->si_signo != number)
        abort();
    leave(number);
}

static void set(int number, struct sigaction action)
{
    static char stack[1 << 16];
    struct sigaction seen;
    sigaltstack(&(stack_t){.ss_sp = stack, .ss_size = sizeof stack}, NULL);
    action.sa_flags |= SA_ONSTACK;
    if (sigaction(number, &action, NULL) != 0 || sigaction(number, NULL, &seen) != 0)
        exit(3);
    if (seen.sa_handler != action.sa_handler || (seen.sa_flags & SA_SIGINFO) != (action.sa_flags & SA_SIGINFO))
        exit(4);
}

int main(int count, char **argv)
{
    const char *how = count > 2 ? argv[2] : "";
    for (int number = SIGBUS; number <= SIGSEGV; number += SIGSEGV - SIGBUS)
        if (strcmp(how, "handler") == 0)
            set(number, (struct sigaction){.sa_handler = leave});
        else if (strcmp(how, "with_info") == 0)
            set(number, (struct sigaction){.sa_sigaction = leave_with_info, .sa_flags = SA_SIGINFO});
    for (size_t i = 0; i < sizeof met / sizeof *met; i++)
        if (count > 1 && strcmp(met[i].name, argv[1]) == 0 && sigsetjmp(back, 1) == 0)
            met[i].meet();
    return 0;
}
