/* Runs a program by single steps from where it stops itself, up to the first addition to a cursor of the recorder, and
   this many steps more. Then it gets SIGUSR1. Prints how often it has yielded the processor since.

   usage: stepped STEPS PROGRAM [ARGUMENT..] */
#define _GNU_SOURCE
#include <signal.h>
#include <stdbool.h>
#include <stdio.h>
#include <stdlib.h>
#include <string.h>
#include <sys/ptrace.h>
#include <sys/syscall.h>
#include <sys/user.h>
#include <sys/wait.h>
#include <unistd.h>

enum { MOST_STEPS = 200000, LEAST_CURSOR_BIT = 63, EVENT_SHIFT = 32, MOST_EVENTS = 1 << 20 };

static _Noreturn void fail(const char *what)
{
    fprintf(stderr, "stepped: %s\n", what);
    exit(2);
}

/* Waits for a stop, and returns its signal. */
static int stop_of(pid_t child)
{
    int status;
    if (waitpid(child, &status, 0) != child || !WIFSTOPPED(status))
        fail("the program has ended");
    return WSTOPSIG(status);
}

/* Whether this is a locked addition that answers the earlier number. */
static bool is_addition(pid_t child, unsigned long instruction)
{
    long word = ptrace(PTRACE_PEEKTEXT, child, (void *)instruction, NULL);
    const unsigned char *bytes = (const unsigned char *)&word;
    return bytes[0] == 0xf0 && (bytes[1] & 0xf8) == 0x48 && bytes[2] == 0x0f && bytes[3] == 0xc1;
}

/* Whether one of the registers has a cursor: bit 63, and a small number of events. */
static bool has_cursor(const struct user_regs_struct *registers)
{
    const unsigned long long all[] = {registers->rax, registers->rbx, registers->rcx, registers->rdx, registers->rsi,
                                      registers->rdi, registers->r8,  registers->r9,  registers->r10, registers->r11,
                                      registers->r12, registers->r13, registers->r14, registers->r15};
    for (size_t i = 0; i < sizeof all / sizeof *all; i++)
        if (all[i] >> LEAST_CURSOR_BIT != 0 && (all[i] << 1 >> 1) >> EVENT_SHIFT < MOST_EVENTS)
            return true;
    return false;
}

static void step(pid_t child, struct user_regs_struct *registers)
{
    if (ptrace(PTRACE_SINGLESTEP, child, NULL, NULL) != 0 || stop_of(child) != SIGTRAP
        || ptrace(PTRACE_GETREGS, child, NULL, registers) != 0)
        fail("a step has failed");
}

static void step_to_place(pid_t child)
{
    struct user_regs_struct registers;
    if (ptrace(PTRACE_GETREGS, child, NULL, &registers) != 0)
        fail("no registers");
    for (int steps = 0; steps < MOST_STEPS; steps++) {
        bool adds = is_addition(child, registers.rip);
        step(child, &registers);
        if (adds && has_cursor(&registers))
            return;
    }
    fail("nothing was added to a cursor");
}

/* Up to the end of the program, or to its exec. */
static unsigned count_yields(pid_t child)
{
    struct user_regs_struct registers;
    unsigned yields = 0;
    int status, number = SIGUSR1;
    for (bool enters = true;;) {
        if (ptrace(PTRACE_SYSCALL, child, NULL, (void *)(long)number) != 0 || waitpid(child, &status, 0) != child)
            fail("it does not go on");
        if (!WIFSTOPPED(status) || status >> 8 == (SIGTRAP | PTRACE_EVENT_EXEC << 8))
            return yields;
        number = WSTOPSIG(status) == (SIGTRAP | 0x80) ? 0 : WSTOPSIG(status);
        if (number != 0)
            continue;
        ptrace(PTRACE_GETREGS, child, NULL, &registers);
        yields += enters && registers.orig_rax == SYS_sched_yield;
        enters = !enters;
    }
}

int main(int count, char **argv)
{
    if (count < 3)
        return 2;
    pid_t child = fork();
    if (child == 0) {
        ptrace(PTRACE_TRACEME, 0, NULL, NULL);
        execv(argv[2], argv + 2);
        _exit(127);
    }
    if (stop_of(child) != SIGTRAP)
        fail("it does not begin");
    ptrace(PTRACE_SETOPTIONS, child, NULL, (void *)(long)(PTRACE_O_TRACESYSGOOD | PTRACE_O_TRACEEXEC));
    for (int number = 0; number != SIGSTOP;) {
        ptrace(PTRACE_CONT, child, NULL, (void *)(long)number);
        number = stop_of(child);
    }
    struct user_regs_struct registers;
    step_to_place(child);
    for (int steps = atoi(argv[1]); steps > 0; steps--)
        step(child, &registers);
    printf("%u\n", count_yields(child));
    ptrace(PTRACE_DETACH, child, NULL, NULL);
    waitpid(child, NULL, 0);
    return 0;
}
