/* Counts the instructions of a program's own file, among them the recorder's, step by step: from the second call of a
   function until that returns. The first call pays for all first times. Shared libraries are not counted, so the count
   is that of any processor and C library.

   usage: count_instructions ADDRESS PROGRAM [ARGUMENT..]

   ADDRESS is that of the function in the file, in hexadecimal digits. The count goes to standard error: a line. */
#define _GNU_SOURCE
#include <limits.h>
#include <signal.h>
#include <stddef.h>
#include <stdio.h>
#include <stdlib.h>
#include <string.h>
#include <sys/personality.h>
#include <sys/ptrace.h>
#include <sys/user.h>
#include <sys/wait.h>
#include <unistd.h>

enum { BREAKPOINT = 0xcc, BYTE = 0xff };

struct file {
    unsigned long start, end;
};

static _Noreturn void fail(const char *what)
{
    fprintf(stderr, "count_instructions: %s\n", what);
    exit(2);
}

static void wait_for_trap(pid_t child)
{
    int status;
    if (waitpid(child, &status, 0) != child || !WIFSTOPPED(status) || WSTOPSIG(status) != SIGTRAP)
        fail("the program has ended, or has got a signal, before the second call has returned");
}

static unsigned long word_at(pid_t child, unsigned long address)
{
    return (unsigned long)ptrace(PTRACE_PEEKTEXT, child, (void *)address, NULL);
}

static void set_word(pid_t child, unsigned long address, unsigned long word)
{
    if (ptrace(PTRACE_POKETEXT, child, (void *)address, (void *)word) != 0)
        fail("the program's code cannot be written");
}

static unsigned long register_of(pid_t child, size_t offset)
{
    return (unsigned long)ptrace(PTRACE_PEEKUSER, child, (void *)offset, NULL);
}

/* Where the program's file lies. Right after the exec, nothing else has been mapped between its parts. */
static struct file file_of(pid_t child)
{
    char path[64], own[PATH_MAX] = "", line[PATH_MAX + 128];
    snprintf(path, sizeof path, "/proc/%d/exe", child);
    if (readlink(path, own, sizeof own - 1) < 0)
        fail("the program's path cannot be read");
    snprintf(path, sizeof path, "/proc/%d/maps", child);
    FILE *maps = fopen(path, "r");
    struct file file = {0, 0};
    while (maps != NULL && fgets(line, sizeof line, maps) != NULL) {
        unsigned long start, end;
        if (strstr(line, own) == NULL || sscanf(line, "%lx-%lx", &start, &end) != 2)
            continue;
        file.start = file.start == 0 ? start : file.start;
        file.end = end;
    }
    if (maps == NULL || file.end == 0)
        fail("the program's mappings cannot be read");
    fclose(maps);
    return file;
}

/* Starts the program without random addresses. It has stopped at its exec then. */
static pid_t start(char **argv)
{
    pid_t child = fork();
    if (child == 0) {
        if (personality(ADDR_NO_RANDOMIZE) == -1 || ptrace(PTRACE_TRACEME, 0, NULL, NULL) != 0)
            fail("the system allows no tracing, or no addresses that are the same each time");
        execv(argv[0], argv);
        fail("the program cannot be started");
    }
    if (child < 0)
        fail("no process can be made");
    wait_for_trap(child);
    return child;
}

/* Runs the program at full speed up to the next time that it comes here. */
static void run_up_to(pid_t child, unsigned long address)
{
    unsigned long word = word_at(child, address);
    set_word(child, address, (word & ~(unsigned long)BYTE) | BREAKPOINT);
    ptrace(PTRACE_CONT, child, NULL, NULL);
    wait_for_trap(child);
    set_word(child, address, word);
    ptrace(PTRACE_POKEUSER, child, (void *)offsetof(struct user_regs_struct, rip), (void *)address);
}

static void step(pid_t child)
{
    if (ptrace(PTRACE_SINGLESTEP, child, NULL, NULL) != 0)
        fail("a step has failed");
    wait_for_trap(child);
}

/* The program is at the start of a function. */
static long count_until_return(pid_t child, const struct file *file)
{
    unsigned long back = word_at(child, register_of(child, offsetof(struct user_regs_struct, rsp))), at;
    long counted = 0;
    while ((at = register_of(child, offsetof(struct user_regs_struct, rip))) != back) {
        counted += at - file->start < file->end - file->start;
        step(child);
    }
    return counted;
}

int main(int count, char **argv)
{
    if (count < 3)
        fail("usage: count_instructions ADDRESS PROGRAM [ARGUMENT..]");
    pid_t child = start(argv + 2);
    struct file file = file_of(child);
    unsigned long function = file.start + strtoul(argv[1], NULL, 16);
    run_up_to(child, function);
    step(child);
    run_up_to(child, function);
    long counted = count_until_return(child, &file);
    int status;
    ptrace(PTRACE_DETACH, child, NULL, NULL);
    if (waitpid(child, &status, 0) != child || status != 0)
        fail("the program has failed");
    fprintf(stderr, "%ld\n", counted);
    return 0;
}
