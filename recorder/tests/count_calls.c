/* Counts the calls of the system that a program makes. usage: count_calls OUTPUT PROGRAM [WORD..]. Into OUTPUT go two
   numbers for each process and each program that it became, in the order in which these began: the process, counted
   from 0, and its calls, with that by which it became the next. */
#define _GNU_SOURCE
#include <errno.h>
#include <signal.h>
#include <stdio.h>
#include <stdlib.h>
#include <sys/ptrace.h>
#include <sys/wait.h>
#include <unistd.h>

enum { MOST = 64, CALL_STOP = SIGTRAP | 0x80 };

static struct image {
    pid_t process;
    int number, calls, is_in_call, has_begun;
} images[MOST];
static int count, processes;

/* The newest of a process. */
static struct image *image_of(pid_t process)
{
    for (int i = count; i-- > 0;)
        if (images[i].process == process)
            return &images[i];
    if (count == MOST)
        exit(2);
    images[count] = (struct image){.process = process, .number = processes++};
    return &images[count++];
}

/* Answers the signal that the process is to get. */
static int look_at_stop(pid_t process, int status)
{
    struct image *image = image_of(process);
    int signal = WSTOPSIG(status), event = status >> 16;
    if (signal == CALL_STOP) {
        image->is_in_call = !image->is_in_call;
        image->calls += image->is_in_call;
        return 0;
    }
    if (event == PTRACE_EVENT_EXEC && count < MOST) {
        images[count++] = (struct image){.process = process, .number = image->number, .is_in_call = 1, .has_begun = 1};
        return 0;
    }
    if (event != 0 || (signal == SIGSTOP && !image->has_begun)) {
        image->has_begun = 1;
        return 0;
    }
    return signal;
}

int main(int argc, char **argv)
{
    long options = PTRACE_O_TRACESYSGOOD | PTRACE_O_TRACEFORK | PTRACE_O_TRACEVFORK | PTRACE_O_TRACECLONE
                   | PTRACE_O_TRACEEXEC | PTRACE_O_EXITKILL;
    int status, result = 0;
    pid_t first = argc > 2 ? fork() : -1, process;
    if (first == 0) {
        ptrace(PTRACE_TRACEME, 0, NULL, NULL);
        raise(SIGSTOP);
        execv(argv[2], argv + 2);
        _exit(127);
    }
    if (first < 0 || waitpid(first, &status, 0) != first || ptrace(PTRACE_SETOPTIONS, first, NULL, options) != 0)
        return 2;
    image_of(first)->has_begun = 1;
    ptrace(PTRACE_SYSCALL, first, NULL, NULL);
    while ((process = waitpid(-1, &status, __WALL)) > 0) {
        if (WIFSTOPPED(status))
            ptrace(PTRACE_SYSCALL, process, NULL, (long)look_at_stop(process, status));
        else if (process == first)
            result = WIFEXITED(status) ? WEXITSTATUS(status) : 128 + WTERMSIG(status);
    }
    FILE *output = fopen(argv[1], "w");
    for (int i = 1; output != NULL && i < count; i++)
        fprintf(output, "%d %d\n", images[i].number, images[i].calls);
    return output == NULL || fclose(output) != 0 ? 2 : result;
}
