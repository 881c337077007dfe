/* A shared object that calls vfork: for left.c. */
#define _DEFAULT_SOURCE
#include <sys/wait.h>
#include <unistd.h>

static volatile int one = 1, sink;

void fault_in_object(void leave(void))
{
    char text[30];
    volatile char *letters = text;
    int status;
    letters[0] = 1;
    pid_t child = vfork();
    if (child == 0)
        leave();
    waitpid(child, &status, 0);
    sink = letters[30 * one];
}
