/* A library that was not built to be recorded. */
#include <stdlib.h>
#include <sys/syscall.h>
#include <sys/wait.h>
#include <unistd.h>

void leave_by_call(int status);
void leave_by_exit(int status);
int plain_daemon(void);
void plain_spawn(const char *program);

void leave_by_call(int status)
{
    __asm__ volatile("syscall" : : "a"(SYS_exit_group), "D"(status) : "rcx", "r11", "memory");
}

void leave_by_exit(int status)
{
    _exit(status);
}

int plain_daemon(void)
{
    return daemon(1, 1);
}

/* The child is another program, which ends by itself. */
void plain_spawn(const char *program)
{
    pid_t made = fork();
    if (made == 0) {
        execl(program, program, "0.3", NULL);
        _exit(1);
    }
    waitpid(made, NULL, 0);
}
