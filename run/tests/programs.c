/* What the tests record: each name is a way to live. */
#define _GNU_SOURCE
#include <fcntl.h>
#include <signal.h>
#include <stdio.h>
#include <stdlib.h>
#include <string.h>
#include <sys/syscall.h>
#include <sys/wait.h>
#include <unistd.h>

static volatile char *block;

static __attribute__((noinline)) void store_past(volatile char *at)
{
    at[8] = 1;
}

static __attribute__((noinline)) int load_freed(volatile char *at)
{
    return at[0];
}

static void nap(const char *seconds)
{
    usleep((useconds_t)(atof(seconds) * 1e6));
}

static int sound(char **argv)
{
    (void)argv;
    return write(1, "sound\n", 6) != 6;
}

/* This many bad stores; 1 without a word. */
static int past(char **argv)
{
    for (long i = argv[0] != NULL ? atol(argv[0]) : 1; i > 0; i--)
        store_past(block);
    return 0;
}

static int child(char **argv)
{
    int status;
    (void)argv;
    pid_t made = fork();
    if (made == 0) {
        free((void *)block);
        _exit(load_freed(block) == 100);
    }
    waitpid(made, &status, 0);
    return WEXITSTATUS(status);
}

/* The same in a process that has as many descriptors as it may have. */
static int child_of_full(char **argv)
{
    while (open("/dev/null", O_RDONLY) >= 0)
        ;
    return child(argv);
}

static int aborts(char **argv)
{
    int status;
    (void)argv;
    pid_t made = fork();
    if (made == 0)
        abort();
    waitpid(made, &status, 0);
    return !WIFSIGNALED(status);
}

/* The recorder does not see it made. */
static int forks_unseen(char **argv)
{
    long made;
    (void)argv;
    __asm__ volatile("syscall" : "=a"(made) : "a"(SYS_fork) : "rcx", "r11", "memory");
    if (made == 0) {
        free((void *)block);
        _exit(0);
    }
    waitpid((pid_t)made, NULL, 0);
    return 0;
}

static int execs(char **argv)
{
    execvp(argv[0], argv);
    return 127;
}

/* This many mallocs, and as many frees. */
static int many(char **argv)
{
    for (long i = atol(argv[0]); i > 0; i--) {
        void *volatile made = malloc(8);
        free(made);
    }
    return 0;
}

static int sleeps(char **argv)
{
    nap(argv[0]);
    return 0;
}

static int past_and_sleeps(char **argv)
{
    store_past(block);
    puts("ready");
    fflush(stdout);
    nap(argv[0]);
    return 0;
}

/* A process that outlives its parent, and has a report at its end. */
static int orphan(char **argv)
{
    if (fork() == 0) {
        setsid();
        nap(argv[0]);
        store_past(block);
        exit(0);
    }
    return 0;
}

/* A daemon that lets go of everything. */
static int becomes_daemon(char **argv)
{
    if (daemon(0, 0) != 0)
        return 1;
    nap(argv[0]);
    store_past(block);
    return 0;
}

static void end_well(int number)
{
    (void)number;
    exit(3);
}

static int handles(char **argv)
{
    signal(SIGTERM, end_well);
    signal(SIGUSR1, end_well);
    puts("ready");
    fflush(stdout);
    nap(argv[0]);
    return 0;
}

static int ignores(char **argv)
{
    signal(SIGTERM, SIG_IGN);
    puts("ready");
    fflush(stdout);
    nap(argv[0]);
    return 0;
}

static int crashes(char **argv)
{
    (void)argv;
    *(volatile int *)16 = 1;
    return 0;
}

static int kills_itself(char **argv)
{
    return raise(atoi(argv[0]));
}

static volatile sig_atomic_t seen;

static void see(int number)
{
    (void)number;
    seen++;
}

/* How often a signal comes that goes once to the process group, as the status. */
static int tells_group(char **argv)
{
    int number = atoi(argv[0]);
    double left = 0.4;
    signal(number, see);
    kill(0, number);
    while (usleep((useconds_t)(left * 1e6)) != 0) /* cut short by a second one */
        left /= 2;
    return seen;
}

/* An orphan sends a signal to whoever has become its parent; process 1 is nobody's. */
static int tells_parent(char **argv)
{
    pid_t command = getpid(), child = fork();
    if (child == 0) {
        pid_t parent = getpid();
        if (fork() != 0)
            _exit(0);
        while (getppid() == parent)
            usleep(1000);
        if (getppid() > 1 && getppid() != command)
            kill(getppid(), atoi(argv[0]));
        _exit(0);
    }
    waitpid(child, NULL, 0);
    nap("0.4");
    return 3;
}

/* Whether standard input, output and error are open, as the status: 1, 2 and 4. */
static int open_ones(char **argv)
{
    int status = 0;
    (void)argv;
    for (int i = 0; i < 3; i++)
        status |= (fcntl(i, F_GETFD) >= 0) << i;
    return status;
}

static const struct {
    const char *name;
    int (*run)(char **argv);
} ways[] = {
    {"sound", sound}, {"past", past}, {"child", child}, {"child_of_full", child_of_full},
    {"forks_unseen", forks_unseen},
    {"aborts", aborts}, {"execs", execs}, {"many", many},
    {"sleeps", sleeps}, {"past_and_sleeps", past_and_sleeps}, {"orphan", orphan}, {"daemon", becomes_daemon},
    {"handles", handles}, {"ignores", ignores}, {"kills_itself", kills_itself},
    {"crashes", crashes}, {"open_ones", open_ones}, {"tells_group", tells_group}, {"tells_parent", tells_parent},
};

int main(int count, char **argv)
{
    block = malloc(8);
    block[0] = 1;
    for (size_t i = 0; count > 1 && i < sizeof ways / sizeof *ways; i++)
        if (strcmp(argv[1], ways[i].name) == 0)
            return ways[i].run(argv + 2);
    return 100;
}
