/* Processes that close all their descriptors, that of the recorder too, and have bugs before and after that: `closes
   WAY`. */
#define _GNU_SOURCE
#include <fcntl.h>
#include <pthread.h>
#include <signal.h>
#include <stdlib.h>
#include <string.h>
#include <sys/resource.h>
#include <sys/syscall.h>
#include <sys/wait.h>
#include <unistd.h>

static char *volatile block;

static int is(const char *one, const char *other)
{
    return strcmp(one, other) == 0;
}

__attribute__((noinline)) static void bug(void)
{
    block = malloc(5);
    block[5] = 1;
    free(block);
}

static void close_all(void)
{
    syscall(SYS_close_range, 3, ~0U, 0);
}

/* As a daemon does it. */
static void close_each(void)
{
    for (int i = 0; i < 1024; i++)
        close(i);
}

/* Other files are at all numbers. */
static void take_each(void)
{
    int file = open("taken", O_RDWR | O_CREAT | O_TRUNC, 0600);
    for (int i = 3; i < 1024; i++)
        if (i != file)
            dup2(file, i);
}

static void become_after_vain_tries(const char *program, const char *word)
{
    for (int i = 0; i < 15; i++)
        execl("/nowhere/program", "program", (char *)NULL);
    execl(program, program, word, (char *)NULL);
}

static void daemon_with_bugs(void)
{
    if (fork() == 0) {
        setsid();
        if (fork() == 0) {
            close_each();
            bug();
            usleep(100000);
            bug();
        }
        _exit(0);
    }
}

static void *bugs(void *unused)
{
    for (int i = 0; i < 20; i++) {
        bug();
        usleep(500);
    }
    return unused;
}

static void threads(void)
{
    pthread_t thread;
    pthread_create(&thread, NULL, bugs, NULL);
    usleep(3000);
    close_all();
    pthread_join(thread, NULL);
}

/* In a child, or not. */
static void act(char **argv)
{
    const char *way = argv[1];
    if (is(way, "nothing"))
        close_all();
    if (is(way, "after") || is(way, "both")) {
        if (is(way, "both"))
            bug();
        close_all();
        bug();
    }
    if (is(way, "often"))
        for (int i = 0; i < 5; i++) {
            close_all();
            bug();
        }
    if (is(way, "burst")) {
        for (int i = 0; i < 3000; i++)
            bug();
        close_all();
    }
    if (is(way, "taken")) {
        take_each();
        bug();
    }
    if (is(way, "twice")) {
        close_each();
        block = malloc(3);
        free(block);
        free(block);
    }
    if (is(way, "killed")) {
        close_all();
        bug();
        kill(getpid(), SIGKILL);
    }
    if (is(way, "aborts")) {
        close_all();
        bug();
        close_all();
        abort();
    }
    if (is(way, "execs")) {
        close_all();
        bug();
        become_after_vain_tries(argv[0], "both");
    }
    if (is(way, "sleeps")) {
        close_all();
        become_after_vain_tries("/bin/sleep", "0.2");
    }
    if (is(way, "vfork")) {
        if (vfork() == 0) {
            close_all();
            _exit(0);
        }
        bug();
    }
    if (is(way, "none")) {
        close_all();
        setrlimit(RLIMIT_NOFILE, &(struct rlimit){3, 3});
        bug();
    }
    if (is(way, "threads"))
        threads();
}

int main(int count, char **argv)
{
    if (is(argv[1], "daemon"))
        daemon_with_bugs();
    else if (count > 2) /* the child of six lines */
        act(argv);
    else if (fork() == 0) {
        act(argv);
        _exit(1);
    }
    while (wait(NULL) > 0)
        continue;
    return 0;
}
