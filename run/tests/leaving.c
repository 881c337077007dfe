/* Programs that end with status 3 while other threads are at something, which would be seen if it went on after the
   exit has begun. */
#define _GNU_SOURCE
#include <errno.h>
#include <fcntl.h>
#include <pthread.h>
#include <sched.h>
#include <signal.h>
#include <stdio.h>
#include <stdlib.h>
#include <string.h>
#include <sys/syscall.h>
#include <unistd.h>

static pthread_mutex_t mutex = PTHREAD_MUTEX_INITIALIZER;
static int has_lock[2];
static void *volatile sink;

static void start(void *(*run)(void *), int threads)
{
    pthread_t thread;
    for (int i = 0; i < threads; i++)
        pthread_create(&thread, NULL, run, NULL);
}

static void *watch(void *unused)
{
    sleep(30);
    fputs("timed out\n", stderr);
    _exit(1);
    return unused;
}

static void *tick(void *unused)
{
    for (;;)
        if (usleep(50000) != 0)
            fputs("woke\n", stderr);
    return unused;
}

static void *exit_here(void *unused)
{
    exit(3);
    return unused;
}

static void *exit_quickly(void *unused)
{
    quick_exit(3);
    return unused;
}

static void *exit_at_once(void *unused)
{
    _exit(3);
    return unused;
}

static void exit_in_handler(int number)
{
    exit(3 + 0 * number);
}

static void *interrupt(void *unused)
{
    kill(getpid(), SIGALRM);
    return unused;
}

static void *allocate(void *unused)
{
    for (;;) {
        void *volatile block = malloc(100);
        sink = block;
        free(block);
    }
    return unused;
}

static void *print(void *unused)
{
    for (;;)
        fputs("a line that is printed again and again\n", stdout);
    return unused;
}

static void *read_input(void *unused)
{
    int ends[2];
    char line[16];
    pipe(ends);
    FILE *in = fdopen(ends[0], "r");
    write(has_lock[1], "", 1);
    return fgets(line, sizeof line, in) != NULL ? unused : NULL;
}

static void *hold_lock(void *unused)
{
    pthread_mutex_lock(&mutex);
    write(has_lock[1], "", 1);
    usleep(300000);
    pthread_mutex_unlock(&mutex);
    pause();
    return unused;
}

static ssize_t write_locked(void *unused, const char *bytes, size_t size)
{
    (void)unused;
    pthread_mutex_lock(&mutex);
    pthread_mutex_unlock(&mutex);
    return write(STDOUT_FILENO, bytes, size);
}

static int in_clone(void *stack)
{
    (void)stack;
    for (;;)
        syscall(SYS_pause);
    return 0;
}

static void make_clone(void)
{
    size_t size = 1 << 16;
    char *stack = malloc(size);
    clone(in_clone, stack + size, CLONE_VM | CLONE_FS | CLONE_FILES | CLONE_SIGHAND | CLONE_THREAD, NULL);
}

/* Each returns if the first thread is to exit. */
static void wait_in(const char *how)
{
    char byte;
    pipe(has_lock);
    start(watch, 1);
    if (strcmp(how, "ticks") == 0)
        start(tick, 4);
    if (strcmp(how, "exits-in-thread") == 0)
        start(exit_here, 1), sleep(100);
    if (strcmp(how, "exits-beside-pause") == 0)
        start(exit_here, 1), pause();
    if (strcmp(how, "exits-in-several") == 0)
        start(exit_here, 8), sleep(100);
    if (strcmp(how, "exits-quickly") == 0)
        start(exit_quickly, 1), sleep(100);
    if (strcmp(how, "exits-at-once") == 0)
        start(exit_at_once, 1), sleep(100);
    if (strcmp(how, "exits-in-handler") == 0)
        signal(SIGALRM, exit_in_handler), start(interrupt, 1), sleep(100);
    if (strcmp(how, "allocates") == 0)
        start(allocate, 4);
    if (strcmp(how, "prints") == 0)
        setvbuf(stdout, NULL, _IOFBF, 100), freopen("/dev/null", "w", stdout), start(print, 2);
    if (strcmp(how, "reads") == 0)
        start(read_input, 1), read(has_lock[0], &byte, 1);
    if (strcmp(how, "clones") == 0)
        make_clone();
    if (strcmp(how, "locks") == 0) {
        FILE *file = fopencookie(NULL, "w", (cookie_io_functions_t){.write = write_locked});
        start(hold_lock, 1), read(has_lock[0], &byte, 1);
        fputs("written at the end\n", file);
    }
}

int main(int count, char **argv)
{
    printf("begins\n");
    wait_in(count > 1 ? argv[1] : "");
    usleep(20000);
    return 3;
}
