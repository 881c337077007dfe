/* Who is there when a process exits, one a run: `threads NAME`. */
#define _GNU_SOURCE
#include <fcntl.h>
#include <pthread.h>
#include <sched.h>
#include <stdio.h>
#include <string.h>
#include <sys/mman.h>
#include <unistd.h>

static void *waits(void *unused)
{
    for (;;)
        pause();
    return unused;
}

static int waits_cloned(void *unused)
{
    waits(unused);
    return 0;
}

/* It alone has a file, whose pages the system frees after it has said that the thread is over, and before it is
   gone. */
static void *takes_long_to_end(void *unused)
{
    enum { BYTES = 32 << 20 };
    if (unshare(CLONE_FILES) != 0 || posix_fallocate(memfd_create("pages", 0), 0, BYTES) != 0)
        perror("threads");
    return unused;
}

static void *joins(void *thread)
{
    pthread_join(*(pthread_t *)thread, NULL);
    return NULL;
}

static void start(void *routine(void *), void *argument)
{
    pthread_t thread;
    pthread_create(&thread, NULL, routine, argument);
    pthread_detach(thread);
}

static void clone_one(void)
{
    static char stack[1 << 16];
    int flags = CLONE_VM | CLONE_FS | CLONE_FILES | CLONE_SIGHAND | CLONE_THREAD | CLONE_SYSVSEM;
    if (clone(waits_cloned, stack + sizeof stack, flags, NULL) < 0)
        perror("threads");
}

int main(int count, char **argv)
{
    static pthread_t thread;
    const char *name = count > 1 ? argv[1] : "";
    if (strcmp(name, "joined") == 0) {
        pthread_create(&thread, NULL, takes_long_to_end, NULL);
        pthread_join(thread, NULL);
    } else if (strcmp(name, "first_has_ended") == 0) {
        thread = pthread_self();
        start(joins, &thread);
        pthread_exit(NULL);
    } else if (strcmp(name, "detached") == 0) {
        start(waits, NULL);
    } else if (strcmp(name, "cloned") == 0) {
        clone_one();
    }
    return 0;
}
