/* Threads that allocate, free and access one block. The argument says how they come to be. */
#define _GNU_SOURCE
#include <pthread.h>
#include <signal.h>
#include <stdio.h>
#include <stdlib.h>
#include <string.h>
#include <sys/prctl.h>
#include <sys/wait.h>
#include <threads.h>
#include <unistd.h>

static char *volatile block;

static void *allocate(void *name)
{
    if (name != NULL)
        prctl(PR_SET_NAME, name);
    block = malloc(10);
    return NULL;
}

static void *release(void *name)
{
    if (name != NULL)
        prctl(PR_SET_NAME, name);
    free(block);
    return NULL;
}

static void *use(void *name)
{
    if (name != NULL)
        prctl(PR_SET_NAME, name);
    block[3] = 1;
    return NULL;
}

static void *do_nothing(void *nothing)
{
    return nothing;
}

static void *run(void *routine(void *), void *with)
{
    pthread_t thread;
    if (pthread_create(&thread, NULL, routine, with) != 0)
        _exit(3);
    pthread_join(thread, NULL);
    return NULL;
}

static void three(void)
{
    run(allocate, NULL);
    run(release, NULL);
    run(use, NULL);
}

static void first(void)
{
    allocate(NULL);
    release(NULL);
    use(NULL);
}

static void first_named(void)
{
    prctl(PR_SET_NAME, "boss");
    first();
}

static void past_the_end(void)
{
    run(allocate, NULL);
    block[10] = 1;
}

static void named(void)
{
    run(allocate, "maker");
    run(release, "a name of 15 ch");
    run(use, "user");
}

/* Each creates the next one, and the last one does the rest. */
static void *descend(void *depth)
{
    if (depth != NULL)
        return run(descend, (void *)((char *)depth - 1));
    allocate(NULL);
    release(NULL);
    return use(NULL);
}

static void nested(void)
{
    run(descend, (void *)3);
}

static void deep(void)
{
    run(descend, (void *)100);
}

static void many(void)
{
    for (int i = 0; i < 1000; i++)
        run(do_nothing, NULL);
    three();
}

static void too_many(void)
{
    for (int i = 0; i < 32764; i++)
        run(do_nothing, NULL);
    three();
    use(NULL);
}

/* More threads are at fault than the list has room for. */
static void more_than_listed(void)
{
    first();
    for (int i = 0; i < 4100; i++)
        run(use, NULL);
}

/* With this many events in between that a segment ends. */
static void apart(void)
{
    prctl(PR_SET_NAME, "boss");
    three();
    for (int i = 0; i < 64; i++)
        free(malloc(10));
    three();
}

static void *fork_and_use(void *nothing)
{
    pid_t child = fork();
    if (child == 0) {
        use(NULL);
        run(use, NULL);
        _exit(0);
    }
    waitpid(child, NULL, 0);
    return nothing;
}

static void forked(void)
{
    run(allocate, NULL);
    run(release, NULL);
    run(fork_and_use, NULL);
}

static void at_signal(int number)
{
    (void)number;
    use(NULL);
}

static void *raise_signal(void *nothing)
{
    raise(SIGUSR1);
    return nothing;
}

static void in_handler(void)
{
    signal(SIGUSR1, at_signal);
    run(allocate, NULL);
    run(release, NULL);
    run(raise_signal, NULL);
}

/* Names by others: at once, later, and after the thread was at fault. */

static pthread_barrier_t barrier;

static void *wait_and_use(void *nothing)
{
    pthread_barrier_wait(&barrier);
    use(NULL);
    pthread_barrier_wait(&barrier);
    pthread_barrier_wait(&barrier);
    return nothing;
}

static void by_others(void)
{
    pthread_t thread;
    pthread_barrier_init(&barrier, NULL, 2);
    first();
    pthread_create(&thread, NULL, wait_and_use, NULL);
    pthread_setname_np(thread, "at once");
    pthread_barrier_wait(&barrier);
    pthread_barrier_wait(&barrier);
    pthread_barrier_wait(&barrier);
    pthread_join(thread, NULL);
    pthread_create(&thread, NULL, wait_and_use, NULL);
    pthread_barrier_wait(&barrier);
    pthread_barrier_wait(&barrier);
    pthread_setname_np(thread, "later");
    pthread_setname_np(thread, "a name that is too long");
    pthread_setname_np(pthread_self(), "the first");
    pthread_barrier_wait(&barrier);
    pthread_join(thread, NULL);
}

/* What ends the process. */

static void *load_wild(void *name)
{
    if (name != NULL)
        prctl(PR_SET_NAME, name);
    block = *(char *volatile *)16;
    return NULL;
}

static void *give_up(void *nothing)
{
    (void)nothing;
    abort();
}

static void wild(void)
{
    run(do_nothing, NULL);
    run(load_wild, "reader");
}

static void wild_first(void)
{
    run(do_nothing, NULL);
    load_wild(NULL);
}

static void gives_up(void)
{
    run(give_up, NULL);
}

static int use_once(void *nothing)
{
    (void)nothing;
    use(NULL);
    return 7;
}

static void of_c11(void)
{
    thrd_t thread;
    int result = 0;
    run(allocate, NULL);
    run(release, NULL);
    thrd_create(&thread, use_once, NULL);
    thrd_join(thread, &result);
    if (result != 7)
        _exit(4);
}

int main(int count, char **argv)
{
    static const struct {
        const char *name;
        void (*run)(void);
    } ways[] = {
        {"three", three}, {"first", first}, {"past_the_end", past_the_end}, {"named", named}, {"nested", nested},
        {"deep", deep}, {"many", many}, {"too_many", too_many}, {"more_than_listed", more_than_listed},
        {"apart", apart}, {"forked", forked}, {"in_handler", in_handler}, {"by_others", by_others}, {"of_c11", of_c11},
        {"first_named", first_named}, {"wild", wild}, {"wild_first", wild_first}, {"gives_up", gives_up},
    };
    for (size_t i = 0; i < sizeof ways / sizeof *ways; i++)
        if (count > 1 && strcmp(argv[1], ways[i].name) == 0) {
            ways[i].run();
            return 0;
        }
    return 2;
}
