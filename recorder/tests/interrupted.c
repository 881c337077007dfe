/* A handler that executes another program, or ends this one, wherever it has interrupted the thread: stepped.c says
   where. Another thread goes on meanwhile.

   usage: interrupted exec|_exit|raise */
#include <pthread.h>
#include <signal.h>
#include <stdlib.h>
#include <string.h>
#include <unistd.h>

static const char *way;

static void *waits(void *unused)
{
    for (;;)
        pause();
    return unused;
}

static void on_signal(int number)
{
    (void)number;
    if (strcmp(way, "exec") == 0)
        execl("/bin/true", "true", (char *)NULL);
    if (strcmp(way, "raise") == 0)
        raise(SIGTERM);
    _exit(0);
}

int main(int count, char **argv)
{
    pthread_t thread;
    char *volatile block = malloc(8);
    way = count > 1 ? argv[1] : "";
    signal(SIGUSR1, on_signal);
    pthread_create(&thread, NULL, waits, NULL);
    block[8] = 1;
    raise(SIGSTOP);
    block[8] = 2;
    return 0;
}
