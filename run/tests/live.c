/* Programs that print between their mistakes. Each word of the command line is one of these, in turn. */
#include <pthread.h>
#include <signal.h>
#include <stdio.h>
#include <stdlib.h>
#include <string.h>
#include <sys/wait.h>
#include <unistd.h>

#define APART __attribute__((noinline))

static volatile char sink;

static void say(const char *text)
{
    char line[64];
    int length = snprintf(line, sizeof line, "<%s>\n", text);
    if (write(STDERR_FILENO, line, (size_t)length) < 0)
        sink = 0; /* it is closed */
}

APART static void past(void)
{
    char *volatile block = malloc(8);
    block[8] = 1;
    free(block);
}

APART static void freed(void)
{
    char *volatile block = malloc(16);
    free(block);
    sink = block[3];
}

APART static char first_of(const char *block)
{
    return block[0];
}

APART static char second_of(const char *block)
{
    return block[1];
}

APART static void same(void)
{
    char *volatile block = malloc(24);
    free(block);
    sink = first_of(block);
    say("on the same block");
    sink = second_of(block);
}

APART static void twice(void)
{
    char *volatile block = malloc(32);
    free(block);
    free(block);
}

APART static void overlap(void)
{
    char text[32] = "0123456789";
    char *volatile from = text;
    volatile size_t size = 8;
    memcpy(from + 1, from, size);
}

APART static void often(void)
{
    for (int i = 0; i < 1000; i++)
        past();
}

APART static void in_handler(int number)
{
    (void)number;
    freed();
}

static void handles(void)
{
    signal(SIGUSR1, in_handler);
    raise(SIGUSR1);
}

static void *in_thread(void *which)
{
    ((void (*)(void))which)();
    return NULL;
}

static void threads(void)
{
    pthread_t one, other;
    pthread_create(&one, NULL, in_thread, (void *)past);
    pthread_create(&other, NULL, in_thread, (void *)freed);
    pthread_join(one, NULL);
    pthread_join(other, NULL);
}

/* Children with standard errors of their own. */
static void children(void)
{
    for (int i = 0; i < 2; i++) {
        pid_t child = fork();
        if (child == 0) {
            char name[] = "child-0";
            name[6] = (char)('0' + i);
            if (freopen(name, "w", stderr) == NULL)
                _exit(4);
            say("child begins");
            past();
            say("child ends");
            _exit(0);
        }
        waitpid(child, NULL, 0);
    }
}

static const struct {
    const char *name;
    void (*run)(void);
} ways[] = {
    {"past", past},   {"freed", freed},     {"same", same},       {"twice", twice},       {"overlap", overlap},
    {"often", often}, {"handles", handles}, {"threads", threads}, {"children", children},
};

int main(int argc, char **argv)
{
    for (int i = 1; i < argc; i++) {
        say(argv[i]);
        for (size_t at = 0; at < sizeof ways / sizeof *ways; at++)
            if (strcmp(ways[at].name, argv[i]) == 0)
                ways[at].run();
    }
    say("end");
    return 0;
}
