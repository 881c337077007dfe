/* A plain program that opens a module. Of the arguments of the command the first is the module, the second what
   happens. */
#define _GNU_SOURCE
#include <dlfcn.h>
#include <pthread.h>
#include <setjmp.h>
#include <signal.h>
#include <stdio.h>
#include <stdlib.h>
#include <string.h>
#include <sys/wait.h>
#include <unistd.h>

/* No compiler knows what it is. */
static volatile size_t size = 21;

typedef void *act(const char *what, void *block);

static act *module;
static char *block;

/* Some blocks that are there before the module is, and a freed one. */
static void fill(void)
{
    block = malloc(10);
    strcpy(block, "a text...");
    free(malloc(30));
}

static int open_module(const char *path)
{
    void *opened = dlopen(path, getenv("DEEP") != NULL ? RTLD_NOW | RTLD_DEEPBIND : RTLD_NOW);
    if (opened == NULL) {
        puts(dlerror());
        return 0;
    }
    *(void **)&module = dlsym(opened, "act");
    return module != NULL;
}

static void *in_thread(void *what)
{
    for (int i = 0; i < 200; i++)
        free(module("give", NULL));
    return module(what, block);
}

static int with_threads(char *what)
{
    pthread_t threads[4];
    for (size_t i = 0; i < 4; i++)
        pthread_create(&threads[i], NULL, in_thread, i == 2 ? what : "read");
    for (size_t i = 0; i < 4; i++)
        pthread_join(threads[i], NULL);
    return 0;
}

static int in_child(pid_t child)
{
    int status;
    return waitpid(child, &status, 0) != child || status != 0;
}

static sigjmp_buf again;

static void on_signal(int number)
{
    siglongjmp(again, number);
}

/* An unset one is the default, and becomes it again. */
static int with_signals(void)
{
    struct sigaction old;
    if (sigaction(SIGTERM, NULL, &old) != 0 || old.sa_handler != SIG_DFL)
        return 1;
    if (signal(SIGUSR1, on_signal) != SIG_DFL || signal(SIGUSR1, SIG_DFL) != on_signal)
        return 2;
    signal(SIGSEGV, on_signal);
    if (sigsetjmp(again, 1) == 0)
        module("fault", NULL);
    return signal(SIGSEGV, SIG_DFL) != on_signal;
}

static int act_out(char *what, char **argv)
{
    if (strcmp(what, "host frees twice") == 0) {
        char *given = module("give", NULL);
        free(given);
        free(given);
    } else if (strcmp(what, "one of each") == 0) {
        module("free", block);
        free(block);
        block = NULL;
    } else if (strcmp(what, "host copies too much") == 0) {
        char *given = module("give", NULL), to[64];
        memcpy(to, given, size);
        free(given);
        return to[0] != 'g';
    } else if (strcmp(what, "host frees it") == 0) {
        free(module("give", NULL));
    } else if (strcmp(what, "threads") == 0 || strcmp(what, "threads over") == 0) {
        return with_threads(strcmp(what, "threads") == 0 ? "read" : "over");
    } else if (strcmp(what, "fork") == 0) {
        pid_t child = fork();
        if (child == 0) {
            module("over", block);
            _exit(0);
        }
        return in_child(child);
    } else if (strcmp(what, "vfork") == 0) {
        pid_t child = vfork();
        if (child == 0) {
            execl("/bin/sh", "sh", "-c", ":", (char *)NULL);
            _exit(1);
        }
        return in_child(child);
    } else if (strcmp(what, "exec") == 0) {
        execl(argv[0], argv[0], argv[1], "over", (char *)NULL);
    } else if (strcmp(what, "signals") == 0) {
        return with_signals();
    } else if (strcmp(what, "term") == 0) {
        raise(SIGTERM);
    } else if (strcmp(what, "_exit") == 0) {
        _exit(0);
    } else {
        module(what, block);
    }
    return 0;
}

int main(int count, char **argv)
{
    fill();
    if (count < 3) { /* no module */
        if (count == 2)
            free(block + size - 20); /* a byte past its start */
        return 0;
    }
    if (!open_module(argv[1]))
        return 120;
    int status = act_out(argv[2], argv);
    /* The allocator's own functions, as a program may call them. */
    char *grown = realloc(calloc(3, 3), 100), *aligned = aligned_alloc(64, 128);
    if (grown == NULL || aligned == NULL)
        return 121;
    free(grown);
    free(aligned);
    if (strncmp(argv[2], "one", 3) != 0 && strncmp(argv[2], "module", 6) != 0)
        free(block);
    return status;
}
