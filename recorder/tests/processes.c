/* What processes do with their modules, by the name in the first argument; libopened.so has `fault_of_library`. */
#include <dlfcn.h>
#include <iconv.h>
#include <pthread.h>
#include <signal.h>
#include <stdio.h>
#include <stdlib.h>
#include <string.h>
#include <sys/wait.h>
#include <unistd.h>

static void fail(const char *what)
{
    perror(what);
    exit(100);
}

static void *open_library(void)
{
    void *library = dlopen("./libopened.so", RTLD_NOW);
    if (library == NULL)
        fail("dlopen");
    return library;
}

static void fault_in(void *library)
{
    ((void (*)(void))dlsym(library, "fault_of_library"))();
}

static void fault_here(void)
{
    char *volatile block = malloc(8);
    ((volatile char *)block)[8] = 1;
    free(block);
}

/* Answers the signal or the status. */
static int end_of(pid_t child)
{
    int status;
    if (child < 0 || waitpid(child, &status, 0) != child)
        fail("child");
    return WIFSIGNALED(status) ? WTERMSIG(status) : WEXITSTATUS(status);
}

static int opens_in_child(void)
{
    pid_t child = fork();
    if (child == 0) {
        fault_in(open_library());
        exit(0);
    }
    int end = end_of(child);
    fault_here();
    return end;
}

static int opens_before(void)
{
    void *library = open_library();
    pid_t child = fork();
    if (child == 0) {
        fault_in(library);
        _exit(0);
    }
    return end_of(child);
}

static void *fork_after_opening(void *end)
{
    void *library = open_library();
    pid_t child = fork();
    if (child == 0) {
        fault_in(library);
        kill(getpid(), SIGKILL);
    }
    *(int *)end = end_of(child) != SIGKILL;
    return NULL;
}

static int forks_in_thread(void)
{
    pthread_t thread;
    int end = 1;
    if (pthread_create(&thread, NULL, fork_after_opening, &end) != 0 || pthread_join(thread, NULL) != 0)
        fail("thread");
    return end;
}

static void *library_of_handler;
static volatile sig_atomic_t end_in_handler = 1;

static void handle(int number)
{
    (void)number;
    pid_t child = fork();
    if (child == 0) {
        fault_in(library_of_handler);
        _exit(0);
    }
    end_in_handler = end_of(child);
}

static int forks_in_handler(void)
{
    library_of_handler = open_library();
    signal(SIGUSR1, handle);
    raise(SIGUSR1);
    return end_in_handler;
}

/* The C library opens a module of its own, without the dlopen that the program may have. */
static int forks_after_conversion(void)
{
    iconv_open("UTF-16", "ISO-8859-15");
    pid_t child = fork();
    if (child == 0) {
        fault_here();
        kill(getpid(), SIGKILL);
    }
    return end_of(child) != SIGKILL;
}

static int closes_in_child(void)
{
    void *library = open_library();
    pid_t child = fork();
    if (child == 0) {
        fault_in(library);
        dlclose(library);
        fault_here();
        exit(0);
    }
    return end_of(child);
}

static int execs_in_vain(void)
{
    char *const words[] = {"./nothing", NULL};
    fault_here();
    for (int i = 0; i < 3; i++) {
        execv("./nothing", words);
        execvp("nothing-of-this-name", words);
        execv("./processes.c/nothing", words);
    }
    fault_in(open_library());
    pid_t child = vfork();
    if (child == 0) {
        execv("./nothing", words);
        _exit(7);
    }
    fault_here();
    return end_of(child) != 7;
}

static int has_other_title(char **argv)
{
    memset(argv[0], 't', strlen(argv[0]));
    pid_t child = fork();
    if (child == 0) {
        fault_here();
        _exit(0);
    }
    return end_of(child);
}

/* The counted events. */

static int forks_once(void)
{
    pid_t child = fork();
    if (child == 0) {
        free(malloc(10));
        exit(0);
    }
    return end_of(child);
}

static int execs_once(void)
{
    pid_t child = fork();
    if (child == 0) {
        free(malloc(10));
        execl("/bin/true", "true", (char *)NULL);
    }
    return end_of(child);
}

static int tries_many(void)
{
    char *const words[] = {"nothing", NULL};
    for (int i = 0; i < 100; i++)
        execv("./nothing", words);
    return 0;
}

static int has_blocks(void)
{
    static void *blocks[1000];
    for (size_t i = 0; i < 1000; i++)
        blocks[i] = malloc(i);
    return blocks[999] == NULL;
}

int main(int argc, char **argv)
{
    static const struct {
        const char *name;
        int (*does)(void);
    } rows[] = {{"opens_in_child", opens_in_child},
                {"opens_before", opens_before},
                {"forks_in_thread", forks_in_thread},
                {"forks_in_handler", forks_in_handler},
                {"forks_after_conversion", forks_after_conversion},
                {"closes_in_child", closes_in_child},
                {"execs_in_vain", execs_in_vain},
                {"forks_once", forks_once},
                {"execs_once", execs_once},
                {"tries_many", tries_many},
                {"has_blocks", has_blocks}};
    for (size_t i = 0; argc > 1 && i < sizeof rows / sizeof *rows; i++)
        if (strcmp(argv[1], rows[i].name) == 0)
            return rows[i].does();
    return argc > 1 && strcmp(argv[1], "has_other_title") == 0 ? has_other_title(argv) : 0;
}
