/* Executions with pointers that the system refuses: each answers, and is printed with its error. */
#define _GNU_SOURCE
#include <errno.h>
#include <spawn.h>
#include <stdint.h>
#include <stdio.h>
#include <string.h>
#include <sys/mman.h>
#include <unistd.h>

enum { PAGE = 4096, LETTERS = 4 };

extern char **environ;

static void print(const char *name, int result)
{
    fprintf(stderr, "%s %d %d\n", name, result, errno);
    errno = 0;
}

#define TRY(call) print(#call, call)

/* A text, and a list; and a list of that text. */
static void try_all(char *text)
{
    static char self[] = "/proc/self/exe";
    char **list = (char **)text, *of_it[] = {text, NULL}, *words[] = {self, NULL};
    pid_t child;
    TRY(execve(text, words, environ));
    TRY(execve(self, list, environ));
    TRY(execve(self, of_it, environ));
    TRY(execve(self, words, list));
    TRY(execve(self, words, of_it));
    TRY(execv(text, words));
    TRY(execv(self, list));
    TRY(fexecve(STDIN_FILENO, list, environ));
    TRY(execl(text, "a", (char *)NULL));
    TRY(execl(self, text, (char *)NULL));
    TRY(posix_spawn(&child, text, NULL, NULL, words, environ));
    TRY(posix_spawn(&child, self, NULL, NULL, words, list));
    TRY(posix_spawn(&child, self, NULL, NULL, words, of_it));
}

int main(int count, char **argv)
{
    (void)argv;
    char *pages = mmap(NULL, (size_t)2 * PAGE, PROT_READ | PROT_WRITE, MAP_PRIVATE | MAP_ANONYMOUS, -1, 0);
    if (count != 1 || pages == MAP_FAILED || mprotect(pages + PAGE, PAGE, PROT_NONE) != 0)
        return 2;
    memset(pages, 'a', PAGE);
    uintptr_t no_access = (uintptr_t)pages + PAGE;
    const uintptr_t all[] = {8, no_access, (uintptr_t)1 << 62, no_access - LETTERS, -(uintptr_t)LETTERS};
    for (size_t i = 0; i < sizeof all / sizeof *all; i++)
        try_all((char *)all[i]);
    return 0;
}
