/* Our own options are taken out of argv where it stands; the compiler is the first of option, name and variable that
   says one. */
#define _GNU_SOURCE
#include "wrapper/command.h"

#include <limits.h>
#include <stdio.h>
#include <stdlib.h>
#include <string.h>

#include "common/must.h"
#include "common/path.h"
#include "common/text.h"
#include "wrapper/help.h"
#include "wrapper/say.h"
#include "wrapper/self.h"

static _Noreturn void show_help(void)
{
    fputs(WRAPPER_HELP "asancol " RELEASE "\n", stdout);
    exit(fflush(stdout) != 0);
}

struct own_options own_options_take(char **argv, const struct called *called)
{
    static const char all[] = "--asancol-all", compiler[] = "--asancol-compiler=";
    static const char help[] = "--asancol-help", no_run[] = "--asancol-no-run";
    const char *setting = getenv("ASANCOL_ALL");
    struct own_options own = {.compiler = called->compiler, .is_all = setting != NULL && strcmp(setting, "1") == 0};
    if (own.compiler == NULL)
        own.compiler = getenv(called->front->variable);
    char **kept = argv + 1;
    for (char **word = argv + 1; *word != NULL; word++) {
        if (strcmp(*word, all) == 0)
            own.is_all = true;
        else if (strcmp(*word, no_run) == 0)
            own.has_no_run = true;
        else if (strcmp(*word, help) == 0)
            show_help();
        else if (begins_with(*word, compiler))
            own.compiler = *word + strlen(compiler);
        else
            *kept++ = *word;
    }
    *kept = NULL;
    return own;
}

/* The path of the program that a word names. Fails if there is none, or it is this one. */
static const char *program_of(const char *word)
{
    char real[PATH_MAX];
    if (strchr(word, '/') == NULL) {
        const char *found = path_of_program(word, self_path());
        if (found == NULL)
            fail(word, "there is no such compiler in PATH: install it, or name another by --asancol-compiler=");
        return found;
    }
    if (realpath(word, real) != NULL && strcmp(real, self_path()) == 0)
        fail(word, "this is the wrapper itself");
    return word;
}

struct strings command_of(const char *text, const struct front *front)
{
    struct strings command = {0};
    char *rest = must(strdup(text != NULL ? text : "")), *word;
    while ((word = strsep(&rest, " \t\n")) != NULL)
        if (*word != 0)
            strings_add(&command, word);
    if (command.count == 0)
        strings_add(&command, front->usual);
    command.items[0] = program_of(command.items[0]);
    return command;
}
