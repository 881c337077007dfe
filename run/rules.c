/* asancol-report is the only one that knows the forms of a line. Without suppressions it is not started. */
#define _GNU_SOURCE
#include "rules.h"

#include <errno.h>
#include <spawn.h>
#include <stdlib.h>
#include <string.h>
#include <sys/stat.h>
#include <sys/wait.h>
#include <unistd.h>

#include "common/string_list.h"
#include "names.h"

/* With which asancol-report refuses a command line or a file. */
enum { REFUSED = 2 };

/* What can be read only once is left to the report. */
static bool is_file(const char *path)
{
    struct stat seen;
    return stat(path, &seen) == 0 && S_ISREG(seen.st_mode);
}

/* The words of the command line that name them. */
static struct strings words_of_rules(const struct options *options)
{
    static const char rules[] = "--suppressions";
    struct strings words = {0};
    for (size_t i = 0; i + 1 < options->report.count; i++) {
        if (strcmp(options->report.items[i], rules) != 0 || !is_file(options->report.items[++i]))
            continue;
        strings_add(&words, rules);
        strings_add(&words, options->report.items[i]);
    }
    return words;
}

bool rules_are_good(const struct options *options)
{
    struct strings rules = words_of_rules(options), argv = {0};
    char *program = rules.count > 0 ? find_own_program("asancol-report", "ASANCOL_REPORT") : NULL;
    pid_t child;
    int status = 0;
    if (program == NULL)
        return true;
    strings_add(&argv, program);
    strings_add(&argv, "--rules-alone");
    strings_add_all(&argv, rules.items, rules.count);
    if (posix_spawn(&child, program, NULL, NULL, (char *const *)argv.items, environ) == 0)
        while (waitpid(child, &status, 0) < 0 && errno == EINTR)
            ;
    free(program);
    return !WIFEXITED(status) || WEXITSTATUS(status) != REFUSED;
}
