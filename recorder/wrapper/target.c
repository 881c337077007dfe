/* The table `targets` of other processors, by the names that compilers have for them. */
#define _GNU_SOURCE
#include "wrapper/target.h"

#include <stdio.h>
#include <stdlib.h>
#include <string.h>

#include "common/array.h"
#include "common/must.h"
#include "common/text.h"
#include "wrapper/job.h"
#include "wrapper/self.h"
#include "wrapper/view.h"

static const struct target targets[] = {
    {"aarch64-linux-gnu", "0x1000000000"},
};

/* The machine for which this was built has its name in the programs of its compilers. */
static const char here[] = "x86_64-linux-gnu";

/* Whether the library of any other one is there. Else no compiler is asked. */
static bool has_any(void)
{
    char name[64];
    for (size_t i = 0; i < COUNT(targets); i++) {
        snprintf(name, sizeof name, "%s/libasancol_record.a", targets[i].machine);
        char *path = self_find_file(name);
        free(path);
        if (path != NULL)
            return true;
    }
    return false;
}

/* Of Clang's arguments those that choose it. */
static size_t add_choice(const char **argv, char *const *arguments)
{
    size_t count = 0;
    for (char *const *it = arguments; *it != NULL; it++)
        if (begins_with(*it, "--target=")) {
            argv[count++] = *it;
        } else if (strcmp(*it, "-target") == 0 && it[1] != NULL) {
            argv[count++] = *it++;
            argv[count++] = *it;
        }
    return count;
}

/* Clang says who made the machine, and GCC does not. */
static bool is_machine(const char *said, const char *machine)
{
    size_t processor = (size_t)(strchr(machine, '-') - machine), length = strlen(machine);
    const char *system = strchr(said, '-');
    if (strncmp(said, machine, length) == 0)
        return said[length] == 0 || said[length] == '\n';
    if (system == NULL || (size_t)(system - said) != processor || strncmp(said, machine, processor) != 0)
        return false;
    system = strchr(system + 1, '-');
    return system != NULL && strncmp(system, machine + processor, length - processor) == 0;
}

const struct target *target_of(const struct job *job)
{
    char text[256];
    size_t given = 0, chosen;
    if (!has_any())
        return NULL;
    while (job->arguments[given] != NULL)
        given++;
    const char **argv = must(calloc(job->command.count + given + 1, sizeof *argv));
    memcpy(argv, job->command.items, job->command.count * sizeof *argv);
    chosen = add_choice(argv + job->command.count, job->arguments);
    struct view program = view_map(job->command.items[0]);
    bool is_here = chosen == 0 && job->command.count == 1 && view_has_constant(program, here, sizeof here);
    view_unmap(program);
    text[0] = 0;
    if (!is_here)
        compiler_say(argv, job->command.count + chosen, "-dumpmachine", text, sizeof text);
    free(argv);
    for (size_t i = 0; i < COUNT(targets); i++)
        if (is_machine(text, targets[i].machine))
            return &targets[i];
    return NULL;
}
