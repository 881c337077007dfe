/* Stateless: what the plugin says it was made for (struct made_for) is looked for in the compiler, or in its answer to
   -v. */
#define _GNU_SOURCE
#include "wrapper/plugin.h"

#include <stdio.h>
#include <string.h>

#include "plugin/plugin.h"
#include "wrapper/self.h"
#include "wrapper/view.h"

/* The compiler that it was made for, by what stands in the plugin. */
struct made_for {
    const char *version, *configured;
};

/* Finds what the plugin was made for, behind a text in it. False: it does not say so. */
static bool read_made_for(struct view plugin, struct made_for *made_for)
{
    static const char front[] = PLUGIN_MADE_FOR;
    const char *end = plugin.bytes + plugin.size;
    const char *at = plugin.size != 0 ? memmem(plugin.bytes, plugin.size, front, sizeof front) : NULL;
    if (at == NULL)
        return false;
    made_for->version = at + sizeof front;
    size_t length = strnlen(made_for->version, (size_t)(end - made_for->version));
    made_for->configured = made_for->version + length + 1;
    return (size_t)(end - made_for->version) > length
           && strnlen(made_for->configured, (size_t)(end - made_for->configured))
                  < (size_t)(end - made_for->configured);
}

static bool is_made_for_program(const struct made_for *made_for, struct view program)
{
    char version[64];
    size_t length = (size_t)snprintf(version, sizeof version, "%c%s", 0, made_for->version);
    return length < sizeof version && view_has_constant(program, version, length + 1)
           && view_has_constant(program, made_for->configured, strlen(made_for->configured) + 1);
}

/* Whether the command leads to it, as a script or ccache does. */
static bool is_made_for_command(const struct made_for *made_for, const struct strings *command)
{
    char text[1 << 14], version[64];
    compiler_say(command->items, command->count, "-v", text, sizeof text);
    snprintf(version, sizeof version, " %s ", made_for->version);
    return strstr(text, version) != NULL && strstr(text, made_for->configured) != NULL;
}

static bool is_made_for(const char *path, const struct job *job, struct view program)
{
    const char *text = job->compiler->has_text;
    struct view plugin = view_map(path);
    struct made_for made_for;
    bool is_made = false;
    if (read_made_for(plugin, &made_for)) {
        bool is_program = text != NULL && view_has_constant(program, text, strlen(text));
        is_made = is_program ? is_made_for_program(&made_for, program) : is_made_for_command(&made_for, &job->command);
    }
    view_unmap(plugin);
    return is_made;
}

const char *plugin_of(const struct job *job)
{
    const char *file = job->compiler->plugin, *path = file != NULL ? self_find_file(file) : NULL;
    if (file == NULL)
        return NULL;
    struct view program = view_map(job->command.items[0]);
    if (path != NULL && !is_made_for(path, job, program))
        path = NULL;
    for (unsigned major = PLUGIN_OLDEST; path == NULL && major < PLUGIN_NEWEST; major++) {
        char name[sizeof PLUGIN_FILE_OF + 16];
        snprintf(name, sizeof name, PLUGIN_FILE_OF, major);
        path = self_find_file(name);
        if (path != NULL && !is_made_for(path, job, program))
            path = NULL;
    }
    view_unmap(program);
    return path;
}
