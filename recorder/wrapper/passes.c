/* Stateless: the version of Clang is read from its program, or asked for, and the file for it is tried. */
#define _GNU_SOURCE
#include "wrapper/passes.h"

#include <dlfcn.h>
#include <stdio.h>
#include <stdlib.h>
#include <string.h>

#include "clang/plugin.h"
#include "wrapper/say.h"
#include "wrapper/self.h"
#include "wrapper/view.h"

/* The number that stands after the first such text that has one; or 0. */
static unsigned number_after(struct view view, const char *front)
{
    size_t length = strlen(front);
    const char *end = view.bytes + view.size, *at = view.bytes;
    while (view.size != 0 && (at = memmem(at, (size_t)(end - at), front, length)) != NULL) {
        unsigned number = 0;
        for (at += length; at < end && *at >= '0' && *at <= '9' && number < 1000; at++)
            number = number * 10 + (unsigned)(*at - '0');
        if (number != 0)
            return number;
    }
    return 0;
}

/* Its version: of a program by the library that it is made of, which is shared then, and else by what it says. */
static unsigned major_of(const struct job *job, bool *is_shared)
{
    const struct compiler *compiler = job->compiler;
    struct view program = view_map(job->command.items[0]);
    unsigned major = view_has_constant(program, compiler->has_text, strlen(compiler->has_text))
                         ? number_after(program, compiler->has_text)
                         : 0;
    view_unmap(program);
    *is_shared = major != 0;
    if (major != 0)
        return major;
    const char *text = compiler_version(job->command.items, job->command.count);
    return number_after((struct view){text, strlen(text)}, compiler->says);
}

/* A compiler that can't load its plugin compiles nothing: so this tries it. */
static bool can_be_loaded(const char *path)
{
    void *plugin = dlopen(path, RTLD_NOW | RTLD_LOCAL);
    if (plugin != NULL)
        dlclose(plugin);
    return plugin != NULL;
}

/* Checks for other processors stay as they are. */
static bool can_be_cheaper(const struct job *job)
{
#ifdef __x86_64__
    return job->target == NULL;
#else
    (void)job;
    return false;
#endif
}

/* Which one it is to be given; or null. Without optimisation code would grow by it. */
static const char *file_for(const struct job *job)
{
    const struct compiler *compiler = job->compiler;
    const struct request *request = &job->request;
    bool is_compiled = compiler != NULL && request->inputs.has_compiled && !request->is_shown;
    if (!is_compiled || !request->is_optimized || request->is_all || request->refusal != NULL)
        return NULL;
    return can_be_cheaper(job) ? compiler->passes : NULL;
}

static void say(const struct job *job, const char *of, const char *why)
{
    char text[256];
    snprintf(text, sizeof text, "%s: checks take more code and time", why);
    if (job->request.is_verbose)
        warn(of, text);
}

/* One with LLVM inside does not say which form of plugins it asks for. */
const char *passes_of(const struct job *job)
{
    const char *file = file_for(job), *plugin = file != NULL ? self_find_file(file) : NULL;
    char name[sizeof CLANG_FILE_OF + 16];
    bool is_shared;
    if (file == NULL)
        return NULL;
    unsigned major = plugin != NULL ? major_of(job, &is_shared) : 0;
    snprintf(name, sizeof name, CLANG_FILE_OF, major);
    if (plugin == NULL || self_find_file(name) == NULL)
        say(job, plugin == NULL ? file : name, "not found beside the wrapper");
    else if (!is_shared && major >= LLVM_OF_FORM_2)
        say(job, name, "whether this Clang can load it is not seen in its program");
    else if (!can_be_loaded(plugin))
        say(job, plugin, "it can't be loaded");
    else
        return plugin;
    return NULL;
}
