/* Stateless: words are added to the command line before the caller's and after them. */
#define _GNU_SOURCE
#include "wrapper/compiling.h"

#include <stdio.h>
#include <stdlib.h>
#include <string.h>
#include <sys/stat.h>

#include "common/array.h"
#include "common/hash.h"
#include "common/must.h"
#include "common/text.h"
#include "plugin/plugin.h"
#include "wrapper/arguments.h"
#include "wrapper/plugin.h"
#include "wrapper/say.h"
#include "wrapper/self.h"
#include "wrapper/target.h"

/* The compiler notes its switches in the object, by which the link finds such objects (linked.c). */
#define NOTE_SWITCHES "-frecord-gcc-switches"

/* Linkers keep one of the noted switches that are the same. Clang notes the names of its files, and so they differ. GCC
   gets a threshold that comes of the name, and is still so large that no function reaches it. */
static void add_own_number(struct strings *line, const struct job *job)
{
    const struct request *request = &job->request;
    const struct names *sources = &request->inputs.sources;
    char *word;
    if (job->compiler->own_number == NULL || request->is_all || sources->count == 0)
        return;
    const char *name = request->link.output != NULL ? request->link.output : sources->names[0];
    uint32_t number = PLUGIN_NO_CALLS + hash_of(name, strlen(name)) % PLUGIN_NO_CALLS;
    if (asprintf(&word, "%s%u", job->compiler->own_number, number) < 0)
        no_memory();
    strings_add(line, "--param");
    strings_add(line, word);
}

/* Whether all sources are in C or C++: GCC warns of an option that is not for the language. */
static bool is_of_c(const struct names *sources)
{
    static const char *const ends[] = {".c", ".i", ".cc", ".ii", ".cp", ".cxx", ".cpp", ".c++", ".C"};
    for (size_t i = 0; i < sources->count; i++) {
        bool is_one = false;
        for (size_t j = 0; j < COUNT(ends); j++)
            is_one |= ends_with(sources->names[i], ends[j]);
        if (!is_one)
            return false;
    }
    return sources->count != 0;
}

static void add_plugin(struct strings *line, const struct job *job)
{
    const struct flags *without = &job->compiler->without_plugin;
    const char *path = plugin_of(job);
    char *word;
    if (path == NULL && is_of_c(&job->request.inputs.sources))
        strings_add_all(line, without->items, without->count);
    if (path == NULL && job->compiler->plugin != NULL && job->request.is_verbose)
        warn(job->compiler->plugin, "missing for this version of GCC: intrinsics and complex numbers are not checked");
    if (path == NULL)
        return;
    if (asprintf(&word, "-fplugin=%s", path) < 0)
        no_memory();
    strings_add(line, word);
}

static void add_passes(struct strings *line, const struct job *job)
{
    char *word;
    if (job->passes == NULL)
        return;
    if (asprintf(&word, "-fpass-plugin=%s", job->passes) < 0)
        no_memory();
    strings_add(line, word);
}

/* GCC compiles objects of -flto at the link. */
static bool compiles_at_link(const struct job *job)
{
    return job->compiler->compiles_at_link && job->request.inputs.linked.has_marked;
}

/* Flags, with the place of the shadow that the processor has. */
static void add_flags(struct strings *line, const struct flags *flags, const struct target *target)
{
    static const char here[] = SHADOW_HERE;
    for (size_t i = 0; i < flags->count; i++) {
        const char *item = flags->items[i];
        char *word;
        if (target == NULL || !ends_with(item, here)) {
            strings_add(line, item);
            continue;
        }
        if (asprintf(&word, "%.*s%s", (int)(strlen(item) + 1 - sizeof here), item, target->shadow) < 0)
            no_memory();
        strings_add(line, word);
    }
}

/* The calls before accesses: when compiling, and for GCC when linking too. It would compile then with the settings of
   an object that was made without these flags. */
static void add_checks(struct strings *line, const struct job *job)
{
    const struct compiler *compiler = job->compiler;
    const struct inputs *inputs = &job->request.inputs;
    if (!inputs->has_source && !compiles_at_link(job))
        return;
    if (compiler->compiles_at_link && !job->request.stops_early && inputs->linked.unmarked_lto != NULL)
        fail(inputs->linked.unmarked_lto, "it was made with -flto, but not by asancol-cc: compile it again");
    const struct flags *flags = job->request.is_all ? &compiler->all_flags : &compiler->flags;
    add_flags(line, flags, job->target);
    const struct flags *returns = &compiler->use_after_return[job->request.use_after_return];
    strings_add_all(line, returns->items, returns->count);
    add_own_number(line, job);
    add_plugin(line, job);
    add_passes(line, job);
    for (size_t i = 0; compiler->has_driver && i < job->request.kept.count; i++) {
        strings_add(line, "-Xclang");
        strings_add(line, job->request.kept.names[i]);
    }
}

static void add_file(struct strings *line, const char *option, const char *name)
{
    strings_add(line, option);
    strings_add(line, self_file(name));
}

/* By its source, as compilers name it. */
static char *usual_object(const char *source)
{
    const char *end = strrchr(source, '.');
    char *name;
    if (asprintf(&name, "%.*s.o", (int)(end != NULL ? (size_t)(end - source) : strlen(source)), source) < 0)
        no_memory();
    return name;
}

/* Whether it is seen that one object is made of a source, and nothing else. */
static bool makes_one_object(const struct request *request)
{
    const struct inputs *inputs = &request->inputs;
    return request->makes_object && !request->makes_other && !request->is_shown && inputs->sources.count == 1
           && inputs->sources.more == 0 && (!inputs->has_standard || request->link.output != NULL);
}

char *compiling_object(const struct job *job)
{
    const struct request *request = &job->request;
    struct stat seen;
    bool has_checks = job->compiler != NULL && request->refusal == NULL && request->kept.count == 0;
    if (!has_checks || request->is_all || request->is_libcxx || job->target != NULL || !makes_one_object(request))
        return NULL;
    char *object = request->link.output != NULL ? must(strdup(request->link.output))
                                                : usual_object(request->inputs.sources.names[0]);
    return stat(object, &seen) != 0 || S_ISREG(seen.st_mode) ? object : NULL;
}

/* Where the headers of the library of C++ are that have its strings and streams compiled here, or taken from where they
   are compiled once for all. They stand before others that are looked for in the same way, and include these. Those
   for test frameworks stand after all others. */
static void add_headers(struct strings *line, const struct job *job)
{
    const struct request *request = &job->request;
    const char *option = request->is_without_cxx ? "-I" : "-isystem";
    if (!request->inputs.has_text)
        return;
    if (job->object != NULL)
        add_file(line, option, "cxx/once");
    if (!request->is_libcxx || request->is_without_cxx)
        add_file(line, option, "cxx/libstdc++");
    if (request->is_libcxx || request->is_without_cxx)
        add_file(line, option, "cxx/libc++");
    add_file(line, "-idirafter", "include");
}

void compiling_add_before(struct strings *line, const struct job *job)
{
    if (job->compiler == NULL || job->request.refusal != NULL)
        return;
    add_checks(line, job);
    add_headers(line, job);
}

/* The compiler is to leave what the caller has asked for and the wrapper does. */
static void add_own(struct strings *line, const struct request *request)
{
    if (request->asks_for_leak)
        strings_add(line, "-fno-sanitize=leak");
    if (request->asks_for_address)
        strings_add(line, "-fno-sanitize=address");
}

void compiling_add_after(struct strings *line, const struct job *job)
{
    const struct compiler *compiler = job->compiler;
    const struct request *request = &job->request;
    add_own(line, request);
    if (compiler == NULL || request->refusal != NULL)
        return;
    if (request->inputs.has_compiled || compiles_at_link(job))
        strings_add_all(line, compiler->last.items, compiler->last.count);
    if (!request->inputs.has_source)
        return;
    strings_add(line, NOTE_SWITCHES); /* whatever the caller's arguments say of it */
    bool has_headers = request->inputs.has_text && !request->is_shown;
    if (compiler->intrinsics != NULL && has_headers)
        add_file(line, "-include", compiler->intrinsics);
    if (request->is_all || !request->inputs.has_compiled || job->passes != NULL)
        return;
    strings_add_all(line, compiler->after.items, compiler->after.count);
    if (compiler->header != NULL && has_headers)
        add_file(line, "-include", compiler->header);
}

void compiling_add_note(struct strings *line, const struct job *job)
{
    const struct request *request = &job->request;
    if (request->inputs.has_source && request->foreign != NULL && is_sanitizer(request->foreign))
        strings_add(line, NOTE_SWITCHES); /* by which the link sees why nothing of it is recorded */
}
