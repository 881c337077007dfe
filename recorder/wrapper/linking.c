/* The table `wraps` of all names that the linker wraps, and `is_own` of those that it leaves alone after a first
   link. */
#define _GNU_SOURCE
#include "wrapper/linking.h"

#include <stdlib.h>
#include <string.h>
#include <unistd.h>

#include "common/array.h"
#include "common/must.h"
#include "wrapper/checked_names.h"
#include "wrapper/own_data.h"
#include "wrapper/say.h"
#include "wrapper/self.h"
#include "wrapper/taken.h"

/* The functions that the linker wraps, and after them the operators new and delete. */
#define WRAP(name) #name,
static const char *const wraps[] = {
#include "calls/wrapped.def"
#include "out/calls.list"
#include "calls/new.def"
};
#undef WRAP
#define WRAP(name) +1
enum {
    OPERATORS =
#include "calls/new.def"
};
#undef WRAP

/* Which of them are left alone. */
static bool is_own[COUNT(wraps)];

/* What shared objects find in a program. A pattern of names would take the linker longer than all that is ours. */
#define SHOWN(name) "-Wl,--export-dynamic-symbol=" #name,
static const char *const shown[] = {SHOWN(pthread_create) SHOWN(thrd_create) SHOWN(longjmp) SHOWN(_longjmp)
                                        SHOWN(siglongjmp) SHOWN(__longjmp_chk) SHOWN(_Unwind_SetIP)
#include "out/shown.def"
};

/* What stands before and behind the recorder. */
#define LIBM "-Wl,--push-state,--as-needed,-lm,--pop-state"

static size_t wrap_count(const struct front *front)
{
    return front->has_new ? COUNT(wraps) : COUNT(wraps) - OPERATORS;
}

bool linking_is_static(const struct link_request *link)
{
    return (link->is_static || link->finds_static) && !link->is_shared;
}

/* Whether it is a program that begins as programs do. */
static bool has_start(const struct link_request *link)
{
    return !link->is_shared && (!link->is_bare || link->has_libc);
}

/* Whether it gets all calls that are checked: where something calls them that is not known by now. */
static bool has_every_call(const struct job *job)
{
    const struct linked *linked = &job->request.inputs.linked;
    return job->request.link.needs_every_call || linked->has_lto || linked->may_open || job->front->has_new
           || job->front->links_libm;
}

bool linking_has_some_calls(const struct job *job)
{
    const struct link_request *link = &job->request.link;
    return has_start(link) && !linking_is_static(link) && !has_every_call(job);
}

bool linking_needs_another(struct job *job, const char *output)
{
    struct link_request *link = &job->request.link;
    struct own_data found = {.is_own = is_own};
    own_data_find(output, wraps, wrap_count(job->front), &link->wraps, &found);
    if (found.unasked != NULL) {
        unlink(output);
        fail(found.unasked, "it would be called: the program has this function, and does not ask for it by --wrap");
    }
    bool needs_every = (found.lacks_a_call || found.has_every_call) && linking_has_some_calls(job);
    link->needs_every_call |= needs_every;
    return found.has_own || needs_every;
}

static void add_file(struct strings *line, const char *name)
{
    static const char front[] = "-Wl,";
    const char *path = self_file(name);
    char *word = must(malloc(sizeof front + strlen(path)));
    stpcpy(stpcpy(word, front), path);
    strings_add(line, word);
}

/* One word for all of them. What calls a function that is left alone by its other name still finds it. */
static void add_wraps(struct strings *line, size_t count)
{
    static const char front[] = "-Wl", wrap[] = ",--wrap=", other[] = ",--defsym=__real_";
    size_t length = sizeof front;
    for (size_t i = 0; i < count; i++)
        length += sizeof other + 2 * strlen(wraps[i]) + 1;
    char *word = must(malloc(length)), *end = stpcpy(word, front);
    for (size_t i = 0; i < count; i++) {
        end = stpcpy(stpcpy(end, is_own[i] ? other : wrap), wraps[i]);
        if (is_own[i])
            end = stpcpy(stpcpy(end, "="), wraps[i]);
    }
    strings_add(line, word);
}

void linking_add_before(struct strings *line, const struct job *job)
{
    const struct link_request *link = &job->request.link;
    if (link->cxx != NULL && !job->front->has_new) {
        strings_add(line, "-Wl,--whole-archive"); /* for what has the old names too: before the library */
        add_file(line, CHECKED_ARCHIVE);
        strings_add(line, "-Wl,--no-whole-archive");
    }
    if (!has_start(link))
        return;
    strings_add(line, "-Wl,--undefined=asancol_first");
    add_file(line, linking_is_static(link) ? "libasancol_first_static.a" : "libasancol_first.a");
}

/* An object compiled here, or this way before, has checks, also if it has no access. */
static bool has_checks(const struct request *request)
{
    const struct linked *linked = &request->inputs.linked;
    bool is_refused = request->refusal != NULL;
    return (linked->has_marked && !(is_refused && linked->has_lto)) || (request->inputs.has_compiled && !is_refused);
}

static void add_static(struct strings *line, const struct job *job)
{
    if (job->request.has_no_run)
        strings_add(line, "-Wl,--undefined=asancol_by_option");
    strings_add(line, "-Wl,--eh-frame-hdr"); /* by which stacks lead through the C library */
    strings_add(line, "-Wl,--undefined=asancol_start");
    strings_add_all(line, shown, COUNT(shown));
    add_file(line, "libasancol_static.a");
    add_file(line, "no-second-allocator.ld");
}

/* Linkers wrap the operators that the library of C++ calls too, and see that once they have read the recorder. */
static void ask_for_operators(struct strings *line, const struct job *job)
{
    if (job->front->has_new && (job->request.is_libcxx || job->request.link.has_cxx_inside))
        strings_add(line, "-Wl,--undefined=__wrap__Znwm");
}

static void add_to_shared_object(struct strings *line, const struct job *job)
{
    ask_for_operators(line, job);
    strings_add(line, "-Wl,--undefined=asancol_map_early");
    strings_add(line, "-Wl,--undefined=asancol_link_note");
    add_file(line, "libasancol_shared.a");
}

static void add_to_program(struct strings *line, const struct job *job)
{
    const struct link_request *link = &job->request.link;
    ask_for_operators(line, job);
    if (has_start(link))
        strings_add(line, "-Wl,--undefined=asancol_start");
    if (has_start(link) && has_every_call(job)) {
        strings_add(line, "-Wl,--undefined=" EVERY_CALL);
        strings_add_all(line, shown, COUNT(shown));
    }
    if (has_start(link) && link->has_undefined_inside)
        strings_add(line, "-Wl,--undefined=__wrap_dlsym"); /* which it calls behind us */
    if (has_start(link) && job->request.asks_for_address)
        strings_add(line, "-Wl,--undefined=asancol_by_flag");
    if (has_start(link) && job->request.has_no_run)
        strings_add(line, "-Wl,--undefined=asancol_by_option");
    add_file(line, "libasancol_record.a");
    if (link->has_libc)
        strings_add(line, "-lc"); /* for what the recorder calls */
}

void linking_add_after(struct strings *line, const struct job *job)
{
    const struct link_request *link = &job->request.link;
    add_file(line, CHECKED_ARCHIVE);
    if (link->cxx != NULL)
        strings_add(line, link->cxx); /* for what the archive asks of it */
    strings_add(line, TAKEN_FLAGS);
    if (has_checks(&job->request))
        strings_add(line, "-Wl,--undefined=asancol_checks");
    if (linking_is_static(link)) {
        add_static(line, job);
        return;
    }
    bool has_libm = link->has_libm || (job->front->links_libm && !link->is_bare);
    add_wraps(line, wrap_count(job->front));
    /* gold wraps what shared objects call too, as libmvec, which comes with it: it must see that before
       the recorder. */
    if (has_libm)
        strings_add(line, LIBM);
    if (link->is_shared)
        add_to_shared_object(line, job);
    else
        add_to_program(line, job);
    /* The functions called in it are called by the recorder now, which stands behind it. */
    if (has_libm)
        strings_add(line, LIBM);
}
