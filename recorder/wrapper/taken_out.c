/* One pass over the arguments copies all but these words; response files with such a word are rewritten. Words for the
   linker that are joined by commas are written anew without it. */
#define _GNU_SOURCE
#include "wrapper/taken_out.h"

#include <errno.h>
#include <stdio.h>
#include <stdlib.h>
#include <string.h>
#include <sys/mman.h>
#include <sys/stat.h>

#include "common/array.h"
#include "common/must.h"
#include "common/text.h"
#include "wrapper/arguments.h"
#include "wrapper/job.h"
#include "wrapper/response.h"
#include "wrapper/say.h"

/* GCC has what Clang calls `runtime`. */
static const struct value {
    const char *word;
    enum use_after_return meaning;
} values[] = {
    {USE_AFTER_RETURN_OF_CLANG "never", USE_AFTER_RETURN_NEVER},
    {USE_AFTER_RETURN_OF_CLANG "runtime", USE_AFTER_RETURN_RUNTIME},
    {USE_AFTER_RETURN_OF_CLANG "always", USE_AFTER_RETURN_ALWAYS},
    {USE_AFTER_RETURN_OF_GCC "0", USE_AFTER_RETURN_NEVER},
    {USE_AFTER_RETURN_OF_GCC "1", USE_AFTER_RETURN_RUNTIME},
};

/* What a word says of it, without what stands before it. */
static enum use_after_return meaning_of(const char *word)
{
    for (size_t i = 0; i < COUNT(values); i++)
        if (strcmp(word, values[i].word) == 0)
            return values[i].meaning;
    fail(word, begins_with(word, USE_AFTER_RETURN_OF_CLANG) ? "it takes never, runtime or always" : "it takes 0 or 1");
}

/* Words before a value, which may be one of these, if it begins so or names a runtime; or the value is a file's name
   that is none of a link. */
static const struct front_word {
    const char *word, *value;
    bool (*is_runtime)(const char *value);
} fronts[] = {
    {"--param", USE_AFTER_RETURN_OF_GCC, NULL},
    {"-Xclang", USE_AFTER_RETURN_OF_CLANG, NULL},
    {"-l", NULL, is_runtime_library},
    {"-Xlinker", NULL, is_runtime_word},
    {"-o", NULL, NULL},
    {"-MF", NULL, NULL},
    {"-MT", NULL, NULL},
    {"-MQ", NULL, NULL},
};

/* A list of arguments that is gone over. */
struct pass {
    struct strings kept;
    enum use_after_return last;
    bool has_any;
    const struct front_word *front; /* the word before, or null */
    unsigned response_files, nested;
};

static const struct front_word *front_word(const char *word)
{
    for (size_t i = 0; i < COUNT(fronts); i++)
        if (strcmp(word, fronts[i].word) == 0)
            return &fronts[i];
    return NULL;
}

static bool says_use_after_return(struct pass *pass, const char *word)
{
    static const char joined[] = "--param=" USE_AFTER_RETURN_OF_GCC;
    const char *value = pass->front != NULL ? pass->front->value : USE_AFTER_RETURN_OF_CLANG;
    if (pass->front == NULL && begins_with(word, joined))
        word += strlen("--param=");
    else if (value == NULL || !begins_with(word, value))
        return false;
    pass->last = meaning_of(word);
    return true;
}

static bool links_runtime(const struct pass *pass, const char *word)
{
    if (pass->front == NULL)
        return is_runtime_word(word);
    return pass->front->is_runtime != NULL && pass->front->is_runtime(word);
}

/* Takes a word if it is one of these. */
static bool takes(struct pass *pass, const char *word)
{
    if (!says_use_after_return(pass, word) && !links_runtime(pass, word))
        return false;
    pass->has_any = true;
    pass->front = NULL;
    return true;
}

/* Words for the linker, without those that link a runtime. */
static const char *without_runtimes(struct pass *pass, const char *word)
{
    static const char front[] = "-Wl";
    if (pass->front != NULL || !begins_with(word, "-Wl,"))
        return word;
    char *copy = must(strdup(word + strlen("-Wl,"))), *rest = copy, *kept = must(malloc(strlen(word) + 1)), *one;
    strcpy(kept, front);
    while ((one = strsep(&rest, ",")) != NULL) {
        if (is_runtime_word(one))
            pass->has_any = true;
        else
            strcat(strcat(kept, ","), one);
    }
    free(copy);
    return strcmp(kept, front) != 0 ? kept : NULL;
}

static bool is_response_file(const char *word)
{
    struct stat seen;
    return word[0] == '@' && stat(word + 1, &seen) == 0;
}

/* The value after it is no front, even if it looks like one. */
static bool keep_front(struct pass *pass)
{
    bool has_front = pass->front != NULL;
    if (has_front)
        strings_add(&pass->kept, pass->front->word);
    pass->front = NULL;
    return has_front;
}

/* Takes a word of a response file. */
static void take(void *to, const char *word)
{
    struct pass *pass = to;
    if (takes(pass, word))
        return;
    if (keep_front(pass)) {
        strings_add(&pass->kept, must(strdup(word)));
        return;
    }
    if (is_response_file(word) && pass->nested < MAX_NESTED && pass->response_files < MAX_RESPONSE_FILES) {
        pass->response_files++;
        pass->nested++;
        response_read(word + 1, take, pass);
        pass->nested--;
        return;
    }
    word = without_runtimes(pass, word);
    pass->front = word != NULL ? front_word(word) : NULL;
    if (pass->front == NULL && word != NULL)
        strings_add(&pass->kept, must(strdup(word)));
}

/* Writes arguments so that a compiler reads them again as they are. */
static void write_arguments(int file, const struct strings *argv)
{
    FILE *to = must(fdopen(file, "w"));
    for (size_t i = 0; i < argv->count; i++) {
        fputc('"', to);
        for (const char *at = argv->items[i]; *at != 0; at++)
            fprintf(to, *at == '"' || *at == '\\' ? "\\%c" : "%c", *at);
        fputs("\"\n", to);
    }
    if (fflush(to) != 0)
        fail("a response file", strerror(errno));
}

/* A response file that has such a word is passed on as another one, without it. */
static void take_response_file(struct pass *pass, const char *word)
{
    struct pass inner = {.last = pass->last};
    char *name;
    response_read(word + 1, take, &inner);
    keep_front(&inner);
    if (!inner.has_any) {
        strings_add(&pass->kept, word);
        return;
    }
    int file = memfd_create("arguments", 0);
    if (file < 0)
        fail(word, strerror(errno));
    write_arguments(file, &inner.kept);
    if (asprintf(&name, "@/proc/self/fd/%d", file) < 0)
        no_memory();
    strings_add(&pass->kept, name);
    pass->last = inner.last;
}

static struct strings taken_from(const char *const *argv, enum use_after_return *last)
{
    struct pass pass = {.last = *last};
    for (; *argv != NULL; argv++) {
        if (pass.front == NULL && is_response_file(*argv))
            take_response_file(&pass, *argv);
        else
            take(&pass, *argv);
    }
    keep_front(&pass);
    *last = pass.last;
    return pass.kept;
}

void taken_out(struct job *job)
{
    static char *nothing[] = {NULL};
    enum use_after_return last = USE_AFTER_RETURN_NEVER;
    job->command = taken_from(job->command.items, &last);
    struct strings arguments = taken_from((const char *const *)job->arguments, &last);
    job->arguments = arguments.count != 0 ? (char **)arguments.items : nothing;
    job->request.use_after_return = last;
}
