/* Two tables of words, `linker_words` and `options`: a row says where the value stands, and which field of the request
   it sets or which function takes it. */
#define _GNU_SOURCE
#include "wrapper/arguments.h"

#include <limits.h>
#include <stdio.h>
#include <stdlib.h>
#include <string.h>
#include <sys/stat.h>

#include "common/array.h"
#include "common/must.h"
#include "common/text.h"
#include "wrapper/response.h"

#define SANITIZE "-fsanitize="

static void set(struct arguments *arguments, size_t field, bool value)
{
    *(bool *)((char *)arguments->request + field) = value;
}

/* What the linker is given. */

static char *joined(const char *front, const char *value)
{
    char *word;
    if (asprintf(&word, "%s%s", front, value) < 0)
        no_memory();
    return word;
}

/* Whether a library is a part of the C library, which calls nothing that is wrapped. */
static bool is_of_c(const char *name)
{
    static const char *const names[] = {"c", "m", "pthread", "dl", "rt", "util"};
    for (size_t i = 0; i < COUNT(names); i++)
        if (strcmp(name, names[i]) == 0)
            return true;
    return begins_with(name, ":libm.so");
}

/* Whether a file is a runtime by its name, as GCC's or Clang's. */
static bool is_runtime_file(const char *name)
{
    static const char *const names[] = {"libasan.so", "libasan.a", "libasan_preinit.o",
                                        "liblsan.so", "liblsan.a", "liblsan_preinit.o"};
    static const char *const fronts[] = {"libasan.so.", "liblsan.so.", "libclang_rt.asan", "libclang_rt.lsan"};
    for (size_t i = 0; i < COUNT(names); i++)
        if (strcmp(name, names[i]) == 0)
            return true;
    for (size_t i = 0; i < COUNT(fronts); i++)
        if (begins_with(name, fronts[i]))
            return true;
    return false;
}

bool is_runtime_library(const char *name)
{
    if (name[0] == ':')
        return is_runtime_file(name + 1);
    return begins_with(name, "clang_rt.asan") || begins_with(name, "clang_rt.lsan") || strcmp(name, "asan") == 0
           || strcmp(name, "lsan") == 0;
}

bool is_runtime_word(const char *word)
{
    return begins_with(word, "-l") ? is_runtime_library(word + strlen("-l")) : is_runtime_file(base_name(word));
}

/* Whether a library is the runtime of a sanitizer that no program has beside ours: by its name after -l, or by that of
   its file, without what both begin with. */
static bool is_foreign_runtime(const char *name, bool is_file)
{
    static const char *const gcc[] = {"tsan", "hwasan"};
    static const char *const clang[] = {"clang_rt.tsan", "clang_rt.hwasan", "clang_rt.msan", "clang_rt.dfsan"};
    for (size_t i = 0; i < COUNT(clang); i++)
        if (begins_with(name, clang[i]))
            return true;
    for (size_t i = 0; i < COUNT(gcc); i++) {
        const char *rest = name + strlen(gcc[i]);
        if (begins_with(name, gcc[i]) && (is_file ? begins_with(rest, ".so") || strcmp(rest, ".a") == 0 : *rest == 0))
            return true;
    }
    return false;
}

/* Takes an input, or a word for the linker, if it is such a library. */
static bool take_foreign_runtime(struct arguments *arguments, const char *word)
{
    bool is_file = word[0] != '-' || begins_with(word, "-l:");
    const char *name = word[0] != '-' ? base_name(word) : word + strlen(is_file ? "-l:" : "-l");
    if (word[0] == '-' && !begins_with(word, "-l"))
        return false;
    if (is_file && !begins_with(name, "lib"))
        return false;
    if (!is_foreign_runtime(is_file ? name + strlen("lib") : name, is_file))
        return false;
    arguments->request->foreign = must(strdup(word));
    return true;
}

/* A library: what GCC made with -flto is compiled when it is linked. */
static void take_library(struct arguments *arguments, const char *name)
{
    struct request *request = arguments->request;
    char path[2 * PATH_MAX];
    bool is_file = name[0] == ':';
    request->names_runtime |= is_runtime_library(name);
    if (is_runtime_library(name))
        return;
    take_foreign_runtime(arguments, joined("-l", name));
    request->inputs.has_any = request->inputs.has_linked = true;
    request->link.has_libc |= strcmp(name, "c") == 0;
    request->link.has_libm |= strcmp(name, "m") == 0 || begins_with(name, ":libm.so");
    if (strcmp(name, "stdc++") == 0 || begins_with(name, ":libstdc++."))
        request->link.cxx = joined("-l", request->link.finds_static ? ":libstdc++.a" : name);
    request->link.needs_every_call |= !is_of_c(name);
    for (size_t i = 0; i < arguments->folder_count; i++) {
        const char *folder = arguments->folders[i];
        if (is_file)
            snprintf(path, sizeof path, "%s/%s", folder, name + 1);
        else
            snprintf(path, sizeof path, "%s/lib%s.a", folder, name);
        linked_look_at(&request->inputs.linked, path);
    }
}

/* What a word for it says: a field of the request has this value. */
static const struct linker_word {
    const char *word;
    size_t field;
    bool value;
} linker_words[] = {
#define SAYS(word, field, value) {word, offsetof(struct request, link.field), value}
    SAYS("-Bstatic", finds_static, true),   SAYS("-dn", finds_static, true),  SAYS("-static", finds_static, true),
    SAYS("-Bdynamic", finds_static, false), SAYS("-dy", finds_static, false), SAYS("-s", is_stripped, true),
    SAYS("--strip-all", is_stripped, true), SAYS("-t", is_traced, true),      SAYS("--trace", is_traced, true),
    SAYS("-r", is_partial, true),           SAYS("-i", is_partial, true),     SAYS("--relocatable", is_partial, true),
#undef SAYS
};

/* A word for the linker without a value. False: it is none that matters. */
static bool take_plain_linker_word(struct arguments *arguments, const char *word)
{
    for (size_t i = 0; i < COUNT(linker_words); i++) {
        if (strcmp(word, linker_words[i].word) == 0) {
            set(arguments, linker_words[i].field, linker_words[i].value);
            return true;
        }
    }
    return false;
}

/* Words for it that have a value: the next one, or what follows a sign of equality. */
static const struct {
    const char *word;
    enum linker_value value;
} linker_values[] = {
    {"-o", VALUE_OUTPUT}, {"--output", VALUE_OUTPUT}, {"--wrap", VALUE_WRAP}, {"-wrap", VALUE_WRAP},
};

static void take_linker_value(struct arguments *arguments, enum linker_value value, const char *word)
{
    struct link_request *link = &arguments->request->link;
    if (value == VALUE_OUTPUT)
        link->output = must(strdup(word));
    else
        names_add(&link->wraps, word);
}

/* A word for the linker that has its value in it, or in the next word. False: it is none. */
static bool take_valued_linker_word(struct arguments *arguments, const char *word)
{
    for (size_t i = 0; i < COUNT(linker_values); i++) {
        size_t length = strlen(linker_values[i].word);
        if (strcmp(word, linker_values[i].word) == 0)
            arguments->linker_value = linker_values[i].value;
        else if (begins_with(word, linker_values[i].word) && word[length] == '=')
            take_linker_value(arguments, linker_values[i].value, word + length + 1);
        else
            continue;
        return true;
    }
    return false;
}

static void take_linker_word(struct arguments *arguments, const char *word)
{
    enum linker_value value = arguments->linker_value;
    arguments->linker_value = VALUE_NONE;
    if (value != VALUE_NONE)
        take_linker_value(arguments, value, word);
    else if (begins_with(word, "--verbose"))
        arguments->request->link.is_traced = true;
    else if (begins_with(word, "-l"))
        take_library(arguments, word + strlen("-l"));
    else if (is_runtime_word(word))
        arguments->request->names_runtime = true;
    else if (take_foreign_runtime(arguments, word))
        return;
    else if (!take_valued_linker_word(arguments, word) && !take_plain_linker_word(arguments, word) && word[0] != '-'
             && word[0] != 0 && linked_takes(word)) {
        inputs_add_file(arguments->request, word);
        linked_look_at(&arguments->request->inputs.linked, word);
    }
}

/* The words of a -Wl. */
static void take_linker_words(struct arguments *arguments, const char *words)
{
    char *copy = must(strdup(words)), *rest = copy;
    while (rest != NULL)
        take_linker_word(arguments, strsep(&rest, ","));
    free(copy);
}

static void take_folder(struct arguments *arguments, const char *folder)
{
    size_t room = (arguments->folder_count + 1) * sizeof *arguments->folders;
    arguments->folders = must(realloc(arguments->folders, room));
    arguments->folders[arguments->folder_count++] = must(strdup(folder));
}

/* What the compiler is given. */

static void take_output(struct arguments *arguments, const char *path)
{
    arguments->request->link.output = must(strdup(path));
}

static void take_language(struct arguments *arguments, const char *name)
{
    arguments->language = language_of(name);
    arguments->request->stops_early |= arguments->language.input == INPUT_HEADER;
}

/* Whether an option lists one of these sanitizers. */
static bool lists(const char *list, const char *const *names, size_t count)
{
    for (const char *at = list; at != NULL; at = strchr(at, ',')) {
        at += *at == ',';
        for (size_t i = 0; i < count; i++)
            if (begins_with(at, names[i]) && strchr(",", at[strlen(names[i])]) != NULL)
                return true;
    }
    return false;
}

/* The first two are what the wrapper does, and asancol-run. */
static void take_sanitizers(struct arguments *arguments, const char *list)
{
    static const char *const address = "address", *const leak = "leak";
    static const char *const others[] = {
        "thread",           "memory",     "hwaddress", "kernel-address", "kernel-memory",
        "kernel-hwaddress", "safe-stack", "scudo",     "dataflow",       "memtag"};
    struct request *request = arguments->request;
    if (lists(list, others, COUNT(others)))
        request->foreign = joined(SANITIZE, list);
    if (lists(list, &address, 1)) {
        request->asks_for_address = true;
        request->refusal = NULL;
    }
    request->asks_for_leak |= lists(list, &leak, 1);
    request->link.needs_every_call = true;
}

static void take_refused_sanitizers(struct arguments *arguments, const char *list)
{
    static const char *const ours[] = {"all", "address", "kernel-address"};
    if (lists(list, ours, COUNT(ours)))
        arguments->request->refusal = joined("-fno-sanitize=", list);
}

static void take_list(struct arguments *arguments, const char *name)
{
    names_add(&arguments->request->kept, joined("-fsanitize-ignorelist=", name));
}

static void take_padding(struct arguments *arguments, const char *level)
{
    names_add(&arguments->request->kept, joined("-fsanitize-address-field-padding=", level));
}

bool is_sanitizer(const char *word)
{
    return begins_with(word, SANITIZE);
}

static void take_parameter(struct arguments *arguments, const char *parameter)
{
    arguments->request->says_use_after_return |= begins_with(parameter, USE_AFTER_RETURN_OF_GCC);
    left_out_take(&arguments->request->left_out, CHECK_PARAMETER, parameter);
}

static void take_llvm(struct arguments *arguments, const char *word)
{
    left_out_take(&arguments->request->left_out, CHECK_LLVM, word);
}

/* What calls functions that no object asks for: a library that the compiler puts behind ours, or what it compiles when
   it links. */
static void take_late_calls(struct arguments *arguments, const char *rest)
{
    (void)rest;
    arguments->request->link.needs_every_call = true;
}

static void take_machine(struct arguments *arguments, const char *word)
{
    arguments->request->foreign = must(strdup(word));
}

static void take_lto(struct arguments *arguments, const char *rest)
{
    take_late_calls(arguments, rest);
    arguments->request->makes_other = true;
}

/* The object has everything that it uses of the C++ library: it is no object of the machine, or lies elsewhere than
   where its name says; its text is kept too, and may be compiled again; or a shared object is made of it, which any
   linker can do. */
static void take_apart(struct arguments *arguments, const char *rest)
{
    (void)rest;
    arguments->request->makes_other = true;
}

static void take_optimization(struct arguments *arguments, const char *level)
{
    arguments->request->is_optimized = strcmp(level, "0") != 0;
}

static void take_object(struct arguments *arguments, const char *rest)
{
    (void)rest;
    arguments->request->stops_early = arguments->request->makes_object = true;
}

/* It makes something else, or only prints something, as which files it would take. */
static void take_other(struct arguments *arguments, const char *rest)
{
    (void)rest;
    arguments->request->stops_early = arguments->request->makes_other = true;
}

/* Where the value of an option is. */
enum form {
    ALONE,  /* it has none, and is the value */
    JOINED, /* what comes after it in the same word */
    APART,  /* the next word */
    EITHER
};

/* The options of compilers that matter here. `take` gets the value. Without it a field of the request becomes true if
   the option stands alone, and the value of others is left out. */
static const struct option {
    const char *word;
    enum form form;
    void (*take)(struct arguments *arguments, const char *value);
    size_t field;
} options[] = {
#define SETS(field, word) {word, ALONE, NULL, offsetof(struct request, field)}
    SETS(is_shown, "-E"), SETS(is_shown, "--preprocess"), SETS(is_shown, "-M"), SETS(is_shown, "-MM"),
    SETS(is_dry, "-###"), SETS(is_verbose, "-v"),
    SETS(link.is_shared, "-shared"), SETS(link.is_shared, "--shared"), SETS(link.is_partial, "-r"),
    SETS(link.is_partial, "-no-link"), SETS(link.is_static, "-static"), SETS(link.is_static, "-static-pie"),
    SETS(link.is_static, "--static"), SETS(link.is_bare, "-nostdlib"), SETS(link.is_bare, "-nodefaultlibs"),
    SETS(link.is_bare, "-nolibc"), SETS(link.is_bare, "-ffreestanding"), SETS(link.is_stripped, "-s"),
    SETS(link.is_traced, "-t"), SETS(link.has_cxx_inside, "-static-libstdc++"),
    SETS(link.has_undefined_inside, "-static-libubsan"),
    SETS(is_libcxx, "-stdlib=libc++"), SETS(is_libcxx, "--stdlib=libc++"), SETS(is_without_cxx, "-nostdinc++"),
#undef SETS
#define TAKES(word, form, take) {word, form, take, 0}
    TAKES("-c", ALONE, take_object), TAKES("--compile", ALONE, take_object), TAKES("-S", ALONE, take_other),
    TAKES("--assemble", ALONE, take_other), TAKES("-fsyntax-only", ALONE, take_other),
    TAKES("--version", ALONE, take_other), TAKES("--help", ALONE, take_other), TAKES("--help=", JOINED, take_other),
    TAKES("--target-help", ALONE, take_other), TAKES("-dumpversion", ALONE, take_other),
    TAKES("-dumpfullversion", ALONE, take_other), TAKES("-dumpmachine", ALONE, take_other),
    TAKES("-dumpspecs", ALONE, take_other), TAKES("-emit-pch", ALONE, take_other),
    TAKES("-emit-ast", ALONE, take_other), TAKES("--analyze", ALONE, take_other), TAKES("-cc1", ALONE, take_other),
    TAKES("-cc1as", ALONE, take_other), TAKES("-print-", JOINED, take_other), TAKES("--print-", JOINED, take_other),
    TAKES("-emit-llvm", ALONE, take_apart), TAKES("-save-temps", JOINED, take_apart),
    TAKES("--save-temps", JOINED, take_apart), TAKES("-working-directory", EITHER, take_apart),
    TAKES("-fPIC", ALONE, take_apart), TAKES("-fpic", ALONE, take_apart),
    TAKES("-O", JOINED, take_optimization),
    TAKES("-x", EITHER, take_language), TAKES("-o", EITHER, take_output), TAKES("--output", APART, take_output),
    TAKES("--output=", JOINED, take_output), TAKES("-l", EITHER, take_library), TAKES("-L", EITHER, take_folder),
    TAKES("-Wl,", JOINED, take_linker_words), TAKES("-Xlinker", APART, take_linker_word),
    TAKES(SANITIZE, JOINED, take_sanitizers), TAKES("-fno-sanitize=", JOINED, take_refused_sanitizers),
    TAKES("-fsanitize-ignorelist=", JOINED, take_list), TAKES("-fsanitize-blacklist=", JOINED, take_list),
    TAKES("-fsanitize-address-field-padding=", JOINED, take_padding),
    TAKES("--param", APART, take_parameter), TAKES("--param=", JOINED, take_parameter),
    TAKES("-mllvm", APART, take_llvm), TAKES("-mllvm=", JOINED, take_llvm), TAKES("-Xclang", APART, take_llvm),
    TAKES("-fprofile", JOINED, take_late_calls), TAKES("--coverage", ALONE, take_late_calls),
    TAKES("-coverage", ALONE, take_late_calls), TAKES("-fopenmp", JOINED, take_late_calls),
    TAKES("-flto", JOINED, take_lto), TAKES("-fuse-ld=gold", ALONE, take_late_calls),
    TAKES("-m32", ALONE, take_machine), TAKES("-mx32", ALONE, take_machine), TAKES("-m16", ALONE, take_machine),
#undef TAKES
    {USE_AFTER_RETURN_OF_CLANG, JOINED, NULL, offsetof(struct request, says_use_after_return)},
#define SKIPS(word) {word, APART, NULL, 0}
    SKIPS("-I"), SKIPS("-D"), SKIPS("-U"), SKIPS("-A"), SKIPS("-F"), SKIPS("-include"), SKIPS("-imacros"),
    SKIPS("-idirafter"), SKIPS("-iprefix"), SKIPS("-iwithprefix"), SKIPS("-iwithprefixbefore"), SKIPS("-isystem"),
    SKIPS("-isysroot"), SKIPS("-iquote"), SKIPS("-MF"), SKIPS("-MT"), SKIPS("-MQ"), SKIPS("-Xassembler"),
    SKIPS("-Xpreprocessor"), SKIPS("-u"), SKIPS("-z"), SKIPS("-T"), SKIPS("-e"),
    SKIPS("-B"), SKIPS("-target"), SKIPS("-soname"), SKIPS("-aux-info"), SKIPS("-dumpdir"),
    SKIPS("-dumpbase"), SKIPS("-dumpbase-ext"), SKIPS("-wrapper"), SKIPS("-specs"), SKIPS("--sysroot"), SKIPS("-G"),
    SKIPS("-Xarch"), SKIPS("-arch"), SKIPS("-framework"), SKIPS("-h"), SKIPS("-imultilib"), SKIPS("-iplugindir"),
    SKIPS("-rpath"),
#undef SKIPS
};

static const struct option *option_of(const char *word)
{
    for (size_t i = 0; i < COUNT(options); i++)
        if (options[i].form != JOINED && strcmp(word, options[i].word) == 0)
            return &options[i];
    for (size_t i = 0; i < COUNT(options); i++)
        if ((options[i].form == JOINED || options[i].form == EITHER) && begins_with(word, options[i].word))
            return &options[i];
    return NULL;
}

/* Finds the row of an option, and sets its field or calls its function; its value may be the next word. */
static void take_option(struct arguments *arguments, const char *word)
{
    const struct option *option = option_of(word);
    left_out_take(&arguments->request->left_out, CHECK_OPTION, word);
    if (option == NULL)
        return;
    size_t length = strlen(option->word);
    bool is_whole = word[length] == 0;
    if (option->form == APART || (option->form == EITHER && is_whole))
        arguments->option = option;
    else if (option->take != NULL)
        option->take(arguments, option->form == ALONE ? word : word + length);
    else
        set(arguments, option->field, true);
}

static void take_word(void *arguments, const char *word)
{
    arguments_take(arguments, word);
}

static void take_response_file(struct arguments *arguments, const char *word)
{
    struct stat seen;
    if (stat(word + 1, &seen) != 0) {
        inputs_add(arguments->request, arguments->language, word);
    } else if (arguments->response_files < MAX_RESPONSE_FILES && arguments->nested < MAX_NESTED) {
        arguments->response_files++;
        arguments->nested++;
        response_read(word + 1, take_word, arguments);
        arguments->nested--;
    }
}

void arguments_take(struct arguments *arguments, const char *word)
{
    const struct option *option = arguments->option;
    arguments->option = NULL;
    if (option != NULL) {
        if (option->take != NULL)
            option->take(arguments, word);
    } else if (word[0] == '@') {
        take_response_file(arguments, word);
    } else if (word[0] == '-' && word[1] != 0) {
        take_option(arguments, word);
    } else if (is_runtime_word(word)) {
        arguments->request->names_runtime = true;
    } else if (word[0] != 0) {
        take_foreign_runtime(arguments, word);
        inputs_add(arguments->request, arguments->language, word);
    }
}
