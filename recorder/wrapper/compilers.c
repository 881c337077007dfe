/* The table `compilers`: all that differs from one to another stands in its rows. */
#define _GNU_SOURCE
#include "wrapper/compilers.h"

#include <fcntl.h>
#include <stdlib.h>
#include <string.h>
#include <sys/wait.h>
#include <unistd.h>

#include "clang/plugin.h"
#include "common/array.h"
#include "plugin/plugin.h"
#include "wrapper/linked.h"
#include "wrapper/view.h"

#define FLAGS(...)                                                                                                     \
    {                                                                                                                  \
        (const char *const[]){__VA_ARGS__}, COUNT(((const char *const[]){__VA_ARGS__}))                                \
    }

/* The recorder follows frame pointers to the callers of a call, as AddressSanitizer does. */
#define STACKS "-fno-omit-frame-pointer"

/* -fsanitize=kernel-address is the form that goes on after a call for a bad access, and links no runtime. Where the
   shadow begins is said in shadow.h. */
#define GCC_CHECKS(threshold)                                                                                          \
    FLAGS(COMPILED_SO, STACKS, "-fasan-shadow-offset=" SHADOW_HERE, "-fsanitize-address-use-after-scope", "--param",   \
          "asan-instrumentation-with-call-threshold=" threshold, "--param", "asan-stack=1", "--param",                 \
          "asan-globals=1", "--param", "asan-instrument-allocas=1")

/* Clang's is the form of a process: for a kernel there are no redzones round a global whose name begins with two
   underlines, as __func__, or that names a section, and none before an array with a count of its elements. Its driver
   does not know of it, and links no runtime. What a process would have besides is taken back. An experiment gives the
   calls after a check names of their own. In a block it would check a pointer once, whatever the size (from 15 on), and
   whatever another thread has freed meanwhile. It takes each word of -mllvm once: none of what callers set stands
   here. */
#define CLANG_CHECKS(threshold, experiment)                                                                            \
    FLAGS(COMPILED_SO, "-fno-sanitize=kernel-address", "-Xclang", "-fsanitize=address", "-Xclang",                     \
          "-fsanitize-recover=address", STACKS, "-mllvm", "-asan-mapping-offset=" SHADOW_HERE, "-Xclang",              \
          "-fsanitize-address-use-after-scope", "-mllvm", "-asan-instrumentation-with-call-threshold=" threshold,      \
          "-mllvm", "-asan-force-experiment=" experiment, "-mllvm", "-asan-guard-against-version-mismatch=0",          \
          "-mllvm", "-asan-opt-same-temp=0")

/* Beside cold_reports.h: values needed after a call for a bad access are kept on the stack before it, and not in a
   register that the function has to save at each of its starts. The cost is that of one run in 2^14 of them. */
#define CLANG_COLD FLAGS("-mllvm", "-regalloc-csr-first-time-cost=16384", "-fno-addrsig")

/* Of a comparison of constant size GCC makes loads once its checks are there. Its plugin sees those of headers, too. */
#define GCC_CALLS FLAGS("-fno-builtin-memcmp", "-fno-builtin-bcmp")

/* Without these GCC ends the process after a bad access if the caller has -fno-sanitize-recover=all, and has no checks
   after -fno-sanitize=address. */
#define GCC_LAST FLAGS(COMPILED_SO, "-fsanitize-recover=kernel-address")

/* Clang's driver gives it for AddressSanitizer: else an access past what `new` has returned may be optimised away. */
#define CLANG_LAST FLAGS("-fno-assume-sane-operator-new")

/* GCC knows no form without a look at the option of the process. */
#define GCC_USE_AFTER_RETURN(number) FLAGS("--param", USE_AFTER_RETURN_OF_GCC number)
#define CLANG_USE_AFTER_RETURN(mode) FLAGS("-mllvm", "-asan-use-after-return=" mode)

static const struct compiler compilers[] = {
    {
        .says = "Free Software Foundation",
        .has_text = "%{!fsyntax-only", /* its specs, for all front ends */
        .flags = GCC_CHECKS("2147483647"),
        .all_flags = GCC_CHECKS("0"),
        .use_after_return = {GCC_USE_AFTER_RETURN("0"), GCC_USE_AFTER_RETURN("1"), GCC_USE_AFTER_RETURN("1")},
        .last = GCC_LAST,
        .own_number = "asan-instrumentation-with-call-threshold=",
        .checks_of = CHECKS_OF_GCC,
        .compiles_at_link = true,
        .plugin = PLUGIN_FILE,
        .without_plugin = GCC_CALLS,
    },
    {
        .says = "clang version ",       /* the same */
        .has_text = "libclang-cpp.so.", /* of which it is made: its version follows */
        .flags = CLANG_CHECKS("1000000000", "1"),
        .all_flags = CLANG_CHECKS("0", "0"),
        .use_after_return = {CLANG_USE_AFTER_RETURN("never"), CLANG_USE_AFTER_RETURN("runtime"),
                             CLANG_USE_AFTER_RETURN("always")},
        .after = CLANG_COLD,
        .last = CLANG_LAST,
        .checks_of = CHECKS_OF_CLANG,
        .has_driver = true,
        .header = "cold_reports.h",
        .intrinsics = "clang_intrinsics.h",
        .passes = CLANG_FILE,
    },
};

/* In the child: runs the command with an option of which it reads nothing. All that it says goes there. */
static _Noreturn void ask(const char *const *command, size_t count, const char *option, int output)
{
    const char **argv = calloc(count + 2, sizeof *argv);
    int nothing = open("/dev/null", O_RDWR);
    if (argv == NULL)
        _exit(127);
    for (size_t i = 0; i < count; i++)
        argv[i] = command[i];
    argv[count] = option;
    dup2(nothing, STDIN_FILENO);
    dup2(output, STDERR_FILENO);
    dup2(output, STDOUT_FILENO);
    execv(argv[0], (char *const *)argv);
    _exit(127);
}

void compiler_say(const char *const *command, size_t count, const char *option, char *text, size_t room)
{
    int ends[2];
    size_t length = 0;
    text[0] = 0;
    if (pipe2(ends, O_CLOEXEC) != 0)
        return;
    pid_t child = fork();
    if (child == 0)
        ask(command, count, option, ends[1]);
    close(ends[1]);
    for (ssize_t more; length < room - 1; length += (size_t)more)
        if ((more = read(ends[0], text + length, room - 1 - length)) <= 0)
            break;
    text[length] = 0;
    close(ends[0]);
    if (child > 0)
        waitpid(child, NULL, 0);
}

/* By a text of its program: to ask it takes a process, which counts beside a small source. */
static const struct compiler *compiler_of_program(const char *path)
{
    const struct compiler *found = NULL;
    struct view view = view_map(path);
    for (size_t i = 0; i < COUNT(compilers) && found == NULL; i++) {
        const char *text = compilers[i].has_text;
        if (text != NULL && view_has_constant(view, text, strlen(text)))
            found = &compilers[i];
    }
    view_unmap(view);
    return found;
}

const char *compiler_version(const char *const *command, size_t count)
{
    static char text[4096];
    if (text[0] == 0)
        compiler_say(command, count, "--version", text, sizeof text);
    return text;
}

const struct compiler *compiler_of(const char *const *command, size_t count)
{
    const struct compiler *found = compiler_of_program(command[0]);
    if (found != NULL)
        return found;
    const char *text = compiler_version(command, count);
    for (size_t i = 0; i < COUNT(compilers); i++)
        if (strstr(text, compilers[i].says) != NULL)
            return &compilers[i];
    return NULL;
}
