/* The table `checks`: for each check the words of compilers that turn it off. */
#define _GNU_SOURCE
#include "wrapper/left_out.h"

#include <stdio.h>
#include <stdlib.h>
#include <string.h>

#include "common/array.h"
#include "common/must.h"
#include "common/text.h"
#include "wrapper/say.h"

/* What of a word leaves the check out. */
enum sign {
    SIGN_OFF,  /* a value that turns it off, after a sign of equality */
    SIGN_ON,   /* another value than those, or none: it has the compiler leave the check out */
    SIGN_ANY,  /* any value */
    SIGN_WORD, /* that it is there; and with `again` it is not */
    SIGN_FRONT /* that it begins so */
};

static const struct check {
    enum check_compiler compiler;
    enum check_place place;
    enum sign sign;
    const char *name;
    const char *again; /* a word that takes it back, or null */
} checks[] = {
    {CHECKS_OF_GCC, CHECK_PARAMETER, SIGN_OFF, "asan-stack", NULL},
    {CHECKS_OF_GCC, CHECK_PARAMETER, SIGN_OFF, "asan-globals", NULL},
    {CHECKS_OF_GCC, CHECK_PARAMETER, SIGN_OFF, "asan-instrument-reads", NULL},
    {CHECKS_OF_GCC, CHECK_PARAMETER, SIGN_OFF, "asan-instrument-writes", NULL},
    {CHECKS_OF_GCC, CHECK_PARAMETER, SIGN_OFF, "asan-instrument-allocas", NULL},
    {CHECKS_OF_GCC, CHECK_PARAMETER, SIGN_OFF, "asan-memintrin", NULL},
    {CHECKS_OF_GCC, CHECK_OPTION, SIGN_WORD, "-fno-sanitize-address-use-after-scope",
     "-fsanitize-address-use-after-scope"},
    {CHECKS_OF_GCC, CHECK_OPTION, SIGN_FRONT, "-fdisable-tree-asan", NULL},
    {CHECKS_OF_GCC, CHECK_OPTION, SIGN_FRONT, "-fdisable-tree-sanopt", NULL},
    {CHECKS_OF_CLANG, CHECK_LLVM, SIGN_OFF, "asan-stack", NULL},
    {CHECKS_OF_CLANG, CHECK_LLVM, SIGN_OFF, "asan-globals", NULL},
    {CHECKS_OF_CLANG, CHECK_LLVM, SIGN_OFF, "asan-instrument-reads", NULL},
    {CHECKS_OF_CLANG, CHECK_LLVM, SIGN_OFF, "asan-instrument-writes", NULL},
    {CHECKS_OF_CLANG, CHECK_LLVM, SIGN_OFF, "asan-instrument-atomics", NULL},
    {CHECKS_OF_CLANG, CHECK_LLVM, SIGN_OFF, "asan-instrument-byval", NULL},
    {CHECKS_OF_CLANG, CHECK_LLVM, SIGN_OFF, "asan-instrument-dynamic-allocas", NULL},
    {CHECKS_OF_CLANG, CHECK_LLVM, SIGN_OFF, "asan-redzone-byval-args", NULL},
    {CHECKS_OF_CLANG, CHECK_LLVM, SIGN_ON, "asan-opt-same-temp", NULL},
    {CHECKS_OF_CLANG, CHECK_LLVM, SIGN_ANY, "asan-max-ins-per-bb", NULL},
    {CHECKS_OF_CLANG, CHECK_LLVM, SIGN_ANY, "asan-debug-max", NULL},
    {CHECKS_OF_CLANG, CHECK_LLVM, SIGN_WORD, "-disable-llvm-passes", NULL},
    {CHECKS_OF_CLANG, CHECK_LLVM, SIGN_ANY, "fsanitize-ignorelist", NULL},
    {CHECKS_OF_CLANG, CHECK_OPTION, SIGN_FRONT, "-fsanitize-ignorelist=", NULL},
    {CHECKS_OF_CLANG, CHECK_OPTION, SIGN_FRONT, "-fsanitize-blacklist=", NULL},
};

_Static_assert(COUNT(checks) == CHECKS_LEFT_OUT, "one place for each");

/* Whether a value turns a check off: a number for GCC, and what LLVM reads as false. */
static bool is_off(const char *value)
{
    static const char *const words[] = {"false", "False", "FALSE"};
    char *end;
    if (strtol(value, &end, 0) == 0 && end != value && *end == 0)
        return true;
    for (size_t i = 0; i < COUNT(words); i++)
        if (strcmp(value, words[i]) == 0)
            return true;
    return false;
}

/* The value that a word gives to a check, or null. LLVM's words begin with one dash or two, and need none. */
static const char *value_of(const struct check *check, const char *word)
{
    size_t length = strlen(check->name);
    if (check->place == CHECK_LLVM)
        word += begins_with(word, "--") ? 2 : begins_with(word, "-");
    if (check->sign == SIGN_ON && strcmp(word, check->name) == 0)
        return "";
    return begins_with(word, check->name) && word[length] == '=' ? word + length + 1 : NULL;
}

/* Whether a word is for a check, and then whether it leaves it out. */
static bool is_of(const struct check *check, const char *word, bool *leaves_out)
{
    const char *value = value_of(check, word);
    switch (check->sign) {
    case SIGN_OFF:
        *leaves_out = value != NULL && is_off(value);
        return value != NULL;
    case SIGN_ON:
        *leaves_out = value != NULL && !is_off(value);
        return value != NULL;
    case SIGN_ANY:
        *leaves_out = true;
        return value != NULL;
    case SIGN_FRONT:
        *leaves_out = true;
        return begins_with(word, check->name);
    default:
        *leaves_out = strcmp(word, check->name) == 0;
        return *leaves_out || (check->again != NULL && strcmp(word, check->again) == 0);
    }
}

/* What stands before the word, as it is said. */
static const char *front_of_word(const struct check *check)
{
    if (check->place == CHECK_PARAMETER)
        return "--param ";
    if (check->place == CHECK_OPTION)
        return "";
    return begins_with(check->name, "asan-") ? "-mllvm " : "-Xclang ";
}

void left_out_take(struct left_out *left_out, enum check_place place, const char *word)
{
    for (size_t i = 0; i < COUNT(checks); i++) {
        bool leaves_out = false;
        if (checks[i].place != place || !is_of(&checks[i], word, &leaves_out))
            continue;
        free(left_out->words[i]);
        left_out->words[i] = NULL;
        if (leaves_out && asprintf(&left_out->words[i], "%s%s", front_of_word(&checks[i]), word) < 0)
            no_memory();
    }
}

bool left_out_any(const struct left_out *left_out, enum check_compiler compiler)
{
    for (size_t i = 0; i < COUNT(checks); i++)
        if (checks[i].compiler == compiler && left_out->words[i] != NULL)
            return true;
    return false;
}

void left_out_warn(const struct left_out *left_out, enum check_compiler compiler)
{
    for (size_t i = 0; i < COUNT(checks); i++)
        if (checks[i].compiler == compiler && left_out->words[i] != NULL)
            warn(left_out->words[i], "code compiled with this option lacks checks, and misses some bad accesses");
}

void left_out_free(struct left_out *left_out)
{
    for (size_t i = 0; i < COUNT(checks); i++)
        free(left_out->words[i]);
    *left_out = (struct left_out){0};
}
