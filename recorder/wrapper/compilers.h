/* The compilers that are known, and what each of them is given so that it puts in its checks.

   Called: compiler_of by asancol-cc.c, compiler_version by passes.c, compiler_say by plugin.c and target.c, in the one
   thread of the wrapper; no lock. */
#ifndef ASANCOL_COMPILERS_H
#define ASANCOL_COMPILERS_H

#include <stdbool.h>
#include <stddef.h>

#include "plugin/plugin.h"
#include "wrapper/left_out.h"

/* Whether accesses to variables of functions that have returned are to be found (taken_out.h). */
enum use_after_return { USE_AFTER_RETURN_NEVER, USE_AFTER_RETURN_RUNTIME, USE_AFTER_RETURN_ALWAYS, USES_AFTER_RETURN };
/* Clang's word, and what follows GCC's `--param`. */
#define USE_AFTER_RETURN_OF_CLANG "-fsanitize-address-use-after-return="
#define USE_AFTER_RETURN_OF_GCC "asan-use-after-return="

/* Where the shadow begins, at the end of a flag: another processor has it elsewhere (target.h). */
#define SHADOW_HERE TEXT_OF_NUMBER(SHADOW_BEGINS)
#define TEXT_OF_NUMBER(number) TEXT_OF_WORD(number)
#define TEXT_OF_WORD(word) #word

struct flags {
    const char *const *items;
    size_t count;
};

/* A row of the table in compilers.c. All that differs from compiler to compiler is in it. */
struct compiler {
    const char *says;       /* what it prints if it is asked for its version */
    const char *has_text;   /* what most programs of it have among their texts: such a one is not asked. Or null */
    struct flags flags;     /* before the caller's arguments: its inline check, and a call if an access is bad by it */
    struct flags all_flags; /* or a call before each access */
    struct flags use_after_return[USES_AFTER_RETURN]; /* with these */
    struct flags after;     /* after the caller's arguments, with inline checks that are not made cheaper */
    struct flags last;      /* after them in any case, for compilations: none of them takes these back */
    const char *header;     /* a file of the recorder's that it includes there, with such checks; or null */
    const char *intrinsics; /* and one in any case, which makes accesses of what its checks do not know; or null */
    const char *own_number; /* before a number that makes the noted switches of each object its own, or null */
    const char *plugin;     /* a file of the recorder's that may be there, and adds checks (plugin.c); or null */
    const char *passes;     /* one that may be there, and makes checks cheaper (passes.c); or null */
    struct flags without_plugin; /* what C and C++ are compiled with if it is not */
    bool has_driver;        /* a program that runs it, and hands it arguments after -Xclang without a look at them */
    enum check_compiler checks_of; /* which arguments take some of its checks away */
    bool compiles_at_link;  /* what it made with -flto is compiled with the settings that are given to the link */
};

/* The message about another one. */
#define UNKNOWN_COMPILER "neither GCC nor Clang by its --version: its code is not recorded"

/* The compiler that a command runs, of which the first word is a path. It asks the compiler: a name says little, as
   that of a script, of ccache, or of a link. Null: it is none of these. */
const struct compiler *compiler_of(const char *const *command, size_t count);
/* What the one command of a job says of its version. It is asked once. */
const char *compiler_version(const char *const *command, size_t count);
/* The start of what a command says of itself by such an option. */
void compiler_say(const char *const *command, size_t count, const char *option, char *text, size_t room);

#endif
