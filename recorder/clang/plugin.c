/* What Clang loads as a plugin. It needs nothing of LLVM, so that it can be loaded into any Clang: one that can't load
   its plugin compiles nothing. It loads the passes that were made for the LLVM in this process (passes.cpp). If
   there are none, or LLVM has not all that they need, it does nothing. */
#define _GNU_SOURCE
#include "clang/plugin.h"

#include <dlfcn.h>
#include <limits.h>
#include <stdbool.h>
#include <stdint.h>
#include <stdio.h>
#include <string.h>

/* LLVM's `PassPluginLibraryInfo`, in its form 1, and in its form 2. */
struct plugin {
    uint32_t interface;
    const char *name, *version;
    void (*add)(void *builder);
};

struct plugin_2 {
    struct plugin first;
    bool (*generate)(void); /* null: LLVM generates the code itself */
};

enum { OLDEST = 13, NEWEST = 99 };

/* The major version of LLVM, by the version of its symbols; or 0. */
static unsigned version_of_llvm(void)
{
    char version[32];
    for (unsigned major = OLDEST; major < NEWEST; major++) {
        for (int has_minor = 0; has_minor < 2; has_minor++) {
            snprintf(version, sizeof version, has_minor ? "LLVM_%u.1" : "LLVM_%u", major);
            if (dlvsym(RTLD_DEFAULT, "LLVMContextCreate", version) != NULL)
                return major;
        }
    }
    return 0;
}

/* Loads the passes beside this file that fit the LLVM in the process, and gives them its builder of passes. */
static void add(void *builder)
{
    char path[PATH_MAX];
    Dl_info self;
    unsigned major = version_of_llvm();
    if (major == 0 || dladdr((void *)(uintptr_t)add, &self) == 0)
        return;
    const char *end = strrchr(self.dli_fname, '/');
    int folder = end == NULL ? 0 : (int)(end - self.dli_fname) + 1;
    snprintf(path, sizeof path, "%.*s" CLANG_FILE_OF, folder, self.dli_fname, major);
    void *passes = dlopen(path, RTLD_NOW | RTLD_LOCAL);
    void (*add_passes)(void *) = NULL;
    if (passes != NULL)
        *(void **)&add_passes = dlsym(passes, ADD_PASSES_NAME);
    if (add_passes != NULL)
        add_passes(builder);
}

static struct plugin answer(void)
{
    return (struct plugin){1, "asancol", "1", add};
}

static struct plugin_2 answer_2(void)
{
    return (struct plugin_2){{2, "asancol", "1", add}, NULL};
}

/* Which of the two an LLVM takes: each wants its own. It is asked when LLVM looks for the name below, and nothing here
   may name that, or the loader would ask before all is in its place. */
__attribute__((used)) static void (*resolve(void))(void)
{
    return version_of_llvm() < LLVM_OF_FORM_2 ? (void (*)(void))answer : (void (*)(void))answer_2;
}

__attribute__((visibility("default"), ifunc("resolve"))) void llvmGetPassPluginInfo(void);
