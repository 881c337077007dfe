/* Where the runtime is a part of the program, its list of callbacks is; where it is a library, the program's functions
   hide what that has for one callback, which so is free. */
#include "start/undefined.h"

#include <stdbool.h>
#include <stddef.h>
#include <string.h>

#include "base/platform.h"
#include "base/system.h"
#include "common/asan_options.h"
#include "environment/startup.h"
#include "interface/hooks.h"
#include "libc/library.h"
#include "process/halt.h"

/* What the runtime ends with, unless it was told otherwise. */
enum { USUAL_STATUS = 1 };

/* __sanitizer::AddDieCallback */
extern bool add_callback(void (*callback)(void)) NAMED("_ZN11__sanitizer14AddDieCallbackEPFvvE") __attribute__((weak));

/* Whether it ends by SIGABRT, which is seen. */
static bool ends_by_abort(void)
{
    static const char front[] = "UBSAN_OPTIONS=", option[] = "abort_on_error";
    bool aborts = false;
    struct asan_word word;
    for (char **entry = startup.variables; entry != NULL && *entry != NULL; entry++) {
        const char *at = *entry + strlen(front);
        if (strncmp(*entry, front, strlen(front)) != 0)
            continue;
        while (asan_next(&at, &word))
            if (word.name_length == strlen(option) && strncmp(word.name, option, word.name_length) == 0)
                aborts = asan_is_yes(&word);
    }
    return aborts;
}

static void on_end(void)
{
    int status = asancol_hooks.finish(USUAL_STATUS);
    if (status != USUAL_STATUS)
        system_exit(status);
}

#ifndef IS_STATIC

/* In place of the runtime, to which the program has said nothing. */
static void on_end_by_library(void)
{
    halt_call_back();
    on_end();
}

#endif

void undefined_watch(void)
{
    if (ends_by_abort())
        return;
    if (&add_callback != NULL) {
        add_callback(on_end);
        return;
    }
#ifndef IS_STATIC
    void (*set_callback)(void (*callback)(void)) = NULL;
    void *found = library_next("__sanitizer_set_death_callback");
    memcpy(&set_callback, &found, sizeof found);
    if (found != NULL)
        set_callback(on_end_by_library);
#endif
}
