/* The first call into an object: of a program by preinit.c, of a shared object when it is loaded. A preloaded one comes
   before all others (-z initfirst). */
#include "start/first_call.h"

#include <stddef.h>

#include "environment/startup.h"
#ifdef IN_SHARED_OBJECT
#include "shadow/mapping.h"
#else
#include "process/plain.h"
#include "process/preload_choice.h"
#include "start/start.h"
#endif

/* Of the checks, if something has them (registering.c). */
extern void asancol_register_early(void) __attribute__((weak, visibility("hidden")));

static void map_early(int count, char **argv, char **variables)
{
    (void)count;
    startup_note(argv, variables);
#ifdef IN_SHARED_OBJECT
    shadow_map();
#else
    if (!preload_choice_is_own())
        return;
    asancol_start();
#if !defined IS_STATIC && !defined IS_PRELOAD
    plain_begin();
#endif
#endif
    if (asancol_register_early != NULL)
        asancol_register_early();
}

/* In a program preinit.c calls it. */
#if defined IN_SHARED_OBJECT || defined IS_PRELOAD
__attribute__((section(".init_array.00000"), used))
#endif
void (*const asancol_map_early)(int, char **, char **) = map_early;
