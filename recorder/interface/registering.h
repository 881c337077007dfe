/* When the globals of a module are registered, and for how long.

   Called: asancol_register_early by first_call.c, in the first call into a module; __asan_register_globals by a
   module's constructors; image_of_module by variables.c at its destructors, of which forget_all (registering.c) is the
   last. All in the thread that loads or unloads the module, with the loader's lock, or before there are threads; never
   in a signal handler. No lock is taken here. */
#ifndef ASANCOL_REGISTERING_H
#define ASANCOL_REGISTERING_H

#include <stdint.h>

#include "interface/callbacks.h"

struct global;

/* The memory of the module that this is linked into: all zeros if the linker does not say it. */
struct image {
    uintptr_t start, end;
};

/* In each module its own; several of its members may have it. */
struct image image_of_module(void) OWN_NAME(image_of_module) __attribute__((weak));

/* Registers what the constructors of the module would register later. */
void asancol_register_early(void);

CALLBACK void __asan_register_globals(const struct global *globals, uintptr_t count);

#endif
