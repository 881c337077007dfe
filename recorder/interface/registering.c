/* Globals have their redzones from before the first constructor of their module up to its last destructor.

   By -fsanitize=kernel-address GCC has the globals of a file registered by a constructor that is one of many: it comes
   after those of the file itself. So before any of them runs, the constructors are looked at: what loads the arguments
   for __asan_register_globals and goes there has the table in its instructions (processor_code.h). It registers the
   table again when its turn comes, which does nothing. Where a constructor is not understood, it is as late as GCC has
   it. */
#define _GNU_SOURCE
#include <elf.h>
#include <stdbool.h>
#include <string.h>

#include "base/processor_code.h"
#include "interface/callbacks.h"
#include "interface/fake_frames.h"
#include "shadow/globals.h"
#include "interface/hooks.h"
#include "interface/registering.h"
#include "shadow/shadow.h"

#define OF_MODULE __attribute__((visibility("hidden"), weak))

/* What the linker says of the module that this is linked into. Its end may be too far away to be named here. */
extern const Elf64_Ehdr __ehdr_start OF_MODULE;

static const Elf64_Phdr *segment(uint32_t i)
{
    return (const Elf64_Phdr *)((uintptr_t)&__ehdr_start + __ehdr_start.e_phoff) + i;
}

/* The offset of the module from the addresses in its headers. */
static uintptr_t base_of_module(void)
{
    for (uint32_t i = 0; i < __ehdr_start.e_phnum; i++)
        if (segment(i)->p_type == PT_LOAD && segment(i)->p_offset == 0)
            return (uintptr_t)&__ehdr_start - segment(i)->p_vaddr;
    return (uintptr_t)&__ehdr_start;
}

struct image image_of_module(void)
{
    struct image image = {(uintptr_t)&__ehdr_start, 0};
    if (image.start == 0)
        return image;
    for (uint32_t i = 0; i < __ehdr_start.e_phnum; i++) {
        uintptr_t end = base_of_module() + segment(i)->p_vaddr + segment(i)->p_memsz;
        if (segment(i)->p_type == PT_LOAD && end > image.end)
            image.end = end;
    }
    return image;
}

#if defined IN_SHARED_OBJECT || defined IN_CHECKS

typedef void (*constructor)(void);

struct constructors {
    const constructor *first;
    size_t count;
};

/* The end of the code that an address is in, or 0. */
static uintptr_t end_of_code(uintptr_t at)
{
    for (uint32_t i = 0; i < __ehdr_start.e_phnum; i++) {
        uintptr_t start = base_of_module() + segment(i)->p_vaddr, end = start + segment(i)->p_filesz;
        if (segment(i)->p_type == PT_LOAD && (segment(i)->p_flags & PF_X) != 0 && at >= start && at < end)
            return end;
    }
    return 0;
}

#ifdef IN_SHARED_OBJECT
extern const Elf64_Dyn _DYNAMIC[] OF_MODULE;

static struct constructors constructors_of_module(void)
{
    struct constructors found = {NULL, 0};
    for (const Elf64_Dyn *it = _DYNAMIC; it != NULL && it->d_tag != DT_NULL; it++) {
        if (it->d_tag == DT_INIT_ARRAY)
            found.first = (const constructor *)(base_of_module() + it->d_un.d_ptr);
        else if (it->d_tag == DT_INIT_ARRAYSZ)
            found.count = it->d_un.d_val / sizeof *found.first;
    }
    return found.first != NULL ? found : (struct constructors){NULL, 0};
}
#else
extern const constructor __init_array_start[] OF_MODULE, __init_array_end[] OF_MODULE;

static struct constructors constructors_of_module(void)
{
    return (struct constructors){__init_array_start, (size_t)(__init_array_end - __init_array_start)};
}
#endif

/* Where a call goes. 0: by way of an address that is not in the module. */
static uintptr_t target_of(const struct constant_call *call)
{
    struct image image = image_of_module();
    if (!call->is_by_slot)
        return call->target;
    bool is_here = call->target >= image.start && call->target + sizeof(uintptr_t) <= image.end;
    return is_here ? *(const uintptr_t *)call->target : 0;
}

/* Registers the table of a constructor that registers one. */
static void look_at(uintptr_t start)
{
    enum { SCANNED = 96 };
    struct constant_call call;
    uintptr_t end = end_of_code(start);
    if (end == 0)
        return;
    end = end - start > SCANNED ? start + SCANNED : end;
    for (const unsigned char *at = (const unsigned char *)start; processor_find_call(&at, (const void *)end, &call);) {
        if (target_of(&call) == (uintptr_t)__asan_register_globals) {
            __asan_register_globals((const struct global *)call.first, call.second);
            return;
        }
    }
}

void asancol_register_early(void)
{
    struct constructors all = constructors_of_module();
#ifdef IN_SHARED_OBJECT
    fake_frames_begin();
#endif
    if (&__ehdr_start != NULL)
        for (size_t i = 0; i < all.count; i++)
            look_at((uintptr_t)all.first[i]);
}

#endif

#ifdef IN_SHARED_OBJECT
/* The last destructor of the module: it may be closed now, and others have its memory then. */
static void forget_all(void)
{
    struct image image = image_of_module();
    note_globals((const struct global *)image.start, (image.end - image.start) / sizeof(struct global) + 1, false);
    shadow_clear(image.start, image.end - image.start);
}

__attribute__((section(".fini_array.00000"), used)) static void (*const last_destructor)(void) = forget_all;
#endif
