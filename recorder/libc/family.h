/* Families of functions that allocate.

   Called: by the allocator (heap) and the reports (stream, process, leaks), in any thread, also in a signal handler.
   Lock: none: there are only types and constants. */
#ifndef ASANCOL_FAMILY_H
#define ASANCOL_FAMILY_H

#include <stddef.h>
#include <stdint.h>

/* By what a block was allocated: what frees it has to be of the same family. That of an operator of C++ is not known if
   the program, or a library, has one of its own in the place of any of them. */
enum family { FAMILY_MALLOC, FAMILY_NEW, FAMILY_NEW_ARRAY, FAMILY_ANY };

/* The purpose of a malloc or free. */
struct use {
    enum family family;
    size_t alignment;    /* that an operator was given; or 0 */
    size_t size_and_one; /* that a delete knows; 0: it does not */
};

/* A word about the next malloc or free of a thread: its use, and the caller for whom it is made, with the frame of the
   function that said so. */
struct said {
    struct use use;
    uintptr_t caller, frame;
};

/* The function that has allocated a block of it, as AddressSanitizer names it; null: it may be any. */
static inline const char *family_name(enum family family)
{
    static const char *const names[] = {"malloc", "operator new", "operator new []"};
    return family < FAMILY_ANY ? names[family] : 0;
}

/* And the one that frees it. */
static inline const char *family_free_name(enum family family)
{
    static const char *const names[] = {"free", "operator delete(void*)", "operator delete[](void*)"};
    return names[family < FAMILY_ANY ? family : FAMILY_MALLOC];
}

#endif
