/* What the process calls. They are weak: a program with its own allocator keeps it. `rows` says what dlsym answers.

   Called: by the program and all of its libraries, the C library too, in any thread, also in a handler, from before the
   first constructor on; heap_is_below by unchecked.c, heap_function_behind by plain.c. No lock is held: heap_allocate,
   heap_give_back, heap_move (blocks.h) and heap_live_size take them. errno is the program's, and set as the C library
   would. */
#define _GNU_SOURCE
#include <errno.h>
#include <malloc.h>
#include <stdlib.h>

#include "base/behind.h"
#include "heap/blocks.h"
#include "heap/families.h"
#include "heap/heap.h"
#include "base/own_code.h"
#include "base/platform.h"
#include "stream/findings.h"

static _Atomic bool is_below;

bool heap_is_below(void)
{
    return atomic_load_explicit(&is_below, memory_order_relaxed);
}

void *heap_own_malloc(size_t size)
{
    return heap_allocate(size, ALIGNMENT, false, CALLER());
}

REPLACES void *malloc(size_t size) __attribute__((alias("heap_own_malloc")));

void heap_own_free(void *pointer)
{
    heap_give_back(pointer, CALLER());
}

REPLACES void free(void *pointer) __attribute__((alias("heap_own_free")));

/* A refused request, unless that is legitimate. */
static __attribute__((noinline, cold)) void note(enum finding_kind kind, const char *call, uintptr_t caller,
                                                 struct wrong_call given)
{
    if (kind != FINDING_NOT_OWNED && !requests_are_noted())
        return;
    given.kind = kind;
    given.call = call;
    given.caller = caller;
    finding_note_call(&given);
}

static void *allocate_array(size_t count, size_t size, uintptr_t caller)
{
    size_t bytes;
    if (__builtin_mul_overflow(count, size, &bytes)) {
        note(FINDING_OVERFLOW, "calloc", caller, (struct wrong_call){.size = size, .other = count});
        errno = ENOMEM;
        return NULL;
    }
    return heap_allocate(bytes, ALIGNMENT, true, caller);
}

static void *own_calloc(size_t count, size_t size)
{
    return allocate_array(count, size, CALLER());
}

REPLACES void *calloc(size_t count, size_t size) __attribute__((alias("own_calloc")));

void *heap_own_realloc(void *old, size_t size)
{
    return heap_move(old, size, CALLER(), "realloc");
}

REPLACES void *realloc(void *old, size_t size) __attribute__((alias("heap_own_realloc")));

static void *move_array(void *old, size_t count, size_t size, uintptr_t caller)
{
    size_t bytes;
    if (__builtin_mul_overflow(count, size, &bytes)) {
        note(FINDING_OVERFLOW, "reallocarray", caller, (struct wrong_call){.size = size, .other = count});
        errno = ENOMEM;
        return NULL;
    }
    return heap_move(old, bytes, caller, "reallocarray");
}

static void *own_reallocarray(void *old, size_t count, size_t size)
{
    return move_array(old, count, size, CALLER());
}

REPLACES void *reallocarray(void *old, size_t count, size_t size) __attribute__((alias("own_reallocarray")));

static size_t power_of_two(size_t least)
{
    size_t power = ALIGNMENT;
    while (power < least && power < (size_t)1 << 62)
        power *= 2;
    return power;
}

static bool is_power_of_two(size_t alignment)
{
    return alignment != 0 && (alignment & (alignment - 1)) == 0;
}

static void note_alignment(const char *call, uintptr_t caller, size_t alignment, size_t size)
{
    note(FINDING_ALIGNMENT, call, caller, (struct wrong_call){.start = alignment, .size = size});
}

/* As in the C library, an invalid alignment is rounded up to a valid one. */
static void *own_memalign(size_t alignment, size_t size)
{
    if (UNLIKELY(!is_power_of_two(alignment)))
        note_alignment("memalign", CALLER(), alignment, size);
    return heap_allocate(size, power_of_two(alignment), false, CALLER());
}

REPLACES void *memalign(size_t alignment, size_t size) __attribute__((alias("own_memalign")));

/* The C library takes any size, as C17 does. AddressSanitizer goes by C11: the size is a multiple of the alignment. But
   that of a `new` need not be. */
static void *own_aligned_alloc(size_t alignment, size_t size)
{
    bool is_whole = is_power_of_two(alignment) && (size & (alignment - 1)) == 0;
    if (UNLIKELY(!is_whole) && !heap_is_called_by_operator())
        note_alignment("aligned_alloc", CALLER(), alignment, size);
    return heap_allocate(size, power_of_two(alignment), false, CALLER());
}

REPLACES void *aligned_alloc(size_t alignment, size_t size) __attribute__((alias("own_aligned_alloc")));

static OF_PROGRAM void put_result(void **result, void *address)
{
    *result = address;
}

static int own_posix_memalign(void **result, size_t alignment, size_t size)
{
    int before = errno;
    if (alignment < sizeof(void *) || !is_power_of_two(alignment)) {
        note_alignment("posix_memalign", CALLER(), alignment, size);
        return EINVAL;
    }
    void *address = heap_allocate(size, power_of_two(alignment), false, CALLER());
    errno = before;
    if (address == NULL)
        return ENOMEM;
    put_result(result, address);
    return 0;
}

REPLACES int posix_memalign(void **result, size_t alignment, size_t size) __attribute__((alias("own_posix_memalign")));

static void *own_valloc(size_t size)
{
    return heap_allocate(size, SYSTEM_PAGE, false, CALLER());
}

REPLACES void *valloc(size_t size) __attribute__((alias("own_valloc")));

/* Of no bytes it is a page, as with AddressSanitizer. */
static void *allocate_pages(size_t size, uintptr_t caller)
{
    size_t pages = size / SYSTEM_PAGE + (size % SYSTEM_PAGE != 0 || size == 0);
    size_t bytes;
    if (__builtin_mul_overflow(pages, SYSTEM_PAGE, &bytes)) {
        note(FINDING_OVERFLOW, "pvalloc", caller, (struct wrong_call){.size = size});
        errno = ENOMEM;
        return NULL;
    }
    return heap_allocate(bytes, SYSTEM_PAGE, false, caller);
}

static void *own_pvalloc(size_t size)
{
    return allocate_pages(size, CALLER());
}

REPLACES void *pvalloc(size_t size) __attribute__((alias("own_pvalloc")));

static size_t own_malloc_usable_size(void *pointer)
{
    size_t size = pointer == NULL ? 0 : heap_live_size(pointer);
    if (LIKELY(size != SIZE_MAX))
        return size;
    note(FINDING_NOT_OWNED, "malloc_usable_size", CALLER(), (struct wrong_call){.start = (uintptr_t)pointer});
    return 0;
}

REPLACES size_t malloc_usable_size(void *pointer) __attribute__((alias("own_malloc_usable_size")));

/* The names by which a program calls the C library's own allocator, under one that it defines; and what dlsym answers
   such a program. */

static void note_below(void)
{
    if (!heap_is_below())
        atomic_store_explicit(&is_below, true, memory_order_relaxed);
}

#define BELOW(name, parameters, result)                                                                                \
    static void *below_##name parameters                                                                               \
    {                                                                                                                  \
        note_below();                                                                                                  \
        return result;                                                                                                 \
    }                                                                                                                  \
    REPLACES void *__libc_##name parameters __attribute__((alias("below_" #name)));

BELOW(malloc, (size_t size), heap_allocate(size, ALIGNMENT, false, CALLER()))
BELOW(calloc, (size_t count, size_t size), allocate_array(count, size, CALLER()))
BELOW(realloc, (void *old, size_t size), heap_move(old, size, CALLER(), "realloc"))
BELOW(reallocarray, (void *old, size_t count, size_t size), move_array(old, count, size, CALLER()))
BELOW(memalign, (size_t alignment, size_t size), heap_allocate(size, power_of_two(alignment), false, CALLER()))
BELOW(valloc, (size_t size), heap_allocate(size, SYSTEM_PAGE, false, CALLER()))
BELOW(pvalloc, (size_t size), allocate_pages(size, CALLER()))

REPLACES void __libc_free(void *pointer) __attribute__((alias("heap_own_free")));

#if !defined IS_STATIC && !defined IS_PRELOAD

static const struct behind rows[] = {
    {BEHIND(malloc, heap_own_malloc, below_malloc)},
    {BEHIND(free, heap_own_free, heap_own_free)},
    {BEHIND(calloc, own_calloc, below_calloc)},
    {BEHIND(realloc, heap_own_realloc, below_realloc)},
    {BEHIND(reallocarray, own_reallocarray, below_reallocarray)},
    {BEHIND(memalign, own_memalign, below_memalign)},
    {BEHIND(aligned_alloc, own_aligned_alloc, own_aligned_alloc)},
    {BEHIND(posix_memalign, own_posix_memalign, own_posix_memalign)},
    {BEHIND(valloc, own_valloc, below_valloc)},
    {BEHIND(pvalloc, own_pvalloc, below_pvalloc)},
    {BEHIND(malloc_usable_size, own_malloc_usable_size, own_malloc_usable_size)},
    {BEHIND(__libc_malloc, below_malloc, below_malloc)},
    {BEHIND(__libc_free, heap_own_free, heap_own_free)},
    {BEHIND(__libc_calloc, below_calloc, below_calloc)},
    {BEHIND(__libc_realloc, below_realloc, below_realloc)},
    {BEHIND(__libc_reallocarray, below_reallocarray, below_reallocarray)},
    {BEHIND(__libc_memalign, below_memalign, below_memalign)},
    {BEHIND(__libc_valloc, below_valloc, below_valloc)},
    {BEHIND(__libc_pvalloc, below_pvalloc, below_pvalloc)},
};

uintptr_t heap_function_behind(const char *name)
{
    return behind_find(rows, sizeof rows / sizeof *rows, name);
}

#endif
