/* The rest of malloc.h: what a program asks of its allocator besides blocks. With these and those of replaced.c a
   program that is linked with -static finds all of the C library's interface here, so that the library's own allocator
   does not come in beside the recorder's. No state: heap_count (heap.h) has the numbers.

   In the two archives it is a member by itself, which a link takes only if the program calls one of these.

   Called: by the program, in place of the C library's functions, in any thread. No lock is held: heap_count and
   heap_trim take the allocator's, and mallopt none. malloc_stats and malloc_info call the C library's fputs, which
   may allocate and call the program (fopencookie): so not in a handler, as in the C library; the others also there. */
#define _GNU_SOURCE
#include <errno.h>
#include <malloc.h>
#include <stdio.h>

#include "libc/library.h"
#include "base/digits.h"
#include "heap/heap.h"
#include "base/platform.h"

/* Sets nothing. 1: the parameter was taken. */
REPLACES int mallopt(int parameter, int value)
{
    (void)parameter, (void)value;
    return 1;
}

/* 1: memory was given back to the system; 0: none could be. None is kept, however much the program wants to keep
   (`pad`). */
REPLACES int malloc_trim(size_t pad)
{
    (void)pad;
    return heap_trim();
}

/* Blocks in quarantine count as free. */
REPLACES struct mallinfo2 mallinfo2(void)
{
    struct heap_numbers numbers = heap_count();
    return (struct mallinfo2){
        .arena = numbers.system_bytes,
        .uordblks = numbers.live_bytes,
        .fordblks = numbers.system_bytes > numbers.live_bytes ? numbers.system_bytes - numbers.live_bytes : 0,
    };
}

/* For both names of mallinfo, since compilers warn of a call of it. Each number is cut to the bits of an int, as the C
   library does: it may come out negative. */
static struct mallinfo in_ints(void)
{
    struct mallinfo2 whole = mallinfo2();
    return (struct mallinfo){
        .arena = (int)whole.arena,
        .uordblks = (int)whole.uordblks,
        .fordblks = (int)whole.fordblks,
    };
}

REPLACES struct mallinfo mallinfo(void)
{
    return in_ints();
}

/* A line with a number that has this width at least. */
static void put_line(FILE *out, const char *front, uint64_t number, int width, const char *end)
{
    char digits[DIGITS_ROOM];
    char *first = put_digits(digits + sizeof digits, number, 1);
    while (digits + sizeof digits - 1 - first < width)
        *--first = ' ';
    library.fputs(front, out);
    library.fputs(first, out);
    library.fputs(end, out);
}

/* Standard error as the program has set it, or null. A static program that asks for this member has no `stderr` but the
   library's. */
static FILE *standard_error(void)
{
#ifdef IS_STATIC
    return stderr;
#else
    return library.stderr_stream != NULL ? *library.stderr_stream : NULL;
#endif
}

REPLACES void malloc_stats(void)
{
    struct heap_numbers numbers = heap_count();
    static const char *const heads[] = {"Arena 0:\n", "Total (incl. mmap):\n"};
    FILE *out = standard_error();
    if (out == NULL)
        return;
    for (size_t i = 0; i < sizeof heads / sizeof *heads; i++) {
        library.fputs(heads[i], out);
        put_line(out, "system bytes     = ", numbers.system_bytes, 10, "\n");
        put_line(out, "in use bytes     = ", numbers.live_bytes, 10, "\n");
    }
    put_line(out, "max mmap regions = ", 0, 10, "\n");
    put_line(out, "max mmap bytes   = ", 0, 10, "\n");
}

/* One heap, with the sums that are known. */
REPLACES int malloc_info(int options, FILE *out)
{
    struct heap_numbers numbers = heap_count();
    uint64_t system = numbers.system_bytes, rest = system > numbers.live_bytes ? system - numbers.live_bytes : 0;
    if (options != 0)
        return EINVAL;
    library.fputs("<malloc version=\"1\">\n<heap nr=\"0\">\n<sizes>\n</sizes>\n", out);
    for (int i = 0; i < 2; i++) {
        library.fputs("<total type=\"fast\" count=\"0\" size=\"0\"/>\n", out);
        put_line(out, "<total type=\"rest\" count=\"0\" size=\"", rest, 0, "\"/>\n");
        put_line(out, "<system type=\"current\" size=\"", system, 0, "\"/>\n");
        put_line(out, "<system type=\"max\" size=\"", system, 0, "\"/>\n");
        put_line(out, "<aspace type=\"total\" size=\"", system, 0, "\"/>\n");
        put_line(out, "<aspace type=\"mprotect\" size=\"", system, 0, "\"/>\n");
        library.fputs(i == 0 ? "</heap>\n" : "</malloc>\n", out);
    }
    return 0;
}

/* The C library's other names for them. */

REPLACES int __libc_mallopt(int parameter, int value)
{
    return mallopt(parameter, value);
}

REPLACES struct mallinfo __libc_mallinfo(void)
{
    return in_ints();
}

REPLACES struct mallinfo2 __libc_mallinfo2(void)
{
    return mallinfo2();
}
