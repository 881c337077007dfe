/* What runs first of a program. It is linked before the program's own objects, so that its resolver is the first of the
   program: the dynamic linker calls that once it has relocated all libraries. Its entry is the first of .preinit_array,
   unless Clang links one of its own runtimes before, whose calls then come to stubs. A program that dies in a resolver
   or an entry of its own has left word by then. */
#include "start/preinit.h"

#include "start/first_call.h"

typedef void start(int count, char **argv, char **variables);

static void begin(int count, char **argv, char **variables)
{
    asancol_map_early(count, argv, variables);
}

#ifdef IS_STATIC
#define first begin /* before its resolvers nothing is there, such as the thread */
#else
__attribute__((used)) static start *resolve(void)
{
    preinit_resolver();
    return begin;
}

static start first __attribute__((ifunc("resolve")));
#endif

extern start *const asancol_first;
__attribute__((section(".preinit_array"), used)) start *const asancol_first = first;
