/* Two lines with the name by which the wrapper was called. */
#include "wrapper/say.h"

#include <stdio.h>
#include <stdlib.h>

#include "common/must.h"

static const char *own_name;

void say_as(const char *name)
{
    own_name = name;
}

void warn(const char *of, const char *what)
{
    fprintf(stderr, "%s: warning: %s: %s\n", own_name, of, what);
}

void fail(const char *of, const char *what)
{
    fprintf(stderr, "%s: error: %s: %s\n", own_name, of, what);
    exit(1);
}

void no_memory(void)
{
    fail("the arguments", "no memory");
}
