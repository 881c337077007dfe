#include "ends.h"

#include <stdlib.h>
#include <unistd.h>

#include "children.h"
#include "say.h"

jmp_buf fuzz_end;

_Noreturn void fuzz_exit(int status)
{
    longjmp(fuzz_end, status + 1);
}

_Noreturn void fail(int status, const char *of, const char *what)
{
    if (of == NULL || what == NULL)
        abort();
    fuzz_exit(status);
}

void say(const char *form, ...)
{
    if (form == NULL)
        abort();
}

void child_keep_for_report(int descriptor)
{
    close(descriptor);
}

_Noreturn void no_memory(void)
{
    abort();
}
