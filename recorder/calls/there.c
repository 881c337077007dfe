/* Memory that a call gives to the system. Where it is not there the system answers EFAULT, and no check may read it.
   given.c knows.

   Called: as calls.h says. */
#include "calls/calls.h"
#include "interface/hooks.h"
#include "process/given.h"

bool call_is_there(const volatile void *start, size_t size)
{
    return ask_is_there((uintptr_t)start, size);
}

size_t call_text_there(const char *text)
{
    return given_text_length(text, ask_is_there);
}

/* A freed block may be gone from memory, and is bad all the same. What would lie in one of the recorder's maps is
   nowhere without them: that map's own shadow is given, which nobody can read. */
void *call_gives(const char *text, struct call call)
{
    if (UNLIKELY(is_in_shadow((uintptr_t)text)))
        return (void *)shadow_of((uintptr_t)text);
    size_t size = call_text_there(text);
    if (size != 0 || is_in_arena((uintptr_t)text))
        call_checks(CODE_LOAD, text, size != 0 ? size : 1, call);
    return (void *)text;
}
