/* `startup` points to what the system has put on the first stack: argv, a null, the environment, a null, and numbers in
   pairs (auxv). Nothing is copied. */
#include "environment/startup.h"

#include <elf.h>
#include <stddef.h>

struct startup startup;

#ifndef IN_SHARED_OBJECT

/* The number of a type behind the environment. The system has no type of 0, so more nulls than one belong to the
   environment. */
static uint64_t number_behind(char *const *variables, uint64_t type, uint64_t otherwise)
{
    while (*variables != NULL)
        variables++;
    while (*variables == NULL)
        variables++;
    for (const Elf64_auxv_t *it = (const Elf64_auxv_t *)variables; it->a_type != AT_NULL; it++)
        if (it->a_type == type)
            return it->a_un.a_val;
    return otherwise;
}

bool startup_is_set_user(char *const *variables)
{
    return number_behind(variables, AT_SECURE, 1) != 0;
}

#endif

void startup_note(char **argv, char **variables)
{
    startup.argv = argv;
#ifndef IN_SHARED_OBJECT
    if (startup.variables != NULL || variables == NULL)
        return;
    startup.is_set_user = startup_is_set_user(variables);
    startup.system_code = number_behind(variables, AT_SYSINFO_EHDR, 0);
    startup.entry = number_behind(variables, AT_ENTRY, 0);
    uintptr_t last = number_behind(variables, AT_EXECFN, 0); /* it lies above all other texts */
    startup.words = argv[0];
    startup.are_all_words = number_behind(variables, AT_BASE, 0) != 0;
    startup.end = last > (uintptr_t)argv ? last / PAGE * PAGE + PAGE : 0;
    startup.variables = variables; /* last: who finds these finds the rest */
#else
    (void)variables; /* if the object is opened later, the program may have changed them */
#endif
}

const char *startup_name(void)
{
    return startup.argv != NULL && startup.argv[0] != NULL ? startup.argv[0] : "";
}
