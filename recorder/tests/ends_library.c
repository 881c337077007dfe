/* A shared object that does something at its end: what the program says. */
#include <stdlib.h>

void (*library_at_exit)(void), (*library_destructor)(void);

static void at_exit(void)
{
    if (library_at_exit != NULL)
        library_at_exit();
}

__attribute__((constructor)) static void begin(void)
{
    atexit(at_exit);
}

__attribute__((destructor)) static void end(void)
{
    if (library_destructor != NULL)
        library_destructor();
}
