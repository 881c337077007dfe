/* A shared object that is built with the recorder's compiler, and opened while the program runs. */
#include <signal.h>
#include <stdlib.h>
#include <string.h>

char *plugin_make(int size)
{
    char *made = malloc((size_t)size);
    memset(made, 1, (size_t)size);
    return made;
}

/* What it calls is wrapped in it as in the program. */
int plugin_sees_default(int number)
{
    struct sigaction seen;
    return sigaction(number, NULL, &seen) == 0 && seen.sa_handler == SIG_DFL && signal(number, SIG_DFL) == SIG_DFL;
}

void plugin_spoil(char *block, int at)
{
    ((volatile char *)block)[at] = 1;
}
