/* One test of the project, by its name. */
#include "text.h"

#include <stdlib.h>
#include <string.h>

int main(int count, char **argv)
{
    const char *test = count > 1 ? argv[1] : "fine";
    if (strcmp(test, "overflow") == 0)
        free(copy_short(test));
    else if (strcmp(test, "freed") == 0)
        return first_of_freed(test) == 0;
    else if (strcmp(test, "leak") == 0)
        lose(test);
    else if (strcmp(test, "known_leak") == 0)
        lose_known(test);
    else
        free(copy(test));
    return 0;
}
