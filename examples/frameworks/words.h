/* What the tests of each framework are about. */
#include <stdlib.h>
#include <string.h>

static inline char *copy_of(const char *word, size_t room)
{
    return strcpy((char *)malloc(room), word);
}
