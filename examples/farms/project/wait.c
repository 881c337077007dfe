/* Waits for an answer that never comes: something has to end it. */
#include <stdlib.h>
#include <unistd.h>

int main(void)
{
    int ends[2];
    char *answer = malloc(16);
    int has_come = answer != NULL && pipe(ends) == 0 && read(ends[0], answer, 16) > 0;
    free(answer);
    return has_come ? 0 : 1;
}
