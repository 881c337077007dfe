/* Stands for a program that came compiled: it is built without the recorder. */
#include <stdlib.h>

int main(void)
{
    free(malloc(16));
    return 0;
}
