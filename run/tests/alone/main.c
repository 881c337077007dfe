/* `alone NAME` runs a situation: a plain program has them in a module of its own. */
#include "alone.h"

int main(int count, char **argv)
{
    return situations_main(count, argv);
}
