/* A global of another file, which has its value later. */
#include <cstdlib>

char early = static_cast<char>(atoi("7"));
