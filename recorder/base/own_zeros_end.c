/* The last object of those that are linked into one. */
#include "base/own_zeros.h"

char own_zeros_end[1];
