/* The tables of a test, which maps no memory for them. It is included before all else. */
#ifndef ASANCOL_TEST_TABLES_H
#define ASANCOL_TEST_TABLES_H

extern char tables_of_test[];
#define TABLES tables_of_test
#include "base/tables.h"

/* Each object asks for them, and the linker makes one. */
__attribute__((common, aligned(MOST_PAGE))) char tables_of_test[sizeof(struct tables)];

#endif
