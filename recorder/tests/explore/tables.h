/* The sources that are explored use none of the large tables, but name some: all memory of the explorer is copied for
   each order, so they are not there. It is included before all else. */
#ifndef ASANCOL_EXPLORED_TABLES_H
#define ASANCOL_EXPLORED_TABLES_H

#define TABLES ((char *)0)
#include "base/tables.h"

#endif
