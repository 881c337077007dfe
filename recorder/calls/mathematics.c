/* Functions of the library of mathematics. They are a member by themselves, which comes in where one of them is called:
   then the library is linked too.

   Called: as rows.h says. */
#include "calls/calls.h"
#include "calls/rows.h"

#include "out/mathematics.def"
