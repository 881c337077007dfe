/* How many elements an array has.

   Called: by programs of ours alone (run, wrapper), in their one thread; no lock: it is a macro. */
#ifndef ASANCOL_ARRAY_H
#define ASANCOL_ARRAY_H

#define COUNT(array) (sizeof(array) / sizeof *(array))

#endif
