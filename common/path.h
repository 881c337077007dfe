/* Where programs are.

   Called: path_is_program by run/names.c, path_in by that and run/asan.c, path_of_program by these, run/keep.c and
   wrapper/command.c; in the one thread of asancol-run or of the wrapper; no lock. They allocate. */
#ifndef ASANCOL_PATH_H
#define ASANCOL_PATH_H

#include <stdbool.h>
#include <stddef.h>

/* Whether it is a file that may be executed. */
bool path_is_program(const char *path);
/* The path of a file in a folder, of which this many bytes count; none is the current folder. The caller frees it. */
char *path_in(const char *folder, size_t length, const char *name);
/* A program as a shell finds it: by its path, or else the first of its name in the folders of PATH that is not `but`,
   which has no link in it, or null. The caller frees it. Null: it is not there, or cannot be executed. */
char *path_of_program(const char *name, const char *but);

#endif
