/* Names of files with %p, %q{VAR} and %% in them, and where programs are.

   Called: name_expanded by options.c, names_make_folders by that and asan.c, name_descriptor by options.c and say.c,
   find_own_program by checkers.c, command.c, options.c and report.c, find_recorders_file by preload.c; in the one
   thread of asancol-run; no lock. */
#ifndef ASANCOL_RUN_NAMES_H
#define ASANCOL_RUN_NAMES_H

#include <stdbool.h>

/* The name with its marks expanded, and from the root. Fails if it has a mark that is unknown, or names a variable that
   is not set. Of no name, only the option says where it came from. */
char *name_expanded(const char *option, const char *text);

/* Makes the folders that are missing above a file, as AddressSanitizer does. Whether a file can be made there; errno
   says why not. */
bool names_make_folders(const char *path);

/* The descriptor for which a name stands, as /dev/stdout and /dev/fd/5 do; -1: for none. To open it would begin at the
   start of a file that somebody writes to the end of. */
int name_descriptor(const char *name);

/* A program of ours: the value of the variable, or beside this one, or in the folder above, or on the path. Null if it
   is not there or cannot be executed. */
char *find_own_program(const char *name, const char *variable);

/* A file of the recorder's, where that is installed beside this program, or built. Null: it is not there. */
char *find_recorders_file(const char *name);

#endif
