/* Response files, which compilers take as @FILE.

   Called: by arguments.c and taken_out.c, in the one thread of the wrapper; no lock. */
#ifndef ASANCOL_RESPONSE_H
#define ASANCOL_RESPONSE_H

/* Gives each word of the file to a function: they are apart by blanks, with quotes and backslashes. */
void response_read(const char *path, void (*take)(void *to, const char *word), void *to);

#endif
