/* Where the wrapper is, and what lies beside it.

   Called: self_path by command.c, self_set_folder by asancol-cc.c, self_run by taken.c; the others by whoever needs
   a file of the recorder's (compiling.c, linking.c, plugin.c, passes.c and others); in the one thread of the wrapper;
   no lock. */
#ifndef ASANCOL_SELF_H
#define ASANCOL_SELF_H

/* Its path, without links. */
const char *self_path(void);
/* The path of asancol-run: beside the wrapper, or in ../run if nothing is installed. It need not be there. */
const char *self_run(void);
/* A file of the recorder's: beside the wrapper, or in ../lib/asancol if it is installed. Fails if it is not there. */
char *self_file(const char *name);
/* Or null, if there is none. */
char *self_find_file(const char *name);
/* From now on files in this folder come first: those for another processor. */
void self_set_folder(const char *folder);

#endif
