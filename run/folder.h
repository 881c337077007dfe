/* The private folder of a run, in which its socket lies, and what processes leave there. It is known by a descriptor
   that is kept since it was made: whoever may write to the folder round it can put another one under its name.

   Called: folder_entries by loop.c, marks.c and nested.c, folder_lost by loop.c, folder_remove by asancol-run.c at the
   end, the rest by hub.c when the sockets are made; in the one thread of asancol-run; no lock. A lock of the file
   system (flock) says to others that the run lives. */
#ifndef ASANCOL_RUN_FOLDER_H
#define ASANCOL_RUN_FOLDER_H

#include <dirent.h>
#include <stdbool.h>
#include <stddef.h>

/* How its name ends. */
#define FOLDER_END "/asancol-XXXXXX"

/* Whether others than its group, its owner and root can move the contents of a folder. */
bool folder_is_open_to_all(const char *base);
/* Makes it in another folder. The room gets its path, which has to fit. */
bool folder_make(const char *base, char *path, size_t room);
/* Others may connect to a socket in it. */
bool folder_open_socket(const char *name);
/* The same, and gives it another name. */
bool folder_give_name(const char *before, const char *name);
/* Its contents; null: there is no folder. */
DIR *folder_entries(void);
/* What has happen to it, as "removed"; null: it is there, or there is none. */
const char *folder_lost(void);
/* Removes it with what runs put there, and nothing else. */
void folder_remove(void);
/* Removes folders of runs of this user that were killed, beside it. */
void folder_sweep(const char *base);

#endif
