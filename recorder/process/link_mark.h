/* Which programs asancol-cc has built.

   Called: by exec_notice.c, in any thread, also in a signal handler and in a child of vfork. Lock: none: it reads a
   file by calls of the system, and keeps nothing. */
#ifndef ASANCOL_LINK_MARK_H
#define ASANCOL_LINK_MARK_H

enum built {
    BUILT_BY_OTHERS,
    BUILT_BY_US,
    BUILT_BY_UNKNOWN, /* no descriptor is left to look */
};

/* Who has built the file that an exec would run, by the note of its link (link_note.h); of a script it is its
   interpreter. A file that can't be read is others'. Needs a descriptor for a moment. */
enum built link_mark_of(const char *path);

#endif
