/* The note that a link by asancol-cc leaves in a program or a shared object: what of it asancol-cc did not compile, and
   where asancol-run is. It
   is an ELF note, so strip leaves it there, and it is found in a file as in memory. common/README.md says it in words.

   Called: there is no code here. The wrapper writes the note into the linked file; a process only reads it, in any
   thread, without a lock. */
#ifndef ASANCOL_LINK_NOTE_H
#define ASANCOL_LINK_NOTE_H

#include <stdint.h>

#define LINK_NOTE_OWNER "asancol"
#define LINK_NOTE_SECTION ".note.asancol"
/* Each text that objects have in a section of this name is a line of it (plugin/gcc.cpp). */
#define LINK_NOTE_LINES ".asancol.unchecked"
enum { LINK_NOTE_TYPE = 1, LINK_NOTE_ROOM = 4076, LINK_NOTE_RUN = 508 };
enum { LINK_NOTE_TEXT = LINK_NOTE_ROOM - LINK_NOTE_RUN };

/* The first line of its text: until the wrapper has written there, and then. */
#define LINK_NOTE_UNKNOWN "unknown\n"
#define LINK_NOTE_KNOWN "linked\n"

struct link_note {
    uint32_t owner_size, text_size, type;
    char owner[sizeof LINK_NOTE_OWNER];
    char text[LINK_NOTE_TEXT]; /* lines, and zeros after them */
    char run[LINK_NOTE_RUN];   /* the path of asancol-run, if it has room there, and zeros */
};

#endif
