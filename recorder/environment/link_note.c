/* The room for the note of a link. The wrapper of the compiler writes there once the linker has ended. */
#include "environment/link_note.h"

extern const struct link_note asancol_link_note;

__attribute__((section(LINK_NOTE_SECTION), aligned(4), used)) const struct link_note asancol_link_note = {
    .owner_size = sizeof LINK_NOTE_OWNER,
    .text_size = LINK_NOTE_ROOM,
    .type = LINK_NOTE_TYPE,
    .owner = LINK_NOTE_OWNER,
#ifdef IS_PRELOAD
    .text = LINK_NOTE_KNOWN, /* all of it is the recorder's */
#else
    .text = LINK_NOTE_UNKNOWN,
#endif
};
