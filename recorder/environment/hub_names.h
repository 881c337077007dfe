/* What a process and its hub call each other: the socket, and the marks that processes leave beside it.

   Called: by the other files of this folder, exec_notice.c and foreign.c, in programs and in shared objects; in any
   thread, also in a signal handler and in a child of vfork. Lock: none: only the caller's room is written, and nothing
   of the C library is called. */
#ifndef ASANCOL_HUB_NAMES_H
#define ASANCOL_HUB_NAMES_H

#include <stdbool.h>
#include <stddef.h>

#include "base/platform.h"
#include "common/hub_name.h"

/* Before its name in an environment. */
#define HUB_ENTRY "ASANCOL_HUB="

/* A text that is put together; what has no room is left out, and noted. */
struct joined {
    char *text;
    size_t room, length;
    bool is_cut;
};

/* Adds the first bytes of a text, at most this many. */
void joined_add(struct joined *joined, const char *text, size_t most) OWN_NAME(joined_add);

/* The name of a mark: FOLDER/NUMBER.END. False: there is no folder, or no room. */
enum { HUB_MARK_ROOM = 256 };
bool hub_mark(char *name, const char *hub, unsigned long number, const char *end) OWN_NAME(hub_mark);

#endif
