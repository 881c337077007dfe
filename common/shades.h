/* The codes of granules without an addressable byte, and what each means: of the table shades.def.

   Called: the codes by any file of the recorder; shade_kind by stream/saying.c, and shade_class by
   recorder/report/wording.c: in any thread, also in a signal handler; no lock: nothing is kept. */
#ifndef ASANCOL_SHADES_H
#define ASANCOL_SHADES_H

#include "common/format.h"

enum shade {
#define SHADE(byte, name, kind, class, legend, where) SHADE_##name = (byte),
#include "common/shades.def"
#undef SHADE
};

/* The kind of poison that states it. A byte of a block is none, unless other memory has it. */
#define KIND_HEAP KIND_STACK
static inline enum kind shade_kind(unsigned char shade)
{
    switch (shade) {
#define SHADE(byte, name, kind, class, legend, where) \
    case byte: \
        return KIND_##kind;
#include "common/shades.def"
#undef SHADE
    default:
        return KIND_STACK;
    }
}
#undef KIND_HEAP

/* AddressSanitizer's class of an access to it. */
static inline const char *shade_class(unsigned char shade)
{
    switch (shade) {
#define SHADE(byte, name, kind, class, legend, where) \
    case byte: \
        return class;
#include "common/shades.def"
#undef SHADE
    default:
        return "unknown-crash";
    }
}

#endif
