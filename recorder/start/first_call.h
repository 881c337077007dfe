/* The first call into an object.

   Called: by preinit.c in a program, by the loader in another object, in the thread that starts the program or loads
   the object. No lock here; the loader has its own while it loads. The C library may not be ready. */
#ifndef ASANCOL_FIRST_CALL_H
#define ASANCOL_FIRST_CALL_H

/* In an object's first constructor. The link asks for it by its name. */
extern void (*const asancol_map_early)(int count, char **argv, char **variables);

#endif
