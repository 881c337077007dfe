/* Where the recorder's own variables lie that begin as zeros, in one piece: no pointer there is the program's.

   Called: nothing is. leaks/roots.c takes the two addresses, in the thread that looks for leaks; no lock. */
#ifndef ASANCOL_OWN_ZEROS_H
#define ASANCOL_OWN_ZEROS_H

/* The first and the last object of those that are linked into one (Makefile) have these two. */
extern char own_zeros_begin[], own_zeros_end[];

#endif
