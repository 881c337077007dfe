/* What the plugin of GCC's shares with the wrapper.

   Called: nothing; texts for gcc.cpp, in GCC's one thread, and for the wrapper's. No lock. */
#ifndef ASANCOL_PLUGIN_H
#define ASANCOL_PLUGIN_H

/* The plugin for the GCC that `make recorder` was given, and those for other major versions. */
#define PLUGIN_NAME "libasancol_gcc"
#define PLUGIN_FILE PLUGIN_NAME ".so"
#define PLUGIN_FILE_OF PLUGIN_NAME "_%u.so"
enum { PLUGIN_OLDEST = 5, PLUGIN_NEWEST = 40 };

/* In it, and after it the version of the compiler for which it was made, and how that was configured. Each ends with a
   zero, and is one of the compiler's own texts, too. */
#define PLUGIN_MADE_FOR "asancol's plugin for GCC"

/* The plugin makes no checks itself with this argument, and leaves all to GCC: for tests, which compare the reports. */
#define PLUGIN_PLAIN "plain"
/* Where the shadow begins, which is what the compiler is told, too (wrapper/compilers.h). */
#define SHADOW_BEGINS 0x7fff8000
/* From this many accesses on a function would have calls in the place of its checks: none has as many. */
enum { PLUGIN_NO_CALLS = 1 << 30 };

#endif
