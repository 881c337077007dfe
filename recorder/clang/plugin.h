/* What the two parts of the plugin for Clang share, and the wrapper.

   Called: plugin.c by Clang, when it loads its plugins, in the compiler's one thread, without a lock; and what this
   finds by ADD_PASSES_NAME after that. The names also by the wrapper. */
#ifndef ASANCOL_CLANG_PLUGIN_H
#define ASANCOL_CLANG_PLUGIN_H

/* What Clang loads; and beside it the passes for each major version of LLVM. */
#define CLANG_FILE "libasancol_clang.so"
#define CLANG_FILE_OF "libasancol_clang_%u.so"

/* The first major version of LLVM that asks for its plugins in another form. */
enum { LLVM_OF_FORM_2 = 22 };

/* In the last of them: gives LLVM's builder of passes ours. */
#define ADD_PASSES_NAME "asancol_add_passes"

#endif
