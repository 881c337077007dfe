/* What the plugin's parts share: the compiler's own headers, which want this order, and how a check is put in.

   Called: by gcc.cpp, intrinsics.cpp and expansion.cpp, in GCC's one thread, as it compiles a function; no lock. */
#ifndef ASANCOL_PLUGIN_CHECKS_H
#define ASANCOL_PLUGIN_CHECKS_H

#include <gcc-plugin.h>

#include <tree.h>
#include <gimple.h>
#include <ssa.h>
#include <gimple-iterator.h>
#include <gimple-fold.h>
#include <gimplify.h>
#include <gimplify-me.h>
#include <internal-fn.h>
#include <basic-block.h>
#include <cfghooks.h>
#include <fold-const.h>
#include <stor-layout.h>
#include <stringpool.h>
#include <attribs.h>
#include <builtins.h>
#include <asan.h>

enum direction { LOAD, STORE };

/* A range of memory that a statement accesses. */
struct range {
    tree start;  /* an address */
    tree length; /* a number of bytes, which may be 0 if it is not a constant */
    enum direction direction;
    unsigned alignment; /* of its start, in bytes: 1 if nothing is known of it */
};

/* The same check before a statement as GCC's own pass puts there, which is expanded with these. */
void check_before(gimple_stmt_iterator *at, const range &it);
/* The checks of a call of an intrinsic, which is a function of the machine. Returns its name if it has a pointer, and
   nothing is known of what it accesses; else null. */
const char *check_intrinsic(gimple_stmt_iterator *at);
/* Adds the pass that makes the checks, in the place of GCC's own (expansion.cpp). */
void add_expansion();

#endif
