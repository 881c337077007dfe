/* What the arguments of a command line ask the compiler for.

   Called: no code is here. arguments.c and inputs.c fill it in; in the one thread of the wrapper; no lock. */
#ifndef ASANCOL_REQUEST_H
#define ASANCOL_REQUEST_H

#include <stdbool.h>

#include "wrapper/compilers.h"
#include "wrapper/left_out.h"
#include "wrapper/linked.h"
#include "wrapper/names.h"

/* The files. */
struct inputs {
    bool has_any;
    bool has_source;   /* one that is compiled or assembled */
    bool has_compiled; /* one that is compiled */
    bool has_text;     /* one that is preprocessed and compiled */
    bool has_linked;   /* one that comes to be linked: a header does not */
    bool has_standard; /* standard input */
    struct linked linked;  /* inputs that are linked unchanged */
    struct names sources;  /* those that are compiled */
    struct names assembly; /* those in which there are no checks */
};

/* How it is linked. */
struct link_request {
    bool is_shared;
    bool is_partial;    /* a link of objects to an object */
    bool is_bare;       /* without the C library */
    bool is_static;     /* with the C library inside, whose own calls would be wrapped too */
    bool finds_static;  /* after its last word of this kind the linker looks for static libraries alone */
    bool has_libc;      /* named by itself */
    bool has_libm;      /* the mathematics of the C library */
    bool has_cxx_inside; /* the library of C++ is linked as an archive */
    bool has_undefined_inside; /* so is UndefinedBehaviorSanitizer's runtime of GCC */
    const char *cxx;     /* a word that names this library, the last one; or null */
    bool is_stripped;   /* the linked file has no table of symbols */
    bool is_traced;     /* the caller wants to see what the linker takes in */
    bool needs_every_call; /* what the program is linked with may call any function that is wrapped */
    const char *output; /* null if it is not named */
    struct names wraps; /* the functions that the caller has wrapped */
};

struct request {
    struct inputs inputs;
    struct link_request link;
    bool stops_early;    /* before the link */
    bool makes_object;   /* by -c, unless it */
    bool makes_other;    /* than an object of the machine where it was asked for; or it may be linked without us */
    bool is_shown;       /* preprocessed text is printed, and not compiled */
    bool is_dry;         /* what would be run is printed, and not run */
    bool is_optimized;   /* by its last word of that kind */
    bool is_verbose;     /* the compiler says what it does, by -v */
    bool has_no_run;     /* the program starts no asancol-run, unless ASANCOL_RUN says so */
    bool is_all;         /* each access is a call, and not only one that its check finds bad */
    bool is_libcxx;      /* the library of C++ is that of LLVM */
    bool is_without_cxx; /* it is not looked for at its place: the caller says where it is */
    bool asks_for_address, asks_for_leak; /* by -fsanitize=, which is what the wrapper does */
    char *foreign;       /* a word for another sanitizer, which brings its own runtime, or another machine; or null */
    struct names kept;   /* arguments that Clang's driver passes on if it knows of a sanitizer */
    bool says_use_after_return; /* in a word of its own */
    bool names_runtime;         /* AddressSanitizer's or LeakSanitizer's, for the link */
    enum use_after_return use_after_return;
    char *refusal; /* the last word by which the compiler puts no calls before accesses, or null */
    struct left_out left_out;
};

#endif
