/* What the command line says.

   Called: by asancol-run.c, once, before anything is started, and options_give by asan.c meanwhile; in the one thread
   of asancol-run; no lock. */
#ifndef ASANCOL_RUN_OPTIONS_H
#define ASANCOL_RUN_OPTIONS_H

#include <stdbool.h>
#include <stddef.h>
#include <stdint.h>

#include "common/string_list.h"
#include "unchecked.h"

/* When reports are printed, by the words of --live. */
enum live { LIVE_ACCESS, LIVE_EXIT, LIVE_END };

/* What happens to leaks, by the words of --leaks: each place is a report, they are summed up, or nobody looks. */
enum leaks { LEAKS_YES, LEAKS_SUMMARY, LEAKS_NO };

struct options {
    /* Statuses; 0 leaves that of the command. */
    uint64_t exitcode, incomplete, nothing;
    uint64_t of_crash; /* of the command, as options of AddressSanitizer's ask for it */
    uint64_t at_least;
    double wait;
    double timeout; /* 0: none */
    bool quiet, verbose, crashes;
    enum live live;
    bool are_lines;         /* the text: those of a compiler, or annotations, and all come at the end */
    bool no_mismatches;     /* of families of functions that allocate: they are not noted */
    bool records_full;      /* each malloc and free */
    bool preloads;          /* the recorder into programs that asancol-cc did not build */
    const char *preloaded;  /* LD_PRELOAD with that and what marks programs, or null: it stays */
    const char *preload_note; /* why programs are not marked, or null */
    enum unchecked unchecked;
    enum leaks leaks;
    const char *log;        /* or null */
    uint64_t served;        /* the process that runs the command by itself (serving.h), or 0 */
    const char *sockets;    /* the numbers of its sockets, */
    bool are_held;          /* on which nothing comes from a process that has nothing to report */
    const char *keep;       /* a folder, or null */
    const char *quarantine; /* as text, or null */
    uint64_t held;          /* how many bytes of freed blocks, if a process does not say otherwise */
    bool has_output;        /* a file is wanted that asancol-report writes */
    bool has_rules;         /* it has to read a file of what counts */
    bool are_files;         /* the arguments of the command are traces */
    /* What ASAN_OPTIONS and LSAN_OPTIONS ask of processes, and lines about them: for the summary, and for --verbose. */
    bool may_halt;
    struct strings asan_notes, asan_taken;
    bool demands_leaks; /* --leaks=yes was given: that wins over a process that asks for none */
    bool log_is_alone;  /* the files of --log-path alone have reports, as ASAN_OPTIONS asks for it */
    const char *for_inner; /* given options that hold for runs inside this one too: options, one a line; or null */
    struct strings check;   /* for asancol check */
    struct strings report;  /* for asancol-report, */
    int outputs[16];        /* and descriptors that it gets under their numbers: each output is at most one */
    size_t output_count;
    char **command;
};

/* Prints the help or the version and ends with status 0, if this is what the options ask for. Fails if one of them is
   wrong: nothing has been started then. */
struct options options_read(char **argv);
/* Gives an option that takes a value this one, as the command line would. False: that has given it already. */
bool options_give(struct options *options, const char *name, const char *value);

#endif
