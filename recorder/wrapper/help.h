/* Made by `make options` from options/asancol-cc.options.

   Called: command.c includes it, in the one thread of the wrapper; no lock. */
#ifndef ASANCOL_WRAPPER_HELP_H
#define ASANCOL_WRAPPER_HELP_H

/* clang-format off */
#define WRAPPER_HELP \
    "usage: asancol-cc [options and files of the compiler]\n" \
    "Runs GCC or Clang. What it links can be checked, and checks itself.\n" \
    "Options:\n" \
    "  --asancol-all                             record each access\n" \
    "  --asancol-compiler=command                the compiler to run\n" \
    "  --asancol-help                            print this help\n" \
    "  --asancol-no-run                          let the program start no asancol-run\n" \
    "  -fsanitize-address-use-after-return=mode  find uses after return (never)\n" \
    "asancol-cc(1) has the settings. asancol-run --help is about runs.\n"

#endif
