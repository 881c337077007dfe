/* What the recorder asks of the compiler and the machine. */
#ifndef ASANCOL_PLATFORM_H
#define ASANCOL_PLATFORM_H

#include <stdint.h>

#include "base/processor.h"

#define LIKELY(x) __builtin_expect(!!(x), 1)
#define UNLIKELY(x) __builtin_expect(!!(x), 0)
#define CALLER() ((uintptr_t)__builtin_return_address(0))

/* Symbols that the program, or a shared object of it, finds in the recorder. All others are hidden. */
#define VISIBLE __attribute__((visibility("default")))
/* The same, unless the program or a library before it has the name itself. The linked objects keep these names
   (Makefile). */
#define REPLACES VISIBLE __attribute__((weak))
/* For what several members of an archive use: a program may have the name itself. */
#define OWN_NAME(name) NAMED("asancol_" #name)
/* Whatever a declaration is called, for linkers it has this name. */
#define NAMED(label) __asm__(label)

/* Of variables that have a page or more, of which little is touched, or seldom. They lie behind all others (zeros.ld),
   so that those share few pages: each start and each forked child touches these. Larger ones are in base/tables.h. */
#define AS_TABLE __attribute__((section(".bss.table")))

/* For the compiler alone: earlier writes are in memory here, and later reads are from there. */
#define STAYS_IN_ORDER __asm__ volatile("" : : : "memory")
/* The same, and nobody knows where this may lead. */
#define STAYS_AT(place) __asm__ volatile("" : : "r"(place) : "memory")
/* This is in a register or on the stack up to here. */
#define STAYS_KNOWN(value) __asm__ volatile("" : : "rm"(value))
/* A text for the assembler outside of functions; and in one what it writes of the frame. */
#define TOP_ASM __asm__
#define DESCRIBE __asm__ volatile

/* Whether this is the preloaded recorder, for programs that were not built with asancol-cc. */
#ifdef IS_PRELOAD
enum { IS_PRELOADED = 1 };
#else
enum { IS_PRELOADED = 0 };
#endif

#endif
