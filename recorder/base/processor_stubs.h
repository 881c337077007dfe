/* The assembly of each processor: see processor.h. */
#ifndef ASANCOL_PROCESSOR_STUBS_H
#define ASANCOL_PROCESSOR_STUBS_H

#if defined __x86_64__
#include "base/x86_64_stubs.h"
#elif defined __aarch64__
#include "base/aarch64_stubs.h"
#else
#error "asancol has no stubs for this processor (base/processor_stubs.h)"
#endif

#endif
