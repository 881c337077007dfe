/* What registering.c reads of the instructions of a constructor: by processor, as processor.h.

   Called: by interface/registering.c alone, in the thread that loads a module, never in a signal handler; no lock:
   nothing here has a state. */
#ifndef ASANCOL_PROCESSOR_CODE_H
#define ASANCOL_PROCESSOR_CODE_H

#if defined __x86_64__
#include "base/x86_64_code.h"
#elif defined __aarch64__
#include "base/aarch64_code.h"
#endif

#endif
