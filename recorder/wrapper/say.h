/* What the wrapper has to say, on standard error.

   Called: by any file here, say_as by asancol-cc.c, in the one thread of the wrapper; no lock. no_memory (must.h) is in
   say.c too. */
#ifndef ASANCOL_WRAPPER_SAY_H
#define ASANCOL_WRAPPER_SAY_H

/* The name with which each line begins. */
void say_as(const char *name);
/* "NAME: warning: OF: WHAT" */
void warn(const char *of, const char *what);
/* "NAME: error: OF: WHAT", and ends. */
_Noreturn void fail(const char *of, const char *what);

#endif
