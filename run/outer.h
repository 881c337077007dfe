/* The run round this one, as nested.h has it.

   Called: outer_hub by nested.c, outer_options by options.c, at the start; in the one thread of asancol-run; no lock.
   */
#ifndef ASANCOL_RUN_OUTER_H
#define ASANCOL_RUN_OUTER_H

/* Its hub: what the environment says, or, if that was cleaned, what it answers that is found by its mark
   (common/inherited.h). Null: there is none. */
const char *outer_hub(void);
/* What its command line says for this run too: options, one a line. Null: nothing. */
const char *outer_options(void);

#endif
