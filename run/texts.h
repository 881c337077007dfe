/* Texts that many processes have in common, such as their names: each is held once, up to the end of the run.

   Called: by whoever keeps a text (outcome.c, processes.c, report.c, verdict.c), in the one thread of asancol-run; no
   lock. */
#ifndef ASANCOL_RUN_TEXTS_H
#define ASANCOL_RUN_TEXTS_H

const char *text_kept(const char *text);

#endif
