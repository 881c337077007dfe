/* Runs inside a run. The inner one prints its reports, and leaves its result in the folder of the outer one: the JSON
   lines nested.NUMBER.TIME.jsonl, and an empty file of that name with .recorded if it has recorded something. When it
   starts its command it leaves one with .begun: so the outer one knows if it was ended before it had a result.

   Called: by asancol-run.c at the start and the end, nested_result also by report.c; in the one thread of asancol-run;
   no lock. */
#ifndef ASANCOL_RUN_NESTED_H
#define ASANCOL_RUN_NESTED_H

#include <stdbool.h>
#include <stdint.h>

/* Looks whether there is a run round this one, which is the case if ASANCOL_HUB names its socket. */
void nested_begin(void);
/* Where our result goes, or null. */
const char *nested_result(void);
/* Notes there that the command is started, or takes that back if it could not be. If nothing can be left there, the
   outer run has a process that was not seen. */
void nested_note_begun(void);
void nested_take_back(void);
/* Notes there that we have recorded something. */
void nested_note_recorded(void);

/* What runs inside this one have left in the folder. */
struct nested {
    bool is_there, has_recorded;
    uint64_t lost; /* runs that have begun and left no result */
};
struct nested nested_found(void);

#endif
