/* What the options of AddressSanitizer say for this process: by ASAN_OPTIONS and LSAN_OPTIONS, and by functions that
   the program may have. common/asan_options.def lists them.

   Called: asan_options_read and then say, level, hold and name_turned_off by settings.c, in the thread that starts the
   recorder, once, not in a handler: they call the program. After that asan_options_check_call by the stream, and
   asan_options_log by halt_report.c, in any thread, also in a signal handler; and asan_options_lines by unchecked.c,
   with the lock of the stream. Lock: none of its own: nothing is written after the start. Nothing is allocated. */
#ifndef ASANCOL_ENVIRONMENT_ASAN_OPTIONS_H
#define ASANCOL_ENVIRONMENT_ASAN_OPTIONS_H

#include <stdbool.h>
#include <stdint.h>

#include "base/platform.h"
#include "common/asan_options.h"

/* Reads them, from these values of the variables, which may be null. The functions of the program are called. */
void asan_options_read(const char *asan, const char *lsan);
/* Whether an option is on; or else what holds otherwise. */
bool asan_options_say(enum asan_option option, bool otherwise);
/* Whether a call of the C library, by the name of its function, is checked. */
bool asan_options_check_call(const char *name) OWN_NAME(asan_options_check_call);
/* Which level an option has, at most as much; or else what holds otherwise. */
uint64_t asan_options_level(enum asan_option option, uint64_t most, uint64_t otherwise);
/* How many bytes of freed blocks are held, at most this number; or else the default number. */
uint64_t asan_options_hold(uint64_t most, uint64_t otherwise);
/* Adds a line for each text that turns checks off, except for options that are on all the same: for each option whether
   it is. */
void asan_options_name_turned_off(const bool *is_on);
/* Where reports go, as log_path says: "stdout", the beginning of a name, or an empty text: standard error. */
const char *asan_options_log(void);
/* Lines with an end each: what the program's functions say that has no effect here, its suppressions, which come after
   an exclamation mark, and what turns checks off. */
const char *asan_options_lines(void);

#endif
