/* What stands beside a stream: who the process is and how it ended, its modules, and its faults (faults.h). It is the
   memory that a hub shares, or the file TRACE.where.

   Called: as each function says, in any thread, also in a handler. Where it says "locked", that is with the stream's
   lock, or while no other thread is in the stream; stream_write_modules and side_back take it, so their callers have
   not; the others may be called with or without any lock: they write an atomic word or two. */
#ifndef ASANCOL_SIDE_H
#define ASANCOL_SIDE_H

#include <stdatomic.h>
#include <stdbool.h>
#include <stdint.h>

#include "base/platform.h"
#include "common/format.h"
#include "environment/settings.h"

/* Begins a new one in these bytes, which are zeros, with who the process is, how many segments of it came before,
   and what its settings are. (opening.c, locked) */
void side_begin(unsigned char *bytes, uint64_t segment, const struct settings *settings);
/* There is none any more. (opening.c, locked) */
void side_forget(void);
/* Whether there is one. (faults.c, thread_list.c) */
bool side_is_there(void);
/* The number of events in the snapshot of the live state at the end of the segment before. (switching.c, locked) */
void side_note_snapshot(uint64_t events);
/* In lean recording: a good malloc or free is left out, or poison in a block. (record.c, regions.c, heap/) */
void side_note_left_good(void);
/* The same for this many at once. (heap/freeing.c) */
void side_add_left_good(uint64_t count);
/* At a fault this many events state what stands. (group.c) */
void side_note_stated(uint64_t events);
/* Memory of freed blocks is reused, after this many bytes were handed out: the first time counts, in this segment
   and in all that follow. (heap/retiring.c) */
void side_note_reuse(uint64_t bytes);
/* That it has forked a child, which is to be recorded. (process/process.c, with the lock) */
void side_note_fork(void);
/* The number of a child that was made so. (calls/, by interface/hooks.def) */
void side_note_child(int child);
/* That it becomes a program that is to connect, or does not. False: there is no side memory. (process/exec_notice.c;
   no atomic: only the thread that execs writes it) */
bool side_note_becoming(bool becomes);
/* Whether leaks were to be looked for, the last time, and could not be. (leaks/leaks.c) */
void side_note_leaks_missed(bool were_missed);
/* The checks that are turned off (enum side_skipped), in this segment and in all that follow. (record.h, record.c,
   heap/allocating.c; interface/, by hooks.def) */
void side_note_skipped(uint64_t what) OWN_NAME(side_note_skipped);
/* That there was no room for what may have been one. (heap/entering.c) */
void side_note_finding_lost(void);
/* A sandbox may end the process for the calls of the system that come now: what the recorder tries in the middle of
   the program, or does for a program that is about to be started. They are over with what this answers. (sending.c,
   leaks/leaks.c, start/start.c, process/) */
_Atomic uint64_t *side_begin_calls(bool for_start);
void side_end_calls(_Atomic uint64_t *calls);
/* Whether the hub is to know of anything that no event says. (held.c, locked) */
bool side_has_news(void);
/* Notes the modules, with the build id of each and the unchecked code, if there are others than were noted. (side.c,
   locked) */
void side_write_modules(void);
/* The same, unless the loader has counted the same generation of them when they were noted. (process/process.c
   before a fork, locked) */
void side_look_at_generation(uint64_t generation);
/* The note that was made was of this generation. (process/process.c at the start, locked) */
void side_know_generation(uint64_t generation);
/* At an end: with those that came by other ways than the loader, if anything there has addresses of code, or if
   nobody has asked the loader, which is 0; else by its generation. (keeping.c, locked) */
void side_end_modules(uint64_t generation);
/* The same, after a library was opened. (process/plain.c, interface/hooks.c) */
void stream_write_modules(void);
/* A part of what stands beside the stream in a window, and where it is noted that it has memory. */
struct side_part {
    unsigned window;
    uint64_t offset, length;
    _Atomic uint32_t *bits;
    uint32_t bit;
};

/* Backs a part of the side file, if there is one, and notes it. False: it can't be, or not without waiting longer
   than others may wait for this thread: they do if the place of its record was taken; or another segment has begun.
   (lists.c) */
bool side_back(const struct side_part *part, bool has_place);
/* Opens the program, and the shared objects by now that are not the system's, and answers how many there are. Who
   has them can show lines of them also if they are removed or made anew meanwhile. (opening.c, locked) */
unsigned side_open_files(int files[SIDE_FILES]);
/* As self_note_checks and self_note_main (base/self.h), with which they are called. (process/) */
void side_note_checks(void);
void side_note_main(void);
/* The stream has to be read up to this event: it may be bad. It is noted before the access is made, so who finds the
   process gone knows whether one is missing. (ending.c, places.c, watched.c) */
void side_note_needed(uint64_t event);
/* An event finds no room. (keeping.c) */
void side_note_left_out(void);
/* The process has closed the descriptor of the stream. (ending.c, sending.c, switching.c) */
void side_note_closed_off(void);
/* How the process ends, with this many events in the stream: ENDING_NONE takes an exec back. Lost events stay lost.
   (ending.c, keeping.c, suspending.c, switching.c) */
void side_note_ending(enum ending ending, int number, uint64_t events);
/* Where a signal has met it: the call site, with its stack, thread and test as of a fault; the address that could not
   be accessed, and enum side_how. (faults.c, process/signals.c) */
struct side_last {
    uint64_t call_site, address;
    uint32_t stack, thread, test, how;
};
void side_note_last(const struct side_last *last);
/* The process ends itself at its first report. (process/halt.c) */
void side_note_halted(enum side_halted how);
/* Whether the end of the process that it notes is an exit, so that the hub has everything. (process/halt.c) */
bool side_is_at_exit(void);
/* The first thread was given the name that stands in its notes (thread_notes.h). (thread_list.c) */
void side_note_first_name(void);
/* The recorder's own code has met a fault, by this signal, of which the process dies. (process/signals.c) */
void side_note_inside(int number);
/* Another process has sent the signal that ends this one. (process/signals.c) */
void side_note_sender(int sender);
/* A signal after the stream has ended. (ending.c) */
void side_note_late_signal(int number);

#endif
