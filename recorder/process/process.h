/* What happens to the stream when the process starts, forks, and ends. The program's fork, exec and exit come here, and
   the settings are kept here.

   Called: recorder_start and recorder_watch_forks by start.c, once, in the thread that starts the recorder, never in a
   handler. All the others in any thread, also in a signal handler: to begin late, recorder_begin_late by halt.c,
   recorder_end_waiting by preload_wait.c, recorder_go_full by callbacks.c; to end, recorder_exit by start.c and
   hooks.c, recorder_finish by halt.c and root.c, recorder_finish_in_handler by the handler in signals.c alone; around
   an exec, recorder_before_exec and recorder_exec_failed by exec_notice.c. recorder_say_child by places.c
   (`above`), recorder_say_who by preload_wait.c. The C library calls the three of a
   fork as its handlers, and exits.c around a fork of which it knows nothing. The rest are questions, of any file.
   Lock: the caller has none of the recorder's, except that recorder_say_child and the questions take none, and any may
   be held. To begin takes the allocator's and then the stream's (README.md has the order), but not if a handler has
   interrupted the allocator. To end takes the stream's. If a handler that has interrupted the allocator has freed
   something, an exit and recorder_finish leave it first, if they can, and take its lock; else it stays interrupted.
   recorder_before_exec keeps the allocator's, and a fork both. Before these a start, an exit, an exec and a fork take
   the loader's for a moment, but not in a handler while the allocator is interrupted. Nothing is allocated. */
#ifndef ASANCOL_PROCESS_H
#define ASANCOL_PROCESS_H

#include <stdbool.h>

#include "stream/keeping.h"

struct settings;

/* Begins the stream by the settings of the environment, unless that was done. */
void recorder_start(void);
/* Forks of the process are seen from now on. */
void recorder_watch_forks(void);
/* Around a fork: before it, and after it in the parent, which errno tells of a failure, and in the child. The locks are
   kept from the first to the others. */
void recorder_fork_begins(void);
void recorder_fork_ends(void);
void recorder_child_begins(void);
/* Says of a child that it is not recorded, which no fork has announced: at its first record. */
void recorder_say_child(void);
/* Whether ASANCOL_HALT=2 has put off the recording until the first fault. */
bool recorder_begins_late(void);
/* Begins a recording that was put off. False: it can't be, and a line said why. */
bool recorder_begin_late(void);
/* The same for a fuzzer's target that has no run: one of its own begins, which has the words of its report. */
bool recorder_begin_for_words(void);
/* Whether this is preloaded and waits for checks, with which it begins to record. */
bool recorder_waits_for_checks(void);
/* Begins the recording, if it waits: else, or if it can't begin, it answers false, and a line has said why it can't. */
bool recorder_end_waiting(void);
/* Says to a hub why it will not see this process, if it will not: at the start, or with the first check. */
void recorder_say_who(void);
/* What the settings are; zeros before the start. */
const struct settings *recorder_settings(void);
/* Whether the process ends at its first fault, by its settings. */
bool recorder_halts(void);
/* The hub that this process has by its settings, or null; also if it does not connect there. */
const char *recorder_hub(void);
/* Records each malloc and free from now on, also if the recording is lean. False: not now. */
bool recorder_go_full(void);
/* Whether calls that plain libraries make are checked, by its settings. */
bool recorder_checks_libraries(void);
/* Whether nothing is recorded, nor will be, and nobody wants to know of the process. Then nothing is to be done at its
   end: a filter of the program's may allow it no other call than that. */
bool recorder_is_absent(void);
/* At an end without handlers. In a child of vfork nothing is ended but its frames. */
void recorder_finish(enum finish finish);
/* At an exit. `is_last`: none of the process's handlers and destructors is still to come. */
void recorder_exit(bool is_last);
/* In a handler of a signal that ends the process: without a close, and without waiting for other threads for ever. */
void recorder_finish_in_handler(int number);
/* Before an exec: the stream is suspended, and the allocator's lock is kept. False: there is nothing to take back. */
bool recorder_before_exec(void);
/* The exec has failed: the stream continues. */
void recorder_exec_failed(void);
/* The program is about to install a filter of system calls: filters_copy, after what the filter may refuse. */
struct filter;
const struct filter *recorder_before_filter(bool is_strict, const void *program);

#endif
