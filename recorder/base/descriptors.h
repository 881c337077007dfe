/* Descriptors for the recorder, also where the process has all that it may have: if only its own limit says so, that is
   higher for a moment, for all threads. Each answers a new descriptor, or an error below zero.

   Some are kept. The program does not see these: its calls of the C library leave them out.

   Called: descriptor_of_file by stream/side.c, stream/modules.c and environment/hub_folder.c, descriptor_of_socket and
   descriptor_of_message by stream/output.c, with the stream's lock, or before there is a stream, and the latter by
   process/waiter.c in the process that waits; descriptor_of_memory, and what moves, keeps and drops one, by
   shadow/unused.c with the allocator's (central, or all), and by process/run_connection.c at the start and the end: in
   any thread, also in a handler; descriptor_kept there, by hub_folder.c and by environment/dormant.c in a forked child;
   descriptor_shown and descriptor_hidden_from by the checks of calls (interface/hooks.def), and the first by
   stream/sending.c, in any thread, also in a handler, with or without any lock. No lock here: each call restores the
   limit, and the numbers are atomic. */
#ifndef ASANCOL_DESCRIPTORS_H
#define ASANCOL_DESCRIPTORS_H

#include <sys/stat.h>

#include "base/platform.h"

int descriptor_of_file(const char *path, int flags);
int descriptor_of_socket(int type);
int descriptor_of_memory(const char *name, unsigned flags);
/* The connection of the stream, the memory beside it if that was not sent yet, the file of shadow/unused.c, the way to
   an own run, and the hub's folder. */
enum descriptor_kept { KEPT_STREAM, KEPT_SIDE, KEPT_UNUSED, KEPT_RUN, KEPT_FOLDER, DESCRIPTORS_KEPT };
/* Moves one that is to be kept out of the way of those that the process opens, and answers where it is now. */
int descriptor_moved_up(int descriptor);
/* Another one for the same file, with a greater number. */
int descriptor_past(int descriptor);
/* It is kept. */
void descriptor_keep(enum descriptor_kept which, int descriptor, const struct stat *identity);
/* Its number, or -1: the process has closed it, or there is none. */
int descriptor_kept(enum descriptor_kept which);
/* It is none any more. */
void descriptor_drop(enum descriptor_kept which);
/* What a call of the program's with this number means: -1 if it is one that is kept. */
int descriptor_shown(int descriptor) OWN_NAME(descriptor_shown);
/* The first number from this one on that may be one of them; INT_MAX: there is none. */
int descriptor_hidden_from(int descriptor) OWN_NAME(descriptor_hidden_from);
/* That which comes with one byte of a socket; -1: none. */
int descriptor_of_message(int socket);

#endif
