/* Questions to the socket that listens beside a hub. A process that has lost its environment gets its settings there;
   one that is not recorded says so.

   Called: by orphan.c and hub_word.c, is_asked_at by own_run.c, ask_begin and ask_on by run_connection.c, ask_begin and
   ask_read by halt.c and halt_report.c, and connect_patiently and is_trusted by the stream (output.c), in programs and
   in shared objects; in any thread, also in a signal handler. Lock: it takes none; the caller may have the allocator's
   and the stream's, and keeps them for as long as it waits. Nothing is allocated. */
#ifndef ASANCOL_ASKING_H
#define ASANCOL_ASKING_H

#include <stdbool.h>
#include <stddef.h>
#include <sys/socket.h>

#include "base/platform.h"

/* How long an answer is waited for. */
enum { ASK_PATIENCE_MS = 60000 };

/* Waits for a place in a queue that is full (EAGAIN): as long as there is patience. */
int connect_patiently(int descriptor, const void *address, socklen_t length, int *patience_ms)
    OWN_NAME(connect_patiently);
/* Whether who listens at the other end is of our user, or root: a name is anybody's who takes it. */
bool is_trusted(int descriptor) OWN_NAME(is_trusted);

/* Sends a request, and waits until the hub has closed, at most so long. Answers how many bytes came: 0 if the hub does
   not take the process for its own; -EACCES: with `trusting`, who listens is another user; or another error. */
long ask(const char *hub, const char *request, bool trusting, char *answer, size_t room) OWN_NAME(ask);
/* The two halves of that: the connection on which the answer comes, or an error below zero; and the next bytes of the
   answer. Their number is 0 at its end, and below zero after an error. */
int ask_begin(const char *hub, const char *request, bool trusting, int *patience_ms) OWN_NAME(ask_begin);
long ask_read(int connection, char *bytes, size_t room, int *patience_ms) OWN_NAME(ask_read);
/* Sends a request over a connection, reads all of the answer with no limit of time, and closes. Answers as ask. */
long ask_on(int connection, const char *request, char *answer, size_t room) OWN_NAME(ask_on);
/* Whether somebody listens there, as far as this process can see. */
bool is_asked_at(const char *hub) OWN_NAME(is_asked_at);

#endif
