/* Where bytes go: a file that is mapped, or a descriptor that takes pieces.

   Called: output_open_file and output_close by opening.c and switching.c; output_connect, output_open_memory and
   output_open_plain by opening.c; output_keep_memory and output_send_first by held.c; output_send by that, ending.c and
   sending.c; output_extend by growing.c and
   suspending.c; output_back by side.c; output_trim and output_leave by keeping.c; output_discard by switching.c;
   output_is_closed by that and sending.c; output_make_way by sending.c; output_number by opening.c and segments.c, and
   output_name_segment by segments.c: in the thread that has the stream's lock, also in a handler, or that starts the
   stream. Without it output_is_closed by sending.c as a process ends, and output_lose by keeping.c in the handler of
   SIGBUS, which waits for none. */
#ifndef ASANCOL_OUTPUT_H
#define ASANCOL_OUTPUT_H

#include <linux/limits.h>
#include <stdbool.h>
#include <stdint.h>
#include <sys/types.h>

#include "base/descriptors.h"

struct output {
    bool is_mapped;
    bool is_plain; /* its bytes are memory of this process alone */
    bool is_socket;
    int descriptor; /* of a mapped file none is held: the process may close all that it finds */
    enum descriptor_kept kept; /* as which it is hidden from the program */
    dev_t device;   /* its identity, to recognise it */
    ino_t node;
    uint64_t backed; /* a mapped file has this many bytes */
    uint64_t sent;   /* a descriptor was given this many */
    bool is_lost;    /* the mapped file was cut by somebody else */
    uint64_t room;
    unsigned char *bytes; /* plain memory before and after */
    unsigned number; /* that its name has got, since the name was taken; or 0 */
    char path[PATH_MAX];
};

/* Where an output lies: memory that was reserved for it (windows.h). */
struct window {
    unsigned char *bytes;
    uint64_t room;
    bool is_new; /* nothing has lain there yet */
};

/* The name with a number, if that is not 0: run.trace, run.1.trace, run.2.trace. False: it is too long. */
bool output_number(char *name, const char *path, unsigned number);
/* The name of a later segment: run.trace, run.segment-002.trace. False: it is too long. */
bool output_name_segment(char *name, const char *path, uint64_t number);
/* Where there is a file of the name: the next name that is free is taken, or this file is thrown away. */
enum naming { NAME_NUMBERED, NAME_TAKEN_OVER };

/* Each answers null, or what went wrong. */
const char *output_open_file(struct output *output, const char *path, enum naming naming, struct window window,
                             uint64_t backed);
/* To a socket: by its path, or else, where `has_abstract`, by the abstract name of the same text without its secret. */
const char *output_connect(struct output *output, const char *path, bool has_abstract, struct window window,
                           int patience_ms);
/* Memory of zeros that another process can map. Nobody can change its size. If this process can't make it, the hub to
   which it is connected is asked for it, or null. */
const char *output_open_memory(struct output *output, struct window window, const struct output *hub, int patience_ms);
/* The same of memory that no other process can map. */
const char *output_open_plain(struct output *output, struct window window);
/* Keeps the descriptor of that memory, which is sent later. */
void output_keep_memory(struct output *memory);
/* Sends the first bytes of a socket, and with them the descriptor of that memory, which is closed here, and those of
   files, as long as there is room for them. */
const char *output_send_first(struct output *output, uint64_t length, struct output *memory, const int *files,
                              unsigned count, int patience_ms);
/* Backs a mapped file up to this length. */
const char *output_extend(struct output *output, uint64_t length);
/* Backs a part of a mapped file, which may leave a hole before it. */
const char *output_back(struct output *output, uint64_t offset, uint64_t length);
/* Puts plain memory in its place, and closes the descriptor. What it has stays; a file can be trimmed. */
void output_leave(struct output *output);
/* Cuts a mapped file to this length. */
void output_trim(struct output *output, uint64_t length);
/* Whether the process has closed the descriptor, or has another file there. Sending then returns this text. */
bool output_is_closed(const struct output *output);
extern const char output_closed[];
/* Moves the descriptor, if it has this number, which the process wants to have. */
void output_make_way(struct output *output, int number);
/* Sends the unsent ones of the first bytes: at once what a socket takes, or all of it, with patience. */
const char *output_send(struct output *output, uint64_t length, bool all, int patience_ms);
/* Whether the address lies in a mapped file. Then the file is gone, and plain memory takes its place. */
bool output_lose(struct output *output, const void *address);
/* Removes a file that turned out not to be needed. */
void output_discard(struct output *output);
/* Forgets an output: an unneeded one, or a parent's in its child. Plain memory takes its place, since a
   record may still be written there: a signal handler that forks may have interrupted that. */
void output_close(struct output *output);

#endif
