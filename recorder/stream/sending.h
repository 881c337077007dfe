/* What a socket or a pipe is given, before the end.

   Called: sending_begin by opening.c, with the stream's lock or before there is a stream; sending_push and
   sending_try by growing.c with it. The rest in any thread, also in a handler, without it: sending_is_cut by
   watched.c before a bad access or free is looked at, and stream_look_at_clock by watched.c, regions.c, findings.c
   and process/process.c after a record, take it if it is free, and wait a while for it at an exit alone;
   stream_send_events by process/showing.c takes it again and again. stream_hang_up by process/root.c and
   process/halt.c, as the process ends, takes none. stream_make_way by checks of calls (interface/hooks.def) takes it if
   it is free. */
#ifndef ASANCOL_SENDING_H
#define ASANCOL_SENDING_H

#include <stdbool.h>
#include <stdint.h>

/* A stream begins, of which nothing was sent but its header. */
void sending_begin(void);
/* Gives it the whole pieces, as far as it takes them, or everything. Answers null, or what went wrong. */
const char *sending_push(bool all);
/* Whether the process has closed the descriptor, so that it is better to go on in another segment now. `is_of_heap`:
   all of the allocator is the caller's, as at a bad free. Else a thread that is inside the allocator gets false, since
   a handler has interrupted it there. */
bool sending_is_cut(bool is_of_heap);
/* Makes the calls that a send makes, with nothing to do: a sandbox may end the process at one of them, and then it is
   known that the recorder made it. */
void sending_try(void);
/* After a record: gives a socket what there is, if it is time for it; or at once, but only so often. */
void stream_look_at_clock(bool at_once);
/* Gives the hub the stream up to this event, with this patience, which grows less. False: it does not have it yet. */
bool stream_send_events(uint64_t events, int *patience_ms);
/* The program is about to have another file at this number: if it is the connection's, that gets another one. */
void stream_make_way(int descriptor);
/* Nothing more comes of a stream that has ended: the hub need not wait for the end of the process. */
void stream_hang_up(void);

#endif
