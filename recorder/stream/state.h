/* The state of the stream, its cursor, and its lock. Nothing else changes these; state.c has the diagram.

   There are three kinds of data, by who may touch them:
   - `STREAM` and `shared`: any thread, at any time, also in a signal handler. All of it is atomic.
   - `plan`: written before the state is RECORDING for the first time, and not afterwards. Who has seen that state, or a
     later one, reads it without the lock.
   - `locked` (locked.h): only who has the lock of the stream.

   Called: stream_state and the questions by any file, in any thread, also in a handler, without a lock; state_start
   by process/process.c; what changes the state by the files of stream/, as each function says. Who takes the lock by
   stream_lock, or the two beside it, in stream/ or for a fork in process/process.c, gives it back by stream_unlock;
   meanwhile all signals are blocked, except SIGBUS, and it is not cancelled. So a handler may wait for it. README.md
   has the order of all locks: this is the last. stream_rest and stream_waits_again are for who waits, in places.c
   and holes.c. */
#ifndef ASANCOL_STATE_H
#define ASANCOL_STATE_H

#include <stdatomic.h>
#include <stdbool.h>
#include <stddef.h>
#include <stdint.h>

#include "base/platform.h"
#include "common/format.h"
#include "environment/settings.h"
#include "stream/access.h"
#include "stream/telling.h"

enum state {
    STATE_UNSTARTED,
    STATE_STARTING,
    STATE_RECORDING,
    STATE_SWITCHING,
    STATE_SUSPENDED,
    STATE_AT_LIMIT,
    STATE_OFF,
    STATE_CLOSED
};

#define CURSOR_ON ((uint64_t)1 << 63)
#define CURSOR_EVENT ((uint64_t)1 << 32)

/* What each access reads: a page that shared objects know too. */
struct stream {
    /* CURSOR_ON, the number of events, the offset of the next record; without CURSOR_ON the stream is off. Who adds to
       it has taken the place of a record, and the order of these additions is that of the stream: so they are
       sequentially consistent. They also acquire what the stream was turned on with. */
    _Atomic uint64_t cursor;
    /* The next event that is unusual, as a part of the cursor: mostly that at the limit. Relaxed: who sees an old one
       looks at the cursor again in open_place, or is as many events before it as the other threads have written. */
    _Atomic uint64_t events_end;
    /* Below this offset bytes can be stored. Released once the file or the memory is there, acquired before a store. */
    _Atomic uint64_t ready;
    unsigned char *bytes; /* where offsets count from: the windows of streams (windows.h). A part of the plan. */
    /* Relaxed: hints, by which a bad access of a stream that is off is looked at or not. */
    _Atomic bool is_idle;    /* nothing is recorded, and nothing will be */
    _Atomic bool is_watched; /* each access is looked at for a fault, or by the clock */
    _Atomic bool has_side;   /* faults are noted */
    _Atomic unsigned window; /* in which the stream lies: another one from segment to segment */
    _Atomic unsigned segment; /* grows before the window changes, of which there are few */
};

/* Alone in its page, which is all zeros in a child after any kind of fork: there it is off. */
extern union stream_page {
    struct stream stream;
    unsigned char page[MOST_PAGE];
} stream_page OWN_NAME(stream_page);

#define STREAM (&stream_page.stream)

/* Where the trace goes. */
enum way {
    WAY_FILE,   /* mapped: it goes on in other files, and can be cut */
    WAY_PIECES, /* a pipe, or a file that can't be mapped */
    WAY_SOCKET, /* of one process */
    WAY_HUB     /* which has a connection of each segment */
};

extern struct plan {
    const struct settings *settings;
    enum way way;
} plan;

static inline bool is_file(void)
{
    return plan.way == WAY_FILE;
}

static inline bool is_hub(void)
{
    return plan.way == WAY_HUB;
}

/* Whether it goes on in another stream at its limit: in another file, or in another connection to the hub. */
static inline bool has_segments(void)
{
    return plan.settings->segments != 0 && (is_file() || is_hub());
}

/* Sequentially consistent where nothing else is said: each is a flag that is rarely written. */
extern struct shared {
    _Atomic bool is_side_full;
    _Atomic uint64_t sent_at;      /* nanoseconds of the coarse clock: when a socket got what there was; relaxed */
    _Atomic unsigned sent_at_once; /* how often, since then; relaxed */
    _Atomic uint64_t stop;         /* the event to stop at; 0: none, or no more */
    _Atomic uint64_t seen_events;  /* of this segment, that were seen to be whole; relaxed */
    _Atomic uint64_t left_out;     /* events past the limit, not said yet; relaxed */
    _Atomic bool is_cut;           /* some of it from this segment */
    _Atomic bool has_missed;       /* events of other threads, while an exec was tried */
    _Atomic bool is_closing;       /* an exit has begun: the stream may end after any record from now on, */
    _Atomic bool has_close;        /* so each has the close after it, in a file */
    _Atomic bool is_late;          /* something bad came after the close */
    _Atomic bool is_closed_off;    /* the process has closed the descriptor: the next record begins a segment */
    _Atomic unsigned segments_begun; /* of this process, and of those that have forked it */
} shared;

/* The first byte of a granule in a block's span whose shadow byte is another one than the block leaves there. */
struct difference {
    uint64_t granule; /* 0: there is none */
    unsigned char shade, left;
};

struct nearest;
struct found;

/* What the stream needs of what stands on it: the allocator, and the process. */
struct above {
    void (*lock_heap)(void);
    void (*unlock_heap)(void);
    bool (*is_in_heap)(void); /* this thread */
    /* Records the contents of the heap, in at most this many events. It is locked. */
    void (*snapshot)(uint64_t most_held, uint64_t room);
    /* How many bytes of freed blocks are held from now on; at any time. */
    void (*hold)(uint64_t bytes);
    /* The process poisons a part of a block. */
    void (*poisons_in_heap)(void);
    /* Completes the circumstances of a bad access to the allocator's memory (stream/saying.h), or of a bad free, or is
       false if a block is in use there (heap/finding.h). At any time. */
    void (*find_state)(struct found *found);
    bool (*find_freed)(uint64_t address, struct found *found);
    /* Where the shadow of the block at an address differs from its notes (heap/differing.h). At any time. */
    struct difference (*find_difference)(uint64_t address);
    /* Starts the recorder. False: not here, or not yet. */
    bool (*start)(void);
    /* Says that a child is not recorded, which no fork has announced. */
    void (*say_child)(void);
    /* Adds to a list what this map of modules has that was not checked (process/unchecked.h has the locks). */
    void (*list_unchecked)(char *list, const char *maps);
    /* What else that list is made of: it is another number if the list may be another one. */
    uint64_t (*unchecked_state)(void);
    /* The block nearest to an address (heap/arena.h). */
    bool (*find_nearest)(uintptr_t address, struct nearest *found);
    /* A shadow byte of a granule, without the allocator's poison (heap/heap.h). */
    unsigned char (*shade_of)(uint64_t granule, unsigned char shade);
    /* Whether an address in a block is in this frame or above it, on the same stack. */
    bool (*has_frame)(uintptr_t frame, uintptr_t address);
    /* Whether it is on the thread's own stack, and on no other that lies in an array there. */
    bool (*is_own_frame)(uintptr_t frame);
    /* Ends the recording and the process, unless another thread is doing so: then it returns. */
    void (*halt_at)(enum code code, unsigned width, uint64_t address, uintptr_t caller, struct access *whole);
    /* Tells the program and the run, now or once this thread has left the allocator. */
    void (*tell)(const struct told *told);
    void (*tell_waiting)(void);
};

extern const struct above above OWN_NAME(above); /* start.c */

/* Whether the process ends at the first access or free that the shadow flags. */
extern _Atomic bool halt_is_on OWN_NAME(halt_is_on);

/* Lean recording: good mallocs and frees are left out, and poison in blocks. What a bad access or free has to
   find is stated beside it (stream/group.h). It changes with the heap locked. */
extern _Atomic bool lean_is_on OWN_NAME(lean_is_on);

static inline bool is_lean(void)
{
    return atomic_load_explicit(&lean_is_on, memory_order_relaxed);
}

/* The state. */

enum state stream_state(void);

/* Whoever sees it on sees also all earlier stores: whether faults are noted, and where. */
static inline bool is_on(void)
{
    return (atomic_load_explicit(&STREAM->cursor, memory_order_acquire) & CURSOR_ON) != 0;
}

/* UNSTARTED to STARTING. False: that was done. */
bool state_start(void);
/* From this state to RECORDING, with this many events up to `checked`. False: the stream was lost meanwhile. The lock
   is held, or there is no other thread yet. */
bool state_record(enum state from);
/* From RECORDING to another state. Answers the cursor that it had; 0: it was in another one. The lock is held, or this
   thread is undisturbed. */
uint64_t state_leave(enum state to);
/* From SWITCHING or SUSPENDED to another state, unless the stream was lost meanwhile. The lock is held. */
void state_go(enum state to);
/* To OFF, from any state. Answers the cursor that it had. At any time. */
uint64_t state_lose(void);
/* In a child after a fork, which has its parent's state and a cursor of zeros; or at a start that records nothing. */
void state_forget(void);

/* The fast path looks at one number: that of the event to stop at, as long as the process has not come there. An atomic
   store, with the lock as a segment begins, or without by places.c. */
void state_set_events_end(uint64_t stop);

/* The lock. Who has it is undisturbed. */

void stream_lock(void);
void stream_unlock(void);
/* How long to wait for another thread. */
enum patience { NONE, SHORT, LONG };
/* Takes the lock if it is free, or if it comes free by then. */
bool stream_lock_at_once(void);
bool stream_lock_within(enum patience patience); /* with NONE never */
/* Waits a little, the longer the more often this thread has looked. Nobody is cancelled here. */
void stream_rest(int looks);
/* The same, if there was not enough of it. */
bool stream_waits_again(int looks, enum patience patience);

#endif
