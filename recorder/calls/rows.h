/* The words of the rows of calls.def, and what a row becomes: a stub and a check. Formats have theirs in words.h.

   Called: a check by its stub, in the program's call, in any thread, and in a signal handler where the program may make
   that call there; no lock of the recorder's is held (calls.h). */
#ifndef ASANCOL_ROWS_H
#define ASANCOL_ROWS_H

#include "calls/stubs.h"
#include "interface/hooks.h"
#include "stacks/cfi.h"

/* The reads and writes. */

#define READS(start, size) call_checks(CODE_LOAD, start, (size_t)(size), call)
#define WRITES(start, size) call_checks(CODE_STORE, start, (size_t)(size), call)
#define MOVES(to, from, size) call_checks_move(to, from, (size_t)(size), call)
#define GOOD(start, size) shadow_is_clean_short((uintptr_t)(start), (size_t)(size))
#define GOOD_BOTH(one, other, size) (GOOD(one, size) && GOOD(other, size))
#define GOOD_COPY(to, from, size) (GOOD_BOTH(to, from, size) && call_is_apart(to, from, size))
#define READS_FIRST(start) READS(start, 1)
#define READS_ARRAY(start, count, size) call_checks_array(CODE_LOAD, start, (size_t)(count), size, call)
#define WRITES_ARRAY(start, count, size) call_checks_array(CODE_STORE, start, (size_t)(count), size, call)
#define READS_STRING(text) call_checks_string(CODE_LOAD, text, call)
#define WRITES_STRING(text) call_checks_string(CODE_STORE, text, call)
#define READS_TEXT(text, size) call_checks_text(text, (size_t)(size), call)
#define GIVES_STRING(text) text = call_gives(text, call)
#define GIVEN_WITHIN(text, most) LEAST(call_text_there(text), most)
#define IS_THERE(start) call_is_there(start, sizeof *(start))
#define READS_WIDE(text) call_checks_wide(CODE_LOAD, text, call)
#define WRITES_WIDE(text) call_checks_wide(CODE_STORE, text, call)

#define APART(to, size_to, from, size_from) call_checks_apart(to, size_to, from, size_from, call)
#define APART_OR_SAME(to, from, size)                                                                                  \
    if (UNLIKELY((to) != (from)))                                                                                      \
    APART(to, size, from, size)

#define APART_WITHIN(to, from, most) APART(to, LENGTH_WITHIN(from, most), from, LENGTH_WITHIN(from, most))

#define READS_HEADS(pieces, count) READS_ARRAY(pieces, LEAST(count, IOV_MAX), sizeof *(pieces))
#define WRITES_PIECES(pieces, count, size) pieces_check(CODE_STORE, pieces, (size_t)(count), 0, (size_t)(size), call)
#define SENDS(start, size) size_t good = good_length(start, size)
#define SENT(start, size)                                                                                              \
    if (UNLIKELY((size_t)(size) > good) && GOT)                                                                        \
        call_checks_after(CODE_LOAD, start, (size_t)(size), good, call)
#define SENDS_PIECES(pieces, count) size_t good = good_pieces(pieces, (size_t)(count))
#define SENT_PIECES(pieces, count, size)                                                                               \
    if (UNLIKELY((size_t)(size) > good) && GOT)                                                                        \
        pieces_check(CODE_LOAD, pieces, (size_t)(count), good, (size_t)(size), call)

#define FITS(start, size, room)                                                                                        \
    if (UNLIKELY((size_t)(size) > (size_t)(room)))                                                                     \
        WRITES(start, size)
#define FITS_ARRAY(start, count, room)                                                                                 \
    if (UNLIKELY((size_t)(count) > (size_t)(room)))                                                                    \
        WRITES_ARRAY(start, count, sizeof *(start))

#define GOT (result > 0)
#define DONE (result == 0)
#define LEAST(one, other) least((size_t)(one), (size_t)(other))
#define PRODUCT(count, size) product((size_t)(count), (size_t)(size))
#define BEGINS(path, environment)                                                                                      \
    const struct target target = {path, 0, true, environment};                                                         \
    bool is_expected = ask_child_becoming(&target)
#define HAS_BEGUN(child)                                                                                               \
    if (is_expected)                                                                                                   \
        note_child_number(DONE && (child) != NULL ? *(child) : 0)
#define ASKS_HOW(type, place) type how_here, *how = (place) != NULL ? (place) : &how_here
#define HAS_ENDED(child, status) note_ended((int)(child), status)
#define HAS_ENDED_BY(information)                                                                                      \
    if ((information)->si_code == CLD_KILLED || (information)->si_code == CLD_DUMPED)                                  \
        note_child_killed((information)->si_pid, (information)->si_status)
#define WAITS(process, flags)                                                                                          \
    if (((unsigned)(flags) & (__WALL | (unsigned)__WCLONE)) != 0 && (process) <= 0)                                    \
        note_waits_for_all()
#define NOT_OURS(file) file = ask_shown_descriptor(file)
#define NAMES_THREAD(thread, name) note_thread_name(thread, name)
#define ALLOCATES note_called_from(call.caller)
#define ALLOCATED note_called_from(0)

#define SIZE_TO(start, end, otherwise)                                                                                 \
    ((end) != NULL ? (size_t)((const char *)(end) - (const char *)(start)) : (size_t)(otherwise))
#define LENGTH_WITHIN(text, most) length_within(text, most)
#define WIDE_LENGTH_WITHIN(text, most) wide_length_within(text, most)

/* The rows. */

#define CALL(name, type, parameters, arguments, before, after)                                                         \
    REAL(type, name, parameters);                                                                                      \
    STUB(name)                                                                                                         \
    CHECK type checked_##name parameters                                                                               \
    {                                                                                                                  \
        IS_OWN_FRAME;                                                                                                  \
        struct call call = THIS_CALL(#name);                                                                           \
        before;                                                                                                        \
        type result = real_##name arguments;                                                                           \
        after;                                                                                                         \
        (void)call;                                                                                                    \
        return result;                                                                                                 \
    }

/* If `good` holds it has looked at all that the rest looks at, and the function is called from where this was: without
   a frame, and with nothing kept. */
#define QUICK(name, type, parameters, arguments, good, before, after)                                                  \
    REAL(type, name, parameters);                                                                                      \
    STUB(name)                                                                                                         \
    __attribute__((noinline)) static type checked_all_of_##name parameters                                             \
    {                                                                                                                  \
        IS_OWN_FRAME;                                                                                                  \
        struct call call = THIS_CALL(#name);                                                                           \
        before;                                                                                                        \
        type result = real_##name arguments;                                                                           \
        after;                                                                                                         \
        (void)call;                                                                                                    \
        return result;                                                                                                 \
    }                                                                                                                  \
    CHECK type checked_##name parameters                                                                               \
    {                                                                                                                  \
        IS_OWN_FRAME;                                                                                                  \
        return LIKELY(good) ? real_##name arguments : checked_all_of_##name arguments;                                 \
    }

/* The same, after the call. */
#define QUICK_AFTER(name, type, parameters, arguments, good, before, after)                                            \
    REAL(type, name, parameters);                                                                                      \
    STUB(name)                                                                                                         \
    __attribute__((noinline)) static type checked_after_##name(type result, UNPACKED parameters)                       \
    {                                                                                                                  \
        IS_OWN_FRAME;                                                                                                  \
        struct call call = THIS_CALL(#name);                                                                           \
        (void)sizeof real_##name arguments;                                                                            \
        after;                                                                                                         \
        return result;                                                                                                 \
    }                                                                                                                  \
    CHECK type checked_##name parameters                                                                               \
    {                                                                                                                  \
        IS_OWN_FRAME;                                                                                                  \
        type result = real_##name arguments;                                                                           \
        return LIKELY(good) ? result : checked_after_##name(result, UNPACKED arguments);                               \
    }

#define NO_RESULT(name, parameters, arguments, before, after)                                                          \
    REAL(void, name, parameters);                                                                                      \
    STUB(name)                                                                                                         \
    CHECK void checked_##name parameters                                                                               \
    {                                                                                                                  \
        IS_OWN_FRAME;                                                                                                  \
        struct call call = THIS_CALL(#name);                                                                           \
        before;                                                                                                        \
        real_##name arguments;                                                                                         \
        after;                                                                                                         \
        (void)call;                                                                                                    \
    }

#define LOCK(name, parameters, bytes)                                                                                  \
    REAL(int, name, parameters);                                                                                       \
    STUB_OF_LOCK(name, bytes)                                                                                          \
    CHECK int checked_##name parameters                                                                                \
    {                                                                                                                  \
        _Static_assert(sizeof *lock == bytes, "as the stub has it");                                                   \
        IS_OWN_FRAME;                                                                                                  \
        struct call call = THIS_CALL(#name);                                                                           \
        WRITES(lock, sizeof *lock);                                                                                    \
        return real_##name(lock);                                                                                      \
    }

#endif
