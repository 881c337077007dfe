/* What sanitizer/linux_syscall_hooks.h declares. A program that calls the system by itself says so before the call and
   after it: what system_hooks.def says of that call is checked as of one of the C library, whose name begins with
   "sys_".

   One member of the library, that comes in only if it is asked for.

   Called: by the program, in any thread, also in a signal handler. Lock: as calls.h says. */
#define _GNU_SOURCE
#include <linux/aio_abi.h>
#include <linux/netlink.h>
#include <sys/ipc.h>
#include <sys/msg.h>

#include "calls/words.h"

#ifdef IN_SHARED_OBJECT
#define SHOWN __attribute__((weak)) /* hidden: each shared object calls its own */
#else
#define SHOWN REPLACES
#endif

/* As the system has them. */
enum { SIGNALS_BYTES = 8, ACTION_BYTES = 32, USTAT_BYTES = 32, OLD_NAME_BYTES = 9, LEAST_EVENT_BYTES = 64 };

/* The words. Each is one call, since there are hundreds. */

/* Whether the program may have memory there: none is at null or in the recorder's maps. The shadow has no shadow. */
static bool may_be_there(long start)
{
    return start != 0 && !is_in_shadow((uintptr_t)start);
}

static __attribute__((noinline)) void reads(long start, size_t size, struct call call)
{
    if (may_be_there(start))
        READS((const void *)start, size);
}

static __attribute__((noinline)) void writes(long start, size_t size, struct call call)
{
    if (may_be_there(start))
        WRITES((const void *)start, size);
}

static __attribute__((noinline)) void reads_array(long start, long count, size_t size, struct call call)
{
    if (may_be_there(start) && count > 0)
        READS_ARRAY((const void *)start, count, size);
}

static __attribute__((noinline)) void writes_array(long start, long count, size_t size, struct call call)
{
    if (may_be_there(start) && count > 0)
        WRITES_ARRAY((const void *)start, count, size);
}

/* The heads, or what they point to. The system refuses more of them, and a size below zero. */
static __attribute__((noinline)) void reads_pieces(long start, long count, bool is_whole, struct call call)
{
    const struct iovec *pieces = (const struct iovec *)start;
    long few = count <= IOV_MAX ? count : 0;
    if (!is_whole) {
        reads_array(start, few, sizeof *pieces, call);
        return;
    }
    for (long i = 0; i < few && IS_THERE(&pieces[i]) && pieces[i].iov_len <= PTRDIFF_MAX; i++)
        reads((long)pieces[i].iov_base, pieces[i].iov_len, call);
}

static __attribute__((noinline)) void writes_pieces(long start, long count, size_t size, struct call call)
{
    WRITES_PIECES((const struct iovec *)start, count, size);
}

/* One that goes out, or only its parts, into which one comes. */
static __attribute__((noinline)) void reads_whole_message(const struct msghdr *message, struct call call)
{
    struct msghdr head = head_of(message);
    if (may_be_there((long)message))
        reads_message(message, call);
    reads_pieces((long)head.msg_iov, (long)head.msg_iovlen, true, call);
}

HELPER static void reads_parts(const struct msghdr *message, struct call call)
{
    struct msghdr head = head_of(message);
    reads((long)message, sizeof *message, call);
    reads_pieces((long)head.msg_iov, (long)head.msg_iovlen, false, call);
}

HELPER static void reads_whole_messages(const struct mmsghdr *messages, unsigned count, struct call call)
{
    reads_array((long)messages, (long)least(count, MOST_MESSAGES), sizeof *messages, call);
    for (unsigned i = 0; i < count && i < MOST_MESSAGES && IS_THERE(&messages[i]); i++)
        reads_whole_message(&messages[i].msg_hdr, call);
}

HELPER static void writes_parts(const struct msghdr *message, size_t size, struct call call)
{
    if (IS_THERE(message))
        writes_message(message, 0, size, call);
}

HELPER static void writes_messages(const struct mmsghdr *messages, long count, struct call call)
{
    for (long i = 0; i < count && IS_THERE(&messages[i]); i++) {
        WRITES(&messages[i].msg_len, sizeof messages[i].msg_len);
        writes_message(&messages[i].msg_hdr, 0, messages[i].msg_len, call);
    }
}

/* Bytes that go out. Those that come in are written at any time. */
HELPER static void reads_blocks(struct iocb *const *blocks, long count, struct call call)
{
    reads_array((long)blocks, count, sizeof *blocks, call);
    for (long i = 0; i < count && IS_THERE(&blocks[i]); i++) {
        const struct iocb *block = blocks[i];
        reads((long)block, sizeof *block, call);
        if (!IS_THERE(block))
            continue;
        if (block->aio_lio_opcode == IOCB_CMD_PWRITE)
            reads((long)block->aio_buf, block->aio_nbytes, call);
        if (block->aio_lio_opcode == IOCB_CMD_PWRITEV || block->aio_lio_opcode == IOCB_CMD_PREADV)
            reads_pieces((long)block->aio_buf, (long)block->aio_nbytes, false, call);
        if (block->aio_lio_opcode == IOCB_CMD_PWRITEV)
            reads_pieces((long)block->aio_buf, (long)block->aio_nbytes, true, call);
    }
}

/* As poll does, which refuses more. */
HELPER static void checks_polled(enum code code, long files, long count, struct call call)
{
    if (may_be_there(files) && (unsigned)count <= MOST_FILES)
        checks_files(code, (struct pollfd *)files, (unsigned)count, call);
}

HELPER static size_t length_at(const socklen_t *length)
{
    return IS_THERE(length) ? *length : 0;
}

/* The system refuses one that is longer. */
HELPER static size_t handle_bytes(const struct file_handle *handle)
{
    unsigned length = IS_THERE(handle) ? handle->handle_bytes : 0;
    return sizeof *handle + (length <= MAX_HANDLE_SZ ? length : 0);
}

HELPER static size_t rights_bytes(const struct __user_cap_header_struct *head)
{
    return IS_THERE(head) ? sets_of_version(head->version) * sizeof(struct __user_cap_data_struct) : 0;
}

/* It says its own size in its second word. */
HELPER static size_t event_bytes(const uint32_t *event)
{
    size_t size = call_is_there(event, 2 * sizeof *event) ? event[1] : 0;
    return size > LEAST_EVENT_BYTES && size <= SYSTEM_PAGE ? size : LEAST_EVENT_BYTES;
}

/* Whole words of a set of nodes, which the system takes for one shorter than is said. */
HELPER static size_t nodes_bytes(long count)
{
    enum { WORD = CHAR_BIT * sizeof(long) };
    bool is_taken = count > 1 && (size_t)count <= SYSTEM_PAGE * CHAR_BIT;
    return is_taken ? ((size_t)count - 1 + WORD - 1) / WORD * sizeof(long) : 0;
}

/* What has come in. With MSG_TRUNC a stream drops its bytes, and writes none. */
HELPER static size_t received(long result, long flags)
{
    return flags & MSG_TRUNC ? 0 : (size_t)result;
}

/* Whether an option's length is that of all its data, although less may be written. */
HELPER static bool says_whole_length(long level, long option)
{
    return (int)level == SOL_NETLINK && (int)option == NETLINK_LIST_MEMBERSHIPS;
}

HELPER static void writes_peeked(int request, long with, struct call call)
{
    if (request == PTRACE_PEEKTEXT || request == PTRACE_PEEKDATA || request == PTRACE_PEEKUSER)
        writes(with, sizeof(long), call);
    else
        writes_traced(request, (void *)with, call);
}

#define IN(n, size) reads(a##n, (size_t)(size), call)
#define OUT(n, size) writes(a##n, (size_t)(size), call)
#define IN_ARRAY(n, count, size) reads_array(a##n, (long)(count), size, call)
#define OUT_ARRAY(n, count, size) writes_array(a##n, (long)(count), size, call)
#define STRING(n) call_gives((const char *)a##n, call)
#define OUT_STRING(n) WRITES_STRING((const char *)a##n)
#define PIECES(n, count) reads_pieces(a##n, count, false, call)
#define IN_PIECES(n, count) reads_pieces(a##n, count, true, call)
#define OUT_PIECES(n, count, size) writes_pieces(a##n, count, (size_t)(size), call)
#define PARTS(n) reads_parts((const struct msghdr *)a##n, call)
#define IN_MESSAGE(n) reads_whole_message((const struct msghdr *)a##n, call)
#define IN_MESSAGES(n, count) reads_whole_messages((const struct mmsghdr *)a##n, (unsigned)(count), call)
#define OUT_MESSAGE(n, size) writes_parts((const struct msghdr *)a##n, (size_t)(size), call)
#define OUT_MESSAGES(n, count) writes_messages((const struct mmsghdr *)a##n, count, call)
#define OUT_OPTION(n, length) OUT(n, length_at((const socklen_t *)a##length))
#define BLOCKS(n, count) reads_blocks((struct iocb *const *)a##n, count, call)
#define SET(n) reads_set(may_be_there(a##n) ? (const void *)a##n : NULL, (int)a1, call)
#define FILES(n, count) checks_polled(CODE_LOAD, a##n, count, call)
#define OUT_FILES(n, count) checks_polled(CODE_STORE, a##n, count, call)
#define SIGNALS(n, size) IN(n, (size) == SIGNALS_BYTES ? SIGNALS_BYTES : 0)
#define HANDLE(n) IN(n, handle_bytes((const struct file_handle *)a##n))
#define OUT_HANDLE(n) OUT(n, handle_bytes((const struct file_handle *)a##n))
#define RIGHTS(n) rights_bytes((const struct __user_cap_header_struct *)a##n)
#define EVENT(n) IN(n, event_bytes((const uint32_t *)a##n))
#define NODES(n) nodes_bytes(a##n)
#define IN_TRACED(n, request) reads_traced((int)(request), may_be_there(a##n) ? (const void *)a##n : NULL, call)
#define OUT_TRACED(n, request) writes_peeked((int)(request), a##n, call)
#define WITHIN(n, most) ((int)a##n > 0 && (unsigned)a##n <= (most) ? (unsigned)a##n : 0)

/* The hooks. Those that check nothing are one empty function. */

#ifdef IN_SHARED_OBJECT
#define HIDDEN(name) ".hidden " name "\n"
#else
#define HIDDEN(name)
#endif

#define NAME_OF(moment, name) "__sanitizer_syscall_" #moment "_impl_" #name
#define LABEL(name) ".weak " name "\n" HIDDEN(name) ".type " name ",@function\n" name ":\n"
#define NONE(name) LABEL(NAME_OF(pre, name)) LABEL(NAME_OF(post, name))
#define PRE(name, before) LABEL(NAME_OF(post, name))
#define POST(name, after) LABEL(NAME_OF(pre, name))
#define HOOK(name, before, after)

/* The text is longer than each compiler of the language has to take. */
#pragma GCC diagnostic ignored "-Woverlength-strings"

TOP_ASM(".pushsection .text\n"
#include "calls/system_hooks.def"
        "\t.cfi_startproc\n" LANDING RETURN "\t.cfi_endproc\n"
        ".popsection\n");

#undef NONE
#undef PRE
#undef POST
#undef HOOK

#define ARGUMENTS HELPER long a1, HELPER long a2, HELPER long a3, HELPER long a4, HELPER long a5, HELPER long a6
#define FUNCTION(moment, name, parameters, is_done, what)                                                              \
    SHOWN void __sanitizer_syscall_##moment##_impl_##name parameters;                                                  \
    void __sanitizer_syscall_##moment##_impl_##name parameters                                                         \
    {                                                                                                                  \
        IS_OWN_FRAME;                                                                                                  \
        struct call call = THIS_CALL("sys_" #name);                                                                    \
        if (HAS_HOOKS && is_done) {                                                                                    \
            what;                                                                                                      \
        }                                                                                                              \
    }
#define NONE(name)
#define PRE(name, before) FUNCTION(pre, name, (ARGUMENTS), true, before)
#define POST(name, after) FUNCTION(post, name, (long result, ARGUMENTS), result >= 0, after)
#define HOOK(name, before, after) PRE(name, before) POST(name, after)

#include "calls/system_hooks.def"
