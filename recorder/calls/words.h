/* The words of calls.def that are more than those of rows.h, and the rows of formats. Each group of rows is compiled by
   itself (group.c) and uses some of them. A call that is clean leaves no record, and errno is as the function leaves
   it.

   Called: as rows.h says, each helper by the checks of the rows that have its word, or by system_hooks.c: in the same
   thread, and as a check in a handler or not. No lock; but byte_of and letter_of take that of a FILE, in the C
   library. */
#ifndef ASANCOL_WORDS_H
#define ASANCOL_WORDS_H

#include <aio.h>
#include <arpa/inet.h>
#include <dirent.h>
#include <errno.h>
#include <fcntl.h>
#include <ftw.h>
#include <getopt.h>
#include <glob.h>
#include <grp.h>
#include <ifaddrs.h>
#include <limits.h>
#include <linux/capability.h>
#include <linux/seccomp.h>
#include <mntent.h>
#include <mqueue.h>
#include <net/if.h>
#include <netdb.h>
#include <netinet/ether.h>
#include <poll.h>
#include <pthread.h>
#include <pwd.h>
#include <regex.h>
#include <sched.h>
#include <semaphore.h>
#include <signal.h>
#include <spawn.h>
#include <stdarg.h>
#include <stdio.h>
#include <stdlib.h>
#include <sys/epoll.h>
#include <sys/ioctl.h>
#include <sys/prctl.h>
#include <sys/ptrace.h>
#include <sys/resource.h>
#include <sys/select.h>
#include <sys/sem.h>
#include <sys/shm.h>
#include <sys/socket.h>
#include <sys/stat.h>
#include <sys/statfs.h>
#include <sys/statvfs.h>
#include <sys/sysinfo.h>
#include <sys/time.h>
#include <sys/timeb.h>
#include <sys/times.h>
#include <sys/timex.h>
#include <sys/user.h>
#include <sys/utsname.h>
#include <sys/wait.h>
#include <termios.h>
#include <threads.h>
#include <time.h>
#include <unistd.h>
#include <utime.h>
#include <utmpx.h>
#include <wordexp.h>

#include "libc/library.h"
#include "calls/calls.h"
#include "calls/rows.h"
#include "interface/hooks.h"

#define HELPER __attribute__((unused))

/* How many bytes of two ranges are compared: all, or with strict_memcmp=0 up to the first that differ. */
HELPER static size_t compared(const void *one, const void *other, size_t size)
{
    const unsigned char *first = one, *second = other;
    size_t same = 0;
    if (LIKELY(!HOOK_PAGE->switches.has_short_memcmp))
        return size;
    while (same < size && first[same] == second[same])
        same++;
    return least(same + 1, size);
}

#define COMPARED(one, other, size) compared(one, other, size)

/* A filter of system calls. */
#define BEGINS_FILTER(option, mode, program)                                                                           \
    const struct filter *copy =                                                                                        \
        option != PR_SET_SECCOMP                                                                                       \
            ? NULL                                                                                                     \
            : ask_filter_copied((uintptr_t)mode == SECCOMP_MODE_STRICT, (const void *)(uintptr_t)program)
#define ENDS_FILTER                                                                                                    \
    if (copy != NULL)                                                                                                  \
    note_filter_ends(copy, DONE, false)

/* A string that is put after another one. */

/* A text of `before` bytes and the `after` bytes that are put after it must have none of the bytes that are copied. Of
   the text, what lies before the copied bytes is not noted: a finding has one size, that of the copied ones. */
HELPER static void appended_apart(const char *to, size_t before, size_t after, const void *from, size_t size,
                                  struct call call)
{
    uintptr_t start = (uintptr_t)to, copied = (uintptr_t)from;
    size_t skipped = copied <= start ? 0 : copied - start < before ? copied - start : before;
    APART(to + skipped, before - skipped + after, from, size);
}

HELPER static void appends(const char *to, const char *from, size_t most, struct call call)
{
    size_t length = strlen(to), read = most == SIZE_MAX ? strlen(from) + 1 : length_within(from, most);
    READS(to, length + 1);
    READS(from, read);
    size_t written = read == 0 || from[read - 1] != 0 ? read + 1 : read;
    WRITES(to + length, written);
    if (read != 0 && from[0] != 0)
        appended_apart(to, length, written, from, read, call);
}

HELPER static void wide_appends(const wchar_t *to, const wchar_t *from, size_t most, struct call call)
{
    size_t length = wcslen(to), read = most == SIZE_MAX ? wcslen(from) + 1 : wide_length_within(from, most);
    READS_ARRAY(to, length + 1, sizeof *to);
    READS_ARRAY(from, read, sizeof *from);
    size_t written = read == 0 || from[read - 1] != 0 ? read + 1 : read;
    WRITES_ARRAY(to + length, written, sizeof *to);
    if (read != 0 && from[0] != 0)
        appended_apart((const char *)to, length * sizeof *to, written * sizeof *to, from, read * sizeof *from, call);
}

#define APPENDS(to, from, most) appends(to, from, most, call)
#define WIDE_APPENDS(to, from, most) wide_appends(to, from, most, call)

/* Both strings are read up to the first difference or the end. */

HELPER static int as_it_is(int byte)
{
    return byte;
}

HELPER static int lowered(int byte)
{
    return byte >= 'A' && byte <= 'Z' ? byte + ('a' - 'A') : byte;
}

/* Whether a block lies in one page, so that it can be read also past the end of a string. */
HELPER static bool is_in_page(const char *at)
{
    return ((uintptr_t)at & (PAGE - 1)) <= PAGE - sizeof(bytes16);
}

enum { BLOCK = sizeof(bytes16) };

/* Of two blocks a bit for each byte that differs or is an end. */
HELPER __attribute__((no_sanitize("address"))) static inline unsigned stops_in_block(const char *one, const char *other)
{
    return bytes16_same_text(bytes16_load(one), bytes16_load(other)) ^ ((1 << BLOCK) - 1);
}

/* How many of the first bytes are the same in both and not zero, at most this many. It ends also where a page does. */
HELPER static size_t same_front(const char *one, const char *other, size_t most)
{
    size_t same = 0;
    for (; same < most && is_in_page(one + same) && is_in_page(other + same); same += BLOCK) {
        unsigned stops = stops_in_block(one + same, other + same);
        if (stops != 0)
            return least(same + (unsigned)__builtin_ctz(stops), most);
    }
    return least(same, most);
}

/* Whether both strings are read no farther than one block, and all that is read is good: so bytes are read here, before
   the shadow, as in `compares`. */
INLINED bool good_comparison(const char *one, const char *other, size_t most)
{
    if (most == 0 || !is_in_page(one) || !is_in_page(other) || HAS_WHOLE_STRINGS)
        return false;
    unsigned stops = stops_in_block(one, other);
    if (UNLIKELY(stops == 0))
        return false;
    size_t read = least((size_t)(unsigned)__builtin_ctz(stops) + 1, most);
    return GOOD_BOTH(one, other, read);
}

/* A block is compared at each byte; if letters are folded at each sixteenth, since bytes may differ often then. */
static inline void compares(const char *one, const char *other, size_t most, int fold(int), struct call call)
{
    size_t read = 0;
    while (read < most) {
        if (fold == as_it_is || read % BLOCK == 0)
            read += same_front(one + read, other + read, most - read);
        if (read == most)
            break;
        unsigned char first = (unsigned char)one[read], second = (unsigned char)other[read];
        read++;
        if (first == 0 || fold(first) != fold(second))
            break;
    }
    bool is_whole = HAS_WHOLE_STRINGS;
    READS(one, is_whole ? length_within(one, most) : read);
    READS(other, is_whole ? length_within(other, most) : read);
}

HELPER static void wide_compares(const wchar_t *one, const wchar_t *other, size_t most, int fold(int), struct call call)
{
    size_t read = 0;
    while (read < most) {
        wchar_t first = one[read], second = other[read];
        read++;
        if (first == 0 || fold((int)first) != fold((int)second))
            break;
    }
    READS_ARRAY(one, read, sizeof *one);
    READS_ARRAY(other, read, sizeof *other);
}

#define GOOD_COMPARISON(one, other, most) good_comparison(one, other, most)
#define COMPARES(one, other, most) compares(one, other, most, as_it_is, call)
#define COMPARES_FOLDED(one, other, most) compares(one, other, most, lowered, call)
#define WIDE_COMPARES(one, other, most) wide_compares(one, other, most, as_it_is, call)
#define WIDE_COMPARES_FOLDED(one, other, most) wide_compares(one, other, most, lowered, call)

/* Numbers. Where there is none, blanks and a sign are read all the same. */

HELPER static bool is_blank(wchar_t letter)
{
    return letter == ' ' || (letter >= '\t' && letter <= '\r');
}

#define DEFINE_NUMBER_READ(name, type)                                                                                 \
    HELPER static size_t name(const type *text, const type *end)                                                       \
    {                                                                                                                  \
        if (end == NULL || end == text) {                                                                              \
            for (end = text; is_blank(*end);)                                                                          \
                end++;                                                                                                 \
            end += *end == '-' || *end == '+';                                                                         \
        }                                                                                                              \
        return ((size_t)(end - text) + 1) * sizeof *text;                                                              \
    }

DEFINE_NUMBER_READ(number_read, char)
DEFINE_NUMBER_READ(wide_number_read, wchar_t)

HELPER static void reads_digits(const char *text, struct call call)
{
    size_t read = number_read(text, text) - 1;
    while (text[read] >= '0' && text[read] <= '9')
        read++;
    READS_TEXT(text, read + 1);
}

HELPER static void reads_real(const char *text, struct call call)
{
    char *end;
    int before = errno;
    LIBRARY->strtod(text, &end);
    errno = before;
    READS_TEXT(text, number_read(text, end));
}

/* `end` is null where the base is none: then nothing was read. */
#define GIVES_END(end, rest)                                                                                           \
    if (end != NULL && rest != NULL) {                                                                                 \
        WRITES(rest, sizeof *rest);                                                                                    \
        *rest = end;                                                                                                   \
    }
#define READS_NUMBER(text, end, rest)                                                                                  \
    READS_TEXT(text, end != NULL ? number_read(text, end) : 0);                                                        \
    GIVES_END(end, rest)
#define READS_WIDE_NUMBER(text, end, rest)                                                                             \
    READS(text, end != NULL ? wide_number_read(text, end) : 0);                                                        \
    GIVES_END(end, rest)
#define READS_DIGITS(text) reads_digits(text, call)
#define READS_REAL(text) reads_real(text, call)

/* Addresses and messages of sockets, sets of files. */

#define ROOM(length)                                                                                                   \
    READS(length, sizeof *length);                                                                                     \
    socklen_t room = IS_THERE(length) ? *length : 0
#define WRITES_ADDRESS(address, length) WRITES(address, LEAST(*length, room))

/* The head of a message, or zeros where it is not there. */
HELPER static struct msghdr head_of(const struct msghdr *message)
{
    struct msghdr none = {0};
    return IS_THERE(message) ? *message : none;
}

HELPER static void reads_message(const struct msghdr *message, struct call call)
{
    READS(message, sizeof *message);
    if (!IS_THERE(message))
        return;
    READS_HEADS(message->msg_iov, message->msg_iovlen);
    READS(message->msg_name, message->msg_namelen);
    READS(message->msg_control, message->msg_controllen);
}

HELPER static void writes_message(const struct msghdr *message, size_t room, size_t size, struct call call)
{
    WRITES_PIECES(message->msg_iov, message->msg_iovlen, size);
    WRITES(message->msg_name, LEAST(message->msg_namelen, room));
    WRITES(message->msg_control, message->msg_controllen);
}

/* How many messages the system takes at once. */
enum { MOST_MESSAGES = 1024 };

HELPER static void reads_messages(const struct mmsghdr *messages, unsigned count, struct call call)
{
    READS_ARRAY(messages, count, sizeof *messages);
    for (unsigned i = 0; i < count && i < MOST_MESSAGES && IS_THERE(&messages[i]); i++)
        reads_message(&messages[i].msg_hdr, call);
}

/* The first message with a bad byte, or `count`. */
HELPER static unsigned first_bad_message(const struct mmsghdr *messages, unsigned count, size_t *good)
{
    for (unsigned i = 0; i < count && i < MOST_MESSAGES && IS_THERE(&messages[i]); i++) {
        const struct msghdr *message = &messages[i].msg_hdr;
        if ((*good = good_pieces(message->msg_iov, message->msg_iovlen)) != SIZE_MAX)
            return i;
    }
    return count;
}

#define SENDS_MESSAGES(messages, count)                                                                                \
    size_t good;                                                                                                       \
    unsigned wrong = first_bad_message(messages, count, &good)
#define SENT_MESSAGES(messages, count)                                                                                 \
    if (UNLIKELY(count > 0 && wrong < (unsigned)(count)))                                                              \
        pieces_check(CODE_LOAD, messages[wrong].msg_hdr.msg_iov, messages[wrong].msg_hdr.msg_iovlen, good,             \
                     messages[wrong].msg_len, call)
#define READS_MESSAGE(message) reads_message(message, call)
#define READS_MESSAGES(messages, count) reads_messages(messages, count, call)
#define WRITES_MESSAGE(message, room, size) writes_message(message, room, (size_t)(size), call)

/* The system reads whole words of a set. A count may be greater than what the set has room for. */
HELPER static void reads_set(const unsigned long *set, int count, struct call call)
{
    enum { WORD = NFDBITS };
    int hidden = ask_hidden_descriptor(0);
    if (count > 0)
        READS(set, (LEAST(count, FD_SETSIZE) + WORD - 1) / WORD * (WORD / CHAR_BIT));
    /* The recorder's own is to be none there, for which the call fails. */
    if (UNLIKELY(hidden < count) && IS_THERE(set + hidden / WORD) && (set[hidden / WORD] >> hidden % WORD & 1) != 0)
        note_descriptor_wanted(hidden);
}

#define READS_SET(set, count) reads_set(set, count, call)

/* How many files the system waits for at once. */
enum { MOST_FILES = 1 << 20 };

/* The awaited events, and the found ones. */
HELPER static void checks_files(enum code code, struct pollfd *files, nfds_t count, struct call call)
{
    for (nfds_t i = 0; i < count && i < MOST_FILES && files != NULL; i++) {
        if (code == CODE_LOAD)
            READS(&files[i], offsetof(struct pollfd, revents));
        else
            WRITES(&files[i].revents, sizeof files[i].revents);
    }
}

/* One of the recorder's own is none. Answers how many were found. */
HELPER static int shown_files(struct pollfd *files, nfds_t count, int found)
{
    int hidden = ask_hidden_descriptor(0);
    if (hidden == INT_MAX || files == NULL)
        return found;
    for (nfds_t i = 0; i < count && i < MOST_FILES; i++) {
        if (LIKELY(files[i].fd < hidden || ask_shown_descriptor(files[i].fd) >= 0))
            continue;
        found += files[i].revents == 0;
        files[i].revents = POLLNVAL;
    }
    return found;
}

#define READS_FILES(files, count) checks_files(CODE_LOAD, files, count, call)
#define WRITES_FILES(files, count)                                                                                     \
    if (result >= 0) {                                                                                                 \
        checks_files(CODE_STORE, files, count, call);                                                                  \
        result = shown_files(files, count, result);                                                                    \
    }

/* What a date says, without the day of the week and of the year. */
#define READS_DATE(time)                                                                                               \
    READS(time, offsetof(struct tm, tm_wday));                                                                         \
    READS(&(time)->tm_isdst, sizeof (time)->tm_isdst)

/* The state of a conversion, if the caller has one. */
#define READS_STATE(state) READS(state, sizeof(mbstate_t))
/* From the first byte as far as a conversion has come, which it says where it stores something; else it ends by
   itself. */
#define READS_TO(first, from, whole)                                                                                   \
    if (result != SIZE_MAX)                                                                                            \
    READS(first, to != NULL && *(from) != NULL ? (size_t)((const char *)*(from) - (const char *)(first)) : (whole))

/* Strings up to a null. Entries of databases begin with their name, and then have such a list. */
HELPER static void checks_list(enum code code, char *const *list, struct call call)
{
    for (; list != NULL; list++) {
        call_checks(code, list, sizeof *list, call);
        if (*list == NULL)
            return;
        call_checks_string(code, *list, call);
    }
}

/* One that the system reads. */
HELPER static void gives_list(char *const *list, struct call call)
{
    for (; list != NULL; list++) {
        READS(list, sizeof *list);
        if (!IS_THERE(list) || *list == NULL)
            return;
        call_gives(*list, call);
    }
}

#define GIVES_LIST(list) gives_list(list, call)

HELPER static void writes_name(const void *entry, struct call call)
{
    const struct protoent *it = entry;
    WRITES_STRING(it->p_name);
    checks_list(CODE_STORE, it->p_aliases, call);
}

HELPER static void writes_texts_of_group(const struct group *it, struct call call)
{
    WRITES_STRING(it->gr_name);
    WRITES_STRING(it->gr_passwd);
    checks_list(CODE_STORE, it->gr_mem, call);
}

HELPER static void writes_texts_of_host(const struct hostent *it, struct call call)
{
    writes_name(it, call);
    for (char **address = it->h_addr_list; address != NULL; address++) {
        WRITES(address, sizeof *address);
        if (*address == NULL)
            return;
        WRITES(*address, it->h_length);
    }
}

HELPER static void writes_mount(const struct mntent *it, struct call call)
{
    const char *const texts[] = {it->mnt_fsname, it->mnt_dir, it->mnt_type, it->mnt_opts};
    WRITES(it, sizeof *it);
    for (size_t i = 0; i < sizeof texts / sizeof *texts; i++)
        WRITES_STRING(texts[i]);
}

#define WRITES_MOUNT(to) writes_mount(to, call)

HELPER static void writes_texts_of_user(const struct passwd *user, struct call call)
{
    const char *const texts[] = {user->pw_name, user->pw_passwd, user->pw_gecos, user->pw_dir, user->pw_shell};
    for (size_t i = 0; i < sizeof texts / sizeof *texts; i++)
        WRITES_STRING(texts[i]);
}

#define WRITES_ENTRY(to, found, writes_texts)                                                                          \
    {                                                                                                                  \
        WRITES(found, sizeof *found);                                                                                  \
        if (DONE && *found != NULL) {                                                                                  \
            WRITES(to, sizeof *to);                                                                                    \
            writes_texts(to, call);                                                                                    \
        }                                                                                                              \
    }
#define WRITES_FOUND(to, found) WRITES_ENTRY(to, found, writes_name)
#define WRITES_GROUP(to, found) WRITES_ENTRY(to, found, writes_texts_of_group)
#define WRITES_HOST(to, found) WRITES_ENTRY(to, found, writes_texts_of_host)
#define WRITES_USER(to, found) WRITES_ENTRY(to, found, writes_texts_of_user)

/* What a request of ioctl reads and writes at its argument. Of a request that is not here nothing is known. */

/* The system's own `struct termios`. */
enum { TERMIOS_BYTES = 36 };

static const struct request {
    unsigned long number;
    size_t read, written;
} requests[] = {
    {FIONREAD, 0, sizeof(int)},
    {FIONBIO, sizeof(int), 0},
    {FIOASYNC, sizeof(int), 0},
    {TCGETS, 0, TERMIOS_BYTES},
    {TCSETS, TERMIOS_BYTES, 0},
    {TCSETSW, TERMIOS_BYTES, 0},
    {TCSETSF, TERMIOS_BYTES, 0},
    {TIOCGWINSZ, 0, sizeof(struct winsize)},
    {TIOCSWINSZ, sizeof(struct winsize), 0},
    {TIOCGPGRP, 0, sizeof(pid_t)},
    {TIOCSPGRP, sizeof(pid_t), 0},
    {TIOCOUTQ, 0, sizeof(int)},
    {TIOCGPTN, 0, sizeof(unsigned)},
    {TIOCSPTLCK, sizeof(int), 0},
    {TIOCMGET, 0, sizeof(int)},
    {TIOCMSET, sizeof(int), 0},
    {SIOCGIFCONF, sizeof(struct ifconf), sizeof(struct ifconf)},
    {SIOCGIFNAME, sizeof(struct ifreq), sizeof(struct ifreq)},
    {SIOCGIFINDEX, sizeof(struct ifreq), sizeof(struct ifreq)},
    {SIOCGIFFLAGS, sizeof(struct ifreq), sizeof(struct ifreq)},
    {SIOCGIFADDR, sizeof(struct ifreq), sizeof(struct ifreq)},
    {SIOCGIFNETMASK, sizeof(struct ifreq), sizeof(struct ifreq)},
    {SIOCGIFBRDADDR, sizeof(struct ifreq), sizeof(struct ifreq)},
    {SIOCGIFHWADDR, sizeof(struct ifreq), sizeof(struct ifreq)},
    {SIOCGIFMTU, sizeof(struct ifreq), sizeof(struct ifreq)},
};

HELPER static struct request request_of(unsigned long number)
{
    for (size_t i = 0; i < sizeof requests / sizeof *requests; i++)
        if (requests[i].number == number)
            return requests[i];
    return (struct request){number, 0, 0};
}

#define READS_REQUEST(request, with) READS(with, request_of(request).read)
#define WRITES_REQUEST(request, with) WRITES(with, request_of(request).written)

/* What fcntl reads and writes at its argument. */
HELPER static struct request control_of(int command)
{
    switch (command) {
    case F_SETLK:
    case F_SETLKW:
    case F_OFD_SETLK:
    case F_OFD_SETLKW:
        return (struct request){0, sizeof(struct flock), 0};
    case F_GETLK:
    case F_OFD_GETLK:
        return (struct request){0, sizeof(struct flock), sizeof(struct flock)};
    case F_SETOWN_EX:
        return (struct request){0, sizeof(struct f_owner_ex), 0};
    case F_GETOWN_EX:
        return (struct request){0, 0, sizeof(struct f_owner_ex)};
    default:
        return (struct request){0, 0, 0};
    }
}

#define READS_CONTROL(command, with) READS(with, control_of(command).read)
#define WRITES_CONTROL(command, with) WRITES(with, control_of(command).written)

/* The same for ptrace at its last argument. */
HELPER static struct request traced_of(int request)
{
    switch (request) {
#ifdef PT_GETREGS /* newer processors have no calls for these alone */
    case PTRACE_GETREGS:
        return (struct request){0, 0, sizeof(struct user_regs_struct)};
    case PTRACE_SETREGS:
        return (struct request){0, sizeof(struct user_regs_struct), 0};
    case PTRACE_GETFPREGS:
        return (struct request){0, 0, sizeof(struct user_fpregs_struct)};
    case PTRACE_SETFPREGS:
        return (struct request){0, sizeof(struct user_fpregs_struct), 0};
#endif
    case PTRACE_GETSIGINFO:
        return (struct request){0, 0, sizeof(siginfo_t)};
    case PTRACE_SETSIGINFO:
        return (struct request){0, sizeof(siginfo_t), 0};
    case PTRACE_GETEVENTMSG:
        return (struct request){0, 0, sizeof(long)};
    case PTRACE_GETREGSET:
    case PTRACE_SETREGSET:
        return (struct request){0, sizeof(struct iovec), sizeof(struct iovec)};
    default:
        return (struct request){0, 0, 0};
    }
}

HELPER static void reads_traced(int request, const void *with, struct call call)
{
    READS(with, traced_of(request).read);
    const struct iovec *registers = with;
    if (request == PTRACE_SETREGSET && IS_THERE(registers))
        READS(registers->iov_base, registers->iov_len);
}

HELPER static void writes_traced(int request, void *with, struct call call)
{
    WRITES(with, traced_of(request).written);
    const struct iovec *registers = with;
    if (request == PTRACE_GETREGSET && IS_THERE(registers))
        WRITES(registers->iov_base, registers->iov_len);
}

#define READS_TRACED(request, with) reads_traced(request, with, call)
#define WRITES_TRACED(request, with) writes_traced(request, with, call)

/* A stream in memory, which may come to use all of it. */
HELPER static void opens_memory(const void *memory, size_t size, const char *mode, struct call call)
{
    if (memory == NULL || mode == NULL)
        return;
    if (mode[0] == 'r' && mode[1] != '+' && (mode[1] == 0 || mode[2] != '+'))
        READS(memory, size);
    else
        WRITES(memory, size);
}

#define OPENS_MEMORY(memory, size, mode) opens_memory(memory, size, mode, call)

/* A text, or its part that the first match names. */
#define READS_MATCHED(text, to, flags)                                                                                 \
    if (!((flags) & REG_STARTEND))                                                                                     \
        READS_STRING(text);                                                                                            \
    else if ((to) != NULL && (to)->rm_so >= 0 && (to)->rm_eo > (to)->rm_so)                                            \
    READS((text) + (to)->rm_so, (to)->rm_eo - (to)->rm_so)

/* The words of a program as far as getopt has come, and its long options up to one without a name. */
HELPER static void reads_words(char *const *words, int from, int count, struct call call)
{
    for (int i = from > 0 ? from : 1; i < count; i++)
        READS_STRING(words[i]);
}

HELPER static void reads_options(const struct option *options, struct call call)
{
    for (; options != NULL; options++) {
        READS(options, sizeof *options);
        if (options->name == NULL)
            return;
        READS_STRING(options->name);
    }
}

/* Whether one of the words that were looked at may be a long option: then the list of these was read. */
HELPER static bool has_long_word(char *const *words, int first, int end, struct call call)
{
    bool is_any = strcmp(call.name, "getopt_long_only") == 0;
    for (int i = first > 0 ? first : 1; i < end; i++) {
        const char *word = words[i];
        if (word[0] == '-' && (word[1] == '-' ? word[2] != 0 : is_any && word[1] != 0 && word[2] != 0))
            return true;
    }
    return false;
}

#define BEGINS_WORDS(words, count)                                                                                     \
    int first = LIBRARY->optind != NULL ? *LIBRARY->optind : INT_MAX;                                                  \
    READS_ARRAY(words, (count) > 0 ? (count) : 0, sizeof *(words))
#define READS_WORDS(words, count)                                                                                      \
    if (first != INT_MAX)                                                                                              \
    reads_words(words, first, *LIBRARY->optind < (count) ? *LIBRARY->optind : (count), call)
#define READS_OPTIONS(words, options)                                                                                  \
    if (first != INT_MAX && has_long_word(words, first, *LIBRARY->optind, call))                                       \
    reads_options(options, call)

/* Addresses after calls, without the first, which is the check's own. So there must be room for one more; a longer
   stack lacks its last one. */
enum { MAX_CALLERS = 256 };

HELPER static int give_callers(void **to, void *const *found, int count)
{
    for (int i = 1; i < count; i++)
        to[i - 1] = found[i];
    return count > 0 ? count - 1 : count;
}

#define BEGINS_CALLERS(count)                                                                                          \
    bool are_few = (count) > 0 && (count) <= MAX_CALLERS;                                                              \
    void *callers[are_few ? (count) + 1 : 1]
#define CALLERS_WITHIN(to, count) are_few ? callers : (to), are_few ? (count) + 1 : (count)
#define GIVES_CALLERS(to) result = give_callers(to, are_few ? callers : (to), result)

/* How many sets of capabilities a version of the call has. */
HELPER static size_t sets_of_version(uint32_t version)
{
    return version == _LINUX_CAPABILITY_VERSION_1 ? _LINUX_CAPABILITY_U32S_1 : _LINUX_CAPABILITY_U32S_3;
}

HELPER static size_t pages_of(size_t size)
{
    return size / SYSTEM_PAGE + (size % SYSTEM_PAGE != 0);
}

/* Lines and texts with _FORTIFY_SOURCE: the C library ends the process once it has filled the room, so only then it is
   known how much would be written. A line is read as far as there is room, and is too long if the stream has more. */

#undef MB_CUR_MAX
#define MB_CUR_MAX LIBRARY->__ctype_get_mb_cur_max()

REAL(int, __vsnprintf_chk, (char *, size_t, int, size_t, const char *, va_list));

/* Stands at the end of the room while a line is read: it is gone if the line has filled that. */
enum { NOT_FILLED = 1 };

HELPER static int byte_of(FILE *stream)
{
    return LIBRARY->getc(stream);
}

HELPER static int letter_of(FILE *stream)
{
    wint_t letter = LIBRARY->getwc(stream);
    return letter == WEOF ? -1 : (int)letter;
}

#define DEFINE_LINE(name, type, get)                                                                                   \
    HELPER static bool is_within_##name(type *to, size_t room, int size, FILE *stream, struct call call)               \
    {                                                                                                                  \
        if (size <= 0 || (size_t)size <= room || room == 0 || LIBRARY->ferror(stream))                                 \
            return false;                                                                                              \
        if (room > 1)                                                                                                  \
            return true;                                                                                               \
        if (get(stream) >= 0) {                                                                                        \
            WRITES_ARRAY(to, 2, sizeof *to);                                                                           \
            LIBRARY->__chk_fail();                                                                                     \
        }                                                                                                              \
        return false;                                                                                                  \
    }                                                                                                                  \
    HELPER static type *end_##name(type *to, size_t room, type *result, type last, FILE *stream, struct call call)     \
    {                                                                                                                  \
        if (to[room - 1] == NOT_FILLED) {                                                                              \
            to[room - 1] = last;                                                                                       \
            return result;                                                                                             \
        }                                                                                                              \
        if (result == NULL || to[room - 2] == '\n')                                                                    \
            return result;                                                                                             \
        if (get(stream) < 0)                                                                                           \
            return LIBRARY->ferror(stream) && errno != EAGAIN ? NULL : result;                                         \
        WRITES_ARRAY(to, room + 1, sizeof *to);                                                                        \
        LIBRARY->__chk_fail();                                                                                         \
    }

DEFINE_LINE(line, char, byte_of)
DEFINE_LINE(wide_line, wchar_t, letter_of)

#define BEGINS_LINE(name, to, size, room)                                                                              \
    bool is_within = is_within_##name(to, room, size, stream, call);                                                   \
    __typeof__(*to) last = is_within ? to[room - 1] : 0;                                                               \
    if (is_within)                                                                                                     \
        to[room - 1] = NOT_FILLED
#define LINE_WITHIN(size, room) (is_within ? (int)room : size)
#define ENDS_LINE(name, to, room)                                                                                      \
    if (is_within)                                                                                                     \
        result = end_##name(to, room, result, last, stream, call)

/* As sprintf: also what it leaves in the buffer if it fails. */
HELPER static int print_within(char *to, size_t room, int flag, const char *format, va_list values, struct call call)
{
    IS_OWN_FRAME;
    int result = real___vsnprintf_chk(to, room, flag, room, format, values);
    if (result >= 0)
        WRITES(to, (size_t)result + 1);
    if (result >= 0 && (size_t)result >= room)
        LIBRARY->__chk_fail();
    return result;
}

#define PRINTS_WITHIN(to, room)                                                                                        \
    if (room != SIZE_MAX)                                                                                              \
        return print_within(to, room, flag, format, values, call)

/* Rows of formats. */

#define UNPACKED(...) __VA_ARGS__

/* Both functions of a format: `with_` and a name is what they share. */
#define FORMATTED(name, listed, parameters, arguments, format)                                                         \
    STUB_OF_TWO(name, listed)                                                                                          \
    STUB(listed)                                                                                                       \
    CHECK int checked_##listed(UNPACKED parameters, va_list values)                                                    \
    {                                                                                                                  \
        IS_OWN_FRAME;                                                                                                  \
        return with_##name(UNPACKED arguments, values, THIS_CALL(#listed));                                            \
    }                                                                                                                  \
    CHECK int checked_##name(UNPACKED parameters, ...)                                                                 \
    {                                                                                                                  \
        IS_OWN_FRAME;                                                                                                  \
        va_list values;                                                                                                \
        va_start(values, format);                                                                                      \
        int result = with_##name(UNPACKED arguments, values, THIS_CALL(#name));                                        \
        va_end(values);                                                                                                \
        return result;                                                                                                 \
    }

/* With check_printf=0 no format is read, nor what it names. */
#define READS_FORMAT(walk, format, values, call)                                                                       \
    if (!HOOK_PAGE->switches.has_no_formats)                                                                           \
    walk(format, values, call)

#define PRINT_BY(walk, name, listed, parameters, arguments, format, before, after)                                     \
    REAL(int, listed, (UNPACKED parameters, va_list));                                                                 \
    static int with_##name(UNPACKED parameters, va_list values, struct call call)                                      \
    {                                                                                                                  \
        IS_OWN_FRAME;                                                                                                  \
        READS_FORMAT(walk, format, values, call);                                                                      \
        before;                                                                                                        \
        int result = real_##listed(UNPACKED arguments, values);                                                        \
        after;                                                                                                         \
        return result;                                                                                                 \
    }                                                                                                                  \
    FORMATTED(name, listed, parameters, arguments, format)

#define SCAN_BY(walk, name, listed, parameters, arguments, format, before)                                             \
    REAL(int, listed, (UNPACKED parameters, va_list));                                                                 \
    static int with_##name(UNPACKED parameters, va_list values, struct call call)                                      \
    {                                                                                                                  \
        IS_OWN_FRAME;                                                                                                  \
        va_list again;                                                                                                 \
        va_copy(again, values);                                                                                        \
        before;                                                                                                        \
        int result = real_##listed(UNPACKED arguments, values);                                                        \
        walk(format, again, result, call);                                                                             \
        va_end(again);                                                                                                 \
        return result;                                                                                                 \
    }                                                                                                                  \
    FORMATTED(name, listed, parameters, arguments, format)

#define PRINT(...) PRINT_BY(format_checks_print, __VA_ARGS__)
#define WIDE_PRINT(...) PRINT_BY(format_checks_wide_print, __VA_ARGS__)
#define SCAN(...) SCAN_BY(format_checks_scan, __VA_ARGS__)
#define WIDE_SCAN(...) SCAN_BY(format_checks_wide_scan, __VA_ARGS__)

#define LOG(name, listed, parameters, arguments, format)                                                               \
    REAL(void, listed, (UNPACKED parameters, va_list));                                                                \
    STUB_OF_TWO(name, listed)                                                                                          \
    STUB(listed)                                                                                                       \
    CHECK void checked_##listed(UNPACKED parameters, va_list values)                                                   \
    {                                                                                                                  \
        IS_OWN_FRAME;                                                                                                  \
        READS_FORMAT(format_checks_print, format, values, THIS_CALL(#listed));                                         \
        real_##listed(UNPACKED arguments, values);                                                                     \
    }                                                                                                                  \
    CHECK void checked_##name(UNPACKED parameters, ...)                                                                \
    {                                                                                                                  \
        IS_OWN_FRAME;                                                                                                  \
        va_list values;                                                                                                \
        va_start(values, format);                                                                                      \
        READS_FORMAT(format_checks_print, format, values, THIS_CALL(#name));                                           \
        real_##listed(UNPACKED arguments, values);                                                                     \
        va_end(values);                                                                                                \
    }

/* Of such a function that has no form with a va_list: it gets the text that the format makes. */
#define MESSAGE(name, parameters, arguments, format, before)                                                           \
    REAL(void, name, (UNPACKED parameters, ...));                                                                      \
    STUB(name)                                                                                                         \
    CHECK void checked_##name(UNPACKED parameters, ...)                                                                \
    {                                                                                                                  \
        IS_OWN_FRAME;                                                                                                  \
        struct call call = THIS_CALL(#name);                                                                           \
        va_list values, again;                                                                                         \
        va_start(values, format);                                                                                      \
        va_copy(again, values);                                                                                        \
        READS_FORMAT(format_checks_print, format, values, call);                                                       \
        before;                                                                                                        \
        int length = LIBRARY->vsnprintf(NULL, 0, format, values);                                                      \
        char text[length < 0 ? 1 : length + 1];                                                                        \
        text[0] = 0;                                                                                                   \
        LIBRARY->vsnprintf(text, sizeof text, format, again);                                                          \
        va_end(again);                                                                                                 \
        va_end(values);                                                                                                \
        real_##name(UNPACKED arguments, "%s", text);                                                                   \
    }

#endif
