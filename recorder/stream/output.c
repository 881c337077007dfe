/* An output is a window of memory, backed by a mapped file, or by a descriptor that is sent pieces. It knows lengths,
   and nothing of records. */
#define _GNU_SOURCE
#include "stream/output.h"

#include <errno.h>
#include <fcntl.h>
#include <stddef.h>
#include <signal.h>
#include <string.h>
#include <sys/file.h>
#include <sys/mman.h>
#include <sys/un.h>

#include "base/descriptors.h"
#include "base/digits.h"
#include "base/disturbance.h"
#include "base/errors.h"
#include "common/format.h"
#include "environment/asking.h"
#include "environment/dormant.h"
#include "environment/hub_folder.h"
#include "environment/hub_names.h"
#include "base/platform.h"
#include "base/system.h"

/* The name gets a text before its last dot, or at its end. */
static bool insert(char *name, const char *path, const char *text)
{
    size_t length = strlen(path), count = strlen(text);
    const char *slash = strrchr(path, '/');
    const char *dot = strrchr(slash ? slash : path, '.');
    size_t front = dot && dot != path ? (size_t)(dot - path) : length;
    if (length + count >= PATH_MAX)
        return false;
    memcpy(name, path, front);
    memcpy(name + front, text, count);
    memcpy(name + front + count, path + front, length - front + 1);
    return true;
}

bool output_number(char *name, const char *path, unsigned number)
{
    char text[DIGITS_ROOM];
    char *first = put_digits(text + sizeof text, number, 0);
    if (number != 0)
        *--first = '.';
    return insert(name, path, first);
}

bool output_name_segment(char *name, const char *path, uint64_t number)
{
    static const char front[] = ".segment-";
    char text[sizeof front + DIGITS_ROOM];
    char *first = put_digits(text + sizeof text, number, 3) - strlen(front);
    memcpy(first, front, strlen(front));
    return insert(name, path, first);
}

/* What a call has answered that failed, in words. The signals that came with it are taken away. */
static const char *reason(long result)
{
    int error = (int)-result;
    if (error == ENXIO)
        return "nobody reads it yet";
    if (error == EPIPE)
        signal_take_away(SIGPIPE);
    if (error == EFBIG)
        signal_take_away(SIGXFSZ);
    return error_text(error);
}

/* Hides the descriptor from the program, and keeps its identity. */
static void keep(struct output *output, int descriptor, enum descriptor_kept kept, const struct stat *seen)
{
    output->descriptor = descriptor_moved_up(descriptor);
    output->kept = kept;
    output->device = seen->st_dev;
    output->node = seen->st_ino;
    descriptor_keep(kept, output->descriptor, seen);
}

/* Whether the descriptor is still that of the output. A filter of the process may refuse the question: that says
   nothing. */
static bool is_still(const struct output *output, int descriptor)
{
    struct stat seen;
    int result = system_fstat(descriptor, &seen);
    return result == 0 ? seen.st_dev == output->device && seen.st_ino == output->node : result != -EBADF;
}

/* Maps an output, which is no part of a core. */
static long map(struct window window, int flags, int descriptor)
{
    long result = system_mmap(window.bytes, window.room, PROT_READ | PROT_WRITE, flags | MAP_NORESERVE | MAP_FIXED,
                              descriptor, 0);
    if (result >= 0)
        system_madvise(window.bytes, window.room, MADV_DONTDUMP);
    return result;
}

/* Puts plain memory, of zeros, where an output lies. */
static long put_memory(struct window window)
{
    return map(window, MAP_PRIVATE | MAP_ANONYMOUS, -1);
}

/* The same where plain memory lies already: it is given back, unless the process has locked all of its memory. */
static long empty_memory(struct window window)
{
    return system_madvise(window.bytes, window.room, MADV_DONTNEED) == 0 ? 0 : put_memory(window);
}

static const char *take_pieces(struct output *output, int descriptor, struct window window)
{
    struct stat seen;
    output->descriptor = descriptor;
    long result = system_fstat(descriptor, &seen);
    if (result < 0)
        return reason(result);
    keep(output, descriptor, KEPT_STREAM, &seen);
    if (!window.is_new && (result = empty_memory(window)) < 0)
        return reason(result);
    output->is_plain = true;
    output->bytes = window.bytes;
    return NULL;
}

/* A new file of this name, or of the next one that is free; or the existing one, if it is not a file: a pipe is not
   waited for. */
static int open_new(struct output *output, const char *path, enum naming naming)
{
    if (naming == NAME_TAKEN_OVER)
        system_unlink(path);
    for (unsigned number = 0; number < 1000000; number++) {
        output->number = number;
        if (!output_number(output->path, path, number))
            return -ENAMETOOLONG;
        int descriptor = system_open(output->path, O_RDWR | O_CREAT | O_EXCL | O_CLOEXEC, 0666);
        if (descriptor != -EEXIST || naming == NAME_TAKEN_OVER)
            return descriptor;
        struct stat seen;
        if (number == 0 && system_stat(output->path, &seen) == 0 && !S_ISREG(seen.st_mode))
            return system_open(output->path, O_WRONLY | O_NONBLOCK | O_NOCTTY | O_CLOEXEC, 0);
        if (strncmp(path, "/dev/", strlen("/dev/")) == 0)
            return -EEXIST; /* a descriptor of a file: no other name stands for it */
    }
    return -EEXIST;
}

static void clear(struct output *output, uint64_t room)
{
    output->is_mapped = output->is_plain = output->is_socket = output->is_lost = false;
    output->descriptor = -1;
    output->kept = KEPT_STREAM;
    output->backed = output->sent = 0;
    output->room = room;
    output->bytes = NULL;
}

const char *output_open_file(struct output *output, const char *path, enum naming naming, struct window window,
                             uint64_t backed)
{
    struct stat seen;
    clear(output, window.room);
    int descriptor = open_new(output, path, naming);
    long result = descriptor < 0 ? descriptor : system_fstat(descriptor, &seen);
    if (result < 0)
        return reason(result);
    if (!S_ISREG(seen.st_mode)) {
        /* One stream has one writer. The lock is held as long as the descriptor. */
        if (S_ISFIFO(seen.st_mode) && system_flock(descriptor, LOCK_EX | LOCK_NB) == -EWOULDBLOCK) {
            system_close(descriptor);
            return "another process writes into this pipe";
        }
        return take_pieces(output, descriptor, window);
    }
    result = system_fallocate(descriptor, 0, (off_t)backed);
    if (result == 0)
        result = map(window, MAP_SHARED, descriptor);
    if (result < 0) {
        if (result == -EOPNOTSUPP || result == -ENOSYS || result == -ENODEV)
            return take_pieces(output, descriptor, window);
        system_unlink(output->path);
        system_close(descriptor);
        return reason(result);
    }
    output->bytes = window.bytes;
    output->backed = backed;
    output->is_mapped = true;
    output->device = seen.st_dev;
    output->node = seen.st_ino;
    system_close(descriptor);
    return NULL;
}

const char *output_connect(struct output *output, const char *path, bool has_abstract, struct window window,
                           int patience_ms)
{
    struct sockaddr_un address;
    clear(output, window.room);
    output->is_socket = true;
    if (strlen(path) >= sizeof address.sun_path)
        return error_text(ENAMETOOLONG);
    if (strcmp(output->path, path) != 0) /* a forked child has the name of its parent's */
        strcpy(output->path, path);
    int descriptor = descriptor_of_socket(SOCK_STREAM | SOCK_CLOEXEC | SOCK_NONBLOCK);
    if (descriptor < 0)
        return reason(descriptor);
    socklen_t length = hub_socket(&address, path, false);
    int result = connect_patiently(descriptor, &address, length, &patience_ms);
    if (result == 0)
        return take_pieces(output, descriptor, window);
    const char *why = reason(result);
    length = hub_socket(&address, path, true);
    if (has_abstract && connect_patiently(descriptor, &address, length, &patience_ms) == 0) {
        if (is_trusted(descriptor))
            return take_pieces(output, descriptor, window);
        why = "its name is another user's";
    } else if (has_abstract && hub_folder_connect(descriptor, path, &patience_ms) == 0) {
        return take_pieces(output, descriptor, window);
    }
    system_close(descriptor);
    descriptor = has_abstract ? dormant_connect() : -1;
    return descriptor >= 0 ? take_pieces(output, descriptor, window) : why;
}

/* The seals of what nobody can make smaller, so that another process can map it. */
enum { SIDE_SEALS = F_SEAL_SHRINK | F_SEAL_GROW | F_SEAL_SEAL };

/* Answers the descriptor, or an error. */
static int make_sealed(uint64_t room)
{
    int descriptor = descriptor_of_memory(SIDE_MEMORY, MFD_CLOEXEC | MFD_ALLOW_SEALING);
    if (descriptor < 0)
        return descriptor;
    int result = system_ftruncate(descriptor, (off_t)room);
    if (result == 0)
        result = system_fcntl(descriptor, F_ADD_SEALS, SIDE_SEALS);
    if (result == 0)
        return descriptor;
    system_close(descriptor);
    return result;
}

/* A memory of the hub's. Not every limit and filter of this process is the hub's too. Answers the descriptor, or -1. */
static int ask_for_sealed(int hub, uint64_t room, int error, int patience_ms)
{
    unsigned char question[SIDE_QUESTION] = {SIDE_ASKS, (unsigned char)error};
    struct pollfd answer = {hub, POLLIN, 0};
    struct stat seen;
    if (system_send(hub, question, sizeof question, MSG_NOSIGNAL | MSG_DONTWAIT) != sizeof question
        || system_poll(&answer, 1, patience_ms) != 1)
        return -1;
    int descriptor = descriptor_of_message(hub);
    if (descriptor < 0)
        return -1;
    int seals = system_fcntl(descriptor, F_GET_SEALS, 0);
    if (seals >= 0 && (seals & F_SEAL_SHRINK) && system_fstat(descriptor, &seen) == 0 && (uint64_t)seen.st_size >= room)
        return descriptor;
    system_close(descriptor);
    return -1;
}

const char *output_open_memory(struct output *output, struct window window, const struct output *hub, int patience_ms)
{
    clear(output, window.room);
    output->path[0] = 0;
    int made = make_sealed(window.room);
    const char *why = made < 0 ? reason(made) : NULL;
    if (made < 0 && hub != NULL)
        made = ask_for_sealed(hub->descriptor, window.room, -made, patience_ms);
    if (made < 0)
        return why;
    long result = map(window, MAP_SHARED, made);
    if (result < 0) {
        system_close(made);
        return reason(result);
    }
    output->bytes = window.bytes;
    output->descriptor = made;
    return NULL;
}

const char *output_open_plain(struct output *output, struct window window)
{
    clear(output, window.room);
    output->path[0] = 0;
    output->is_plain = true;
    output->bytes = window.bytes;
    long result = put_memory(window);
    return result < 0 ? reason(result) : NULL;
}

void output_keep_memory(struct output *memory)
{
    struct stat seen;
    if (memory->descriptor >= 0 && system_fstat(memory->descriptor, &seen) == 0)
        keep(memory, memory->descriptor, KEPT_SIDE, &seen);
}

/* Sends bytes and descriptors at once. */
static ssize_t send_with(int socket, struct iovec piece, const int *descriptors, size_t count)
{
    union {
        struct cmsghdr header;
        char room[CMSG_SPACE((1 + SIDE_FILES) * sizeof(int))];
    } control = {0};
    struct msghdr message = {.msg_iov = &piece, .msg_iovlen = 1, .msg_control = &control,
                             .msg_controllen = CMSG_SPACE(count * sizeof(int))};
    struct cmsghdr *header = CMSG_FIRSTHDR(&message);
    header->cmsg_level = SOL_SOCKET;
    header->cmsg_type = SCM_RIGHTS;
    header->cmsg_len = CMSG_LEN(count * sizeof(int));
    memcpy(CMSG_DATA(header), descriptors, count * sizeof(int));
    return system_sendmsg(socket, &message, MSG_NOSIGNAL | MSG_DONTWAIT);
}

const char *output_send_first(struct output *output, uint64_t length, struct output *memory, const int *files,
                              unsigned count, int patience_ms)
{
    struct iovec piece = {output->bytes, length};
    int descriptors[1 + SIDE_FILES] = {memory->descriptor};
    memcpy(descriptors + 1, files, count * sizeof *files);
    ssize_t sent;
    if (memory->kept == KEPT_SIDE && (output_is_closed(output) || !is_still(memory, memory->descriptor)))
        return output_closed;
    /* ETOOMANYREFS: many descriptors are on their way, and the hub has not taken them yet. The files can be missed. */
    while ((sent = send_with(output->descriptor, piece, descriptors, 1 + count)) == -ETOOMANYREFS
           && (count > 0 || patience_ms > 0)) {
        if (count == 0) {
            patience_ms -= 1;
            system_poll(NULL, 0, 1);
        }
        count = 0;
    }
    const char *why = sent < 0 ? reason(sent) : NULL;
    if (why == NULL)
        output->sent = (uint64_t)sent;
    descriptor_drop(KEPT_SIDE);
    system_close(memory->descriptor);
    memory->descriptor = -1;
    return why;
}

static int reopen(const struct output *output)
{
    int descriptor = system_open(output->path, O_RDWR | O_CLOEXEC, 0);
    if (descriptor < 0 || is_still(output, descriptor))
        return descriptor;
    system_close(descriptor);
    return -ESTALE; /* it is another file by now */
}

const char *output_extend(struct output *output, uint64_t length)
{
    if (!output->is_mapped || length <= output->backed)
        return NULL;
    if (output->is_lost)
        return "the file was cut";
    int descriptor = reopen(output);
    if (descriptor < 0)
        return reason(descriptor);
    int result = system_fallocate(descriptor, (off_t)output->backed, (off_t)(length - output->backed));
    const char *why = result < 0 ? reason(result) : NULL;
    system_close(descriptor);
    if (result == 0) {
        /* All at once is quicker than a fault for each page. Where the system can't, the faults come. */
        system_madvise(output->bytes + output->backed, length - output->backed, MADV_POPULATE_WRITE);
        output->backed = length;
    }
    return why;
}

const char *output_back(struct output *output, uint64_t offset, uint64_t length)
{
    if (output->is_lost)
        return "the file was cut";
    int descriptor = reopen(output);
    if (descriptor < 0)
        return reason(descriptor);
    int result = system_fallocate(descriptor, (off_t)offset, (off_t)length);
    const char *why = result < 0 ? reason(result) : NULL;
    system_close(descriptor);
    return why;
}

void output_trim(struct output *output, uint64_t length)
{
    if (!output->is_mapped || output->is_lost)
        return;
    int descriptor = reopen(output);
    if (descriptor < 0)
        return; /* what stands after the last record is zeros: no harm */
    if (system_ftruncate(descriptor, (off_t)length) == 0)
        output->backed = length;
    system_close(descriptor);
}

/* Gives whole pages that were sent back to the system. */
static void release_sent(struct output *output, uint64_t from)
{
    uint64_t first = from / SYSTEM_PAGE * SYSTEM_PAGE, end = output->sent / SYSTEM_PAGE * SYSTEM_PAGE;
    if (end > first)
        system_madvise(output->bytes + first, end - first, MADV_DONTNEED);
}

/* Waits until a socket may take more. Returns how long it waited if there was no room. The system says that there is
   room only if most of what waits was read, and takes more before that: a collector that is slow is none that does not
   read. */
static int wait_for_room(int descriptor, int patience_ms)
{
    enum { LOOK_AGAIN_MS = 100 };
    struct pollfd wait = {descriptor, POLLOUT, 0};
    int span = patience_ms < LOOK_AGAIN_MS ? patience_ms : LOOK_AGAIN_MS;
    return system_poll(&wait, 1, span) == 0 ? span : 0;
}

const char output_closed[] = "the process has closed the descriptor";

bool output_is_closed(const struct output *output)
{
    return !output->is_mapped && !is_still(output, output->descriptor);
}

void output_make_way(struct output *output, int number)
{
    if (output->descriptor != number || output_is_closed(output))
        return;
    int moved = descriptor_past(number);
    struct stat identity = {.st_dev = output->device, .st_ino = output->node};
    if (moved < 0)
        return;
    descriptor_keep(output->kept, moved, &identity);
    output->descriptor = moved;
    system_close(number);
}

const char *output_send(struct output *output, uint64_t length, bool all, int patience_ms)
{
    enum { PIECE = 1 << 14 }; /* the system gives room back for buffers that were read entirely */
    int waited_ms = 0;
    uint64_t from = output->sent;
    const char *why = NULL;
    if (output->sent == length)
        return NULL;
    if (output_is_closed(output))
        return output_closed;
    while (output->sent < length && why == NULL) {
        const unsigned char *next = output->bytes + output->sent;
        size_t rest = length - output->sent;
        ssize_t count = output->is_socket
                            ? system_send_anyhow(output->descriptor, next, rest < PIECE ? rest : PIECE)
                            : system_write(output->descriptor, next, rest);
        if (count > 0) {
            output->sent += (uint64_t)count;
            waited_ms = 0;
        } else if (count == 0) {
            why = "it takes nothing, and says no error";
        } else if (count == -EAGAIN) {
            if (!all)
                break; /* the rest stays in memory, and the process need not wait */
            if (waited_ms >= patience_ms)
                why = "the collector does not read";
            else
                waited_ms += wait_for_room(output->descriptor, patience_ms - waited_ms);
        } else if (count != -EINTR) {
            why = reason(count);
        }
    }
    release_sent(output, from);
    return why;
}

bool output_lose(struct output *output, const void *address)
{
    const unsigned char *at = address;
    if (!output->is_mapped || at < output->bytes || at >= output->bytes + output->room)
        return false;
    output->is_lost = put_memory((struct window){output->bytes, output->room, false}) > 0;
    return output->is_lost;
}

void output_leave(struct output *output)
{
    struct window window = {output->bytes, output->room, false};
    if (output->bytes != NULL && output->is_plain)
        empty_memory(window);
    else if (output->bytes != NULL)
        put_memory(window);
    if (output->descriptor >= 0) {
        descriptor_drop(output->kept);
        if (is_still(output, output->descriptor))
            system_close(output->descriptor);
    }
    output->bytes = NULL;
    output->descriptor = -1;
}

void output_close(struct output *output)
{
    output_leave(output);
    clear(output, 0);
}

void output_discard(struct output *output)
{
    system_unlink(output->path);
    output_close(output);
}
