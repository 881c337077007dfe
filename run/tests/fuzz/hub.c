/* What comes to the hub from a process: its first message with descriptors, its side memory, and what its checker has
   printed of it. The first two bytes say which descriptors come and how it was cut; then comes the head of the side
   memory, and from HEAD on the text of the checker. */
#define _GNU_SOURCE
#include <errno.h>
#include <fcntl.h>
#include <stdio.h>
#include <stdlib.h>
#include <string.h>
#include <sys/mman.h>
#include <sys/socket.h>
#include <unistd.h>

#include "json.h"
#include "printable.h"
#include "processes.h"
#include "verdict.h"

enum { HEAD = 160, MAX_SENT = 8, WORDS = 3 };

int LLVMFuzzerTestOneInput(const uint8_t *data, size_t size);

static void expect(bool holds)
{
    if (!holds)
        abort();
}

static int lowest_free(void)
{
    int made = dup(0);
    close(made);
    return made;
}

/* A side memory that begins so. */
static int make_side(const uint8_t *data, size_t size)
{
    static const char header[] = SIDE_HEADER;
    int made = memfd_create("side", MFD_CLOEXEC | MFD_ALLOW_SEALING);
    expect(made >= 0 && ftruncate(made, SIDE_MAPS) == 0);
    expect(pwrite(made, header, sizeof header - 1, 0) == sizeof header - 1);
    expect(pwrite(made, data, size, sizeof header - 1) == (ssize_t)size);
    if (size > 0 && data[0] % 8 != 7)
        expect(fcntl(made, F_ADD_SEALS, F_SEAL_SHRINK) == 0);
    return made;
}

/* Sends this many descriptors, of which the first is the side memory or another. */
static void send_first(int to, unsigned kind, int side)
{
    int others[] = {side, STDIN_FILENO, to}, sent[MAX_SENT];
    unsigned count = kind / 4 % (MAX_SENT + 1);
    char bytes[] = HEADER;
    union {
        char room[CMSG_SPACE(sizeof sent)];
        struct cmsghdr align;
    } control = {0};
    for (unsigned i = 0; i < MAX_SENT; i++)
        sent[i] = others[(kind + i) % 3];
    struct iovec piece = {bytes, HEADER_LENGTH};
    struct msghdr message = {.msg_iov = &piece, .msg_iovlen = 1};
    if (count > 0) {
        message.msg_control = &control;
        message.msg_controllen = CMSG_SPACE(count * sizeof(int));
        struct cmsghdr *header = CMSG_FIRSTHDR(&message);
        *header = (struct cmsghdr){CMSG_LEN(count * sizeof(int)), SOL_SOCKET, SCM_RIGHTS};
        memcpy(CMSG_DATA(header), sent, count * sizeof(int));
    }
    expect(sendmsg(to, &message, 0) == HEADER_LENGTH);
}

/* The text printed of a process has nothing that controls a terminal, and a word of JSON is one. */
static void look_at(const struct segment *segment)
{
    const struct outcome *outcome = &segment->outcome;
    const char *name = segment->process->name;
    char *text = NULL, *list[WORDS + 1] = {(char *)name, (char *)outcome->why, (char *)outcome->fate};
    char *shown = printable(name);
    size_t length = 0;
    for (const char *at = shown; *at != 0; at += printable_length(at))
        expect(printable_length(at) > 0);
    free(shown);
    expect(strlen(outcome->why) < WHY_ROOM);
    expect(!outcome_is_complete(outcome) || outcome->has_checks);
    expect(outcome_is_complete(outcome) || outcome->why[0] != 0);
    FILE *to = open_memstream(&text, &length);
    expect(to != NULL);
    json_list(to, list, SIZE_MAX);
    fclose(to);
    for (size_t i = 0; i < length; i++)
        expect((unsigned char)text[i] >= ' ' && text[i] != 0x7f);
    free(text);
}

static void take(struct segment *segment, const uint8_t *data, size_t size)
{
    if (segment->side_memory >= 0)
        segment->side = side_map(segment->side_memory);
    segment_name(segment);
    segment->verdicts = memfd_create("verdicts", MFD_CLOEXEC);
    expect(segment->verdicts >= 0 && write(segment->verdicts, data, size) == (ssize_t)size);
    verdict_read(segment, NULL, NULL);
    look_at(segment);
    verdict_again(segment);
    look_at(segment);
}

static void give_back(struct segment *segment)
{
    side_unmap(segment->side);
    if (segment->side_memory >= 0)
        close(segment->side_memory);
    close(segment->verdicts);
    free(segment->children);
}

int LLVMFuzzerTestOneInput(const uint8_t *data, size_t size)
{
    int ends[2], before = lowest_free();
    if (size < 2)
        return 0;
    size_t head = size - 2 < HEAD ? size - 2 : HEAD;
    /* They stay, since the index of processes by their own number has them. */
    static struct process process;
    static struct segment segment;
    process = (struct process){.first = &segment};
    segment = (struct segment){.process = &process, .cut = data[1] % 3, .verdicts = -1};
    int side = make_side(data + 2, head);
    expect(socketpair(AF_UNIX, SOCK_STREAM | SOCK_CLOEXEC, 0, ends) == 0);
    send_first(ends[0], data[0], side);
    modules_allow(3);
    segment.side_memory = side_receive(ends[1], &segment.modules);
    take(&segment, data + 2 + head, size - 2 - head);
    give_back(&segment);
    modules_let_go(&segment.modules);
    close(side);
    close(ends[0]);
    close(ends[1]);
    expect(lowest_free() == before);
    return 0;
}
