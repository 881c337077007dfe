/* A `tee` copies a segment's trace before its checker; at the end the copy is dropped if nobody needs it. */
#define _GNU_SOURCE
#include "keep.h"

#include <errno.h>
#include <fcntl.h>
#include <inttypes.h>
#include <limits.h>
#include <stdio.h>
#include <stdlib.h>
#include <string.h>
#include <sys/sendfile.h>
#include <sys/stat.h>
#include <unistd.h>

#include "common/path.h"
#include "children.h"
#include "printable.h"
#include "say.h"

/* The most names that are tried for a file. */
enum { MAX_NAMES = 100000 };

static const char *folder;
static char *tee_program;

void keep_begin(const char *path)
{
    folder = path;
    if (mkdir(folder, 0777) != 0 && errno != EEXIST)
        fail(OWN_FAILURE, folder, strerror(errno));
    struct stat seen;
    if (stat(folder, &seen) != 0 || !S_ISDIR(seen.st_mode))
        fail(OWN_FAILURE, folder, strerror(ENOTDIR));
    if (access(folder, W_OK | X_OK) != 0)
        fail(OWN_FAILURE, folder, strerror(errno));
    tee_program = path_of_program("tee", NULL);
    if (tee_program == NULL)
        fail(OWN_FAILURE, "--keep", "there is no tee on the path");
}

/* The last part of the program's name, without characters that are awkward in a file's name. */
static void put_program(char *room, size_t size, const char *name)
{
    const char *slash = strrchr(name, '/');
    snprintf(room, size, "%.64s", slash != NULL ? slash + 1 : name);
    for (char *at = room; *at != 0;) {
        size_t length = printable_length(at);
        if (length == 0 || *at == ' ')
            *at = '_';
        at += length > 0 ? length : 1;
    }
    if (room[0] == 0 || room[0] == '.' || room[0] == '-')
        snprintf(room, size, "program");
}

/* What stands before the end of a name that may be taken: nothing, .1, .2 and so on. */
static const char *numbered(int number)
{
    static char room[16];
    room[0] = 0;
    if (number > 0)
        snprintf(room, sizeof room, ".%d", number);
    return room;
}

/* PROGRAM.NUMBER, with which the names of the traces of a process begin, or PROGRAM.NUMBER.1, and so on. */
static char *make_prefix(const struct segment *segment, int number)
{
    char program[80], *prefix;
    put_program(program, sizeof program, segment->process->name);
    if (asprintf(&prefix, "%s/%s.%d%s", folder, program, (int)segment->process->peer, numbered(number)) < 0)
        must(NULL);
    return prefix;
}

/* Makes the new file PREFIX.trace; of the second segment PREFIX.segment-002.trace, and so on. Answers its
   descriptor. */
static int open_new(struct segment *segment, const char *prefix, int number)
{
    char part[32] = "";
    if (segment->number > 0)
        snprintf(part, sizeof part, ".segment-%03" PRIu64, segment->number + 1);
    if (asprintf(&segment->kept, "%s%s%s.trace", prefix, part, numbered(number)) < 0)
        must(NULL);
    int made = open(segment->kept, O_WRONLY | O_CREAT | O_EXCL | O_CLOEXEC, 0666);
    if (made >= 0)
        return made;
    int error = errno;
    free(segment->kept);
    segment->kept = NULL;
    errno = error;
    return -1;
}

/* Makes a file for the trace whose name is free. The segments of a process have the same prefix. */
static int make_file(struct segment *segment)
{
    char **prefix = &segment->process->kept_prefix;
    for (int number = 0; number < MAX_NAMES; number++) {
        char *tried = *prefix != NULL ? *prefix : make_prefix(segment, number);
        int made = open_new(segment, tried, *prefix != NULL ? number : 0);
        if (made >= 0) {
            *prefix = tried;
            return made;
        }
        int error = errno;
        if (*prefix == NULL)
            free(tried);
        errno = error;
        if (error != EEXIST)
            return -1;
    }
    return -1;
}

int keep_start(struct segment *segment)
{
    int ends[2], made = make_file(segment);
    if (made < 0)
        return -1;
    close(made);
    const char *argv[] = {"tee", "--", segment->kept, NULL};
    if (pipe2(ends, O_CLOEXEC) != 0)
        return -1;
    const struct start start = {
        .role = ROLE_TEE,
        .owner = segment,
        .program = tee_program,
        .argv = argv,
        .input = segment->connection,
        .output = ends[1],
    };
    segment->tee = child_start(&start);
    int error = errno;
    close(ends[1]);
    if (segment->tee != 0)
        return ends[0];
    close(ends[0]);
    errno = error;
    return -1;
}

/* Copies everything except holes, and then makes the file as long as the other. */
static bool copy(int from, int to)
{
    struct stat seen;
    off_t at = 0;
    if (fstat(from, &seen) != 0)
        return false;
    while ((at = lseek(from, at, SEEK_DATA)) >= 0 && at < seen.st_size) {
        off_t end = lseek(from, at, SEEK_HOLE);
        if (lseek(to, at, SEEK_SET) < 0)
            return false;
        while (at < end)
            if (sendfile(to, from, &at, (size_t)(end - at)) <= 0)
                return false;
    }
    return ftruncate(to, seen.st_size) == 0;
}

static void put_copy(const struct segment *segment, int from, int to, const char *end)
{
    if (from < 0 || to < 0 || !copy(from, to))
        say("asancol-run: %s%s: %s", segment->kept, end, strerror(errno));
    if (to >= 0)
        close(to);
}

/* Neither a link nor a pipe that somebody has put there is followed, or waited for. */
static int open_where(const char *trace, int flags)
{
    char path[PATH_MAX];
    snprintf(path, sizeof path, "%s.where", trace);
    if (flags & O_CREAT)
        unlink(path); /* the rest of a removed trace */
    return open(path, flags | O_CLOEXEC | O_NOFOLLOW | O_NONBLOCK, 0666);
}

void keep_file(struct segment *segment)
{
    int to = make_file(segment);
    if (to < 0) {
        say("asancol-run: %s: a trace cannot be kept: %s", folder, strerror(errno));
        return;
    }
    int from = open(segment->trace, O_RDONLY | O_CLOEXEC | O_NONBLOCK);
    put_copy(segment, from, to, "");
    if (from >= 0)
        close(from);
}

/* Takes away a trace that nobody needs, and what stands beside it. */
static void drop(struct segment *segment)
{
    char path[PATH_MAX];
    snprintf(path, sizeof path, "%s.where", segment->kept);
    unlink(path);
    unlink(segment->kept);
    free(segment->kept);
    segment->kept = NULL;
}

void keep_end(struct segment *segment, bool is_needed)
{
    if (segment->kept == NULL)
        return;
    if (!is_needed) {
        drop(segment);
        return;
    }
    int from = segment->trace != NULL ? open_where(segment->trace, O_RDONLY) : segment->side_memory;
    if (from >= 0)
        put_copy(segment, from, open_where(segment->kept, O_WRONLY | O_CREAT | O_EXCL), ".where");
    if (from >= 0 && segment->trace != NULL)
        close(from);
}

void keep_again(struct segment *segment, bool is_needed)
{
    if (segment->kept != NULL && !is_needed) {
        drop(segment);
        return;
    }
    int to = segment->kept != NULL && segment->side != NULL ? open_where(segment->kept, O_WRONLY) : -1;
    if (to < 0)
        return;
    if (pwrite(to, segment->side, sizeof *segment->side, 0) != (ssize_t)sizeof *segment->side)
        say("asancol-run: %s.where: %s", segment->kept, strerror(errno));
    close(to);
}
