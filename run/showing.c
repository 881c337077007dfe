/* A list of at most 64, which is gone through again and again while there are some: no sign tells that a checker has
   printed a line. */
#define _GNU_SOURCE
#include "showing.h"

#include <inttypes.h>
#include <poll.h>
#include <stdint.h>
#include <stdio.h>
#include <stdlib.h>
#include <string.h>
#include <unistd.h>

#include "processes.h"
#include "report.h"

enum { MOST_WAITING = 64 };
/* A line of a checker is shorter. */
enum { LINE_ROOM = 256, PIECE = 1 << 16 };

static struct shown {
    int connection;
    pid_t number;
    uint64_t event; /* or 0, and */
    uint32_t entry; /* the number of a finding of the recorder's */
    char file[48];  /* to which it prints */
    off_t read;     /* up to here its segment has no such line */
} waiting[MOST_WAITING];
static size_t count;
static size_t most; /* that may wait */

void showing_begin(size_t allowed)
{
    most = allowed < MOST_WAITING ? allowed : MOST_WAITING;
}

size_t showing_held(void)
{
    return count;
}

bool showing_take(pid_t number, const char *question, int connection)
{
    struct shown *shown = &waiting[count];
    uint64_t device, node;
    if (count >= most)
        return false;
    *shown = (struct shown){.connection = connection, .number = number};
    if (sscanf(question, "\n%" SCNu64 " %" SCNu32 " %" SCNu64 " %" SCNu64, &shown->event, &shown->entry, &device, &node)
        != 4)
        return false;
    snprintf(shown->file, sizeof shown->file, "%" PRIu64 ":%" PRIu64, device, node);
    count++;
    return true;
}

/* The newest segment of a process, if it is there and is checked; or null. */
static struct segment *segment_of(pid_t number)
{
    struct segment *found = NULL;
    for (struct process *process = process_of_peer(number); process != NULL; process = process_next_of_peer(process))
        for (struct segment *at = process->first; at != NULL; at = at->next)
            if (at->stage == STAGE_CHECKED && at->side_memory >= 0)
                found = at;
    return found;
}

/* The number of the event of a line; 0: it is no report. */
static uint64_t event_of(const char *line)
{
    const char *number = strchr(line, '#');
    return number != NULL ? strtoull(number + 1, NULL, 10) : 0;
}

/* Looks for the line of its event among those that the checker has printed since the last look. Answers whether that is
   decided; without one the line is empty. */
static bool find_line(struct shown *shown, const struct segment *segment, char *line)
{
    static char text[PIECE + 1];
    line[0] = 0;
    for (;;) {
        ssize_t length = pread(segment->verdicts, text, PIECE, shown->read);
        text[length > 0 ? length : 0] = 0;
        char *at = text;
        for (char *end; (end = strchr(at, '\n')) != NULL; at = end + 1) {
            *end = 0;
            uint64_t event = event_of(at);
            if (event == shown->event && strlen(at) < LINE_ROOM)
                strcpy(line, at);
            if (event == 0 || event >= shown->event)
                return true;
        }
        if (at == text)
            return false;
        shown->read += at - text;
    }
}

static bool has_hung_up(int connection)
{
    struct pollfd end = {connection, 0, 0};
    return poll(&end, 1, 0) > 0;
}

/* Whether nobody waits any more, or it was answered, or there is no answer. */
static bool is_over(struct shown *shown)
{
    char line[LINE_ROOM] = "";
    if (has_hung_up(shown->connection)) {
        close(shown->connection);
        return true;
    }
    struct segment *segment = segment_of(shown->number);
    if (segment == NULL || segment->verdicts < 0 || (shown->event != 0 && !find_line(shown, segment, line)))
        return false;
    if (shown->event != 0 && line[0] == 0)
        close(shown->connection);
    else
        report_shown(segment, &(struct report_shown){line, shown->entry, shown->file, shown->connection});
    return true;
}

void showing_look(void)
{
    size_t before = count;
    count = 0;
    for (size_t i = 0; i < before; i++)
        if (!is_over(&waiting[i]))
            waiting[count++] = waiting[i];
}
