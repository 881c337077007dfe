/* A mark is a symbolic link PID.END in the hub's folder, with a program and a reason as its text. If that cannot be
   made, the hub is sent a message (asking.c). */
#define _GNU_SOURCE
#include "environment/hub_word.h"

#include <errno.h>
#include <fcntl.h>
#include <string.h>

#include "environment/asking.h"
#include "environment/startup.h"
#include "common/hash.h"
#include "base/digits.h"
#include "environment/hub_names.h"
#include "base/system.h"

/* What a mark says is short. */
enum { TEXT_ROOM = 512, MAX_PROGRAM_LENGTH = 200 };

/* Makes a mark: a symbolic link, since that needs no descriptor, of which there may be none left. The text may have a
   third line. */
static int make_mark(const char *name, const char *program, const char *why, const char *more)
{
    char text[TEXT_ROOM];
    struct joined joined = {.text = text, .room = sizeof text};
    joined_add(&joined, program, MAX_PROGRAM_LENGTH);
    joined_add(&joined, "\n", 1);
    joined_add(&joined, why, sizeof text);
    joined_add(&joined, more != NULL ? "\n" : "", 1);
    joined_add(&joined, more != NULL ? more : "", DIGITS_ROOM);
    return system_symlink(text, name);
}

bool hub_word_tell(const char *hub, const char *why)
{
    char text[ASK_MOST], answer;
    struct joined joined = {.text = text, .room = sizeof text};
    joined_add(&joined, ASK_UNSEEN "\n", sizeof text);
    joined_add(&joined, startup_name(), MAX_PROGRAM_LENGTH);
    joined_add(&joined, "\n", 1);
    joined_add(&joined, why, sizeof text);
    return ask(hub, text, false, &answer, sizeof answer) > 0;
}

void hub_word_note(const char *hub, const char *why)
{
    char name[HUB_MARK_ROOM];
    if (hub == NULL)
        return;
    int failed = hub_mark(name, hub, (unsigned long)system_getpid(), MARK_UNSEEN)
                     ? make_mark(name, startup_name(), why, NULL) : -ENOENT;
    if (failed != 0 && failed != -EEXIST)
        hub_word_tell(hub, why);
}

#ifndef IN_SHARED_OBJECT

/* What the first line of a mark says of a program: its path, or the number of a link that has it. */
static const char *short_program(const char *hub, const char *program, char room[DIGITS_ROOM])
{
    char name[HUB_MARK_ROOM];
    size_t length = strlen(program);
    if (length <= MARK_SHORT_PROGRAM && *program != MARK_PROGRAM_FRONT)
        return program;
    uint64_t number = (uint64_t)length << 32 | hash_of(program, length);
    int failed = hub_mark(name, hub, number, MARK_PROGRAM) ? system_symlink(program, name) : -ENOENT;
    if (failed != 0 && failed != -EEXIST)
        return program;
    char *digits = put_digits(room + DIGITS_ROOM, number, 1);
    *--digits = MARK_PROGRAM_FRONT;
    return digits;
}

/* The time, in microseconds since 1970, says which connection comes after the mark. */
static int expect_as(const char *hub, int number, const char *end, const char *program, const char *why)
{
    char name[HUB_MARK_ROOM], digits[DIGITS_ROOM], room[DIGITS_ROOM];
    struct timespec now;
    if (hub == NULL || !hub_mark(name, hub, (unsigned long)number, end))
        return -ENOENT;
    system_clock_gettime(CLOCK_REALTIME, &now);
    uint64_t time = (uint64_t)now.tv_sec * 1000000 + (uint64_t)now.tv_nsec / 1000;
    return make_mark(name, short_program(hub, program, room), why, put_digits(digits + sizeof digits, time, 1));
}

int hub_word_expect(const char *hub, const char *program, const char *why)
{
    return expect_as(hub, system_getpid(), MARK_EXPECTED, program, why);
}

void hub_word_expect_no_more(const char *hub)
{
    char name[HUB_MARK_ROOM];
    if (hub != NULL && hub_mark(name, hub, (unsigned long)system_getpid(), MARK_EXPECTED))
        system_unlink(name);
}

void hub_word_killed(const char *hub, int child, int number)
{
    char name[HUB_MARK_ROOM], digits[DIGITS_ROOM], parent[DIGITS_ROOM];
    if (hub != NULL && hub_mark(name, hub, (unsigned long)child, MARK_KILLED))
        make_mark(name, put_digits(parent + sizeof parent, (unsigned)system_getpid(), 1),
                  put_digits(digits + sizeof digits, (unsigned)number, 1), NULL);
}

/* The mark has the thread's number until the child has one: a thread begins one child at a time. */
bool hub_word_expect_child(const char *hub, const char *program, const char *why)
{
    return expect_as(hub, system_gettid(), "begins", program, why) == 0;
}

void hub_word_expect_as(const char *hub, int child)
{
    char before[HUB_MARK_ROOM], name[HUB_MARK_ROOM];
    if (!hub_mark(before, hub, (unsigned long)system_gettid(), "begins"))
        return;
    if (child == 0 || !hub_mark(name, hub, (unsigned long)child, MARK_EXPECTED) || system_rename(before, name) != 0)
        system_unlink(before);
}

#endif
