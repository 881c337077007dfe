/* The file that the system would run is found as execvp finds it (struct target says what it is given), its note is
   read (link_mark.h), and the word is left with the hub (hub_word.h). It may run in a child of vfork, so nothing is
   kept. */
#define _GNU_SOURCE
#include "process/exec_notice.h"

#include <errno.h>
#include <fcntl.h>
#include <limits.h>
#include <string.h>
#include <sys/stat.h>
#include <unistd.h>

#include "process/link_mark.h"
#include "libc/library.h"
#include "base/digits.h"
#include "base/self.h"
#include "process/given.h"
#include "environment/hub_names.h"
#include "process/process.h"
#include "process/root.h"
#include "process/waiter.h"
#include "stream/side.h"
#include "stream/state.h"
#include "base/system.h"
#include "environment/hub_word.h"

/* So much of the name that a descriptor has is shown. */
enum { SHOWN_ROOM = 256 };

/* What the program gives need not be there: the system says so then. */
static const char *value_in(char *const *environment, const char *front)
{
    size_t length = strlen(front);
    for (; given_is_there((uintptr_t)environment, sizeof *environment) && *environment != NULL; environment++)
        if (given_text_is_there(*environment) && strncmp(*environment, front, length) == 0)
            return *environment + length;
    return NULL;
}

/* The system finds no such file, whoever asks it. */
static bool is_nowhere(int failed)
{
    return failed == -ENOENT || failed == -ENOTDIR;
}

/* The file in the folders of PATH that can be executed. False: none can; and whether one may be there. */
static bool look_for(const char *name, char *path, bool *may_be)
{
    *may_be = false;
    const char *at = value_in(library.environment != NULL ? *library.environment : NULL, "PATH=");
    for (at = at != NULL ? at : "/bin:/usr/bin"; *name != 0; at++) {
        struct joined joined = {.text = path, .room = PATH_MAX};
        size_t length = strcspn(at, ":");
        joined_add(&joined, at, length);
        joined_add(&joined, length > 0 ? "/" : "", 1);
        joined_add(&joined, name, PATH_MAX);
        int failed = joined.is_cut ? -ENAMETOOLONG : system_access(path, X_OK);
        if (failed == 0)
            return true;
        *may_be = *may_be || !is_nowhere(failed);
        at += length;
        if (*at == 0)
            break;
    }
    return false;
}

/* Puts the path of the file into the room, which has PATH_MAX bytes, or answers it as it was given. Null: none is
   found, and then it is said whether it may be there. */
static const char *path_of(const struct target *target, char *room, bool *may_be)
{
    static const char front[] = "/proc/self/fd/";
    char digits[DIGITS_ROOM];
    *may_be = true;
    if (target->name == NULL) {
        struct joined joined = {.text = room, .room = PATH_MAX};
        joined_add(&joined, front, sizeof front);
        joined_add(&joined, put_digits(digits + sizeof digits, (unsigned)target->descriptor, 1), sizeof digits);
        return room;
    }
    if (!given_text_is_there(target->name))
        return NULL;
    if (target->is_looked_for && strchr(target->name, '/') == NULL)
        return look_for(target->name, room, may_be) ? room : NULL;
    *may_be = !is_nowhere(system_access(target->name, F_OK));
    return *may_be ? target->name : NULL;
}

/* Why the program may never connect. */
static const char *why_unseen(const struct target *target, const char *path)
{
    struct stat seen;
    const char *hub = value_in(target->environment, HUB_ENTRY);
    bool has_hub = hub != NULL && *hub != 0;
    if (has_hub && strcmp(hub, recorder_hub()) != 0)
        return "it was started with another ASANCOL_HUB";
    bool has_rights = system_stat(path, &seen) == 0
                      && (((seen.st_mode & S_ISUID) && seen.st_uid != system_geteuid()) || (seen.st_mode & S_ISGID));
    if (has_rights)
        return "it is set-user-ID or set-group-ID, so it ignores its settings";
    return has_hub ? NEVER_BEGAN : "it was started without ASANCOL_HUB in its environment, and did not find the run";
}

/* The file if it was built with the recorder, or null: with why it may never connect. */
static const char *expected_in(const struct target *target, const char *path, const char **why)
{
    enum built built = path != NULL ? link_mark_of(path) : BUILT_BY_OTHERS;
    *why = built == BUILT_BY_US ? why_unseen(target, path)
                                : "nothing came of it, and no descriptor was left to see if asancol-cc built it";
    return built != BUILT_BY_OTHERS ? path : NULL;
}

/* Whether programs that this one starts are to connect to its hub: if that is its own run, each has one, too. */
static bool expects(void)
{
    return recorder_hub() != NULL && !waiter_has_begun();
}

/* Leaves word with the hub. False: the file needs none, or no word could be left. */
static bool note_exec(const struct target *target, const char *found)
{
    char shown[SHOWN_ROOM];
    const char *why, *path = expected_in(target, found, &why);
    if (path == NULL)
        return false;
    long length = target->name == NULL ? system_readlink(path, shown, sizeof shown - 1) : 0;
    shown[length > 0 ? length : 0] = 0;
    int failed = hub_word_expect(recorder_hub(), length > 0 ? shown : path, why);
    /* From where the folder is not seen the side memory is. A child of vfork has none. */
    bool is_noted = failed != 0 && failed != -EEXIST && recorder_is_own_process() && side_note_becoming(true);
    return failed == 0 || is_noted;
}

/* Without a hub nobody needs the path: then leaving for nothing costs less than looking for a file. */
unsigned exec_notice_leave(const struct target *target)
{
    char room[PATH_MAX];
    const char *path = NULL;
    bool may_be = true, is_noted = false, is_left = false, has_hub = expects();
    _Atomic uint64_t *calls = side_begin_calls(true);
    if (has_hub || (!target->is_looked_for && stream_state() != STATE_OFF))
        path = path_of(target, room, &may_be);
    if (path != NULL || may_be) {
        is_noted = has_hub && note_exec(target, path);
        is_left = recorder_before_exec();
        if (is_left)
            root_becomes(true);
    }
    side_end_calls(calls);
    return (is_left ? LEFT_RECORDING : 0) | (is_noted ? LEFT_WORD : 0);
}

void exec_notice_failed(void)
{
    root_becomes(false);
    recorder_exec_failed();
}

void exec_notice_take_back(void)
{
    hub_word_expect_no_more(recorder_hub());
    if (recorder_is_own_process())
        side_note_becoming(false);
}

bool exec_notice_of_child(const struct target *target)
{
    char room[PATH_MAX];
    bool may_be;
    _Atomic uint64_t *calls = side_begin_calls(true);
    const char *why, *found = expects() ? path_of(target, room, &may_be) : NULL;
    const char *path = expected_in(target, found, &why);
    bool is_noted = path != NULL && hub_word_expect_child(recorder_hub(), target->name, why);
    side_end_calls(calls);
    return is_noted;
}

void exec_notice_child_killed(int child, int number)
{
    hub_word_killed(recorder_hub(), child, number);
}

void exec_notice_child_number(int child)
{
    _Atomic uint64_t *calls = side_begin_calls(true);
    hub_word_expect_as(recorder_hub(), child);
    side_end_calls(calls);
}
