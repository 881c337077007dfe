/* Candidates, in this order: names of abstract sockets in /proc/net/unix, folders of runs in the usual places, and hubs
   of the ancestors (ancestors.c). A candidate must have the mark that the inherited timer slack names. */
#define _GNU_SOURCE
#include "environment/orphan.h"

#include <errno.h>
#include <fcntl.h>
#include <stdbool.h>
#include <stdint.h>
#include <string.h>
#include <sys/prctl.h>

#include "environment/ancestors.h"
#include "environment/asking.h"
#include "environment/startup.h"
#include "base/digits.h"
#include "base/platform.h"
#include "common/hub_name.h"
#include "common/inherited.h"
#include "base/system.h"
#include "environment/hub_names.h"
#include "environment/hub_word.h"

/* As long as the name of a socket is. */
enum { NAME_ROOM = 109, PIECE = 4096 };

/* The action for the name of a run that has our mark. False: that is another one, whose mark is the same. */
typedef bool take_run(const char *hub, const char *why);

/* The names of abstract sockets in a text that comes in pieces: each follows " @", up to the end of its line. */
struct names {
    char name[NAME_ROOM];
    size_t length;
    bool is_in; /* a name */
    char before;
};

static bool has_word_of_hub(const char *name)
{
    for (; *name != 0; name++)
        if (strncmp(name, HUB_WORD, strlen(HUB_WORD)) == 0)
            return true;
    return false;
}

/* Takes a byte. Answers whether a whole name is there. */
static bool take_byte(struct names *names, char byte)
{
    bool is_end = names->is_in && byte == '\n';
    if (names->is_in && !is_end && names->length < NAME_ROOM - 1)
        names->name[names->length++] = byte;
    if (is_end)
        names->name[names->length] = 0;
    if (!names->is_in && names->before == ' ' && byte == '@')
        names->length = 0;
    names->is_in = !is_end && (names->is_in || (names->before == ' ' && byte == '@'));
    names->before = byte;
    return is_end;
}

static bool has_mark(const char *name, unsigned long slack)
{
    return has_word_of_hub(name) && (slack == 0 || slack_for(name, strlen(name), slack) == slack);
}

/* Among the names that the system lists. */
static bool look_at_names(unsigned long slack, take_run *take, const char *why)
{
    struct names names = {.length = 0};
    char piece[PIECE];
    ssize_t count;
    bool is_taken = false;
    int file = system_open("/proc/net/unix", O_RDONLY | O_CLOEXEC, 0);
    while (file >= 0 && !is_taken && (count = system_read(file, piece, sizeof piece)) > 0)
        for (ssize_t i = 0; i < count && !is_taken; i++)
            is_taken = take_byte(&names, piece[i]) && has_mark(names.name, slack) && take(names.name, why);
    if (file >= 0)
        system_close(file);
    return is_taken;
}

/* What getdents64 gives. */
struct entry {
    uint64_t node, offset;
    unsigned short length;
    unsigned char type;
    char name[];
};

/* Among the folders of runs in a folder: another network has other names. */
static bool look_in(const char *base, unsigned long slack, take_run *take, const char *why)
{
    _Alignas(8) char piece[PIECE];
    long count;
    bool is_taken = false;
    int folder = system_open(base, O_RDONLY | O_DIRECTORY | O_CLOEXEC | O_NONBLOCK, 0);
    while (folder >= 0 && !is_taken && (count = system_call3(SYS_getdents64, folder, (long)piece, PIECE)) > 0) {
        for (long at = 0; at < count && !is_taken; at += ((const struct entry *)(piece + at))->length) {
            char name[NAME_ROOM] = "";
            struct joined joined = {.text = name, .room = sizeof name};
            joined_add(&joined, base, NAME_ROOM);
            joined_add(&joined, "/", 1);
            joined_add(&joined, ((const struct entry *)(piece + at))->name, NAME_ROOM);
            joined_add(&joined, HUB_END, NAME_ROOM);
            is_taken = !joined.is_cut && has_mark(name, slack) && take(name, why);
        }
    }
    if (folder >= 0)
        system_close(folder);
    return is_taken;
}

/* Among the folders in which runs are made. */
static bool look_at_folders(unsigned long slack, take_run *take, const char *why)
{
    static const char *const bases[] = {"/tmp", "/dev/shm", "/var/tmp"};
    char name[NAME_ROOM], digits[DIGITS_ROOM];
    struct joined joined = {.text = name, .room = sizeof name};
    joined_add(&joined, "/run/user/", NAME_ROOM);
    joined_add(&joined, put_digits(digits + sizeof digits, system_geteuid(), 1), DIGITS_ROOM);
    bool is_taken = look_in(name, slack, take, why);
    for (size_t i = 0; i < sizeof bases / sizeof *bases && !is_taken; i++)
        is_taken = look_in(bases[i], slack, take, why);
    return is_taken;
}

/* Finds the run. False: there is none, or none takes this process for its own. */
static bool look_for_run(take_run *take, const char *why)
{
    long slack = system_prctl(PR_GET_TIMERSLACK);
    /* The system makes zero of it where a process runs in real time: then each run is asked. */
    bool may_have_mark = slack == 0 || (slack > 0 && slack_has_mark((unsigned long)slack));
    if (may_have_mark && look_at_names((unsigned long)slack, take, why))
        return true;
    return (may_have_mark && look_at_folders((unsigned long)slack, take, why)) || ancestors_hubs(take, why);
}

/* A process with more rights than who has started it makes nothing where that one likes. */
static bool leave_word(const char *hub, const char *why)
{
    if (startup.is_set_user)
        return hub_word_tell(hub, why);
    hub_word_note(hub, why);
    return true;
}

#ifdef IN_SHARED_OBJECT

void orphan_say(const char *why)
{
    look_for_run(leave_word, why);
}

#else

static AS_TABLE struct {
    char text[SETTINGS_MOST];
    const char *in_the_way;
} given;

/* A take_run: asks this run for the settings. */
static bool take_settings(const char *hub, const char *why)
{
    (void)why;
    static const char other_user[] = "it runs as another user than asancol-run, and need not trust its settings";
    long length = ask(hub, ASK_SETTINGS, true, given.text, sizeof given.text - 2);
    /* Where nobody listens there is no run: another socket's name may have our mark, too. */
    if (length == 0 || length == -ECONNREFUSED || length == -ENOENT)
        return false;
    /* That of one is what there is to say, whatever others with its mark answer. */
    if (length == -EACCES)
        given.in_the_way = other_user;
    else if (length > 0)
        given.in_the_way = NULL;
    else if (given.in_the_way != other_user)
        given.in_the_way = "it was started without ASANCOL_HUB in its environment, and the run did not answer";
    given.text[length > 0 ? length : 0] = 0; /* an earlier answer may have been longer */
    return length > 0 || length == -ETIMEDOUT; /* else another one's may come, whose mark is the same */
}

void orphan_ask(void)
{
    if (startup.is_set_user)
        given.in_the_way = "it is set-user-ID or set-group-ID, so it ignores its settings";
    else
        look_for_run(take_settings, NULL);
}

bool orphan_ask_at(const char *hub)
{
    return take_settings(hub, NULL) && given.text[0] != 0;
}

bool orphan_is_in_the_way(void)
{
    return given.in_the_way != NULL;
}

void orphan_give(const char *lines)
{
    size_t length = strlen(lines);
    if (length > sizeof given.text - 2)
        return;
    memcpy(given.text, lines, length + 1);
    for (size_t i = 0; i < length; i++)
        if (given.text[i] == '\n')
            given.text[i] = 0;
    given.text[length + 1] = 0; /* an earlier answer may have been longer */
}

const char *orphan_value(const char *name)
{
    size_t length = strlen(name);
    for (const char *at = given.text; *at != 0; at += strlen(at) + 1)
        if (strncmp(at, name, length) == 0 && at[length] == '=')
            return at[length + 1] != 0 ? at + length + 1 : NULL;
    return NULL;
}

void orphan_say(const char *why)
{
    why = why != NULL ? why : given.in_the_way;
    if (why != NULL)
        look_for_run(leave_word, why);
}

#endif
