/* A run is found by ASANCOL_HUB, or by the mark in the timer slack (common/inherited.h), and asked once; its settings
   stay in `answer`. */
#define _GNU_SOURCE
#include "outer.h"

#include <errno.h>
#include <stdbool.h>
#include <stdio.h>
#include <stdlib.h>
#include <string.h>
#include <sys/prctl.h>
#include <unistd.h>

#include "common/hub_name.h"
#include "common/inherited.h"
#include "common/text.h"
#include "hub.h"

/* Whether who listens is of our user, or root. */
static bool is_trusted(int connection)
{
    struct ucred listener;
    socklen_t size = sizeof listener;
    return getsockopt(connection, SOL_SOCKET, SO_PEERCRED, &listener, &size) == 0
           && (listener.uid == 0 || listener.uid == geteuid());
}

/* Puts the settings of a run into a room of SETTINGS_MOST bytes, with two zeros after them. False: it has not answered
   in time, and there is no use in asking again. */
static bool ask(const char *hub, char *answer)
{
    char name[sizeof((struct sockaddr_un *)0)->sun_path];
    struct sockaddr_un address;
    size_t length = 0;
    ssize_t count = -1;
    socklen_t size = hub_ask_name(name, sizeof name, hub) ? hub_socket(&address, name, true) : 0;
    int made = size > 0 ? socket(AF_UNIX, SOCK_STREAM | SOCK_CLOEXEC, 0) : -1;
    if (made < 0)
        return true;
    bool is_asked = hub_connect(made, &address, size) && is_trusted(made)
                    && send(made, ASK_SETTINGS, strlen(ASK_SETTINGS), MSG_NOSIGNAL) > 0;
    bool is_late = !is_asked && errno == EAGAIN;
    while (is_asked && (count = read(made, answer + length, SETTINGS_MOST - 2 - length)) > 0)
        length += (size_t)count;
    is_late |= is_asked && count < 0 && errno == EAGAIN;
    memset(answer + length, 0, 2);
    close(made);
    return !is_late;
}

/* The value of one of the settings, whose name has its equals sign; or null. */
static const char *value_in(const char *settings, const char *front)
{
    for (const char *at = settings; *at != 0; at += strlen(at) + 1)
        if (begins_with(at, front))
            return at + strlen(front);
    return NULL;
}

/* The name of the abstract socket in a line of /proc/net/unix, without what ends it, if it has this mark; or null. */
static const char *marked_name(char *line, unsigned long slack)
{
    char *name = strstr(line, " @");
    if (name == NULL)
        return NULL;
    name += strlen(" @");
    name[strcspn(name, "\n")] = 0;
    bool is_hub = strstr(name, HUB_WORD) != NULL && slack_for(name, strlen(name), slack) == slack;
    return is_hub ? name : NULL;
}

/* What the run has answered that was found by its mark. */
static char answer[SETTINGS_MOST];

/* Looks for it, once. Answers its hub, or null. */
static const char *find_marked(void)
{
    static bool is_done;
    const char *found = NULL;
    int slack = prctl(PR_GET_TIMERSLACK, 0, 0, 0, 0);
    char *line = NULL;
    size_t room = 0;
    if (is_done || slack <= 0 || !slack_has_mark((unsigned long)slack))
        return value_in(answer, "ASANCOL_HUB=");
    is_done = true;
    FILE *names = fopen("/proc/net/unix", "re");
    bool is_late = false;
    while (names != NULL && found == NULL && !is_late && getline(&line, &room, names) > 0) {
        const char *name = marked_name(line, (unsigned long)slack);
        if (name != NULL)
            is_late = !ask(name, answer);
        found = value_in(answer, "ASANCOL_HUB=");
    }
    if (names != NULL)
        fclose(names);
    free(line);
    return found;
}

const char *outer_hub(void)
{
    const char *said = getenv("ASANCOL_HUB");
    return said != NULL ? said : find_marked();
}

const char *outer_options(void)
{
    const char *said = getenv("ASANCOL_OUTER");
    if (getenv("ASANCOL_HUB") != NULL || find_marked() == NULL)
        return said;
    return value_in(answer, "ASANCOL_OUTER=");
}
