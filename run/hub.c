/* Four sockets: two for recordings (`listeners`) and two for questions (`asked`), of each pair one in the folder and
   one under the abstract name. The kernel's credentials of a connection identify the process. */
#define _GNU_SOURCE
#include "hub.h"

#include <errno.h>
#include <fcntl.h>
#include <stdbool.h>
#include <stddef.h>
#include <stdio.h>
#include <stdlib.h>
#include <string.h>
#include <sys/random.h>
#include <sys/socket.h>
#include <sys/time.h>
#include <unistd.h>

#include "common/array.h"
#include "common/hub_name.h"
#include "common/text.h"
#include "folder.h"
#include "say.h"

/* The socket's name in the folder: the one to which it is bound, and the one that it gets. */
#define SOCKET_END "/hub"
#define SECRET_END "-0123456789abcdef"
enum { SECRET_BYTES = 8 };
/* With the zero at one of the ends. */
enum { ADDRESS_ROOM = sizeof((struct sockaddr_un *)0)->sun_path };

static char folder[ADDRESS_ROOM], address[ADDRESS_ROOM + sizeof SOCKET_END];
static int listeners[HUB_LISTENERS] = {-1, -1}, asked[HUB_LISTENERS] = {-1, -1};

/* Makes a socket that listens under this name. False: it cannot be had, as errno says. */
static bool listen_at(int *listener, const char *text, bool is_abstract)
{
    struct sockaddr_un name;
    socklen_t size = hub_socket(&name, text, is_abstract);
    if (size == 0)
        return false;
    int made = socket(AF_UNIX, SOCK_STREAM | SOCK_CLOEXEC | SOCK_NONBLOCK, 0);
    if (made >= 0 && bind(made, (struct sockaddr *)&name, size) == 0 && listen(made, SOMAXCONN) == 0) {
        *listener = made;
        return true;
    }
    int error = errno;
    if (made >= 0)
        close(made);
    errno = error;
    return false;
}

/* Adds what nobody guesses. */
static void add_secret(void)
{
    unsigned char random[SECRET_BYTES];
    size_t length = strlen(address);
    if (getrandom(random, sizeof random, 0) != sizeof random)
        fail(OWN_FAILURE, "no random bytes", strerror(errno));
    length += (size_t)snprintf(address + length, sizeof address - length, "-");
    for (size_t i = 0; i < sizeof random; i++)
        length += (size_t)snprintf(address + length, sizeof address - length, "%02x", random[i]);
}

/* Makes the folder in this one, and the socket in it. False: it cannot be there. */
static bool try_folder(const char *base)
{
    static const char ends[] = FOLDER_END SOCKET_END SECRET_END;
    char bound[sizeof address];
    /* The system lists names of sockets in lines. */
    if (base == NULL || base[0] != '/' || strchr(base, '\n') != NULL || strlen(base) + sizeof ends > ADDRESS_ROOM
        || folder_is_open_to_all(base))
        return false;
    if (!folder_make(base, folder, sizeof folder))
        return false;
    snprintf(address, sizeof address, "%s" SOCKET_END, folder);
    snprintf(bound, sizeof bound, "%s", address);
    add_secret();
    if (listen_at(&listeners[0], bound, false) && folder_give_name(base_name(bound), base_name(address))) {
        folder_sweep(base);
        return true;
    }
    if (listeners[0] >= 0)
        close(listeners[0]);
    listeners[0] = -1;
    folder_remove();
    return false;
}

/* Its name is only listed, and not guessed. */
static void name_without_folder(void)
{
    folder[0] = 0;
    snprintf(address, sizeof address, "/asancol");
    add_secret();
}

/* Where it is asked for settings. Whoever has not our environment does not know the secret. */
static void listen_to_questions(bool has_folder)
{
    char name[ADDRESS_ROOM];
    if (!hub_ask_name(name, sizeof name, address))
        return;
    if (has_folder && listen_at(&asked[0], name, false))
        folder_open_socket(base_name(name));
    listen_at(&asked[1], name, true);
}

void hub_open(bool is_quiet)
{
    const char *const bases[] = {getenv("TMPDIR"), getenv("XDG_RUNTIME_DIR"), "/tmp", "/dev/shm", "/var/tmp"};
    bool has_folder = false;
    if (bases[0] != NULL && !is_quiet && folder_is_open_to_all(bases[0]))
        say("asancol-run: TMPDIR: %s: anybody may move its contents, so the folder of the run is elsewhere: "
            "chmod +t", bases[0]);
    for (size_t i = 0; i < COUNT(bases) && !has_folder; i++)
        has_folder = try_folder(bases[i]);
    if (!has_folder)
        name_without_folder();
    if (!listen_at(&listeners[1], address, true) && !has_folder)
        fail(OWN_FAILURE, "no socket", strerror(errno));
    listen_to_questions(has_folder);
}

void hub_adopt(int listener, int questions)
{
    struct sockaddr_un name;
    socklen_t size = sizeof name;
    size_t front = offsetof(struct sockaddr_un, sun_path) + 1;
    if (getsockname(listener, (struct sockaddr *)&name, &size) != 0 || size <= front)
        fail(OWN_FAILURE, "--sockets", "there is no socket with an abstract name");
    snprintf(address, sizeof address, "%.*s", (int)(size - front), name.sun_path + 1);
    listeners[1] = listener;
    asked[1] = questions;
    for (int i = 0; i < 2; i++)
        fcntl(i == 0 ? listener : questions, F_SETFD, FD_CLOEXEC);
}

const char *hub_address(void)
{
    return address;
}

size_t hub_public_length(void)
{
    return listeners[1] >= 0 ? hub_public_bytes(address) : 0;
}

const char *hub_folder(void)
{
    return folder[0] != 0 ? folder : NULL;
}

const int *hub_listeners(void)
{
    return listeners;
}

const int *hub_asked(void)
{
    return asked;
}

bool hub_know(int connection, struct ucred *peer)
{
    socklen_t size = sizeof *peer;
    return getsockopt(connection, SOL_SOCKET, SO_PEERCRED, peer, &size) == 0;
}

int hub_accept(int listener, struct ucred *peer)
{
    for (;;) {
        int connection = accept4(listener, NULL, NULL, SOCK_CLOEXEC);
        if (connection < 0 && (errno == ECONNABORTED || errno == EINTR))
            continue;
        if (connection < 0 || hub_know(connection, peer))
            return connection;
        close(connection);
    }
}

bool hub_is_secret(int listener)
{
    return listener == listeners[0];
}

bool hub_connect(int connection, const struct sockaddr_un *name, socklen_t size)
{
    struct timeval patience = {.tv_sec = 60};
    /* The second is how long a place in a full queue is waited for. */
    return setsockopt(connection, SOL_SOCKET, SO_RCVTIMEO, &patience, sizeof patience) == 0
           && setsockopt(connection, SOL_SOCKET, SO_SNDTIMEO, &patience, sizeof patience) == 0
           && connect(connection, (const struct sockaddr *)name, size) == 0;
}

bool hub_knock(const char *of_hub)
{
    bool is_there = false;
    for (int is_abstract = 0; is_abstract < HUB_LISTENERS && !is_there; is_abstract++) {
        struct sockaddr_un name;
        socklen_t size = hub_socket(&name, of_hub, is_abstract != 0);
        int made = socket(AF_UNIX, SOCK_STREAM | SOCK_CLOEXEC, 0);
        is_there = size > 0 && made >= 0 && (hub_connect(made, &name, size) || errno == EAGAIN);
        if (made >= 0)
            close(made);
    }
    return is_there;
}

void hub_stop(void)
{
    for (int i = 0; i < 2 * HUB_LISTENERS; i++) {
        int *listener = i < HUB_LISTENERS ? &listeners[i] : &asked[i - HUB_LISTENERS];
        if (*listener >= 0)
            close(*listener);
        *listener = -1;
    }
}
