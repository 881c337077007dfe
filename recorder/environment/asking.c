/* One connection for each question: the request is sent whole, and the answer read to its end, within one patience. */
#define _GNU_SOURCE
#include "environment/asking.h"

#include <errno.h>
#include <limits.h>
#include <string.h>
#include <sys/un.h>

#include "base/system.h"
#include "common/hub_name.h"

int connect_patiently(int descriptor, const void *address, socklen_t length, int *patience_ms)
{
    int result;
    while ((result = system_connect(descriptor, address, length)) == -EAGAIN && *patience_ms > 0) {
        *patience_ms -= 10;
        system_poll(NULL, 0, 10);
    }
    return result;
}

bool is_trusted(int descriptor)
{
    struct ucred listener;
    socklen_t size = sizeof listener;
    return system_getsockopt(descriptor, SOL_SOCKET, SO_PEERCRED, &listener, &size) == 0
           && (listener.uid == 0 || listener.uid == system_geteuid());
}

/* A socket that has connected, by the path, which another network does not hide, or by the abstract name; or an error
   below zero. */
static int connect_to(const char *hub, int *patience_ms)
{
    char name[sizeof((struct sockaddr_un *)0)->sun_path];
    struct sockaddr_un address;
    int made = system_socket(AF_UNIX, SOCK_STREAM | SOCK_CLOEXEC | SOCK_NONBLOCK, 0), result = -ENAMETOOLONG;
    if (made < 0)
        return made;
    for (int is_abstract = 0; is_abstract < 2 && result != 0; is_abstract++) {
        socklen_t length = hub_ask_name(name, sizeof name, hub) ? hub_socket(&address, name, is_abstract != 0) : 0;
        result = length > 0 ? connect_patiently(made, &address, length, patience_ms) : -ENAMETOOLONG;
    }
    if (result == 0)
        return made;
    system_close(made);
    return result;
}

long ask_read(int connection, char *bytes, size_t room, int *patience_ms)
{
    enum { LOOK_MS = 100 };
    for (;;) {
        struct pollfd wait = {connection, POLLIN, 0};
        ssize_t count = system_read(connection, bytes, room);
        if (count >= 0 || (count != -EAGAIN && count != -EINTR))
            return count;
        if (*patience_ms <= 0)
            return -ETIMEDOUT;
        if (system_poll(&wait, 1, LOOK_MS) == 0)
            *patience_ms -= LOOK_MS;
    }
}

/* Reads up to the end. */
static long read_answer(int connection, char *answer, size_t room, int patience_ms)
{
    size_t length = 0;
    for (;;) {
        long count = ask_read(connection, answer + length, room - length, &patience_ms);
        if (count <= 0)
            return count < 0 ? count : (long)length;
        length += (size_t)count;
    }
}

bool is_asked_at(const char *hub)
{
    int patience_ms = 0, made = connect_to(hub, &patience_ms);
    if (made >= 0)
        system_close(made);
    return made != -ECONNREFUSED && made != -ENOENT;
}

int ask_begin(const char *hub, const char *request, bool trusting, int *patience_ms)
{
    int made = connect_to(hub, patience_ms);
    if (made < 0)
        return made;
    long result = trusting && !is_trusted(made) ? -EACCES : 0;
    if (result == 0)
        result = system_send(made, request, strlen(request), MSG_NOSIGNAL);
    if (result > 0)
        return made;
    system_close(made);
    return result < 0 ? (int)result : -EPIPE;
}

long ask(const char *hub, const char *request, bool trusting, char *answer, size_t room)
{
    int patience_ms = ASK_PATIENCE_MS, made = ask_begin(hub, request, trusting, &patience_ms);
    if (made < 0)
        return made;
    long result = read_answer(made, answer, room, patience_ms);
    system_close(made);
    return result;
}

long ask_on(int connection, const char *request, char *answer, size_t room)
{
    long result = system_send_anyhow(connection, request, strlen(request));
    if (result > 0)
        result = read_answer(connection, answer, room, INT_MAX);
    system_close(connection);
    return result;
}
