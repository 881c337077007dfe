/* The process is watched by a descriptor of it, where the system has such. */
#define _GNU_SOURCE
#include "serving.h"

#include <errno.h>
#include <fcntl.h>
#include <signal.h>
#include <stdio.h>
#include <stdlib.h>
#include <string.h>
#include <sys/socket.h>
#include <sys/syscall.h>
#include <unistd.h>

#include "children.h"
#include "common/hub_name.h"
#include "deaths.h"
#include "hub.h"

static struct {
    pid_t number; /* 0: the command is a child, as usual */
    int process;  /* a descriptor of it, or -1 */
    int asking;   /* the connection on which it will ask, or -1 */
    int asked;    /* the same once it waits there, or -1 */
    int status;   /* with which it ends, once it has asked */
    const char *sockets; /* those that were not taken yet */
    int passed;          /* a connection that came over the program's own, or -1 */
    bool has_asked, is_over;
} served = {.process = -1, .asking = -1, .asked = -1, .passed = -1};

/* The next number of the list, or -1 at its end. */
static int next_socket(void)
{
    char *end;
    long socket = strtol(served.sockets, &end, 10);
    if (end == served.sockets)
        return -1;
    served.sockets = end + (*end == ',');
    if (socket > 0)
        fcntl((int)socket, F_SETFD, FD_CLOEXEC);
    return (int)socket;
}

void serving_begin(pid_t number, const char *sockets)
{
    served.number = number;
    served.sockets = sockets;
    children_hide_errors();
    served.process = (int)syscall(SYS_pidfd_open, number, 0);
    if (served.process >= 0)
        fcntl(served.process, F_SETFD, FD_CLOEXEC);
    int asking = next_socket(), listener = next_socket(), questions = next_socket();
    served.asking = asking > 0 ? asking : -1;
    hub_adopt(listener, questions);
}

int serving_next_connection(void)
{
    int passed = served.passed;
    served.passed = -1;
    return passed >= 0 || served.sockets == NULL ? passed : next_socket();
}

bool serving_is_on(void)
{
    return served.number != 0;
}

struct pollfd serving_poll(void)
{
    return (struct pollfd){served.is_over || served.has_asked ? -1 : served.process, POLLIN, 0};
}

struct pollfd serving_asking_poll(void)
{
    return (struct pollfd){served.is_over ? -1 : served.asking, POLLIN, 0};
}

static void take_question(const char *text)
{
    served.asked = served.asking;
    served.asking = -1;
    served.status = atoi(text);
    served.has_asked = true;
}

/* The descriptor that came with a byte, or -1. */
static int passed_with(struct msghdr *message)
{
    int passed = -1;
    struct cmsghdr *header = CMSG_FIRSTHDR(message);
    if (header != NULL && header->cmsg_type == SCM_RIGHTS && header->cmsg_len == CMSG_LEN(sizeof passed))
        memcpy(&passed, CMSG_DATA(header), sizeof passed);
    return passed;
}

/* What comes there besides questions (common/hub_name.h): the program is told that this run goes on. */
static void take_word(char word, int passed)
{
    const char answer = OWN_RETIRES;
    if (word == OWN_PASSES && passed >= 0)
        served.passed = passed;
    else
        send(served.asking, &answer, 1, MSG_NOSIGNAL | MSG_DONTWAIT);
}

/* Looks where it asks. The connection may have come to an end, as by an exec. */
static void look_for_question(void)
{
    char text[64], control[CMSG_SPACE(sizeof(int))];
    struct iovec piece = {text, sizeof text - 1};
    struct msghdr message = {
        .msg_iov = &piece, .msg_iovlen = 1, .msg_control = control, .msg_controllen = sizeof control};
    if (served.passed >= 0)
        return; /* what follows waits until that is taken */
    ssize_t length = served.asking >= 0 ? recvmsg(served.asking, &message, MSG_DONTWAIT | MSG_CMSG_CLOEXEC) : -1;
    if (length > 0 && text[0] != '\n') {
        take_word(text[0], passed_with(&message));
    } else if (length > 0) {
        text[length] = 0;
        take_question(text);
    } else if (served.asking >= 0 && (length == 0 || (errno != EAGAIN && errno != EINTR))) {
        close(served.asking);
        served.asking = -1;
    }
}

/* It may still be there for its parent: that is how the status is known. */
static bool is_gone(int *status)
{
    struct pollfd wait = serving_poll();
    if (wait.fd >= 0 && poll(&wait, 1, 0) <= 0)
        return false;
    bool is_there = wait.fd < 0 && (kill(served.number, 0) == 0 || errno != ESRCH);
    return death_of(served.number, status) != DEATH_NONE || !is_there;
}

bool serving_has_ended(int *status)
{
    if (served.number == 0 || served.is_over)
        return false;
    look_for_question();
    *status = served.status;
    served.is_over = served.has_asked || is_gone(status);
    if (served.is_over && served.has_asked)
        death_note_ending(served.number, *status);
    return served.is_over;
}

bool serving_take(pid_t number, const char *text, int connection)
{
    if (number != served.number || served.has_asked || served.is_over)
        return false;
    if (served.asking >= 0)
        close(served.asking);
    served.asking = connection;
    if (*text != 0)
        take_question(text);
    return true;
}

bool serving_is_asked(void)
{
    return served.asked >= 0;
}

void serving_answer(int status)
{
    char text[16];
    if (served.asked < 0)
        return;
    snprintf(text, sizeof text, "%d", status); /* STATUS_OF_COMMAND has a sign */
    send(served.asked, text, strlen(text), MSG_NOSIGNAL);
    close(served.asked);
    served.asked = -1;
}

void serving_follow(pid_t number)
{
    char path[64];
    int null = open("/dev/null", O_RDWR | O_CLOEXEC);
    snprintf(path, sizeof path, "/proc/%d/fd/%d", number, STDERR_FILENO);
    int its = open(path, O_WRONLY | O_APPEND | O_NOCTTY | O_CLOEXEC);
    dup2(null, STDOUT_FILENO);
    if (its >= 0)
        dup2(its, STDERR_FILENO);
    close(null);
    close(its);
}
