/* Two sockets listen under names without a folder, for recordings and questions, and a pair leads to the program. A
   child of the program has their other ends, in a session of its own, and no descriptor besides, except standard
   error while the program lives. No signal says that it ends, and no call waits for it that does not ask for such
   children. Who connects is accepted. The first bytes, on any of the connections, or the first question start
   asancol-run, which takes all of them over. The program tells of its own end, and is answered by a byte if others
   are connected still: so no zombie is left to a first process that minds none. */
#define _GNU_SOURCE
#include "process/waiter.h"

#include <errno.h>
#include <fcntl.h>
#include <limits.h>
#include <sched.h>
#include <signal.h>
#include <stdbool.h>
#include <string.h>
#include <sys/mman.h>
#include <sys/prctl.h>
#include <sys/un.h>
#include <sys/wait.h>
#include <unistd.h>

#include "base/descriptors.h"
#include "base/digits.h"
#include "base/errors.h"
#include "base/platform.h"
#include "base/say.h"
#include "base/system.h"
#include "common/hub_name.h"
#include "environment/dormant.h"
#include "environment/hub_names.h"
#include "environment/startup.h"

/* At most this many connections wait in it. With more it begins. */
enum { MOST_WAITING = 64 };

enum { ASKING, HUB, ASKED, PROCESS, FIRST, MOST_POLLS = FIRST + MOST_WAITING };

/* So long the children of forks are waited for that have begun, and may have been killed. */
enum { PATIENCE_MS = 3000 };

/* Of the program until it has forked, and of the waiting process then. */
static struct {
    struct pollfd polls[MOST_POLLS]; /* the pair's end, the two that listen, the process, and who is connected */
    size_t count;
    struct dormant *shared;
    int program;
    int speaker; /* the connection that has sent something first, or -1 */
} waiter = {.speaker = -1};

static int own_end = -1, child;
static bool has_begun;

int waiter_end(void)
{
    int end = own_end;
    own_end = -1;
    return end;
}

/* A name without a folder, and what nobody guesses. */
#define FRONT "/asancol-"

static bool make_name(char name[WAITER_NAME_ROOM])
{
    static const char digits[] = "0123456789abcdef";
    unsigned char random[8];
    if (system_call3(SYS_getrandom, (long)random, sizeof random, 0) != sizeof random)
        return false;
    char *at = strcpy(name, FRONT) + strlen(FRONT);
    for (size_t i = 0; i < sizeof random; i++) {
        *at++ = digits[random[i] >> 4];
        *at++ = digits[random[i] & 15];
    }
    *at = 0;
    return true;
}

/* Past standard error, which the waiting process arranges anew. Answers the descriptor, or an error. */
static int past_standard(int made)
{
    if (made < 0 || made > STDERR_FILENO)
        return made;
    int moved = system_fcntl(made, F_DUPFD_CLOEXEC, STDERR_FILENO + 1);
    system_close(made);
    return moved;
}

static int listen_at(const char *name)
{
    struct sockaddr_un address;
    socklen_t length = hub_socket(&address, name, true);
    int made = past_standard(system_socket(AF_UNIX, SOCK_STREAM | SOCK_CLOEXEC | SOCK_NONBLOCK, 0));
    long result = made >= 0 ? system_call3(SYS_bind, made, (long)&address, length) : 0;
    if (made >= 0 && result == 0)
        result = system_call3(SYS_listen, made, SOMAXCONN, 0);
    if (result == 0)
        return made;
    system_close(made);
    return (int)result;
}

/* Answers 0, or an error. */
static int make_sockets(const char *hub)
{
    char name[WAITER_NAME_ROOM];
    int pair[2];
    if (!hub_ask_name(name, sizeof name, hub))
        return -ENAMETOOLONG;
    int listens = listen_at(hub), asked = listens < 0 ? listens : listen_at(name);
    long result = asked < 0 ? asked : system_call4(SYS_socketpair, AF_UNIX, SOCK_STREAM | SOCK_CLOEXEC, 0, (long)pair);
    if (result < 0)
        return (int)result;
    own_end = pair[0];
    waiter.polls[ASKING].fd = past_standard(pair[1]);
    waiter.polls[HUB].fd = listens;
    waiter.polls[ASKED].fd = asked;
    waiter.count = FIRST;
    return waiter.polls[ASKING].fd < 0 ? waiter.polls[ASKING].fd : 0;
}

/* In the waiting process. */

static void close_between(int first, int last)
{
    if (first > last || system_call3(SYS_close_range, first, last, 0) != -ENOSYS)
        return;
    for (int i = first; i <= last && i < 1024; i++)
        system_close(i);
}

/* Only its own are left. Their numbers are in no order. */
static void close_others(void)
{
    int first = STDERR_FILENO + 1;
    for (;;) {
        int next = INT_MAX;
        for (size_t i = ASKING; i < PROCESS; i++)
            if (waiter.polls[i].fd >= first && waiter.polls[i].fd < next)
                next = waiter.polls[i].fd;
        close_between(first, next == INT_MAX ? INT_MAX : next - 1);
        if (next == INT_MAX)
            break;
        first = next + 1;
    }
    int null = system_open("/dev/null", O_RDWR | O_CLOEXEC, 0);
    for (int i = 0; i < STDERR_FILENO && null >= 0; i++)
        system_dup2(null, i);
    if (null > STDERR_FILENO)
        system_close(null);
}

/* For ps, and for who looks for the program by its words. */
static void take_name(const struct waiter_command *command)
{
    char *words = startup.argv[0];
    size_t room = 0;
    for (char **word = startup.argv; *word != NULL && *word == words + room; word++)
        room += strlen(*word) + 1;
    if (room > 0) {
        memset(words, 0, room);
        strncpy(words, command->argv[0], room - 1);
    }
    system_call3(SYS_prctl, PR_SET_NAME, (long)command->argv[0], 0);
}

/* The numbers of its sockets: of the pair, or 0 if the program has closed its end, of the two that listen, and of
   who is connected. */
static void put_sockets(char *text, size_t room)
{
    struct joined joined = {.text = text, .room = room};
    for (size_t i = 0; i < waiter.count; i++) {
        char digits[DIGITS_ROOM];
        int socket = waiter.polls[i].fd < 0 ? 0 : waiter.polls[i].fd;
        if (i == PROCESS)
            continue;
        if (socket != 0)
            system_fcntl(socket, F_SETFD, 0);
        joined_add(&joined, i > 0 ? "," : "", 1);
        joined_add(&joined, put_digits(digits + sizeof digits, (unsigned)socket, 1), sizeof digits);
    }
}

/* No signal tells of this child, nobody but us waits for it, and no debugger follows it. */
static int fork_quietly(void)
{
    return (int)system_call6(SYS_clone, CLONE_UNTRACED, 0, 0, 0, 0, 0);
}

static void wait_for(int process)
{
    int status;
    while (process > 0 && system_call4(SYS_wait4, process, (long)&status, __WALL, 0) == -EINTR)
        continue;
}

/* What it prints for a forked process goes to the standard error that this one has now. */
static void follow(pid_t process)
{
    char path[64], digits[DIGITS_ROOM];
    struct joined joined = {.text = path, .room = sizeof path};
    joined_add(&joined, "/proc/", sizeof path);
    joined_add(&joined, put_digits(digits + sizeof digits, (unsigned)process, 1), sizeof digits);
    joined_add(&joined, "/fd/2", sizeof path);
    int its = system_open(path, O_WRONLY | O_APPEND | O_NOCTTY | O_CLOEXEC, 0);
    if (its >= 0)
        system_dup2(its, STDERR_FILENO);
    if (its > STDERR_FILENO)
        system_close(its);
}

/* It is a child of this one: that of an exec is none that a program does not see. */
static _Noreturn void become_run(const struct waiter_command *command)
{
    static AS_TABLE char sockets[MOST_POLLS * DIGITS_ROOM];
    struct ucred peer = {0};
    socklen_t size = sizeof peer;
    if (waiter.speaker >= 0 && system_getsockopt(waiter.speaker, SOL_SOCKET, SO_PEERCRED, &peer, &size) == 0
        && peer.pid != waiter.program)
        follow(peer.pid);
    dormant_is_served(waiter.shared);
    put_sockets(sockets, sizeof sockets);
    command->argv[command->sockets_at] = sockets;
    int run = fork_quietly();
    if (run == 0) {
        long error = system_call3(SYS_execve, (long)command->path, (long)command->argv, (long)startup.variables);
        recorder_say("nothing is checked: ", command->path, error_text((int)-error));
        system_exit(1);
    }
    if (run < 0)
        recorder_say("nothing is checked: ", command->path, error_text(-run));
    close_between(0, INT_MAX);
    wait_for(run);
    system_exit(0);
}

/* The first byte that was sent there, which stays. Or else whether more may come. */
enum { NOTHING_YET = -1, OVER = -2 };
static int byte_of(int connection)
{
    unsigned char byte;
    long count = system_call6(SYS_recvfrom, connection, (long)&byte, 1, MSG_PEEK | MSG_DONTWAIT, 0, 0);
    return count > 0 ? byte : count == -EAGAIN || count == -EINTR ? NOTHING_YET : OVER;
}

/* Looks at who is connected, and forgets those that are gone. Answers whether one has sent something. */
static bool have_bytes(void)
{
    for (size_t i = waiter.count; i-- > FIRST;) {
        int byte = byte_of(waiter.polls[i].fd);
        if (byte >= 0) {
            waiter.speaker = waiter.polls[i].fd;
            return true;
        }
        if (byte == OVER) {
            system_close(waiter.polls[i].fd);
            waiter.polls[i] = waiter.polls[--waiter.count];
        }
    }
    return false;
}

/* Without a free descriptor an accept fails also if nobody is there. */
static bool is_called(void)
{
    struct pollfd listens = {waiter.polls[HUB].fd, POLLIN, 0};
    return system_poll(&listens, 1, 0) > 0;
}

/* Accepts who has connected. Answers whether one has sent something, or there is no room for one more. */
static bool accept_all(void)
{
    while (is_called()) {
        size_t count = waiter.count;
        long made = -EMFILE;
        if (count < MOST_POLLS)
            made = system_call4(SYS_accept4, waiter.polls[HUB].fd, 0, 0, SOCK_CLOEXEC);
        if (made >= 0)
            waiter.polls[waiter.count++] = (struct pollfd){(int)made, POLLIN, 0};
        else if (made != -EAGAIN && made != -EINTR && made != -ECONNABORTED && (have_bytes() || waiter.count == count))
            return true;
    }
    return have_bytes();
}

/* A copy goes on, as nobody's child. */
static void become_copy(void)
{
    char answer = OWN_LEAVES;
    int copy = fork_quietly();
    if (copy > 0)
        system_exit(0);
    system_send(waiter.polls[ASKING].fd, copy == 0 ? &answer : "", 1, MSG_NOSIGNAL);
}

/* The program ends. */
static void retire(void)
{
    char answer = OWN_RETIRES;
    if (waiter.count == FIRST && atomic_load(&waiter.shared->forking) == 0)
        system_exit(0);
    system_send(waiter.polls[ASKING].fd, &answer, 1, MSG_NOSIGNAL);
}

/* Answers whether the program has a question, or there is no room for a connection. */
static bool has_question(void)
{
    char taken;
    int byte = byte_of(waiter.polls[ASKING].fd);
    if (byte == OVER) {
        system_close(waiter.polls[ASKING].fd);
        waiter.polls[ASKING].fd = -1;
    }
    if (byte == OWN_PASSES) {
        if (waiter.count == MOST_POLLS)
            return true;
        int passed = descriptor_of_message(waiter.polls[ASKING].fd);
        if (passed >= 0)
            waiter.polls[waiter.count++] = (struct pollfd){passed, POLLIN, 0};
        return passed >= 0 && have_bytes();
    }
    if (byte != OWN_RETIRES && byte != OWN_LEAVES)
        return byte >= 0;
    system_read(waiter.polls[ASKING].fd, &taken, 1);
    if (byte == OWN_LEAVES)
        become_copy();
    else
        retire();
    return false;
}

/* Nobody waits any more for the end of what it prints. */
static void leave_program(void)
{
    int null = system_open("/dev/null", O_WRONLY | O_CLOEXEC, 0);
    system_dup2(null, STDERR_FILENO);
    system_close(null);
    system_close(waiter.polls[PROCESS].fd);
    waiter.polls[PROCESS].fd = -1;
}

/* Does what there is to do. Answers whether the run is wanted. */
static bool is_wanted(void)
{
    if (accept_all() || waiter.polls[ASKED].revents != 0)
        return true;
    if (waiter.polls[ASKING].revents != 0 && has_question())
        return true;
    if (waiter.polls[PROCESS].revents != 0)
        leave_program();
    return false;
}

/* Whether the program and all that it has forked are gone. One may have closed all of its descriptors; one that
   executes another program is over. */
static bool is_over(void)
{
    bool is_gone = waiter.polls[PROCESS].fd < 0 || atomic_load(&waiter.shared->becomes) != 0;
    return waiter.count == FIRST && waiter.polls[ASKING].fd < 0 && is_gone;
}

static _Noreturn void wait_for_need(const struct waiter_command *command)
{
    close_others();
    take_name(command);
    waiter.polls[PROCESS].fd = (int)system_call3(SYS_pidfd_open, waiter.program, 0, 0);
    for (size_t i = 0; i < FIRST; i++)
        waiter.polls[i].events = POLLIN;
    for (int found = 1; !is_over() || (found > 0 && atomic_load(&waiter.shared->forking) != 0);) {
        found = system_poll(waiter.polls, (nfds_t)waiter.count, is_over() ? PATIENCE_MS : -1);
        if (found > 0 && is_wanted())
            become_run(command);
    }
    system_exit(0);
}

/* Answers 0, or an error. */
static int fork_waiter(const struct waiter_command *command)
{
    waiter.program = system_getpid();
    child = fork_quietly();
    if (child == 0) {
        system_setsid();
        wait_for_need(command);
    }
    return child < 0 ? child : 0;
}

bool waiter_has_begun(void)
{
    return has_begun;
}

/* Sends a byte, and answers the one that comes back; or OVER: the other end is gone. */
static int ask_byte(int connection, char byte)
{
    long count = system_send(connection, &byte, 1, MSG_NOSIGNAL);
    while (count == 1 && (count = system_read(connection, &byte, 1)) == -EINTR)
        count = 1; /* by a handler of the program's */
    return count == 1 ? byte : count == 0 || count == -EPIPE || count == -ECONNRESET ? OVER : NOTHING_YET;
}

void waiter_retire(int connection)
{
    if (ask_byte(connection, OWN_RETIRES) == OVER)
        wait_for(child);
}

void waiter_leave(int connection)
{
    if (child <= 0)
        return;
    if (connection < 0 || ask_byte(connection, OWN_LEAVES) != OWN_LEAVES)
        system_call3(SYS_kill, child, SIGKILL, 0); /* the run has begun: it only waits for that */
    wait_for(child);
    child = 0;
}

void waiter_reap(void)
{
    enum { SOME_MS = 5000, STEP_MS = 1 };
    int status;
    for (int waited_ms = 0; child > 0 && waited_ms < SOME_MS; waited_ms += STEP_MS) {
        long ended = system_call4(SYS_wait4, child, (long)&status, __WALL | WNOHANG, 0);
        if (ended != 0 && ended != -EINTR)
            return;
        system_poll(NULL, 0, STEP_MS);
    }
}

const char *waiter_begin(const struct waiter_command *command, char hub[WAITER_NAME_ROOM])
{
    long shared = system_mmap(NULL, sizeof(struct dormant), PROT_READ | PROT_WRITE, MAP_SHARED | MAP_ANONYMOUS, -1, 0);
    if (shared < 0)
        return error_text((int)-shared);
    if (!make_name(hub))
        return "the system gives no random bytes";
    int result = make_sockets(hub);
    waiter.shared = (struct dormant *)shared;
    if (result == 0)
        result = fork_waiter(command);
    for (size_t i = 0; i < PROCESS; i++)
        if (waiter.polls[i].fd > 0)
            system_close(waiter.polls[i].fd);
    if (result != 0) {
        system_close(waiter_end());
        return error_text(-result);
    }
    dormant_begin(waiter.shared);
    has_begun = true;
    return NULL;
}
