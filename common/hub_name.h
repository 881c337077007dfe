/* What a hub is called: the name of its socket, and the ends of the marks that processes leave beside that. The
   recorder asks at any time: nothing of the C library is called.

   Called: by the recorder, hub_socket by asking.c and output.c, hub_ask_name by asking.c, in any thread, also in a
   signal handler; and by asancol-run in its one thread (hub.c, outer.c); no lock: only the caller's room is written. */
#ifndef ASANCOL_HUB_NAME_H
#define ASANCOL_HUB_NAME_H

#include <stdbool.h>
#include <stddef.h>
#include <sys/socket.h>
#include <sys/un.h>

/* A mark is PROCESS.END. */
#define MARK_UNSEEN "unseen"
#define MARK_EXPECTED "expected"
#define MARK_KILLED "killed"

/* An expected mark is made at each start of a program, so its text is short: on ext4 one of 60 bytes has a block of its
   own, which takes 0.5 ms. A longer path stands in a link NUMBER.PROGRAM of its own, and the mark has "=NUMBER". The
   common reason, that the process ended before its recording began, is left out. */
enum { MARK_SHORT_PROGRAM = 40 };
#define MARK_PROGRAM "program"
#define MARK_PROGRAM_FRONT '='
#define NEVER_BEGAN ""

/* What a process that has lost its environment asks for beside the hub, and why one is not recorded: a request is one
   message, a word and, of one that is not recorded, two more lines with its program and why. A hub that takes the
   process for its own answers with at least a byte: with the settings, each ended by a zero, as an environment has
   them. Then it closes.

   A process that halts asks for its report in words before its recording ends. It comes once that is checked, unless
   the process is to print its own.

   A process that goes on asks for one report: in a second line the number of its event, or 0 and the number of a
   finding in the list of faults, and the file to which it prints the words. It takes them up to the end of the
   answer, and sends a byte back once they are printed. A process that halts asks so, too, with zeros for the file: the
   answer is a byte if the report does not count, and nothing else, and the process goes on.

   A program that started its own run tells with which status it ends, as of waitpid, in a second line. Once the verdict
   is printed it gets the status of the run in digits, or another text if its own applies. It connects at its start,
   with the word alone, since it may be unable to later. */
#define ASK_SETTINGS "settings"
#define ASK_UNSEEN "unseen"
#define ASK_STATUS "status"
#define ASK_REPORT "report"
#define ASK_SHOW "show"
enum { ASK_MOST = 512, SETTINGS_MOST = 8192 };

/* The connection of a program to its own run, whether that has begun or not, takes these bytes too. The program ends,
   and has no question: it gets the byte back if its forked processes are connected. It wants to have no child: the byte
   comes back once it has none. A connection of one of its processes comes with the byte: its end of a pair, where no
   name of a socket is reached, as from another network. */
enum { OWN_RETIRES = 'e', OWN_LEAVES = 'l', OWN_PASSES = 'c' };

/* How many of its first bytes everybody may know: a secret follows a last dash in the folder of a run. The name of a
   socket without a folder begins with its only slash. */
static inline size_t hub_public_bytes(const char *hub)
{
    size_t length = 0, slash = 0, dash = 0;
    for (; hub[length] != 0; length++) {
        if (hub[length] == '/')
            slash = length;
        if (hub[length] == '-')
            dash = length;
    }
    return slash > 0 && dash > slash ? dash : length;
}

/* The name of the socket that is asked: in the folder of the hub, or after its name. False: it has no room. */
static inline bool hub_ask_name(char *name, size_t room, const char *hub)
{
    static const char end[] = "/ask";
    size_t length = 0, slash = 0;
    for (; hub[length] != 0; length++)
        if (hub[length] == '/')
            slash = length;
    size_t front = slash > 0 ? slash : length;
    if (front + sizeof end > room)
        return false;
    for (size_t i = 0; i < front; i++)
        name[i] = hub[i];
    for (size_t i = 0; i < sizeof end; i++)
        name[front + i] = end[i];
    return true;
}

/* The address of the hub's socket, and how long it is; 0: the name has no room. An abstract name needs no folder: it is
   seen from a changed root, and by another user. It has nothing of the secret. */
static inline socklen_t hub_socket(struct sockaddr_un *address, const char *hub, bool is_abstract)
{
    size_t length = 0;
    if (is_abstract)
        length = hub_public_bytes(hub);
    else
        while (hub[length] != 0)
            length++;
    *address = (struct sockaddr_un){.sun_family = AF_UNIX};
    if (length >= sizeof address->sun_path)
        return 0;
    for (size_t i = 0; i < length; i++)
        address->sun_path[i + is_abstract] = hub[i];
    return (socklen_t)(offsetof(struct sockaddr_un, sun_path) + 1 + length); /* the zero is at one of the ends */
}

#endif
