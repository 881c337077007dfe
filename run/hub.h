/* The sockets on which recorded processes connect, and those on which they ask: of each, one in a private folder, and
   one under an abstract name, which needs no folder. The kernel lists the names to which sockets were bound, for
   everybody. So the socket in the folder gets another name as soon as it was bound, with a secret at its end: whoever
   connects there has that name from the command's environment.

   Called: hub_open and hub_address by asancol-run.c, hub_adopt by serving.c, hub_stop by that and loop.c;
   hub_listeners and hub_is_secret by loop.c, hub_asked by asking.c, hub_accept by both; hub_public_length by
   command.c, hub_folder by loop.c and report.c, hub_connect by outer.c, hub_knock by nested.c; in the one thread of
   asancol-run; no lock. */
#ifndef ASANCOL_RUN_HUB_H
#define ASANCOL_RUN_HUB_H

#include <stdbool.h>
#include <sys/socket.h>
#include <sys/types.h>

enum { HUB_LISTENERS = 2 };

/* Fails if neither can be had. */
void hub_open(bool is_quiet);
/* In place of that: sockets that listen under abstract names already. There is no folder. */
void hub_adopt(int listener, int questions);
/* What ASANCOL_HUB is for the command. */
const char *hub_address(void);
/* How many of its first bytes are the abstract name, which everybody may know; 0: there is none. */
size_t hub_public_length(void);
/* The private folder, or null. */
const char *hub_folder(void);
/* The descriptors of the HUB_LISTENERS sockets for recordings: [0] is in the folder, [1] has the abstract name; -1: it
   is not there. The array is the hub's own, valid from hub_open on, and all -1 after hub_stop. */
const int *hub_listeners(void);
/* The same for the sockets on which a process asks (asking.h). */
const int *hub_asked(void);
/* The next connection, and who has made it. -1: there is none, errno says why. */
struct ucred;
int hub_accept(int listener, struct ucred *peer);
/* Who has made one that was accepted before. */
bool hub_know(int connection, struct ucred *peer);
/* Whether who connects to this socket knows the secret: so it is for the one in the folder. */
bool hub_is_secret(int listener);
/* Connects to a name. A place in its queue is waited for no longer than a minute, and so is later what it sends: then
   errno is EAGAIN. */
struct sockaddr_un;
bool hub_connect(int connection, const struct sockaddr_un *name, socklen_t size);
/* Connects to another hub and sends nothing, so that it knows of a process that it does not see. False: it is not
   there any more. */
bool hub_knock(const char *of_hub);
/* Connections that come from now on fail. */
void hub_stop(void);

#endif
