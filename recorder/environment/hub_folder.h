/* The hub's folder, which is kept open: a process that has changed its root and its network reaches neither the path of
   the hub's socket nor its abstract name, but its forked children are to connect.

   Called: hub_folder_keep by stream/opening.c, once the process has connected, and hub_folder_connect by
   stream/output.c, both with the stream's lock or before there is a stream, in any thread, also in a handler. No lock
   here: who has the stream's writes what a forked child reads. */
#ifndef ASANCOL_HUB_FOLDER_H
#define ASANCOL_HUB_FOLDER_H

/* The hub is its socket's path. It is done once. */
void hub_folder_keep(const char *hub);
/* Connects this socket, as connect_patiently does (asking.h). */
int hub_folder_connect(int socket, const char *hub, int *patience_ms);

#endif
