/* The list of threads that faults name. An entry is taken by its number, and then filled by whoever has taken it.

   Called: list_put_thread by fault_list.c and faults.c, list_name_thread by the check of pthread_setname_np (calls/,
   by way of interface/hooks.def), in any thread, also in a handler. No lock: whose number stands in an entry was
   settled by one compare-and-swap. list_put_thread may take the stream's for room on the disk (lists.h). */
#ifndef ASANCOL_THREAD_LIST_H
#define ASANCOL_THREAD_LIST_H

#include "stream/lists.h"

/* Puts a thread into the list, with those that have led to it. Answers its number as a fault has it. */
uint32_t list_put_thread(struct list *list, unsigned number);
/* A thread was given a name: that of this pthread_t, or for 0 this one. */
void list_name_thread(uintptr_t thread, const char *name);

#endif
