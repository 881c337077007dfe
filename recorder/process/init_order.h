/* Globals that have no value yet, while a file initialises its own: an access to one is bad then, since it depends on
   the order of files. As AddressSanitizer's check_initialization_order.

   Called: init_order_begin by process.c; by the constructors of a module (callbacks.c, by hooks.def), in the thread
   that loads it, not in a signal handler; init_order_before with null by calls/modules.c before a dlopen, and
   init_order_ends by threads.c before a thread is created, in the thread that does this, not in a handler;
   init_order_after also by an exit (calls/exits.c), in any thread, also in a handler. Lock: the constructors have the
   loader's, or it is the start of the program; the others have none here, and may show the globals of another
   thread's file too early. None is taken, and nothing is guarded here. */
#ifndef ASANCOL_INIT_ORDER_H
#define ASANCOL_INIT_ORDER_H

/* What the settings ask for: 0, 1, or 2 for the strict order. (process.c, at the start, in the only thread) */
void init_order_begin(int level);
/* Around the initialisers of a file, by the text that its globals have for it. An exit ends them as well.
   Null: a library is opened, which ends the strict order. */
void init_order_before(const char *module);
void init_order_after(void);
/* A thread is created: this ends the strict order, also of a recording that begins later. */
void init_order_ends(void);

#endif
