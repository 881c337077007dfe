/* AddressSanitizer's interface, as far as the recorder itself calls it.

   Called: by start.c, in the thread that starts the recorder, once, without a lock. What the program calls is in
   interface.c. */
#ifndef ASANCOL_INTERFACE_H
#define ASANCOL_INTERFACE_H

/* At the start: takes up the callbacks that the program defines by their names. */
void interface_start(void);

#endif
