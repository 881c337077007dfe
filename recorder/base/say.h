/* What the recorder has to say.

   Called: say_to by environment/settings.c at the start, say_again by that, and by process/process.c in a forked
   child, each in the only thread; name_of_pattern by say_again, and by process/process.c with the allocator's lock;
   recorder_say by any file, in any thread, also in a handler. No lock, and any lock may be held: nothing waits. */
#ifndef ASANCOL_SAY_H
#define ASANCOL_SAY_H

#include <stdbool.h>
#include <stddef.h>

/* Where it is said: a file's name, in which %p stands for the number of the process, or null for standard error. */
void say_to(const char *log);
/* In a child, whose number is another one. */
void say_again(void);
/* Says one line, if that is possible without waiting. */
void recorder_say(const char *what, const char *of, const char *why);
/* Writes the name that a pattern gives this process: %p is its number, %% is a percent sign. False: there is no room.
   */
bool name_of_pattern(const char *pattern, char *name, size_t room);

#endif
