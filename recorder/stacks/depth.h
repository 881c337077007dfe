/* How deep a stack is looked at: a constant. */
#ifndef ASANCOL_DEPTH_H
#define ASANCOL_DEPTH_H

/* The most frames of a stack. */
enum { MAX_FRAMES = 32 };

#endif
