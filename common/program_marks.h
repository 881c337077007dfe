/* The marks that programs under asancol-run leave beside the hub's socket, whoever has built them: symbolic links to
   the program, one for each, since the name is one of these and a hash of the path. No header of the system is
   included: the recorder compiles this for 32-bit processes too, whose headers may not be there.

   Called: there is no code here. recorder/start/program_mark.c makes the links, in the first thread of each program,
   and run/unrecorded.c reads them; no lock: the system makes a link whole or not at all. */
#ifndef ASANCOL_PROGRAM_MARKS_H
#define ASANCOL_PROGRAM_MARKS_H

#define MARK_OURS "ours."     /* asancol-cc has linked it */
#define MARK_OTHERS "others." /* it has not */

#endif
