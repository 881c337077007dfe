/* The trace format, version 3: the one place of its numbers on the recorder's side. docs/FORMAT.md says what they mean.

   Called: the few functions by the recorder, span_bytes by heap/ and record_length by stream/, in any thread, also in a
   signal handler, and is_side_header by run/side.c in the one thread of asancol-run; no lock: they only compute. Who
   may write which field of the side memory stands in stream/side.h. */
#ifndef ASANCOL_FORMAT_H
#define ASANCOL_FORMAT_H

#include <stdbool.h>
#include <stddef.h>
#include <stdint.h>
#include <string.h>

enum code {
    CODE_NONE, /* no record begins with a zero */
    CODE_LOAD,
    CODE_STORE,
    CODE_MALLOC,
    CODE_FREE,
    CODE_POISON,
    CODE_UNPOISON,
    CODE_CLOSE,
    CODE_ANEW /* of version 3 */
};

/* The kinds of a poison. */
enum kind { KIND_USER, KIND_STACK, KIND_GLOBAL };

#define HEADER "ASTR\3\0\0\0"

/* How many bytes each part of a stream has, codes included. */
enum {
    HEADER_LENGTH = 8,
    ACCESS_LENGTH = 10,
    REGION_LENGTH = 17,
    POISON_LENGTH = 18,
    FREE_LENGTH = 9,
    ANEW_LENGTH = 1,
    CLOSE_LENGTH = 1
};

#define EVENT_LIMIT ((uint64_t)1 << 24)
#define MAX_REGION_SIZE ((uint64_t)1 << 32)
#define ADDRESS_END ((uint64_t)1 << 47)

/* No stream is longer: each event a poison, and then the close, or a free that is one event too many. */
#define MAX_STREAM_SIZE (HEADER_LENGTH + EVENT_LIMIT * POISON_LENGTH + FREE_LENGTH)

/* What the checker demands round each block, and how many bytes of freed spans it holds. */
#define REDZONE 32
#define GRANULE 8
#define QUARANTINE_BOUND ((uint64_t)1 << 28)
/* The most that it can be asked to hold. */
#define MAX_QUARANTINE ((uint64_t)1 << 40)

/* How many bytes the record has that begins with this byte; 0 where none does. */
static inline unsigned record_length(unsigned char code)
{
    switch (code) {
    case CODE_LOAD:
    case CODE_STORE:
        return ACCESS_LENGTH;
    case CODE_MALLOC:
    case CODE_UNPOISON:
        return REGION_LENGTH;
    case CODE_POISON:
        return POISON_LENGTH;
    case CODE_FREE:
        return FREE_LENGTH;
    case CODE_ANEW:
        return ANEW_LENGTH;
    default:
        return 0;
    }
}

/* How many bytes the checker counts for a block of this size: rounded up, with both redzones. */
static inline uint64_t span_bytes(uint64_t size)
{
    return (size + GRANULE - 1) / GRANULE * GRANULE + 2 * REDZONE;
}

/* What stands beside a trace: the memory that a process shares with a hub, or the file TRACE.where. README.md says
   it in words. */
#define SIDE_HEADER "ASWH\5\0\0\0"

static inline bool is_side_header(const char header[8])
{
    return memcmp(header, SIDE_HEADER, sizeof SIDE_HEADER - 1) == 0;
}

/* The name of that memory, as the map of a process has it. */
#define SIDE_MEMORY "asancol"

/* A process that can't make that memory asks the hub for one, before its first bytes: by a byte with which no trace
   begins, and one with the number of its error. The answer is a byte, and with it the descriptor if there is one. */
enum { SIDE_ASKS = 0, SIDE_QUESTION = 2 };

/* How a process has ended; or it goes on in the next segment, since the limit of events was reached. */
enum ending { ENDING_NONE, ENDING_EXIT, ENDING_EXEC, ENDING_SIGNAL, ENDING_LOST, ENDING_SEGMENT };

/* What lies nearest to a bad access, if it is no block; or a block whose notes went back since it was freed: then its
   size is the most that it had, and without a start nothing else is known. */
enum variable { VARIABLE_NONE, VARIABLE_STACK, VARIABLE_GLOBAL, VARIABLE_DYNAMIC, VARIABLE_FORGOTTEN };

/* What the recorder has found by itself. No event shows it, so its entry in the list of faults has none. */
enum finding_kind {
    FINDING_NONE,          /* a fault, which events have */
    FINDING_LEAK,          /* nothing leads to these blocks */
    FINDING_INDIRECT_LEAK, /* but another block that is lost */
    FINDING_FAMILY,        /* freed by a function of another family */
    FINDING_SIZE,          /* a delete says another size than that of its block */
    FINDING_OVERLAP,       /* two ranges of a call that have bytes in common */
    FINDING_NEGATIVE_SIZE,
    FINDING_OVERFLOW,      /* how much is to be allocated is past any size */
    FINDING_ALIGNMENT,     /* there is no such alignment, or the size is not a multiple of it */
    FINDING_TOO_BIG,       /* no block can have this size */
    FINDING_NOT_OWNED,     /* it is asked how large a block is, and none begins there */
    FINDING_OTHER_ALIGNMENT, /* a delete says another alignment than the new of its block, and maybe another size */
    FINDING_CONTAINER,     /* the bytes in use of a container are said to lie outside it */
    FINDING_DOUBLE_ENDED,  /* the same for one with two ends */
    FINDING_POINTERS,      /* two pointers into different objects are compared, or one is subtracted from the other */
    FINDING_NO_MEMORY,     /* there is none for a block */
    FINDING_ODR,           /* two modules have defined one global */
    FINDING_SHADOW         /* a block's shadow was overwritten */
};
enum { FINDING_LAST = FINDING_SHADOW };

enum { SIDE_ARGV = 4000, SIDE_BUILD_COUNT = 112, SIDE_ID = 23, SIDE_FAULTS = 1 << 16, SIDE_THREADS = 1 << 12 };
enum { SIDE_NAME = 120, SIDE_CALL = 32, SIDE_THREAD_NAME = 16, SIDE_CHILDREN = 32 };
/* The shadow around a bad byte: its row, and this many rows before and after it. */
enum { SIDE_ROW = 16, SIDE_ROWS_BESIDE = 5, SIDE_SHADOW = SIDE_ROW * (2 * SIDE_ROWS_BESIDE + 1) };
/* Where its parts begin, except the first: */
enum { SIDE_BUILDS = 4096, SIDE_PROGRESS = 7680, SIDE_SETTINGS = 8128, SIDE_BESIDE_THREADS = 8160, SIDE_MAPS = 8192 };
enum { SIDE_INDEX = 1 << 18, SIDE_INDEX_ENTRY = 4 };
/* In an entry of the index: the event is a further piece of an access that has this fault, and not one by itself. */
#define SIDE_IS_PIECE (UINT32_C(1) << 31)
/* The unchecked code comes after the modules: lines, and zeros after them. */
enum { SIDE_UNCHECKED_ROOM = 1 << 14, SIDE_UNCHECKED = SIDE_INDEX - SIDE_UNCHECKED_ROOM };
#define SIDE_THREADS_AT (SIDE_INDEX + EVENT_LIMIT * SIDE_INDEX_ENTRY)
#define SIDE_FAULTS_AT (SIDE_THREADS_AT + SIDE_THREADS * sizeof(struct side_thread))
#define SIDE_STACKS_AT (SIDE_FAULTS_AT + SIDE_FAULTS * sizeof(struct side_fault))
/* The longest text among the stacks; and the longest name of a test there, with a zero after it. */
enum { SIDE_TEXT = 1 << 12, SIDE_TEST = 256 };
/* How many words of 8 bytes the stacks may have. */
#define SIDE_STACK_WORDS ((uint32_t)1 << 22)
#define SIDE_TEST_MASK (((uint32_t)1 << 24) - 1)
#define SIDE_ROOM (SIDE_STACKS_AT + SIDE_STACK_WORDS * sizeof(uint64_t))

/* Up to this many files of modules may come after the descriptor of the memory: the program, and shared objects. */
enum { SIDE_FILES = 7 };

/* How a signal has come: these are added. */
enum side_how {
    SIDE_HAS_ADDRESS = 1, /* the address that could not be accessed is known */
    SIDE_BY_LOAD = 2,
    SIDE_BY_STORE = 4,
    SIDE_BY_JUMP = 8,
    SIDE_STACK_USED_UP = 16,
};

struct side {
    char header[8];
    uint64_t events;      /* in the stream, once it has ended */
    uint64_t left_out;    /* events past the limit: grows until the process ends */
    uint32_t ending;      /* enum ending: written last */
    uint32_t signal;      /* that ended it */
    uint32_t process, parent;
    uint64_t started;     /* nanoseconds since 1970 */
    uint32_t has_checks;  /* 1: code of asancol-cc is in the program, or in an object that it loaded */
    uint32_t is_at_limit; /* 1: an event found no room */
    uint32_t fault_count; /* how many faults are in the list */
    uint32_t stack_words; /* how many words of the stacks are in use, with the first, which is of no stack */
    uint64_t quarantine;  /* how many bytes of freed blocks the checker is to hold */
    char argv[SIDE_ARGV]; /* of the command line, each ended by a zero, and a zero after them */
    /* Of the signal that has ended it: */
    uint64_t last;          /* one more than the address of the last instruction; 0: not known */
    uint64_t wrong_address; /* which that could not access */
    uint32_t last_stack;    /* as of a fault */
    uint32_t how;           /* enum side_how */
};

/* The build id of a module. */
struct side_build {
    uint64_t start; /* of its first segment in memory; 0 ends the list */
    unsigned char length, id[SIDE_ID];
};

/* How far the process has come. */
struct side_progress {
    uint64_t needed;  /* one more than the number of the last event that may be bad; 0: it is not noted */
    uint64_t segment; /* how many segments of this process came before; these have the same process and start */
    uint64_t stated;  /* how many events state what stood before: at its beginning, or at a fault */
    uint64_t noted;   /* how many bad accesses and frees are being noted just now, which have no event yet */
    uint64_t forks;   /* how many children it has made by fork in this segment: each has a stream or leaves word */
    uint64_t of_parent, of_parent_started; /* the process and the start of whoever has forked it; 0: nobody recorded */
    uint64_t becomes;  /* 1: it becomes a program that is to connect, and no mark could say so */
    uint64_t calls;    /* how many threads try just now whether a sandbox ends them for calls of the recorder's */
    uint64_t starts;   /* and in one for a program that is about to be started, by it or by a child of vfork */
    uint64_t has_begun; /* 1: its constructors are over, and main begins */
    uint64_t findings;  /* how many entries of the list of faults are findings */
    uint64_t findings_lost; /* and how often there was no room for one */
    uint64_t leaks; /* how many of the findings are leaks */
    uint64_t leaks_missed; /* 1: it was to look for leaks, and could not the last time */
    uint64_t left_good; /* how many good mallocs, frees and poisons of its blocks it has left out */
    uint64_t inside;    /* the signal of a fault that the recorder's own code has met; 0: none */
    uint64_t closed_off; /* 1: it has closed the descriptor, so everything unsent by then is missing */
    uint64_t sender;     /* another process that has sent the signal that has ended it; 0: none, as far as it knows */
    uint64_t skipped;    /* enum side_skipped */
    uint64_t noted_children;          /* how many children of a fork have had their numbers put here, */
    uint32_t children[SIDE_CHILDREN]; /* in turn: the last ones are there */
    uint64_t used_again; /* how many bytes of blocks' memory it had handed out when it first handed out freed memory
                            again: that stays in later segments; 0: it never has */
};

/* Before the options of AddressSanitizer that turned checks off, among the lines of unchecked code; and then comes the
   variable or the function that gave them. */
#define CHECKS_TURNED_OFF "checks turned off by "

/* Other checks that were turned off: these are added. */
enum side_skipped {
    SKIPPED_FAMILIES = 1, /* by which family of functions a block was freed: ASANCOL_MISMATCHES is 0 */
    SKIPPED_RETURNS = 2,  /* functions asked for frames by which uses after return are found, and
                             ASANCOL_USE_AFTER_RETURN is 0 */
    SKIPPED_LEAKS = 4,    /* ASANCOL_LEAKS is not 1 */
    SKIPPED_FRAMES = 8,   /* an access from another stack that met a frame in a block */
    SKIPPED_SPARE = 16,   /* what a handler has allocated that had interrupted the allocator */
    SKIPPED_BEYOND = 32,  /* accesses to memory whose addresses no trace has */
    SKIPPED_ODR = 64,     /* globals that are defined twice: ASANCOL_ODR is less than 2 */
    SKIPPED_NULL = 128,   /* requests for more memory than there is: ASANCOL_MAY_RETURN_NULL is 1 */
};

/* Whether it has ended itself by `halt`, at a report; and then whether it has printed that, or left that to the run,
   whose text goes to the same file, or waits for the words of the run to print these. */
enum side_halted { HALTED_NOT, HALTED_AND_SAID, HALTED_UNSAID, HALTED_AND_ASKS };

/* What its environment has set for it, beside the quarantine. */
struct side_settings {
    uint64_t limit;  /* how many events a segment may have; 0: it is not noted */
    uint32_t is_one; /* 1: there is one segment, and the limit ends the recording */
    uint32_t halt;   /* as ASANCOL_HALT has it */
    uint32_t is_lean; /* 1: mallocs and frees are recorded where a fault needs them, so nothing is held for its bound */
    uint32_t has_halted; /* enum side_halted */
};

/* A thread that is not known. */
#define SIDE_NO_THREAD UINT32_MAX

/* Further data of threads, beside the list of them. */
struct side_beside_threads {
    uint32_t last; /* the one that the signal has met that ended the process: as of a fault */
    uint32_t test; /* that was running then: as of a fault */
    char first_name[SIDE_THREAD_NAME]; /* that the first thread was given; empty: none */
};

/* A thread that a fault names. The first one of the process is not in the list. */
struct side_thread {
    uint64_t created;       /* the call site that has created it; 0: not known */
    uint32_t created_stack; /* as of a fault */
    uint32_t creator;       /* as the thread of a fault */
    uint32_t number;        /* in the order in which threads were created, from 1; 0: there is none in this entry */
    uint32_t system_number; /* as the system has it, or UINT32_MAX; 0: the entry is not whole */
    char name[SIDE_THREAD_NAME];
};

/* What else is known of a finding. */
struct side_found {
    uint64_t count; /* how often it came up; of a leak how many blocks are lost */
    uint64_t after; /* how many events there were before it came up first */
    uint64_t other; /* of an overlap, where the other range begins; of an overflow, what the size is to be taken
                       times; of another alignment, that of the new; of a container, what lies outside it; of two
                       pointers, the second; of a shadow byte, its value, and 256 times the value that the block has
                       given it */
};

/* The circumstances of an access or a free that was bad by the recorder's shadow; or a finding. */
struct side_fault {
    uint64_t event;     /* the first that has this fault; of a finding 0 */
    uint64_t call_site; /* the address after the call */
    uint64_t block;     /* the start of the nearest block or variable; 0: none is near */
    uint64_t block_size;
    uint64_t allocated, freed; /* the call sites of the block's malloc and of its free; 0: not known, or not freed */
    uint32_t variable : 8;     /* enum variable */
    uint32_t test : 24;        /* the name of the test that was running: a text among the stacks; 0: none is known */
    uint32_t line;             /* where a variable of a frame is declared; 0: not known */
    /* The stacks of these three call sites: the number of the word with how many frames there are. These come after it,
       the innermost first. 0: only the call site is known. */
    uint32_t stack, allocated_stack, freed_stack;
    /* The threads of these three call sites: their numbers in the list, from 1; 0: the first thread; or
       SIDE_NO_THREAD. */
    uint32_t thread, allocated_thread, freed_thread;
    /* The whole access, as the program has asked for it; of a free 0 bytes. Of a finding, what the call was given:
       where its range begins, or the alignment (0: none); and the size. Of a leak, how many bytes are lost. */
    uint64_t start, size;
    uint64_t shadow_start; /* of which byte the first byte of `shadow` is; 0: it was not kept */
    uint64_t frame;        /* where the frame of a variable begins */
    uint64_t function;     /* an address in the function of that frame; 0: not known */
    uint32_t variables;    /* what the compiler says of that frame: a word with how many bytes, and then the text,
                              among the stacks; 0: not kept. Of a global that was defined twice, the name of the
                              other definition */
    uint32_t kind;         /* enum finding_kind */
    union {
        unsigned char shadow[SIDE_SHADOW];
        struct side_found found; /* of a finding */
    };
    char call[SIDE_CALL];      /* the function of the C library that has made the access; or "sys_" and a call of the
                                  system; empty: the program itself */
    char name[SIDE_NAME];      /* of the variable: "name", or "name FILE:LINE" of a global; of a block, or of a finding,
                                  what has allocated it, if that is known */
};

_Static_assert(sizeof(struct side) == SIDE_BUILDS, "the head fits");
_Static_assert(sizeof(struct side_build) == 32, "a build id has no padding");
_Static_assert(SIDE_BUILDS + SIDE_BUILD_COUNT * sizeof(struct side_build) <= SIDE_PROGRESS, "the build ids fit");
_Static_assert(SIDE_PROGRESS + sizeof(struct side_progress) <= SIDE_SETTINGS, "the progress fits");
_Static_assert(SIDE_SETTINGS + sizeof(struct side_settings) <= SIDE_BESIDE_THREADS, "so do the settings");
_Static_assert(SIDE_BESIDE_THREADS + sizeof(struct side_beside_threads) <= SIDE_MAPS, "and what is beside the threads");
_Static_assert(sizeof(struct side_thread) == 40, "a thread has no padding");
_Static_assert(sizeof(struct side_fault) == 456, "a fault has no padding");
_Static_assert(SIDE_FAULTS_AT % 8 == 0, "faults are aligned");
_Static_assert(SIDE_STACK_WORDS <= SIDE_TEST_MASK, "a fault has room for the number of a text");

#endif
