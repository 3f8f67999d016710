/*
 * poincare: exact answers to lines such as `1/(√(2)+√(3))`, for programs in C.
 *
 * A session has a pool in which its trees stand, its stored names and its last answer. It lives in a slot, which is
 * memory of the caller. A stopper lives in a slot of its own: by it another thread interrupts the line that runs.
 *
 *     poincare_session session;
 *     char text[256];
 *     size_t count;
 *
 *     poincare_session_init(&session);
 *     if (poincare_open(&session, 32768) == POINCARE_DONE) {
 *         poincare_line(&session, "1/3+1/6", 7);
 *         poincare_text(&session, text, sizeof text, &count);    text begins with 1/2, and count is 3
 *         poincare_close(&session);
 *     }
 *
 * The header needs C11 or C++11. The whole is linked with heap.c, or with other definitions of its three functions. Memory is taken by poincare_open
 * and poincare_answers alone; a line takes none, whatever it is, and neither does a stopper.
 *
 * What the caller owes, and nothing checks:
 *
 * - Pointers are not null, neither where a length or a room is 0, and point to as much memory as is said. A null pointer
 *   is not told from another: what comes of it is not defined.
 * - Memory that a call is handed is lent until the call returns, and nothing of it is kept; of the slots alone the
 *   library keeps what it put there. No two pieces of memory that a call is handed overlap.
 * - A slot is initialised once before anything else is asked of it, and is neither copied, moved nor written to
 *   afterwards. It is given back, or initialised again, only while it is not open.
 * - A session stays on the thread that opened it, and so does poincare_answers while it runs. Sessions share nothing:
 *   each thread may have some of its own.
 * - A stopper is opened on its session's thread. Then it may go to another thread, by a thread's start, a lock, or an
 *   atomic that is sequentially consistent. One call at a time has it.
 * - No call is made from a signal handler, nor from the forked child of a process that has threads.
 * - The thread that calls has 128 KiB of stack left for a pool of 32,768 bytes, and 512 KiB for the greatest. The worst
 *   lines that are known take 92, and 448.
 */
#ifndef POINCARE_H
#define POINCARE_H

#include <stddef.h>
#include <stdint.h>

/* The version of the header, and as 10,000 times its first number, 100 times the second, and the third. */
#define POINCARE_VERSION "1.0.0"
#define POINCARE_VERSION_NUMBER 10000

/* Sizes of a pool, in bytes: that of the program, the least and the greatest; and the most bytes of a line. */
#define POINCARE_DEFAULT_POOL 32768
#define POINCARE_LEAST_POOL 64
#define POINCARE_GREATEST_POOL 524280
#define POINCARE_LONGEST_LINE 1024

#ifdef __cplusplus
#define POINCARE_ALIGNED alignas(16)
extern "C" {
#else
#define POINCARE_ALIGNED _Alignas(16)
#endif

/* The slot of a session. The library uses as many bytes of it as poincare_session_size tells. */
typedef struct poincare_session {
    POINCARE_ALIGNED unsigned char place[2048];
} poincare_session;

/* The slot of a stopper. */
typedef struct poincare_stopper {
    POINCARE_ALIGNED unsigned char place[64];
} poincare_stopper;

/* The first value of a slot, as in `static poincare_session session = POINCARE_NEW;`. It takes the place of
 * poincare_session_init or poincare_stopper_init: what these write is the same, which is tested for this library. */
#define POINCARE_NEW {{0}}

/* What a call answers. */
enum {
    /* Of each call but poincare_line and poincare_line_within: it did what it says. */
    POINCARE_DONE = 0,

    /* Of a line: what became of it. A line that is refused, undefined or blank changes nothing in the session. */
    POINCARE_SHOWN = 0,     /* its text is the new last answer */
    POINCARE_STORED = 1,    /* the same, and it is stored under a name */
    POINCARE_UNDEFINED = 2, /* no values of its names give it a meaning; its text is `undef` */
    POINCARE_BLANK = 3,     /* it has nothing but blanks, and there is no text */
    POINCARE_REPORT = 4,    /* its text is what a command tells */
    POINCARE_DRAW = 5,      /* it asks for the picture of the last answer: poincare_draw; there is no text */

    /* Of a line that is refused: this, and the number of the refusal. Its text says why. */
    POINCARE_REFUSED = 100,
    POINCARE_LONG = 101,           /* it has more than 1,024 bytes */
    POINCARE_CHARACTER = 102,      /* a byte begins no token */
    POINCARE_NUMBER = 103,         /* a number in it is too wide */
    POINCARE_SYNTAX = 104,         /* it is none of the grammar */
    POINCARE_DEEP = 105,           /* its tree is over 64 deep */
    POINCARE_RESERVED = 106,       /* `ans` is neither stored nor forgotten */
    POINCARE_NAMES_FULL = 107,     /* 64 names are stored */
    POINCARE_FULL = 108,           /* the pool has no room; poincare_draw answers this too */
    POINCARE_OVERFLOW = 109,       /* a number does not fit into 128 bits */
    POINCARE_INTERRUPTED = 110,    /* a stopper or a count interrupted it */
    POINCARE_CIRCULAR = 111,       /* what is to be stored holds its own name */
    POINCARE_COMMAND = 112,        /* it begins like a command and is none */
    POINCARE_NOT_POLYNOMIAL = 114, /* `:expand` or `:roots` is asked of what is no polynomial */
    POINCARE_NO_DERIVATIVE = 115,  /* `:diff` is asked of a power that it does not derive */
    POINCARE_NOT_LINEAR = 116,     /* `:solve` is asked of an equation that is not linear */
    POINCARE_TOO_MANY = 117,       /* `:solve` is asked of over six equations or names, or `:roots` of a second name */
    POINCARE_NO_DECIMAL = 118,     /* `:decimal` or `:sign` is asked of what is no Number */
    POINCARE_UNDECIDED = 119,      /* 896 binary places do not tell the decimal or the sign */
    POINCARE_DEGREE = 120,         /* `:roots` meets a degree above 32, or 3 or more after rational roots */

    /* Of poincare_text, poincare_draw and poincare_answers: there are more bytes than there is room for. The front that
     * fits is written, and count says how many there are. */
    POINCARE_NO_ROOM = 200,

    /* Of any call: it did nothing, and what it was to write is as before. */
    POINCARE_BAD_POOL = 201,   /* the pool's size is no multiple of 8 from 64 to 524,280 */
    POINCARE_NO_MEMORY = 202,  /* there is no memory; what had been taken is given back */
    POINCARE_NOT_OPENED = 203, /* the slot was initialised, and never opened since */
    POINCARE_CLOSED = 204,     /* the slot was opened and closed */
    POINCARE_OPEN = 205        /* the slot is open, and stays as it is */
};

/*
 * Slots
 */

/* How many bytes a slot takes, at a multiple of how many. The types above have room for them; a program whose library
 * may be another one than its header asks. Callable from anywhere. */
size_t poincare_session_size(void);
size_t poincare_session_align(void);
size_t poincare_stopper_size(void);
size_t poincare_stopper_align(void);

/* Makes memory a slot in which nothing was opened. What stands there is not read. */
void poincare_session_init(poincare_session *session);
void poincare_stopper_init(poincare_stopper *stopper);

/*
 * Sessions. Each call but poincare_open answers POINCARE_NOT_OPENED or POINCARE_CLOSED where the slot is not open.
 */

/* Opens a session whose pool has so many bytes, a multiple of 8 from 64 to 524,280. The last answer is 0, and no name is
 * stored. With 32,768 bytes, which is what the program takes, about 0.7 MB of heap are taken. A slot that was closed may
 * be opened again.
 * POINCARE_DONE, POINCARE_OPEN, POINCARE_BAD_POOL or POINCARE_NO_MEMORY. */
uint32_t poincare_open(poincare_session *session, uint32_t pool);

/* Gives the memory of the session back, but for a few bytes that it shares with its stoppers, until the last of these is
 * closed. */
uint32_t poincare_close(poincare_session *session);

/* Answers a line: so many bytes, without a newline and a carriage return at their end. They may be any bytes; UTF-8 is
 * what the grammar knows. The answer is what became of the line; poincare_text has its text.
 * `:after K` may interrupt any number of lines; in the program it may interrupt two. */
uint32_t poincare_line(poincare_session *session, const char *line, size_t length);

/* The same, but that the line is interrupted where it needs more than so many checks, too. There is one check for each
 * node of a line once its names are replaced; docs/LANGUAGE.md says which nodes of a command count. A line that was
 * interrupted may be asked again with more: it changed nothing. The count takes the place of one that `:after` asked for,
 * and no count is left when the call returns. */
uint32_t poincare_line_within(poincare_session *session, const char *line, size_t length, uint64_t checks);

/* Writes the text of the last line, without a newline and without a 0 at the end, and sets count to how many bytes it
 * has. It may be asked for again, as with more room. There is none after opening, after a blank line, and after
 * POINCARE_DRAW or a call of poincare_draw; then count is 0.
 * POINCARE_DONE, or POINCARE_NO_ROOM. */
uint32_t poincare_text(const poincare_session *session, char *out, size_t room, size_t *count);

/* Writes the picture of the last answer, each row with a newline, and sets count to how many bytes it has. Nothing in the
 * session changes, but that there is no text any more. Where its layout finds no room in the pool, the line
 * `! full needed N free M` with a newline is written in its place, as far as it fits, and count is its length.
 * POINCARE_DONE, POINCARE_NO_ROOM, or POINCARE_FULL for that line. */
uint32_t poincare_draw(poincare_session *session, char *out, size_t room, size_t *count);

/* Tells how many bytes of the pool are in use, and how many are free. */
uint32_t poincare_pool(const poincare_session *session, uint32_t *used, uint32_t *left);

/*
 * Stoppers. Each call but poincare_stopper_open answers POINCARE_NOT_OPENED or POINCARE_CLOSED where the slot is not open.
 */

/* Opens a stopper of a session that is open. A session may have several. A stopper may outlive its session; then it stops
 * nothing.
 * POINCARE_DONE, POINCARE_NO_MEMORY, POINCARE_OPEN where the stopper's slot is open, or POINCARE_NOT_OPENED or
 * POINCARE_CLOSED where the session's is not. */
uint32_t poincare_stopper_open(poincare_stopper *stopper, poincare_session *session);

/* Interrupts the line that the session is answering, at its next check, or else the next line that makes a check. The
 * node that is being reduced is ended first; the longest that is known takes 30 ms in a pool of 32,768 bytes, and 0.7 s
 * in the greatest. The line is answered by POINCARE_INTERRUPTED, and so the request is met: the line after it is
 * answered. */
uint32_t poincare_stop(poincare_stopper *stopper);

/* Takes back what any stopper of the session asked for, where no line has met it. */
uint32_t poincare_clear(poincare_stopper *stopper);

/* Closes the stopper. What it asked for stays asked. */
uint32_t poincare_stopper_close(poincare_stopper *stopper);

/*
 * A whole text
 */

/* Answers the lines of a text in a session of its own, as the program with `--pool` answers its input: each line ends at
 * a newline or at the end of the text, a carriage return before that is cut, and behind each text stands a newline; for a
 * picture, see poincare_draw. Sets count to how many bytes the answers have. The text may be of any length.
 * POINCARE_DONE, POINCARE_NO_ROOM, POINCARE_BAD_POOL or POINCARE_NO_MEMORY. */
uint32_t poincare_answers(uint32_t pool, const char *lines, size_t length, char *out, size_t room, size_t *count);

#ifdef __cplusplus
}
#endif

#endif
