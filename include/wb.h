/* wb.h: a host of a shared whiteboard in this process, by the library libwb.
 *
 * Threads: one call at a time is made for a host. Its calls are made by one thread, or go from one to another in an order that a lock or a
 * join gives. Different hosts may be called by different threads at once. No call is made by a signal handler, or by the child of a fork of a
 * process with threads.
 *
 * A host takes the lines that `wb host` takes, and gives the same blocks for them (docs/HOST.md). It has no socket, no clock, no thread and
 * no global: there may be many hosts, each with calls of its own, and your program has the network, the clock and the screen.
 *
 *     wb_host host = WB_HOST_CLOSED;
 *     char block[1 << 14];
 *     size_t size;
 *     wb_open(&host);
 *     wb_line(&host, "board 1 100 1 42", 16, block, sizeof block, &size);   // "ok never\n"
 *     wb_close(&host);
 *
 * A host that is self-managing (the line `keep`) takes datagrams, moments, drawings and questions by bytes too, without a line or a digit:
 * wb_came, wb_tick, wb_add and wb_ask. What follows are events, which wb_event fetches one by one. Calls by lines and by bytes may be mixed.
 *
 * A host that is judged (the line `judge`) decides also which datagrams it takes, and says what to record before what to send. There a
 * datagram comes with its origin, by wb_came_from: wb_came answers WB_JUDGED, and changes nothing. wb_wall tells it the time of day, and wb_gone
 * that somebody is gone. wb_tick, wb_add, wb_ask, wb_event and wb_due are as at any self-managing host. Its record is handed in by lines (`held`).
 *
 * What is proved of the calls, and what their caller owes, is in docs/proofs/wb_c.md. What a caller owes, nobody checks:
 *
 * - A `wb_host` is WB_HOST_CLOSED at first, is not copied, and nothing but these calls writes it.
 * - No pointer is NULL, also where a length is 0, and what the pointers of one call point to lies apart from one another. Compilers that know
 *   attributes warn of a NULL, and of a buffer that is shorter than its length says, where they see either.
 * - The thread rules above.
 *
 * The shared library is libwb.so.0, and wb_version says which one. Until 1.0.0 a version may change anything, and CHANGELOG.md says what. A later
 * one may have more statuses and kinds of events. A status that is not below: the call changed nothing. An event whose kind is not below: fetch
 * it and go on.
 */
#ifndef WB_H
#define WB_H

#include <stdbool.h>
#include <stddef.h>
#include <stdint.h>

/* The version of this header: as a text, and as 10,000 times its first number, 100 times its second and its third. */
#define WB_VERSION "0.1.0"
#define WB_VERSION_NUMBER 100

/* For the compiler: no pointer is NULL; and the bytes that a call reads or writes, as the places of the pointer and of the length among the words
 * of the call. */
#if defined(__GNUC__) && defined(__has_attribute)
#if __has_attribute(nonnull)
#define WB_NOT_NULL __attribute__((nonnull))
#endif
#if __has_attribute(access)
#define WB_READS(at, length) __attribute__((access(read_only, at, length)))
#define WB_WRITES(at, length) __attribute__((access(write_only, at, length)))
#endif
#endif
#ifndef WB_NOT_NULL
#define WB_NOT_NULL
#endif
#ifndef WB_READS
#define WB_READS(at, length)
#define WB_WRITES(at, length)
#endif

#ifdef __cplusplus
extern "C" {
#endif

/* The place of one host. Its parts are the library's. */
typedef struct wb_host {
    void *at;
    bool is_open;
} wb_host;

#define WB_HOST_CLOSED {0, 0}

/* What this library is, in three lines, each with its line feed: "wb " and its version, which is that of its header; `sources` and the digest of
 * its sources; and `proved by` with the toolchain's name, or `not proved`. A text that nobody frees; any thread may ask at any time. */
const char *wb_version(void);

/* What a call answers. A call that gives none of the first two and not WB_MEMORY changed nothing. */
enum {
    WB_DONE = 0,          /* it is done */
    WB_WAITS = 1,         /* the block or the event waits for a buffer of `size` bytes */
    WB_NOT_DONE = 2,      /* the line was not taken, since the block of an earlier one waits */
    WB_CLOSED = 3,        /* the host is closed */
    WB_MEMORY = 4,        /* there was no memory; the host is closed now, and what it held is gone */
    WB_OPEN = 5,          /* the host is open already */
    WB_NOTHING = 6,       /* no event waits */
    WB_NOT_KEPT = 7,      /* the host is not self-managing */
    WB_NO_MOMENT = 8,     /* the moment is not below 2^48 */
    WB_BACK_IN_TIME = 9,  /* the moment is before the present one */
    WB_LISTENING = 10,    /* nothing is added yet */
    WB_OURS = 11,         /* a drawop of our own number of 2^31 or more that is not held: forged */
    WB_NUMBERS = 12,      /* no number is left on the page */
    WB_NO_DRAWOP = 13,    /* the datagram is no drawop */
    WB_NO_QUESTION = 14,  /* there is no such question, or no canvas of that size */
    WB_JUDGED = 15,       /* the host is judged: what comes in has an origin, and goes in by wb_came_from */
    WB_NOT_JUDGED = 16,   /* the host is not judged, and knows no origins and no time of day */
    WB_TWIN = 17,         /* nothing is drawn at a judged host, since somebody else has our number */
    WB_FULL = 18,         /* nothing is drawn at a judged host, since the last cells are kept for deletes and restores */
    WB_NO_TIME = 19,      /* the time of day is not below 2^62 */
    WB_NO_DATAGRAM = 100, /* and with the number of the fault, 1 to 9 (docs/SCRIPTS.md): the bytes are no datagram */
    WB_NO_OPERATION = 200 /* and with the number of the fault, 1 to 7: under its next number the operation is none of a drawop */
};

/* The kinds of events, and the bytes of each. Datagrams are as on the network (docs/SCRIPTS.md), and numbers have four bytes, big-endian. */
enum {
    WB_SENT = 1,     /* a datagram, which is to be sent to all others */
    WB_NEW = 2,      /* no bytes: the drawop that came or was drawn is new, and held now */
    WB_AGAIN = 3,    /* no bytes: it was held already */
    WB_CLASH = 4,    /* no bytes: another drawop of its name is held, and stays */
    WB_LEFT = 5,     /* no bytes: it is new, and the board is full */
    WB_SHOWN = 6,    /* the datagram of a drawop that the page shows */
    WB_MISSING = 7,  /* a range that is missing: its source, its first number and its last */
    WB_GREATEST = 8, /* a source and its greatest number */
    WB_PAGE = 9,     /* a page: its creator and its number */
    WB_NEXT = 10,    /* the number of our next drawop on the page; no event if no number is left */
    WB_PAINTED = 11, /* the rows of a canvas, each with its line feed */
    WB_DIGEST = 17,  /* the 32 bytes of a page's digest */
    /* of a judged host alone */
    WB_DROPPED = 12, /* what came is dropped: why, as a number (below) */
    WB_RECORD = 13,  /* a line of the record, a text without an end: it is to be in the record before any datagram behind it is sent */
    WB_DREW = 14,    /* the name of a drawop that is held now and was not before: its source, its page's creator and number, and its number */
    WB_FETCH = 15,   /* a stream is to be taken: the place, how many numbers are missing, and the owner if the place has one; each has 8 bytes */
    WB_WARN = 16     /* people are to be warned: a number (below), and behind WB_WARN_SPEAKS the member for whom another speaks */
};

/* The questions, each that of the line of its name (docs/HOST-LINES.md). */
enum {
    WB_ASK_NEXT = 1,   /* one event WB_NEXT, or none */
    WB_ASK_VIEW = 2,   /* WB_SHOWN for each drawop that the page shows, in the order of display */
    WB_ASK_GAPS = 3,   /* WB_MISSING for each range */
    WB_ASK_REPORT = 4, /* WB_GREATEST for each source of the page */
    WB_ASK_PAGES = 5,  /* WB_PAGE for each page that has a drawop; the page that is given does not matter */
    WB_ASK_KNOWN = 6,  /* the same, also of pages that were only heard of */
    WB_ASK_CANVAS = 7, /* one event WB_PAINTED; `show` is its line, and only this question looks at width and height */
    WB_ASK_DIGEST = 8  /* one event WB_DIGEST */
};

/* Why a judged host drops what came: the words of the line `dropped` (docs/HOST-LINES.md). */
enum {
    WB_DROP_DATAGRAM = 1, /* it is no datagram */
    WB_DROP_OWN = 2,
    WB_DROP_SPEAKS = 3,
    WB_DROP_CROWD = 4,
    WB_DROP_MARK = 5,
    WB_DROP_STRANGER = 6,
    WB_DROP_FLOOD = 7,
    WB_DROP_AGAIN = 8,
    WB_DROP_AHEAD = 9,
    WB_DROP_FULL = 10,
    WB_DROP_SHARE = 11,
    WB_DROP_PAGES = 12,
    WB_DROP_HOLES = 13
};

/* What a judged host warns people of: the words of the line `warn`. */
enum {
    WB_WARN_SPEAKS = 1,
    WB_WARN_MARK = 2,
    WB_WARN_TWIN = 3,
    WB_WARN_FULL = 4,
    WB_WARN_SHARE = 5
};

/* What wb_due gives if nothing is due. */
#define WB_NEVER UINT64_MAX

/* Opens a host: WB_DONE, WB_MEMORY or WB_OPEN. It has no board until the line `board`. */
WB_NOT_NULL
uint32_t wb_open(wb_host *host);

/* Takes one line, of `length` bytes without its line feed, and writes its block at the front of the buffer: the lines that it prints, each
 * with its line feed, the last of which is `ok DUE` or `refused FAULT`. There is no zero byte behind it. `size` tells how many bytes it has,
 * also where the buffer has no room for it. Then nothing is written, and the block is kept until wb_block fetches it: no line is told twice.
 * WB_DONE, WB_WAITS, WB_NOT_DONE, WB_CLOSED or WB_MEMORY. A line that is refused is WB_DONE: its block says why. */
WB_NOT_NULL WB_READS(2, 3) WB_WRITES(4, 5)
uint32_t wb_line(wb_host *host, const void *line, size_t length, void *buffer, size_t room, size_t *size);

/* Fetches the block that waits; where none does, `size` is 0. WB_DONE, WB_WAITS or WB_CLOSED. */
WB_NOT_NULL WB_WRITES(2, 3)
uint32_t wb_block(wb_host *host, void *buffer, size_t room, size_t *size);

/* A datagram of `length` bytes came in at a moment, in microseconds: the line `came`. For each datagram that is to be sent an event WB_SENT
 * is added behind those that wait, in order, and then, if a drawop came in, what became of it.
 * WB_DONE, WB_NO_MOMENT, WB_NO_DATAGRAM + FAULT, WB_JUDGED, WB_NOT_KEPT, WB_BACK_IN_TIME, WB_OURS, WB_CLOSED or WB_MEMORY. */
WB_NOT_NULL WB_READS(3, 4)
uint32_t wb_came(wb_host *host, uint64_t now, const void *datagram, size_t length);

/* Bytes came in from an origin, at a judged host: the line `came`. An origin is a place, as the network names it, and an owner if the network
 * lets nobody else send from there; without one, `owner` does not matter. What is no datagram is handed in too, and dropped. The events are those
 * of the line, in its order: why it is dropped, what to record, what is held now, what to send, what became of a drawop, from where to take a
 * stream, and what to warn people of.
 * WB_DONE, WB_NO_MOMENT, WB_NOT_JUDGED, WB_BACK_IN_TIME, WB_CLOSED or WB_MEMORY. */
WB_NOT_NULL WB_READS(6, 7)
uint32_t wb_came_from(wb_host *host, uint64_t now, uint64_t place, uint64_t owner, bool has_owner, const void *datagram, size_t length);

/* The time of day at a moment, in microseconds since 1970, at a judged host: the line `wall`. Events as there.
 * WB_DONE, WB_NO_MOMENT, WB_NO_TIME, WB_NOT_JUDGED, WB_BACK_IN_TIME, WB_CLOSED or WB_MEMORY. */
WB_NOT_NULL
uint32_t wb_wall(wb_host *host, uint64_t now, uint64_t wall);

/* The network says that whoever spoke from an origin is gone, at a judged host: the line `gone`. Events as there.
 * WB_DONE, WB_NO_MOMENT, WB_NOT_JUDGED, WB_BACK_IN_TIME, WB_CLOSED or WB_MEMORY. */
WB_NOT_NULL
uint32_t wb_gone(wb_host *host, uint64_t now, uint64_t place, uint64_t owner, bool has_owner);

/* Time goes on to a moment: the line `tick`. Events as above, at a judged host as at wb_came_from.
 * WB_DONE, WB_NO_MOMENT, WB_NOT_KEPT, WB_BACK_IN_TIME, WB_CLOSED or WB_MEMORY. */
WB_NOT_NULL
uint32_t wb_tick(wb_host *host, uint64_t now);

/* The user draws: the line `add`. The bytes are the datagram of a drawop with the page, the time and the operation of the drawing; its source
 * and its number do not matter, as the drawing gets a name of its own. A judged host has the time of day, so there the drawop's time does not
 * matter either. Events as above, at a judged host as at wb_came_from: the drawing is among what is to be sent, unless it clashes or the board
 * is full.
 * WB_DONE, WB_NO_MOMENT, WB_NO_DATAGRAM + FAULT, WB_NO_DRAWOP, WB_NOT_KEPT, WB_TWIN, WB_FULL, WB_BACK_IN_TIME, WB_LISTENING, WB_NUMBERS,
 * WB_NO_OPERATION + FAULT, WB_CLOSED or WB_MEMORY. */
WB_NOT_NULL WB_READS(3, 4)
uint32_t wb_add(wb_host *host, uint64_t now, const void *drawop, size_t length);

/* Asks a question about a page, which changes nothing; an event for each item of the answer is added behind those that wait.
 * WB_DONE, WB_NO_QUESTION, WB_NOT_KEPT, WB_CLOSED or WB_MEMORY. */
WB_NOT_NULL
uint32_t wb_ask(wb_host *host, uint32_t question, uint32_t creator, uint32_t number, uint32_t width, uint32_t height);

/* Fetches the next event: its kind, and its bytes at the front of the buffer. `size` tells how many these are, also where the buffer has no
 * room for them: then nothing is written, and the event waits. Each event is fetched once, and they come in the order of the calls.
 * WB_DONE, WB_WAITS, WB_NOTHING, WB_CLOSED or WB_MEMORY. */
WB_NOT_NULL WB_WRITES(3, 4)
uint32_t wb_event(wb_host *host, uint32_t *kind, void *buffer, size_t room, size_t *size);

/* The next moment at which a tick is due, in microseconds, or WB_NEVER. */
WB_NOT_NULL
uint64_t wb_due(wb_host *host);

/* Closes a host, and frees what it has. A closed one stays closed, and any may be opened anew. */
WB_NOT_NULL
void wb_close(wb_host *host);

#ifdef __cplusplus
}
#endif

#endif
