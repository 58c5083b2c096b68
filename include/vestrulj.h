/* The Vestrulj OSC 1.0 server for C, and for all that can call C: version 1 of this header.
 *
 * Each call is proved to do what its contract says (crates/osc_c/src). What the caller owes, all of it, and nothing
 * checks it:
 *  - a pointer isn't null, and points to as many readable or writable bytes as its size says, or to one object of its
 *    type (a size of 0 too wants a pointer that isn't null); where bytes are written, nothing else reads or writes
 *    them while the call runs, and no two pointers of one call share bytes that are written;
 *  - a server is all zeros (OSC_SERVER) or what these calls left there, is used by one thread at a time, and that is
 *    the thread that opened it; it may be moved, and not copied;
 *  - a bool is 0 or 1;
 *  - malloc and free are those of one allocator, and no call comes from a signal handler.
 *
 * Memory is taken by osc_server_open, by an add and a remove, by osc_pattern_matches and by osc_message_write, and by no
 * other call; all but an open server and its methods give it back. A call's time isn't promised.
 *
 * What may change in a later version: calls and statuses may be added, and fields at the end of an answer of a call
 * that is new. The calls, structs and numbers that stand here stay as they are as long as OSC_VERSION is 1. */
#ifndef VESTRULJ_H
#define VESTRULJ_H

#include <stdbool.h>
#include <stddef.h>
#include <stdint.h>

#ifdef __cplusplus
extern "C" {
#endif

#define OSC_VERSION 1

/* What a call answers: `status` of an osc_answer, or the result. */
enum {
    OSC_OK = 0,
    OSC_NOTHING_DUE = 1,   /* no unit is due; unit: the next moment, or 0 */
    OSC_RECORD_FULL = 2,   /* the recording has no room for the entry; need, free: in bytes */
    OSC_UNITS_FULL = 3,    /* too few places in the queue; need, free */
    OSC_POOL_FULL = 4,     /* too few blocks of 64 bytes for the messages; need, free */
    OSC_TAKEN = 5,         /* a method has the address; number: its id */
    OSC_UNDER_METHOD = 6,  /* a method has a prefix of the address; number: its id */
    OSC_IS_CONTAINER = 7,  /* a method has an address below this one */
    OSC_METHODS_FULL = 8,  /* number: how many there may be */
    OSC_NODES_FULL = 9,    /* too few nodes of addresses; need, free */
    OSC_NOT_THERE = 10,    /* no method has the address */
    OSC_CLOCK_BACK = 11,   /* the moment is before the clock; unit: the clock */
    OSC_BAD_PACKET = 12,   /* number: the kind of the first fault, 1 to 18; unit: its place, counted from 0 */
    OSC_BAD_ADDRESS = 13,  /* number: the rule that is broken, 1 to 6 */
    OSC_BAD_LIMIT = 14,    /* number: the first limit outside its range, counted from 1 */
    OSC_NO_MEMORY = 15,    /* and nothing has changed */
    OSC_IS_CLOSED = 16,
    OSC_IS_OPEN = 17,
    OSC_NO_CALL = 18,      /* all calls of the last release are read */
    OSC_BUFFER_SMALL = 19, /* call->size, or need, tells how many bytes are wanted; the call stays */
    OSC_CALLERS_FULL = 20, /* there are as many callers as there may be */
    OSC_NOT_ENROLLED = 21, /* the caller's number wasn't given */
    OSC_BAD_PATTERN = 22,  /* number: the kind of the pattern's first fault, 4, 10 or 11; unit: its place */
    OSC_BAD_ARGUMENT = 23, /* unit: which, counted from 0; number: 1 for its tag, number, place or size, 2 for a zero byte */
    OSC_TOO_LONG = 24,     /* a pattern of over 65,000 bytes, or a message of over 65,504 with argument `unit` */
    OSC_BRACKETS = 25      /* the array brackets don't balance */
};

typedef struct osc_server {
    void *inside;
    bool is_open;
} osc_server;

#define OSC_SERVER {0, false}

typedef struct osc_limits {
    uint32_t units;     /* queued units, 1 to 1,048,576 */
    uint32_t blocks;    /* blocks of 64 bytes for their messages, 1 to 1,048,576 */
    uint32_t methods;   /* 1 to 65,536 */
    uint32_t nodes;     /* nodes of the methods' addresses, 1 to 1,048,576 */
    uint32_t callers;   /* 1 to 1,024 */
    uint32_t recording; /* bytes of the recording, 60 to 1,073,741,824 */
    bool discards_late;
} osc_limits;

/* What an answer doesn't tell is 0. */
typedef struct osc_answer {
    uint32_t status;
    uint32_t number; /* a method's id; a caller */
    uint64_t unit;   /* the first unit that was queued; the unit that was released */
    uint32_t count;  /* how many units were numbered, calls a release made, arguments there are, bytes were written */
    uint32_t late;   /* how many of the units were late and are discarded */
    uint64_t need;
    uint64_t free;
} osc_answer;

typedef struct osc_call {
    uint64_t unit;
    uint32_t method; /* the id that osc_server_add answered */
    uint32_t index;  /* which message of the unit, counted from 0 */
    uint32_t size;   /* how many bytes the message has */
} osc_call;

/* An argument of a message, or an array bracket. A string's bytes end in a zero byte. */
typedef struct osc_argument {
    uint64_t word;  /* the bits of i, f, c, r, m (32) and h, t, d (64); else 0 */
    uint32_t place; /* where its bytes begin in the message */
    uint32_t size;  /* how many there are, without the zero bytes after them */
    uint32_t tag;   /* a character of the standard's type tags */
} osc_argument;

/* Opens a server; its clock stands at 1, and caller 0 is enrolled. */
osc_answer osc_server_open(osc_server *server, const osc_limits *limits);

/* Frees all that the server has. A server that is closed stays so. */
void osc_server_close(osc_server *server);

/* The events. Those that end in _by are an event of the caller with this number, the others of caller 0. All but a
 * release keep the calls that are left to be read. */

/* Enrols a caller: `number` is the caller's. */
osc_answer osc_server_enrol(osc_server *server);
osc_answer osc_server_enrol_by(osc_server *server, uint32_t caller);

/* Adds a method at the address: `number` is its id. */
osc_answer osc_server_add(osc_server *server, const uint8_t *address, size_t size);
osc_answer osc_server_add_by(osc_server *server, uint32_t caller, const uint8_t *address, size_t size);

/* Removes the method at the address: `number` is the id that it had. */
osc_answer osc_server_remove(osc_server *server, const uint8_t *address, size_t size);
osc_answer osc_server_remove_by(osc_server *server, uint32_t caller, const uint8_t *address, size_t size);

/* Queues the units of a packet, all or none. */
osc_answer osc_server_submit(osc_server *server, const uint8_t *packet, size_t size);
osc_answer osc_server_submit_by(osc_server *server, uint32_t caller, const uint8_t *packet, size_t size);

/* Sets the clock: an NTP time, 32 bits of seconds and 32 bits of fraction. */
osc_answer osc_server_tick(osc_server *server, uint64_t moment);
osc_answer osc_server_tick_by(osc_server *server, uint32_t caller, uint64_t moment);

/* Takes the unit that is due first out of the queue: `count` calls are to be read. Where none is due, or the recording
 * is full, there are none to be read. */
osc_answer osc_server_release(osc_server *server);
osc_answer osc_server_release_by(osc_server *server, uint32_t caller);

/* The moment at which the next unit is due, that a release takes: `unit`; or OSC_NOTHING_DUE where none waits. A moment that
 * isn't after the clock is due at once. Nothing changes. */
osc_answer osc_server_due(osc_server *server);

/* The next call of the last release, with its message in the buffer: OSC_OK, OSC_NO_CALL, OSC_BUFFER_SMALL or
 * OSC_IS_CLOSED. */
uint32_t osc_server_next_call(osc_server *server, osc_call *call, uint8_t *buffer, size_t room);

/* How many bytes the recording has; 0 where the server is closed. */
size_t osc_server_recorded(osc_server *server);

/* Copies the recording from a place on, as far as there is room, and tells how many bytes. */
size_t osc_server_read_recording(osc_server *server, size_t from, uint8_t *buffer, size_t room);

/* Whether the bytes are one OSC packet: OSC_OK or OSC_BAD_PACKET. */
osc_answer osc_packet_check(const uint8_t *bytes, size_t size);

/* Reads the arguments of a message, as far as there is room: `count` tells how many there are. The address pattern stands
 * at the beginning of the message, and ends in a zero byte. A message with an unknown tag has no arguments. */
osc_answer osc_message_read(const uint8_t *bytes, size_t size, osc_argument *arguments, size_t room);

/* Writes the message with this pattern and these arguments, whose strings and blobs stand among the bytes at their place
 * and size, as osc_message_read tells them of a message: `count` tells how many bytes it has. Where it isn't OSC_OK,
 * nothing is written. */
osc_answer osc_message_write(const uint8_t *pattern, size_t pattern_size, const osc_argument *arguments, size_t count,
                             const uint8_t *bytes, size_t size, uint8_t *buffer, size_t room);

/* 1 where the pattern matches the address, 0 where it doesn't; 2: no pattern, 3: no address, 4: no memory. */
uint32_t osc_pattern_matches(const uint8_t *pattern, size_t pattern_size, const uint8_t *address, size_t address_size);

#ifdef __cplusplus
}
#endif

#endif
