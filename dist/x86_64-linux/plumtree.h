/* A node of Plumtree over HyParView, of two kinds.
 *
 * A node of bytes (plumtree_wire_start) keeps what is no whole frame yet, and what is to go out, by the name that it
 * goes to. A program brings its own connections, clock and random numbers:
 *
 *   - it says when it accepts a connection (plumtree_wire_accept), what comes over it (plumtree_wire_receive), and when
 *     it is over (plumtree_wire_ended);
 *   - it connects to each name for which bytes wait (plumtree_wire_receivers), writes of them what the connection takes
 *     (plumtree_wire_transmit), and says how many it took (plumtree_wire_transmitted), or that the name cannot be
 *     reached (plumtree_wire_unreachable); it closes the connections to names that were lost (plumtree_wire_next_lost);
 *   - it takes the deliveries that wait (plumtree_wire_next_delivery): these are the messages of the group;
 *   - it may be told which neighbours come and go, and why (plumtree_wire_tell_news, plumtree_wire_next_news);
 *   - it calls plumtree_wire_tick now and then, a few times a second, and plumtree_wire_join where all links failed.
 *
 * A state machine (plumtree_start) leaves frames and what waits to the program too:
 *
 *   - whatever bytes a connection brings it hands to plumtree_receive, one frame at a time;
 *   - after each call that changes a node it takes the frames that wait (plumtree_next_send), and writes each to its
 *     connection to the receiver, whole and in order;
 *   - it takes the deliveries that wait (plumtree_next_delivery): these are the messages of the group;
 *   - it calls plumtree_tick now and then, a few times a second, plumtree_link_down when a connection fails, and
 *     plumtree_join where all did.
 *
 * A connection carries bytes from who made it to who accepted it, and none back. A node of either kind has one slot, a
 * plumtree_node. Calls whose names begin with plumtree_wire_ are for nodes of bytes; plumtree_free and what reads a
 * node ("What a node has") serve both kinds, but for plumtree_counts_of; all others are for state machines.
 *
 * Nothing here waits, reads a clock, opens a file or starts a thread. A refused allocation is an answer
 * (PLUMTREE_OUT_OF_MEMORY), and never ends the process.
 *
 * Pointers. Each is to a valid object of its type and is not kept after the call. A pointer with a length may be NULL
 * where the length is 0; no other may be NULL. No two arguments of one call overlap, unless both are only read.
 * Lengths are in bytes for uint8_t and in names for plumtree_name, and at most PTRDIFF_MAX bytes.
 *
 * Threads. A node may go from thread to thread, and different nodes may be used at the same time. Two calls with one
 * node must not overlap: a lock or the like orders them. No call may be made from a signal handler.
 *
 * Answers. Each call that returns an int32_t answers one of plumtree_answer: 1 done; 0 there is none, or it is not
 * whole yet; below 0 it was refused. Unless it says otherwise, a call that does not answer 1 leaves the node and the
 * objects that it would write as they were. plumtree_words has each answer in words. */
#ifndef PLUMTREE_H
#define PLUMTREE_H

#include <stdbool.h>
#include <stddef.h>
#include <stdint.h>

#ifdef __cplusplus
#define PLUMTREE_ASSERT(fact) static_assert(fact, #fact)
extern "C" {
#else
#define PLUMTREE_ASSERT(fact) _Static_assert(fact, #fact)
#endif

/* The version of this interface. plumtree_version answers that of the library: compare the two once. */
#define PLUMTREE_VERSION 2

/* The longest name, in bytes. */
#define PLUMTREE_NAME_MAX 32

/* The longest payload of a message, in bytes. */
#define PLUMTREE_PAYLOAD_MAX 32768

/* The longest frame, in bytes. A room of this size is never too small for plumtree_next_send; a buffer of this size
 * always has a whole frame once it is full. */
#define PLUMTREE_FRAME_MAX 32880

/* The greatest sizes of views: a room for so many names is never too small. */
#define PLUMTREE_ACTIVE_MAX 16
#define PLUMTREE_PASSIVE_MAX 64

/* The random words of a call. */
#define PLUMTREE_DICE 16

/* The pieces in which bytes that wait are lent. */
#define PLUMTREE_PIECES 4

/* How many bytes may wait for a name, unless there is a reason for another limit: 8 MiB. */
#define PLUMTREE_WAITING 8388608

typedef enum plumtree_answer {
    PLUMTREE_DONE = 1,
    PLUMTREE_NONE = 0,
    PLUMTREE_NOT_LIVE = -1,         /* the slot has no node of this kind: it was not started, or was freed */
    PLUMTREE_LIVE = -2,             /* the slot has a node already */
    PLUMTREE_NOT_ZEROED = -3,       /* the slot was not zeroed before its first use */
    PLUMTREE_COPIED = -4,           /* the slot is a copy of one that was used since */
    PLUMTREE_OUT_OF_MEMORY = -5,    /* an allocation was refused: the same call may succeed later */
    PLUMTREE_ROOM_TOO_SMALL = -6,   /* ask again with the room that `length` says */
    PLUMTREE_PAYLOAD_TOO_LONG = -7, /* more than PLUMTREE_PAYLOAD_MAX bytes */
    PLUMTREE_NUMBERS_SPENT = -8,    /* this incarnation has used up its numbers of messages or of frames */
    PLUMTREE_BAD_NAME = -9,         /* a name is not 1 to 32 bytes of a to z, 0 to 9 and - */
    PLUMTREE_BAD_LIMITS = -10,      /* a limit is out of range, or two do not fit together */
    PLUMTREE_BAD_PEERS = -11,       /* more peers than the active view has places, a peer twice, or the node itself */
    /* The bytes are no frame. The connection that brought them is of no more use: close it, and tell a state machine
     * by plumtree_link_down. */
    PLUMTREE_FRAME_TOO_LONG = -12,
    PLUMTREE_BAD_VERSION = -13,
    PLUMTREE_BAD_KIND = -14,
    PLUMTREE_BAD_FRAME_NAME = -15,
    PLUMTREE_BAD_FIELD = -16,
    PLUMTREE_BAD_COUNT = -17,
    PLUMTREE_TRAILING = -18,
    PLUMTREE_NO_CONNECTION = -19    /* a node of bytes has no such connection */
} plumtree_answer;

/* Room for a node. The caller owns it, sets all of it to zero before its first use ("plumtree_node node = {0};"), and
 * then neither reads nor writes it. It may be moved (as by memcpy or realloc) between two calls, if the old place is
 * not used any more. A copy is not another node: a call with one answers PLUMTREE_COPIED if the other was used since
 * for a call that changes the node, and after the other was freed it reads freed memory. */
typedef struct plumtree_node {
    uint64_t live;
    uint64_t turn;
    uint8_t *at;
} plumtree_node;

/* A name of a node. `text` ends with a zero, so it can be printed as it is; `length` does not count the zero. */
typedef struct plumtree_name {
    char text[PLUMTREE_NAME_MAX + 1];
    uint8_t length;
} plumtree_name;

/* The id of a message: the run of a node that broadcast it, and its number among the messages of that run, from 1. */
typedef struct plumtree_id {
    plumtree_name name;
    uint64_t incarnation;
    uint64_t number;
} plumtree_id;

/* The limits of a node. plumtree_limits_default sets those of the HyParView paper. */
typedef struct plumtree_limits {
    uint8_t active;     /* places of the active view, 1 to 16; by default 5 */
    uint8_t passive;    /* places of the passive view, 1 to 64; by default 30 */
    uint8_t arwl;       /* steps of a walk that brings a new node or a shuffle, at most 32; by default 6 */
    uint8_t prwl;       /* steps that are left where a new node comes into a passive view, at most arwl; by default 3 */
    uint8_t ka;         /* active names in a shuffle; by default 3. ka + kp is at most 7 */
    uint8_t kp;         /* passive names in a shuffle; by default 4 */
    uint32_t threshold; /* how many links shorter a way must be to swap a branch for it; 0, the default: no swaps */
    uint32_t keep;      /* payloads that are kept for peers that ask, the last ones; 0, the default: all */
} plumtree_limits;

/* How much a node has. */
typedef struct plumtree_counts {
    uint64_t known;      /* messages that it delivered since its start */
    uint64_t held;       /* messages whose payloads it holds */
    uint64_t missing;    /* messages that it lacks and may ask for: armed timers */
    uint64_t wants;      /* announcements of these that came */
    uint64_t queued;     /* announcements that wait for a flush */
    uint64_t sends;      /* frames that wait for plumtree_next_send */
    uint64_t deliveries; /* deliveries that wait for plumtree_next_delivery */
} plumtree_counts;

/* How much a node of bytes has. */
typedef struct plumtree_wire_counts {
    uint64_t held;    /* messages whose payloads it holds */
    uint64_t missing; /* messages that it lacks and may ask for: armed timers */
    uint64_t wants;   /* announcements of these that came */
    uint64_t queued;  /* announcements that wait for a tick */
    uint64_t ticks;   /* ticks that were made */
} plumtree_wire_counts;

/* What changed in the active view of a node. */
typedef enum plumtree_news_kind {
    PLUMTREE_NEIGHBOR_UP = 1,   /* the name is a neighbour now */
    PLUMTREE_NEIGHBOR_DOWN = 2, /* the name is a neighbour no longer */
    PLUMTREE_ISOLATED = 3,      /* the last neighbour went */
    PLUMTREE_JOINED = 4         /* there was no neighbour, and now there is one */
} plumtree_news_kind;

/* Why a neighbour went. */
typedef enum plumtree_parting {
    PLUMTREE_LEFT = 1,     /* it said so, by a DISCONNECT or a NEIGHBORREPLY that refuses */
    PLUMTREE_FAILED = 2,   /* the link to it failed */
    PLUMTREE_DISPLACED = 3 /* it was dropped for another name */
} plumtree_parting;

/* News of a node. */
typedef struct plumtree_news {
    uint8_t kind;       /* one of plumtree_news_kind */
    uint8_t why;        /* one of plumtree_parting, for NEIGHBOR_DOWN; else 0 */
    plumtree_name name; /* who, for NEIGHBOR_UP and NEIGHBOR_DOWN; else no bytes */
} plumtree_news;

/* Bytes that a node lends: `length` of them, from `at` on. A struct iovec of POSIX has the same layout. */
typedef struct plumtree_piece {
    const uint8_t *at;
    size_t length;
} plumtree_piece;

PLUMTREE_ASSERT(sizeof(plumtree_node) == 24 && offsetof(plumtree_node, turn) == 8 && offsetof(plumtree_node, at) == 16);
PLUMTREE_ASSERT(sizeof(plumtree_name) == 34 && offsetof(plumtree_name, length) == 33);
PLUMTREE_ASSERT(sizeof(plumtree_id) == 56 && offsetof(plumtree_id, incarnation) == 40 && offsetof(plumtree_id, number) == 48);
PLUMTREE_ASSERT(sizeof(plumtree_limits) == 16 && offsetof(plumtree_limits, kp) == 5 && offsetof(plumtree_limits, threshold) == 8);
PLUMTREE_ASSERT(offsetof(plumtree_limits, keep) == 12);
PLUMTREE_ASSERT(sizeof(plumtree_counts) == 56 && offsetof(plumtree_counts, deliveries) == 48);
PLUMTREE_ASSERT(sizeof(plumtree_wire_counts) == 40 && offsetof(plumtree_wire_counts, ticks) == 32);
PLUMTREE_ASSERT(sizeof(plumtree_news) == 36 && offsetof(plumtree_news, why) == 1 && offsetof(plumtree_news, name) == 2);
PLUMTREE_ASSERT(sizeof(bool) == 1);
PLUMTREE_ASSERT(sizeof(plumtree_piece) == 16 && offsetof(plumtree_piece, length) == 8);
PLUMTREE_ASSERT(sizeof(size_t) == 8);

/* ---- The beginning and the end ---- */

/* Answers the version of the library's interface. */
uint32_t plumtree_version(void);

/* Sets all limits to their defaults. */
void plumtree_limits_default(plumtree_limits *limits);

/* Makes a name of these bytes: BAD_NAME if they are not one. */
int32_t plumtree_name_of(const uint8_t *bytes, size_t bytes_length, plumtree_name *name);

/* Starts a state machine in the slot, which was zeroed, or whose node was freed.
 *
 * name          the node's name, which no other node of the group has.
 * incarnation   greater than at each earlier start of a node of this name, as the seconds of a clock are; a number that
 *               comes again makes the others take new messages for old ones.
 * peers         its first peers, which name this node as theirs too; none for a node that joins by a contact.
 * contact       the name of a node that runs, to which this one sends that it joins; no bytes where there is none.
 *
 * In this order: BAD_NAME for `name`, LIVE, NOT_ZEROED, BAD_LIMITS, BAD_NAME for a peer or the contact (OUT_OF_MEMORY
 * may come between), BAD_PEERS, OUT_OF_MEMORY. The slot is unchanged then. */
int32_t plumtree_start(plumtree_node *node, const uint8_t *name, size_t name_length, uint64_t incarnation,
                       const plumtree_limits *limits, const plumtree_name *peers, size_t peers_length,
                       const uint8_t *contact, size_t contact_length);

/* Starts a node of bytes in the slot, likewise. `waiting` says how many bytes may wait for a name: one for which more
 * wait is taken down, and is lost (plumtree_wire_next_lost). PLUMTREE_WAITING is a good limit. */
int32_t plumtree_wire_start(plumtree_node *node, const uint8_t *name, size_t name_length, uint64_t incarnation,
                            const plumtree_limits *limits, size_t waiting, const plumtree_name *peers,
                            size_t peers_length, const uint8_t *contact, size_t contact_length);

/* Frees the node, of either kind, and all that waits in it; the slot may then be used again. NONE: it has none, so
 * twice is harmless. COPIED. */
int32_t plumtree_free(plumtree_node *node);

/* ---- A node of bytes ----
 *
 * Each of these also answers, before all else but BAD_NAME, NOT_LIVE or COPIED, and at last, unless it says so,
 * NUMBERS_SPENT if no numbers are left for the node's frames, or OUT_OF_MEMORY. */

/* Broadcasts a message of 0 to PLUMTREE_PAYLOAD_MAX bytes, which are copied. The node delivers it to its own caller
 * too. `number` is then its number, from 1 on: with the node's name and incarnation the message's id.
 * PAYLOAD_TOO_LONG; NUMBERS_SPENT. */
int32_t plumtree_wire_broadcast(plumtree_node *node, const uint8_t *payload, size_t payload_length, uint64_t *number);

/* Makes a tick: sends the announcements that are queued, at every fifth tick since the start asks for each message that
 * was announced before the fifth tick before and did not come, and at every tenth exchanges names of the passive view.
 * So a message that was announced and does not come is asked for at the second fifth tick after that: at the sixth to
 * the tenth tick from then on, or later where more than 128 are missing: the others are asked for at each tick, as these
 * come. How often this is called sets how soon that is; ten times a second is a good beginning.
 * If a step is refused, those before it stay made, and this tick does not count: call again. */
int32_t plumtree_wire_tick(plumtree_node *node, const uint64_t dice[PLUMTREE_DICE]);

/* Accepts a connection that another node made. `number` is then the connection's, which no other of this node ever has.
 * NO_CONNECTION: there are no more numbers. */
int32_t plumtree_wire_accept(plumtree_node *node, uint64_t *number);

/* Takes all the bytes that came over the connection. The frames of one call are given dice one after the other, which
 * begin with these.
 * NO_CONNECTION: nothing has changed. OUT_OF_MEMORY, NUMBERS_SPENT, FRAME_TOO_LONG to TRAILING: the frames before the
 * fault were taken, and the connection has ended, as by plumtree_wire_ended: close it. Only where memory was refused
 * for that too, the node still has it; plumtree_wire_ended may be called anyway. */
int32_t plumtree_wire_receive(plumtree_node *node, uint64_t number, const uint8_t *bytes, size_t bytes_length,
                              const uint64_t dice[PLUMTREE_DICE]);

/* Ends the connection, with what came over it and is no whole frame. Its peer goes down, unless it is down already or
 * has another connection. NO_CONNECTION: it has ended before. If it is refused, nothing has changed. */
int32_t plumtree_wire_ended(plumtree_node *node, uint64_t number, const uint64_t dice[PLUMTREE_DICE]);

/* Tells the node that this name cannot be reached: its peer goes down, and what waits for it is dropped, so that it is
 * lost (plumtree_wire_next_lost). BAD_NAME, before all else. If it is refused, nothing has changed. */
int32_t plumtree_wire_unreachable(plumtree_node *node, const uint8_t *name, size_t name_length,
                                  const uint64_t dice[PLUMTREE_DICE]);

/* Has the node join by this contact, a node that runs, as at its start: JOIN waits to go there. It is for a node without
 * active names, since all its links failed, and may be called again, with another contact each time. A contact that is
 * the node itself or an active name changes nothing, and the answer is DONE. BAD_NAME, before all else. If it is refused,
 * nothing has changed. */
int32_t plumtree_wire_join(plumtree_node *node, const uint8_t *contact, size_t contact_length,
                           const uint64_t dice[PLUMTREE_DICE]);

/* The names for which bytes wait, each once. `length` is their number, and 0 if NOT_LIVE, COPIED or OUT_OF_MEMORY.
 * ROOM_TOO_SMALL: the room has as many of the first as it has places for. */
int32_t plumtree_wire_receivers(plumtree_node *node, plumtree_name *room, size_t room_size, size_t *length);

/* How many bytes wait for the name. Broadcast only while little waits for the fullest one, say less than a quarter of a
 * megabyte, and a slow peer holds you up instead of being hung up at the limit. BAD_NAME, before all else. `count` is
 * unchanged unless DONE. Never NUMBERS_SPENT or OUT_OF_MEMORY. */
int32_t plumtree_wire_waiting(plumtree_node *node, const uint8_t *name, size_t name_length, size_t *count);

/* Lends the first of the bytes that wait for the name, in order, in pieces of which some may be empty. They stay in the
 * node, and may be read until the next call with it. NONE: no bytes wait for this name. BAD_NAME, before all else.
 * Never NUMBERS_SPENT or OUT_OF_MEMORY. */
int32_t plumtree_wire_transmit(plumtree_node *node, const uint8_t *name, size_t name_length,
                               plumtree_piece pieces[PLUMTREE_PIECES]);

/* Drops the first `count` of the bytes that wait for the name, or all, if fewer wait: a connection took them. BAD_NAME,
 * before all else. Never NUMBERS_SPENT or OUT_OF_MEMORY. */
int32_t plumtree_wire_transmitted(plumtree_node *node, const uint8_t *name, size_t name_length, size_t count);

/* Takes the first delivery that waits: its id, and its payload at the front of the room. Each message is delivered once
 * in a run of a node. NONE: no delivery waits. ROOM_TOO_SMALL: nothing is taken, and the delivery still is the first.
 * `length` is the number of the payload's bytes for DONE and ROOM_TOO_SMALL, and else 0. Nothing is written to the room
 * unless the delivery is taken. Never NUMBERS_SPENT or OUT_OF_MEMORY. */
int32_t plumtree_wire_next_delivery(plumtree_node *node, plumtree_id *id, uint8_t *room, size_t room_size,
                                    size_t *length);

/* Takes the first lost name that waits: bytes for it were dropped, so close the connection to it before more is written
 * there. NONE: no name was lost. Never NUMBERS_SPENT or OUT_OF_MEMORY. */
int32_t plumtree_wire_next_lost(plumtree_node *node, plumtree_name *name);

/* Has the node tell news of its next steps, or, where `tells` is false, no more. One that was started tells none, so that
 * its first neighbours are no news: plumtree_active has them. News that were not taken yet stay. Never NUMBERS_SPENT or
 * OUT_OF_MEMORY. */
int32_t plumtree_wire_tell_news(plumtree_node *node, bool tells);

/* Takes the first news that wait. Each change of the active view is told once and in order: of one step those that went,
 * then those that came, and last ISOLATED or JOINED. They are kept until they are taken, so take them now and then. NONE:
 * no news wait. OUT_OF_MEMORY: nothing has changed. Never NUMBERS_SPENT. */
int32_t plumtree_wire_next_news(plumtree_node *node, plumtree_news *news);

/* How much the node has. It changes nothing. Never NUMBERS_SPENT or OUT_OF_MEMORY. */
int32_t plumtree_wire_counts_of(plumtree_node *node, plumtree_wire_counts *counts);

/* ---- What makes a state machine step ----
 *
 * Each of these also answers, before all else, NOT_LIVE or COPIED, and at last NUMBERS_SPENT if no numbers are left for
 * its frames, or OUT_OF_MEMORY. All but plumtree_tick then leave the node as it was. */

/* Broadcasts a message of 0 to PLUMTREE_PAYLOAD_MAX bytes, which are copied. The node delivers it to its own caller too.
 * `number` is then its number, from 1 on: with the node's name and incarnation the message's id.
 * PAYLOAD_TOO_LONG; NUMBERS_SPENT. */
int32_t plumtree_broadcast(plumtree_node *node, const uint8_t *payload, size_t payload_length, uint64_t *number);

/* Takes one frame off the front of the bytes that a connection brought. `taken` is the number of its bytes, which the
 * caller drops, and 0 unless DONE. Call again with what is left until the answer is NONE: the next frame is not whole
 * yet; keep its bytes (fewer than PLUMTREE_FRAME_MAX) for when more have come.
 * FRAME_TOO_LONG to TRAILING: the bytes are no frame. */
int32_t plumtree_receive(plumtree_node *node, const uint8_t *bytes, size_t bytes_length,
                         const uint64_t dice[PLUMTREE_DICE], size_t *taken);

/* Makes a tick: sends the announcements that are queued, as plumtree_flush does; lets each timer fire that is armed
 * then, as plumtree_fire does; and at every tenth tick since the start shuffles, as plumtree_shuffle does with these
 * dice. How often it is called sets how soon a missing message is asked for; ten times a second is a good beginning.
 * If a step is refused, those before it stay made, and this tick does not count: call again. */
int32_t plumtree_tick(plumtree_node *node, const uint64_t dice[PLUMTREE_DICE]);

/* Sends the announcements that are queued. */
int32_t plumtree_flush(plumtree_node *node);

/* Lets the timer of a missing message fire: the node asks the first who announced it. NONE: no such timer is armed.
 * BAD_NAME, before all else. Takes time in proportion to the armed timers. */
int32_t plumtree_fire(plumtree_node *node, const plumtree_id *id);

/* The same for the timer at this place among those that are armed, from 0 on. NONE: there are fewer. */
int32_t plumtree_fire_at(plumtree_node *node, size_t place);

/* Exchanges names of the passive view with some other node. */
int32_t plumtree_shuffle(plumtree_node *node, const uint64_t dice[PLUMTREE_DICE]);

/* Tells the node that its connection to this peer failed, or could not be made. BAD_NAME, before all else. A name to
 * which it has no link changes nothing, and the answer is DONE. */
int32_t plumtree_link_down(plumtree_node *node, const uint8_t *peer, size_t peer_length,
                           const uint64_t dice[PLUMTREE_DICE]);

/* Has the node join by this contact, a node that runs, as at its start: it sends JOIN there. It is for a node without
 * active names, since all its links failed, and may be called again, with another contact each time. A contact that is
 * the node itself or an active name changes nothing, and the answer is DONE. BAD_NAME, before all else. */
int32_t plumtree_join(plumtree_node *node, const uint8_t *contact, size_t contact_length);

/* ---- What a state machine sends and delivers ---- */

/* Takes the first frame that waits: its receiver's name, and its bytes as they stand on a connection, at the front of
 * the room. NONE: no frame waits. ROOM_TOO_SMALL: nothing is taken, and the frame still is the first. `length` is the
 * number of the frame's bytes for DONE and ROOM_TOO_SMALL, and else 0. Nothing is written to the room unless the frame is
 * taken. OUT_OF_MEMORY. */
int32_t plumtree_next_send(plumtree_node *node, plumtree_name *to, uint8_t *room, size_t room_size, size_t *length);

/* Takes the first delivery that waits: its id, and its payload at the front of the room. Each message is delivered
 * once in a run of a node. NONE, ROOM_TOO_SMALL and `length` as for plumtree_next_send; never OUT_OF_MEMORY. */
int32_t plumtree_next_delivery(plumtree_node *node, plumtree_id *id, uint8_t *room, size_t room_size, size_t *length);

/* ---- What a node has ----
 *
 * These change nothing. They answer NOT_LIVE and COPIED too. All but plumtree_counts_of read nodes of both kinds. */

/* The names that the node keeps links to, those that may take their place, and its peers by how they get messages: the
 * eager ones whole, the lazy ones as announcements. `length` is the number of all of them, and 0 if NOT_LIVE or COPIED.
 * ROOM_TOO_SMALL: the room has as many of the first as it has places for. */
int32_t plumtree_active(plumtree_node *node, plumtree_name *room, size_t room_size, size_t *length);
int32_t plumtree_passive(plumtree_node *node, plumtree_name *room, size_t room_size, size_t *length);
int32_t plumtree_eager(plumtree_node *node, plumtree_name *room, size_t room_size, size_t *length);
int32_t plumtree_lazy(plumtree_node *node, plumtree_name *room, size_t room_size, size_t *length);

/* The node's own name and incarnation. */
int32_t plumtree_me(plumtree_node *node, plumtree_name *name, uint64_t *incarnation);

/* How much a state machine has. */
int32_t plumtree_counts_of(plumtree_node *node, plumtree_counts *counts);

/* Whether the node has delivered this message. NONE: it has not. BAD_NAME, before all else. */
int32_t plumtree_knows(plumtree_node *node, const plumtree_id *id);

/* The message whose timer has this place among those that are armed, from 0 on. NONE: there are fewer. */
int32_t plumtree_timer(plumtree_node *node, size_t place, plumtree_id *id);

/* Puts what an answer means in words at the front of the room, with a zero after them where there is room for it; 64
 * bytes are enough. `length` is the number of bytes without the zero, also for ROOM_TOO_SMALL. NONE: no call answers
 * this; `length` is 0. */
int32_t plumtree_words(int32_t answer, uint8_t *room, size_t room_size, size_t *length);

#ifdef __cplusplus
}
#endif

#endif
