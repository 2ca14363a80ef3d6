/* Measures how many messages a second one node broadcasts and another takes, and the memory of a node; then how long a
 * node of bytes takes a message that goes on to three names, and how long it takes to get out what waits for a name, by
 * the message's bytes and by the number of other names for which bytes wait; last, how long ticks take, by the number
 * of messages that were announced and do not come: each fifth looks at all of them. */
#include "plumtree.h"

#include <stdbool.h>
#include <stdio.h>
#include <stdlib.h>
#include <string.h>
#include <time.h>

typedef struct rattle_tried {
    bool ok;
    void *p;
} rattle_tried;

rattle_tried rattle_alloc(size_t n, size_t align);
rattle_tried rattle_realloc(void *p, size_t kept, size_t n, size_t align);
void rattle_dealloc(void *p);

/* Each block has its size in front of it. */
static size_t bytes, blocks;
static max_align_t nowhere;

rattle_tried rattle_alloc(size_t n, size_t align)
{
    rattle_tried it = {false, &nowhere};
    (void)align;
    max_align_t *p = malloc(sizeof *p + n);
    if (p != NULL) {
        *(size_t *)p = n;
        bytes += n;
        blocks++;
        it.ok = true;
        it.p = p + 1;
    }
    return it;
}

rattle_tried rattle_realloc(void *old, size_t kept, size_t n, size_t align)
{
    rattle_tried it = {false, &nowhere};
    (void)kept;
    (void)align;
    max_align_t *p = (max_align_t *)old - 1;
    size_t before = *(size_t *)p;
    p = realloc(p, sizeof *p + n);
    if (p != NULL) {
        *(size_t *)p = n;
        bytes = bytes - before + n;
        it.ok = true;
        it.p = p + 1;
    }
    return it;
}

void rattle_dealloc(void *old)
{
    max_align_t *p = (max_align_t *)old - 1;
    bytes -= *(size_t *)p;
    blocks--;
    free(p);
}

static uint64_t dice[PLUMTREE_DICE];

/* The processor time of this program, in seconds. */
static double now(void)
{
    struct timespec it;
    clock_gettime(CLOCK_PROCESS_CPUTIME_ID, &it);
    return (double)it.tv_sec + (double)it.tv_nsec / 1e9;
}

static void need(bool fact, const char *what)
{
    if (!fact) {
        printf("speed: %s\n", what);
        exit(1);
    }
}

static void start(plumtree_node *node, const char *name, const char *other)
{
    plumtree_limits limits;
    plumtree_name peer;
    plumtree_limits_default(&limits);
    limits.keep = 1000;
    need(plumtree_name_of((const uint8_t *)other, strlen(other), &peer) == PLUMTREE_DONE, "name");
    need(plumtree_start(node, (const uint8_t *)name, strlen(name), 1, &limits, &peer, 1, NULL, 0) == PLUMTREE_DONE, "start");
}

static void machines(long messages, size_t size)
{
    static uint8_t frame[PLUMTREE_FRAME_MAX], payload[PLUMTREE_PAYLOAD_MAX];
    plumtree_node one = {0}, two = {0};
    start(&one, "a", "b");
    printf("a node: %zu bytes in %zu blocks, and %zu of the caller\n", bytes, blocks, sizeof one);
    start(&two, "b", "a");
    double began = now();
    for (long at = 0; at < messages; at++) {
        plumtree_name to;
        plumtree_id id;
        uint64_t number;
        size_t length, taken;
        need(plumtree_broadcast(&one, payload, size, &number) == PLUMTREE_DONE, "broadcast");
        need(plumtree_next_send(&one, &to, frame, sizeof frame, &length) == PLUMTREE_DONE, "send");
        need(plumtree_receive(&two, frame, length, dice, &taken) == PLUMTREE_DONE, "receive");
        need(plumtree_next_delivery(&one, &id, payload, sizeof payload, &length) == PLUMTREE_DONE, "delivery at home");
        need(plumtree_next_delivery(&two, &id, payload, sizeof payload, &length) == PLUMTREE_DONE, "delivery");
        need(length == size && id.number == number, "payload");
    }
    double seconds = now() - began;
    printf("%ld messages of %zu bytes from one node to another: %.0f a processor second (five calls each)\n", messages, size,
           (double)messages / seconds);
    printf("both nodes, which keep 1,000 payloads: %zu bytes in %zu blocks\n", bytes, blocks);
    plumtree_free(&one);
    plumtree_free(&two);
}

/* The peers of the node of bytes that is measured, and about how many bytes come to it before what waits is taken out. */
static const char *const PEERS[] = {"p", "q", "r", "s"};
#define PART ((size_t)1 << 16)

static void start_wire(plumtree_node *node, const char *name, const char *const *peers, size_t count)
{
    plumtree_limits limits;
    plumtree_name names[4];
    plumtree_limits_default(&limits);
    limits.keep = 1000;
    for (size_t at = 0; at < count; at++)
        need(plumtree_name_of((const uint8_t *)peers[at], strlen(peers[at]), &names[at]) == PLUMTREE_DONE, "name");
    need(plumtree_wire_start(node, (const uint8_t *)name, strlen(name), 1, &limits, 4 * PART, names, count, NULL, 0)
             == PLUMTREE_DONE, "start");
}

/* How often bytes were taken out. */
static long takings;

/* Takes all bytes that wait for the name, into the room where there is one. Returns how many. */
static size_t take_out(plumtree_node *node, const char *name, uint8_t *room)
{
    plumtree_piece pieces[PLUMTREE_PIECES];
    size_t count = 0;
    for (; plumtree_wire_transmit(node, (const uint8_t *)name, strlen(name), pieces) == PLUMTREE_DONE; takings++) {
        size_t lent = 0;
        for (int at = 0; at < PLUMTREE_PIECES; at++) {
            if (room != NULL && pieces[at].length > 0)
                memcpy(room + count + lent, pieces[at].at, pieces[at].length);
            lent += pieces[at].length;
        }
        need(plumtree_wire_transmitted(node, (const uint8_t *)name, strlen(name), lent) == PLUMTREE_DONE, "transmitted");
        count += lent;
    }
    return count;
}

static void take_delivery(plumtree_node *node, size_t size)
{
    static uint8_t payload[PLUMTREE_PAYLOAD_MAX];
    plumtree_id id;
    size_t length;
    need(plumtree_wire_next_delivery(node, &id, payload, sizeof payload, &length) == PLUMTREE_DONE, "delivery");
    need(length == size, "payload");
}

/* Has the node ask so many other names to let it join, and leaves what waits for them. */
static void ask_others(plumtree_node *node, int others)
{
    for (int at = 0; at < others; at++) {
        char name[16];
        int length = snprintf(name, sizeof name, "n%d", at);
        need(plumtree_wire_join(node, (const uint8_t *)name, (size_t)length, dice) == PLUMTREE_DONE, "join");
    }
}

/* The first peer broadcasts messages, the node takes them and passes them on to the three others. */
static void wires(long messages, size_t size, int others)
{
    static uint8_t frames[4 * PART], payload[PLUMTREE_PAYLOAD_MAX];
    const char *const me = "a";
    plumtree_node origin = {0}, node = {0};
    uint64_t connection, number;
    start_wire(&origin, PEERS[0], &me, 1);
    start_wire(&node, me, PEERS, 4);
    ask_others(&node, others);
    need(plumtree_wire_accept(&node, &connection) == PLUMTREE_DONE, "accept");
    long part = (long)(PART / size), taken_out = 0;
    double taking = 0, sending = 0;
    for (long made = 0; made < messages; made += part) {
        for (long at = 0; at < part; at++) {
            need(plumtree_wire_broadcast(&origin, payload, size, &number) == PLUMTREE_DONE, "broadcast");
            take_delivery(&origin, size);
        }
        size_t length = take_out(&origin, me, frames), each = length / (size_t)part, came = 0;
        double began = now();
        for (; came + each <= length; came += each)
            need(plumtree_wire_receive(&node, connection, frames + came, each, dice) == PLUMTREE_DONE, "receive");
        need(plumtree_wire_receive(&node, connection, frames + came, length - came, dice) == PLUMTREE_DONE, "receive");
        double came_in = now();
        takings = 0;
        for (int at = 1; at < 4; at++)
            need(take_out(&node, PEERS[at], NULL) >= size * (size_t)part, "what goes on");
        taking += came_in - began;
        sending += now() - came_in;
        taken_out += takings;
        for (long at = 0; at < part; at++)
            take_delivery(&node, size);
    }
    double came = (double)((messages + part - 1) / part * part);
    printf("messages of %zu bytes, bytes wait for %d other names: one comes in %.0f ns, transmit and transmitted in %.0f ns\n",
           size, others, 1e9 * taking / came, 1e9 * sending / (double)taken_out);
    plumtree_free(&origin);
    plumtree_free(&node);
}

/* Three nodes of bytes that are peers, in a ring so that each has the next two, and their connections. */
typedef struct ring {
    plumtree_node nodes[3];
    uint64_t connections[3][3];
} ring;

static void start_ring(ring *it)
{
    memset(it, 0, sizeof *it);
    for (int at = 0; at < 3; at++) {
        const char *const peers[] = {PEERS[(at + 1) % 3], PEERS[(at + 2) % 3]};
        start_wire(&it->nodes[at], PEERS[at], peers, 2);
        for (int from = 0; from < 3; from++)
            need(plumtree_wire_accept(&it->nodes[at], &it->connections[at][from]) == PLUMTREE_DONE, "accept");
    }
}

/* Brings what waits at one node for another there. Returns whether anything did. */
static bool bring(ring *it, int from, int to)
{
    static uint8_t room[4 * PART];
    size_t count = take_out(&it->nodes[from], PEERS[to], room);
    need(plumtree_wire_receive(&it->nodes[to], it->connections[to][from], room, count, dice) == PLUMTREE_DONE, "receive");
    return count > 0;
}

/* The first node broadcasts, and all nodes take what comes, so that the other two prune the link between them. */
static void prune(ring *it)
{
    uint64_t number;
    uint8_t byte = 0;
    need(plumtree_wire_broadcast(&it->nodes[0], &byte, 1, &number) == PLUMTREE_DONE, "broadcast");
    for (bool moved = true; moved;) {
        moved = false;
        for (int pair = 0; pair < 9; pair++)
            moved |= pair / 3 != pair % 3 && bring(it, pair / 3, pair % 3);
    }
    for (int at = 0; at < 3; at++)
        take_delivery(&it->nodes[at], 1);
}

/* The first node broadcasts, but nothing of it comes to the last one, to which the second announces it. */
static void announce(ring *it)
{
    uint64_t number;
    uint8_t byte = 0;
    need(plumtree_wire_broadcast(&it->nodes[0], &byte, 1, &number) == PLUMTREE_DONE, "broadcast");
    take_out(&it->nodes[0], PEERS[2], NULL);
    bring(it, 0, 1);
    take_delivery(&it->nodes[0], 1);
    take_delivery(&it->nodes[1], 1);
}

static void ticks(long missing)
{
    ring it;
    start_ring(&it);
    prune(&it);
    for (long at = 1; at <= missing; at++) {
        announce(&it);
        if (at % 1000 == 0) {
            need(plumtree_wire_tick(&it.nodes[1], dice) == PLUMTREE_DONE, "tick");
            bring(&it, 1, 2);
        }
    }
    plumtree_wire_counts has;
    need(plumtree_wire_counts_of(&it.nodes[2], &has) == PLUMTREE_DONE, "counts");
    double others = 0, fifths = 0;
    for (int at = 1; at <= 100; at++) {
        double began = now();
        need(plumtree_wire_tick(&it.nodes[2], dice) == PLUMTREE_DONE, "tick");
        *(at % 5 == 0 ? &fifths : &others) += now() - began;
    }
    printf("%llu messages are missing: each fifth tick in %.0f ns, the others in %.0f ns\n", (unsigned long long)has.missing,
           1e9 * fifths / 20, 1e9 * others / 80);
    for (int at = 0; at < 3; at++)
        plumtree_free(&it.nodes[at]);
}

int main(int count, char **arguments)
{
    long messages = count > 1 ? atol(arguments[1]) : 1000000;
    size_t size = count > 2 ? (size_t)atol(arguments[2]) : 100;
    machines(messages, size);
    for (size_t length = 100; length <= 10000; length *= 10)
        wires(messages / 10, length, 0);
    wires(messages / 10, 100, 60);
    wires(messages / 10, 100, 600);
    for (long missing = 1000; missing <= 100000; missing *= 10)
        ticks(missing);
    need(bytes == 0 && blocks == 0, "all is freed");
    return 0;
}
