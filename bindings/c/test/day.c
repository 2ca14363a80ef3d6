/* Has five nodes of bytes make the ticks of a day, ten a second, as fast as they go, and looks that in the second half they
 * take no more memory than in the first. Each broadcasts now and then, and keeps the last messages. What they take rises
 * and falls by a third within some hours, since lists are cut in large steps; so the most of each half is compared, and
 * a twentieth more is allowed. */
#include "plumtree.h"

#include <stdbool.h>
#include <stddef.h>
#include <stdint.h>
#include <stdio.h>
#include <stdlib.h>
#include <string.h>

enum { NODES = 5, HOUR = 36000, HOURS = 24, PAUSE = 600, KEEP = 32 };

/* ---- Memory that is counted ---- */

typedef struct rattle_tried {
    bool ok;
    void *p;
} rattle_tried;

rattle_tried rattle_alloc(size_t n, size_t align);
rattle_tried rattle_realloc(void *p, size_t kept, size_t n, size_t align);
void rattle_dealloc(void *p);

/* How long a block is stands in front of it. */
typedef union head {
    size_t length;
    max_align_t aligned;
} head;

static size_t taken, most;
static max_align_t nowhere;

static rattle_tried tried(head *block, size_t length)
{
    rattle_tried it = {block != NULL, &nowhere};
    if (block == NULL)
        return it;
    block->length = length;
    taken += length;
    if (taken > most)
        most = taken;
    it.p = block + 1;
    return it;
}

rattle_tried rattle_alloc(size_t n, size_t align)
{
    size_t length = n != 0 ? n : align;
    return tried(malloc(sizeof(head) + length), length);
}

rattle_tried rattle_realloc(void *p, size_t kept, size_t n, size_t align)
{
    head *old = (head *)p - 1;
    size_t before = old->length, length = n != 0 ? n : align;
    (void)kept;
    head *block = realloc(old, sizeof(head) + length);
    if (block != NULL)
        taken -= before;
    return tried(block, length);
}

void rattle_dealloc(void *p)
{
    head *block = (head *)p - 1;
    taken -= block->length;
    free(block);
}

/* ---- The nodes ---- */

typedef struct member {
    plumtree_node node;
    plumtree_name name;
    uint64_t from[NODES]; /* the connection that comes from each of the others, where one was made */
    bool has[NODES];
    uint64_t heard;
} member;

static member members[NODES];
static uint64_t seed = 88172645463325252u;

static void need(bool fact, const char *what)
{
    if (!fact) {
        printf("day: %s\n", what);
        exit(1);
    }
}

static void roll(uint64_t dice[PLUMTREE_DICE])
{
    for (int i = 0; i < PLUMTREE_DICE; i++) {
        seed ^= seed << 13;
        seed ^= seed >> 7;
        seed ^= seed << 17;
        dice[i] = seed;
    }
}

/* Starts a node that joins by the first. */
static void start(int place)
{
    member *it = &members[place];
    char letter = (char)('a' + place);
    plumtree_limits limits;
    plumtree_limits_default(&limits);
    limits.keep = KEEP;
    need(plumtree_name_of((const uint8_t *)&letter, 1, &it->name) == PLUMTREE_DONE, "a name is none");
    need(plumtree_wire_start(&it->node, (const uint8_t *)&letter, 1, 1, &limits, PLUMTREE_WAITING, NULL, 0,
                             (const uint8_t *)(place > 0 ? "a" : NULL), place > 0) == PLUMTREE_DONE,
         "a node was not started");
}

/* Carries all that waits at a node for this name to the node that has it. Returns whether there was any. */
static bool carry(int from, plumtree_name name)
{
    int to = name.text[0] - 'a';
    member *giver = &members[from], *taker = &members[to];
    plumtree_piece pieces[PLUMTREE_PIECES];
    uint64_t dice[PLUMTREE_DICE];
    const uint8_t *text = (const uint8_t *)name.text;
    if (plumtree_wire_transmit(&giver->node, text, name.length, pieces) != PLUMTREE_DONE)
        return false;
    if (!taker->has[from])
        need(plumtree_wire_accept(&taker->node, &taker->from[from]) == PLUMTREE_DONE, "no connection");
    taker->has[from] = true;
    size_t count = 0;
    for (int i = 0; i < PLUMTREE_PIECES; i++) {
        roll(dice);
        if (pieces[i].length > 0)
            need(plumtree_wire_receive(&taker->node, taker->from[from], pieces[i].at, pieces[i].length, dice) ==
                     PLUMTREE_DONE,
                 "bytes were not taken");
        count += pieces[i].length;
    }
    need(plumtree_wire_transmitted(&giver->node, text, name.length, count) == PLUMTREE_DONE, "bytes stay");
    return true;
}

/* Carries what waits at each node, until nothing does. */
static void settle(void)
{
    plumtree_name names[NODES];
    bool moved = true;
    while (moved) {
        moved = false;
        for (int from = 0; from < NODES; from++) {
            size_t count;
            need(plumtree_wire_receivers(&members[from].node, names, NODES, &count) >= 0, "no receivers");
            for (size_t i = 0; i < count; i++)
                moved = carry(from, names[i]) || moved;
        }
    }
}

/* Takes what the nodes delivered. */
static void hear(void)
{
    for (int place = 0; place < NODES; place++) {
        uint8_t room[64];
        plumtree_id id;
        size_t length;
        while (plumtree_wire_next_delivery(&members[place].node, &id, room, sizeof room, &length) == PLUMTREE_DONE)
            members[place].heard++;
    }
}

/* One node broadcasts, another each time. */
static uint64_t speak(uint64_t said)
{
    uint64_t number;
    member *it = &members[said % NODES];
    need(plumtree_wire_broadcast(&it->node, (const uint8_t *)"a day", 5, &number) == PLUMTREE_DONE, "no broadcast");
    return said + 1;
}

/* Makes the ticks of so many hours. Returns how much memory was taken at most. */
static size_t live(int hours, uint64_t *said)
{
    uint64_t dice[PLUMTREE_DICE];
    most = taken;
    for (int tick = 1; tick <= hours * HOUR; tick++) {
        if (tick % PAUSE == 0)
            *said = speak(*said);
        for (int place = 0; place < NODES; place++) {
            roll(dice);
            need(plumtree_wire_tick(&members[place].node, dice) == PLUMTREE_DONE, "a tick was refused");
        }
        settle();
        hear();
    }
    return most;
}

int main(void)
{
    uint64_t said = 0;
    for (int place = 0; place < NODES; place++)
        start(place);
    size_t early = live(HOURS / 2, &said), late = live(HOURS - HOURS / 2, &said);
    for (int place = 0; place < NODES; place++)
        need(members[place].heard == said, "not all was delivered");
    printf("%d ticks, %d nodes, %llu messages: at most %zu bytes in the first half, %zu in the second\n", HOURS * HOUR,
           NODES, (unsigned long long)said, early, late);
    need(late <= early + early / 20, "the second half took more than the first");
    for (int place = 0; place < NODES; place++)
        plumtree_free(&members[place].node);
    need(taken == 0, "memory was not freed");
    return 0;
}
