/* Two nodes of one process: one broadcasts, and the other delivers. */
#include "plumtree.h"

#include <stdio.h>

static const uint64_t dice[PLUMTREE_DICE]; /* random words, in a program that is more than this */

/* Starts a node whose name is a letter, with one peer. */
static int32_t start(plumtree_node *node, const char *name, const char *peer)
{
    plumtree_limits limits;
    plumtree_name first;
    plumtree_limits_default(&limits);
    plumtree_name_of((const uint8_t *)peer, 1, &first);
    return plumtree_start(node, (const uint8_t *)name, 1, 1, &limits, &first, 1, NULL, 0);
}

int main(void)
{
    static uint8_t room[PLUMTREE_FRAME_MAX];
    plumtree_node a = {0}, b = {0};
    plumtree_name to;
    plumtree_id id;
    uint64_t number;
    size_t length, taken;
    if (start(&a, "a", "b") != PLUMTREE_DONE || start(&b, "b", "a") != PLUMTREE_DONE)
        return 1;
    plumtree_broadcast(&a, (const uint8_t *)"hello", 5, &number);
    while (plumtree_next_send(&a, &to, room, sizeof room, &length) == PLUMTREE_DONE)
        plumtree_receive(&b, room, length, dice, &taken);
    while (plumtree_next_delivery(&b, &id, room, sizeof room, &length) == PLUMTREE_DONE)
        printf("message %d of %s: %.*s\n", (int)id.number, id.name.text, (int)length, (const char *)room);
    plumtree_free(&a);
    plumtree_free(&b);
    return 0;
}
