/* Calls nodes of bytes as no caller should, and looks that each call answers what plumtree.h says, and that a call that
 * was refused has changed nothing. */
#include "hostile.h"

static int32_t start(plumtree_node *node, const char *name, size_t waiting, const plumtree_name *peers, size_t count)
{
    plumtree_limits limits = standard();
    return plumtree_wire_start(node, (const uint8_t *)name, strlen(name), 7, &limits, waiting, peers, count, NULL, 0);
}

/* Two nodes that are peers. */
static void start_two(plumtree_node *a, plumtree_node *b)
{
    plumtree_name of_a = name_of("a"), of_b = name_of("b");
    LOOK(start(a, "a", PLUMTREE_WAITING, &of_b, 1) == PLUMTREE_DONE);
    LOOK(start(b, "b", PLUMTREE_WAITING, &of_a, 1) == PLUMTREE_DONE);
}

/* Copies the bytes that are lent of those that wait for the name. Returns how many. */
static size_t lent(plumtree_node *node, const char *name, uint8_t *room)
{
    plumtree_piece pieces[PLUMTREE_PIECES];
    size_t count = 0;
    int32_t answer = plumtree_wire_transmit(node, (const uint8_t *)name, strlen(name), pieces);
    LOOK(answer == PLUMTREE_DONE || answer == PLUMTREE_NONE);
    for (int i = 0; answer == PLUMTREE_DONE && i < PLUMTREE_PIECES; i++) {
        if (pieces[i].length > 0)
            memcpy(room + count, pieces[i].at, pieces[i].length);
        count += pieces[i].length;
    }
    LOOK((count > 0) == (answer == PLUMTREE_DONE));
    return count;
}

static size_t waiting(plumtree_node *node, const char *name)
{
    size_t count = 99;
    LOOK(plumtree_wire_waiting(node, (const uint8_t *)name, strlen(name), &count) == PLUMTREE_DONE);
    return count;
}

static int32_t transmitted(plumtree_node *node, const char *name, size_t count)
{
    return plumtree_wire_transmitted(node, (const uint8_t *)name, strlen(name), count);
}

/* Takes all bytes that wait for the name. Returns how many. */
static size_t take_out(plumtree_node *node, const char *name, uint8_t *room)
{
    size_t count = 0, more;
    while ((more = lent(node, name, room + count)) > 0) {
        LOOK(transmitted(node, name, more) == PLUMTREE_DONE);
        count += more;
    }
    return count;
}

/* All that can be read of a node without taking anything. */
typedef struct seen {
    int32_t answer;
    plumtree_wire_counts counts;
    plumtree_name me, active[16], passive[64], eager[16], lazy[16], receivers[8];
    uint64_t incarnation;
    size_t actives, passives, eagers, lazies, waiting, bytes, delivery;
} seen;

static seen see(plumtree_node *node)
{
    static uint8_t room[1 << 20];
    seen it;
    plumtree_id id;
    long kept = until_refusal;
    memset(&it, 0, sizeof it);
    until_refusal = 0;
    it.answer = plumtree_wire_counts_of(node, &it.counts);
    plumtree_me(node, &it.me, &it.incarnation);
    plumtree_active(node, it.active, 16, &it.actives);
    plumtree_passive(node, it.passive, 64, &it.passives);
    plumtree_eager(node, it.eager, 16, &it.eagers);
    plumtree_lazy(node, it.lazy, 16, &it.lazies);
    plumtree_wire_receivers(node, it.receivers, 8, &it.waiting);
    for (size_t i = 0; i < it.waiting; i++)
        it.bytes = it.bytes * 31 + lent(node, it.receivers[i].text, room);
    if (plumtree_wire_next_delivery(node, &id, NULL, 0, &it.delivery) == PLUMTREE_DONE)
        it.delivery = 1000000; /* a message without bytes was taken */
    until_refusal = kept;
    return it;
}

static bool same(seen a, seen b)
{
    return memcmp(&a, &b, sizeof a) == 0;
}

/* ---- Slots ---- */

/* Each call for nodes of bytes answers `wanted`. */
static void each_answers(plumtree_node *node, int32_t wanted)
{
    plumtree_wire_counts counts;
    plumtree_piece pieces[PLUMTREE_PIECES];
    plumtree_name name, names[2];
    plumtree_news news = {99, 99, {"", 99}};
    plumtree_id id;
    uint8_t room[64];
    uint64_t number = 99;
    size_t length = 99;
    LOOK(plumtree_wire_broadcast(node, BYTES("x"), &number) == wanted && number == 99);
    LOOK(plumtree_wire_accept(node, &number) == wanted && number == 99);
    LOOK(plumtree_wire_receive(node, 1, BYTES("x"), dice) == wanted);
    LOOK(plumtree_wire_ended(node, 1, dice) == wanted);
    LOOK(plumtree_wire_unreachable(node, BYTES("b"), dice) == wanted);
    LOOK(plumtree_wire_join(node, BYTES("b"), dice) == wanted);
    LOOK(plumtree_wire_tick(node, dice) == wanted);
    LOOK(plumtree_wire_receivers(node, names, 2, &length) == wanted && length == 0);
    length = 99;
    LOOK(plumtree_wire_waiting(node, BYTES("b"), &length) == wanted && length == 99);
    LOOK(plumtree_wire_transmit(node, BYTES("b"), pieces) == wanted);
    LOOK(plumtree_wire_transmitted(node, BYTES("b"), 1) == wanted);
    length = 99;
    LOOK(plumtree_wire_next_delivery(node, &id, room, sizeof room, &length) == wanted && length == 0);
    LOOK(plumtree_wire_next_lost(node, &name) == wanted);
    LOOK(plumtree_wire_tell_news(node, true) == wanted);
    LOOK(plumtree_wire_next_news(node, &news) == wanted);
    LOOK(news.kind == 99 && news.why == 99 && news.name.length == 99);
    LOOK(plumtree_wire_counts_of(node, &counts) == wanted);
}

/* Each call for state machines answers that there is none. */
static void no_machine(plumtree_node *node)
{
    plumtree_counts counts;
    plumtree_name name;
    plumtree_id id = {name_of("a"), 7, 1};
    uint8_t room[64];
    uint64_t number;
    size_t length;
    LOOK(plumtree_broadcast(node, BYTES("x"), &number) == PLUMTREE_NOT_LIVE);
    LOOK(plumtree_receive(node, BYTES("x"), dice, &length) == PLUMTREE_NOT_LIVE);
    LOOK(plumtree_tick(node, dice) == PLUMTREE_NOT_LIVE);
    LOOK(plumtree_flush(node) == PLUMTREE_NOT_LIVE);
    LOOK(plumtree_fire(node, &id) == PLUMTREE_NOT_LIVE);
    LOOK(plumtree_fire_at(node, 0) == PLUMTREE_NOT_LIVE);
    LOOK(plumtree_shuffle(node, dice) == PLUMTREE_NOT_LIVE);
    LOOK(plumtree_link_down(node, BYTES("b"), dice) == PLUMTREE_NOT_LIVE);
    LOOK(plumtree_join(node, BYTES("b")) == PLUMTREE_NOT_LIVE);
    LOOK(plumtree_next_send(node, &name, room, sizeof room, &length) == PLUMTREE_NOT_LIVE);
    LOOK(plumtree_next_delivery(node, &id, room, sizeof room, &length) == PLUMTREE_NOT_LIVE);
    LOOK(plumtree_counts_of(node, &counts) == PLUMTREE_NOT_LIVE);
}

static void slots(void)
{
    plumtree_node zeroed = {0}, used = {0}, machine = {0}, spoiled, copy, moved;
    plumtree_limits limits = standard();
    plumtree_name peer = name_of("b");
    uint64_t number;
    each_answers(&zeroed, PLUMTREE_NOT_LIVE);
    memset(&spoiled, 1, sizeof spoiled);
    LOOK(start(&spoiled, "a", 99, NULL, 0) == PLUMTREE_NOT_ZEROED);
    LOOK(plumtree_start(&machine, BYTES("a"), 7, &limits, &peer, 1, NULL, 0) == PLUMTREE_DONE);
    each_answers(&machine, PLUMTREE_NOT_LIVE);
    LOOK(start(&machine, "a", 99, NULL, 0) == PLUMTREE_LIVE);
    LOOK(plumtree_broadcast(&machine, BYTES("x"), &number) == PLUMTREE_DONE && number == 1);
    LOOK(plumtree_free(&machine) == PLUMTREE_DONE);

    LOOK(start(&used, "a", PLUMTREE_WAITING, &peer, 1) == PLUMTREE_DONE);
    seen first = see(&used);
    LOOK(strcmp(first.me.text, "a") == 0 && first.incarnation == 7 && first.actives == 1);
    LOOK(start(&used, "c", 99, NULL, 0) == PLUMTREE_LIVE);
    LOOK(plumtree_start(&used, BYTES("c"), 7, &limits, NULL, 0, NULL, 0) == PLUMTREE_LIVE);
    no_machine(&used);
    LOOK(same(first, see(&used)));
    copy = used;
    LOOK(plumtree_wire_broadcast(&used, BYTES("x"), &number) == PLUMTREE_DONE && number == 1);
    each_answers(&copy, PLUMTREE_COPIED);
    LOOK(plumtree_free(&copy) == PLUMTREE_COPIED);
    moved = used;
    memset(&used, 0, sizeof used);
    LOOK(plumtree_wire_broadcast(&moved, BYTES("y"), &number) == PLUMTREE_DONE && number == 2);
    LOOK(plumtree_free(&moved) == PLUMTREE_DONE && plumtree_free(&moved) == PLUMTREE_NONE);
    each_answers(&moved, PLUMTREE_NOT_LIVE);
    LOOK(start(&moved, "a", 99, NULL, 0) == PLUMTREE_DONE && plumtree_free(&moved) == PLUMTREE_DONE);
    LOOK(blocks == 0);
}

static void starts(void)
{
    plumtree_node node = {0};
    plumtree_limits limits = standard();
    plumtree_name peers[2] = {name_of("b"), name_of("b")}, bad = name_of("b");
    bad.text[0] = 'B';
    LOOK(start(&node, "", 99, NULL, 0) == PLUMTREE_BAD_NAME);
    LOOK(start(&node, "a", 99, &bad, 1) == PLUMTREE_BAD_NAME);
    LOOK(start(&node, "a", 99, peers, 2) == PLUMTREE_BAD_PEERS);
    LOOK(start(&node, "b", 99, peers, 1) == PLUMTREE_BAD_PEERS);
    LOOK(plumtree_wire_start(&node, BYTES("a"), 1, &limits, 99, NULL, 0, BYTES("A")) == PLUMTREE_BAD_NAME);
    LOOK(plumtree_wire_start(&node, BYTES("a"), 1, &limits, 99, NULL, 0, BYTES("a")) == PLUMTREE_BAD_PEERS);
    limits.ka = 9;
    LOOK(plumtree_wire_start(&node, BYTES("a"), 1, &limits, 99, NULL, 0, NULL, 0) == PLUMTREE_BAD_LIMITS);
    LOOK(node.live == 0 && node.at == NULL && blocks == 0);
}

/* ---- Bytes out and in ---- */

/* Bytes go out in parts of every size, and come in in parts of every size: the message is delivered once. */
static void in_parts(void)
{
    static uint8_t room[1 << 16], text[1 << 16];
    plumtree_node a, b;
    plumtree_name names[2];
    plumtree_id id;
    uint64_t number, link, other;
    size_t length;
    for (size_t part = 1; part < 80; part += part < 12 ? 1 : 13) {
        memset(&a, 0, sizeof a);
        memset(&b, 0, sizeof b);
        start_two(&a, &b);
        LOOK(plumtree_wire_receivers(&a, names, 2, &length) == PLUMTREE_DONE && length == 0);
        LOOK(lent(&a, "b", room) == 0 && lent(&a, "z", room) == 0);
        LOOK(waiting(&a, "b") == 0 && waiting(&a, "z") == 0);
        LOOK(plumtree_wire_broadcast(&a, BYTES("hello"), &number) == PLUMTREE_DONE && number == 1);
        LOOK(plumtree_wire_receivers(&a, names, 0, &length) == PLUMTREE_ROOM_TOO_SMALL && length == 1);
        LOOK(plumtree_wire_receivers(&a, names, 2, &length) == PLUMTREE_DONE && length == 1
             && strcmp(names[0].text, "b") == 0);
        size_t all = lent(&a, "b", text), taken = 0;
        while ((length = lent(&a, "b", room)) > 0) {
            LOOK(length == all - taken && memcmp(room, text + taken, length) == 0);
            LOOK(waiting(&a, "b") == length && waiting(&a, "z") == 0);
            taken += part < length ? part : length;
            LOOK(transmitted(&a, "b", part) == PLUMTREE_DONE);
        }
        LOOK(taken == all && transmitted(&a, "b", 5) == PLUMTREE_DONE && waiting(&a, "b") == 0);
        LOOK(plumtree_wire_accept(&b, &link) == PLUMTREE_DONE && plumtree_wire_accept(&b, &other) == PLUMTREE_DONE
             && link != other);
        for (size_t at = 0; at < all; at += part) {
            LOOK(plumtree_wire_next_delivery(&b, &id, room, 9, &length) == PLUMTREE_NONE && length == 0);
            LOOK(plumtree_wire_receive(&b, link, text + at, part < all - at ? part : all - at, dice) == PLUMTREE_DONE);
        }
        for (size_t size = 0; size < 5; size++)
            LOOK(plumtree_wire_next_delivery(&b, &id, room, size, &length) == PLUMTREE_ROOM_TOO_SMALL && length == 5);
        memset(room, 0xee, 16);
        LOOK(plumtree_wire_next_delivery(&b, &id, room, 16, &length) == PLUMTREE_DONE && length == 5
             && room[5] == 0xee);
        LOOK(memcmp(room, "hello", 5) == 0 && strcmp(id.name.text, "a") == 0 && id.incarnation == 7
             && id.number == 1);
        LOOK(plumtree_knows(&b, &id) == PLUMTREE_DONE);
        LOOK(plumtree_wire_receive(&b, other, text, all, dice) == PLUMTREE_DONE);
        LOOK(plumtree_wire_next_delivery(&b, &id, room, 16, &length) == PLUMTREE_NONE);
        LOOK(plumtree_free(&a) == PLUMTREE_DONE && plumtree_free(&b) == PLUMTREE_DONE && blocks == 0);
    }
}

static void no_bytes(void)
{
    plumtree_node a = {0}, b = {0};
    plumtree_piece pieces[PLUMTREE_PIECES];
    plumtree_id id;
    uint64_t number;
    size_t length;
    start_two(&a, &b);
    LOOK(plumtree_wire_accept(&a, &number) == PLUMTREE_DONE && number == 1);
    LOOK(plumtree_wire_receive(&a, number, NULL, 0, dice) == PLUMTREE_DONE);
    LOOK(plumtree_wire_receive(&a, number + 1, NULL, 0, dice) == PLUMTREE_NO_CONNECTION);
    LOOK(plumtree_wire_receive(&a, 0, BYTES("x"), dice) == PLUMTREE_NO_CONNECTION);
    LOOK(plumtree_wire_ended(&a, number + 1, dice) == PLUMTREE_NO_CONNECTION);
    LOOK(plumtree_wire_ended(&a, number, dice) == PLUMTREE_DONE
         && plumtree_wire_ended(&a, number, dice) == PLUMTREE_NO_CONNECTION);
    LOOK(plumtree_wire_unreachable(&a, NULL, 0, dice) == PLUMTREE_BAD_NAME);
    LOOK(plumtree_wire_join(&a, NULL, 0, dice) == PLUMTREE_BAD_NAME);
    length = 99;
    LOOK(plumtree_wire_waiting(&a, NULL, 0, &length) == PLUMTREE_BAD_NAME && length == 99);
    LOOK(plumtree_wire_waiting(&a, BYTES("B"), &length) == PLUMTREE_BAD_NAME && length == 99);
    LOOK(plumtree_wire_transmit(&a, NULL, 0, pieces) == PLUMTREE_BAD_NAME);
    LOOK(plumtree_wire_transmit(&a, BYTES("B"), pieces) == PLUMTREE_BAD_NAME);
    LOOK(plumtree_wire_transmitted(&a, NULL, 0, 0) == PLUMTREE_BAD_NAME);
    LOOK(plumtree_wire_receivers(&a, NULL, 0, &length) == PLUMTREE_DONE && length == 0);
    LOOK(plumtree_wire_broadcast(&a, NULL, 0, &number) == PLUMTREE_DONE && number == 1);
    LOOK(plumtree_wire_next_delivery(&a, &id, NULL, 0, &length) == PLUMTREE_DONE && length == 0 && id.number == 1);
    LOOK(plumtree_free(&a) == PLUMTREE_DONE && plumtree_free(&b) == PLUMTREE_DONE && blocks == 0);
}

/* The longest payloads are lent in more than one part, and a longer one is refused. */
static void payloads(void)
{
    static uint8_t payload[PLUMTREE_PAYLOAD_MAX + 1], out[4 * PLUMTREE_FRAME_MAX], room[PLUMTREE_PAYLOAD_MAX];
    plumtree_node a = {0}, b = {0};
    plumtree_id id;
    uint64_t number = 99, link;
    size_t length;
    start_two(&a, &b);
    LOOK(plumtree_wire_broadcast(&a, payload, sizeof payload, &number) == PLUMTREE_PAYLOAD_TOO_LONG && number == 99);
    for (uint8_t i = 1; i <= 3; i++) {
        memset(payload, i, sizeof payload);
        LOOK(plumtree_wire_broadcast(&a, payload, PLUMTREE_PAYLOAD_MAX, &number) == PLUMTREE_DONE && number == i);
    }
    LOOK(plumtree_wire_accept(&b, &link) == PLUMTREE_DONE);
    LOOK(plumtree_wire_receive(&b, link, out, take_out(&a, "b", out), dice) == PLUMTREE_DONE);
    for (uint8_t i = 1; i <= 3; i++) {
        LOOK(plumtree_wire_next_delivery(&b, &id, room, sizeof room, &length) == PLUMTREE_DONE);
        LOOK(length == PLUMTREE_PAYLOAD_MAX && id.number == i && room[0] == i && room[length - 1] == i);
    }
    LOOK(plumtree_free(&a) == PLUMTREE_DONE && plumtree_free(&b) == PLUMTREE_DONE && blocks == 0);
}

/* ---- Names that go down, and bytes that are no frame ---- */

static int32_t lost(plumtree_node *node, const char *wanted)
{
    plumtree_name name;
    int32_t answer = plumtree_wire_next_lost(node, &name);
    LOOK(answer != PLUMTREE_DONE || strcmp(name.text, wanted) == 0);
    return answer;
}

static void downs(void)
{
    static uint8_t out[4096];
    plumtree_node a = {0}, b = {0};
    plumtree_name peer = name_of("b"), names[2];
    uint64_t number, link;
    size_t length;
    start_two(&a, &b);
    LOOK(plumtree_wire_broadcast(&a, BYTES("x"), &number) == PLUMTREE_DONE && lost(&a, "") == PLUMTREE_NONE);
    LOOK(plumtree_wire_accept(&b, &link) == PLUMTREE_DONE);
    LOOK(plumtree_wire_receive(&b, link, out, take_out(&a, "b", out), dice) == PLUMTREE_DONE);
    /* its only connection ends: the peer goes down */
    LOOK(plumtree_wire_ended(&b, link, dice) == PLUMTREE_DONE && lost(&b, "a") == PLUMTREE_DONE
         && lost(&b, "") == PLUMTREE_NONE);
    LOOK(plumtree_active(&b, names, 2, &length) == PLUMTREE_DONE && length == 0);
    /* a name that cannot be reached */
    LOOK(plumtree_wire_broadcast(&a, BYTES("y"), &number) == PLUMTREE_DONE && lent(&a, "b", out) > 0);
    LOOK(plumtree_wire_unreachable(&a, BYTES("b"), dice) == PLUMTREE_DONE && lent(&a, "b", out) == 0);
    LOOK(lost(&a, "b") == PLUMTREE_DONE && lost(&a, "") == PLUMTREE_NONE);
    LOOK(plumtree_free(&a) == PLUMTREE_DONE);
    /* more waits than may */
    LOOK(start(&a, "a", 100, &peer, 1) == PLUMTREE_DONE);
    LOOK(plumtree_wire_broadcast(&a, BYTES("12345678"), &number) == PLUMTREE_DONE && lost(&a, "") == PLUMTREE_NONE);
    LOOK(plumtree_wire_broadcast(&a, BYTES("12345678"), &number) == PLUMTREE_DONE && lost(&a, "b") == PLUMTREE_DONE);
    LOOK(lent(&a, "b", out) == 0 && plumtree_active(&a, names, 2, &length) == PLUMTREE_DONE && length == 0);
    LOOK(plumtree_free(&a) == PLUMTREE_DONE && plumtree_free(&b) == PLUMTREE_DONE && blocks == 0);
}

/* The link between two nodes fails at both, and one joins again by the other. */
static void joins(void)
{
    static uint8_t out[4096];
    plumtree_node a = {0}, b = {0};
    uint64_t number, at_a, at_b;
    start_two(&a, &b);
    LOOK(plumtree_wire_unreachable(&a, BYTES("b"), dice) == PLUMTREE_DONE && lost(&a, "b") == PLUMTREE_DONE);
    LOOK(plumtree_wire_unreachable(&b, BYTES("a"), dice) == PLUMTREE_DONE && lost(&b, "a") == PLUMTREE_DONE);
    seen before = see(&b);
    LOOK(before.actives == 0 && before.passives == 0 && before.waiting == 0);
    LOOK(plumtree_wire_join(&b, BYTES("b"), dice) == PLUMTREE_DONE && same(before, see(&b)));
    LOOK(plumtree_wire_join(&b, BYTES("A"), dice) == PLUMTREE_BAD_NAME && same(before, see(&b)));
    LOOK(plumtree_wire_join(&b, BYTES("a"), dice) == PLUMTREE_DONE);
    LOOK(see(&b).waiting == 1 && waiting(&b, "a") > 0 && see(&b).actives == 0);
    LOOK(plumtree_wire_accept(&a, &at_a) == PLUMTREE_DONE);
    LOOK(plumtree_wire_accept(&b, &at_b) == PLUMTREE_DONE);
    LOOK(plumtree_wire_receive(&a, at_a, out, take_out(&b, "a", out), dice) == PLUMTREE_DONE);
    LOOK(plumtree_wire_receive(&b, at_b, out, take_out(&a, "b", out), dice) == PLUMTREE_DONE);
    LOOK(plumtree_wire_receive(&a, at_a, out, take_out(&b, "a", out), dice) == PLUMTREE_DONE);
    before = see(&b);
    LOOK(before.actives == 1 && before.waiting == 0 && see(&a).actives == 1);
    LOOK(plumtree_wire_join(&b, BYTES("a"), dice) == PLUMTREE_DONE && same(before, see(&b)));
    LOOK(plumtree_wire_broadcast(&a, BYTES("x"), &number) == PLUMTREE_DONE);
    LOOK(plumtree_wire_receive(&b, at_b, out, take_out(&a, "b", out), dice) == PLUMTREE_DONE);
    LOOK(see(&b).delivery == 1);
    LOOK(plumtree_free(&a) == PLUMTREE_DONE);
    /* less may wait than a JOIN */
    LOOK(start(&a, "a", 10, NULL, 0) == PLUMTREE_DONE);
    LOOK(plumtree_wire_join(&a, BYTES("b"), dice) == PLUMTREE_DONE && lost(&a, "b") == PLUMTREE_DONE);
    LOOK(waiting(&a, "b") == 0 && lost(&a, "") == PLUMTREE_NONE);
    LOOK(plumtree_free(&a) == PLUMTREE_DONE && plumtree_free(&b) == PLUMTREE_DONE && blocks == 0);
}

/* Takes the first news, which are these, or there are none where the kind is 0. */
static bool tells(plumtree_node *node, uint8_t kind, const char *who, uint8_t why)
{
    plumtree_news news = {99, 99, {"", 99}};
    int32_t answer = plumtree_wire_next_news(node, &news);
    if (kind == 0)
        return answer == PLUMTREE_NONE && news.kind == 99 && news.why == 99 && news.name.length == 99;
    return answer == PLUMTREE_DONE && news.kind == kind && news.why == why && news.name.length == strlen(who)
           && strcmp(news.name.text, who) == 0;
}

/* Starts a node that has one neighbour at most. */
static void start_small(plumtree_node *node, const char *name, const char *peer, const char *contact)
{
    plumtree_limits limits = standard();
    plumtree_name first = name_of(strlen(peer) > 0 ? peer : "none");
    limits.active = 1;
    LOOK(plumtree_wire_start(node, (const uint8_t *)name, strlen(name), 7, &limits, PLUMTREE_WAITING, &first,
                             strlen(peer) > 0, (const uint8_t *)contact, strlen(contact)) == PLUMTREE_DONE);
}

/* All that waits at a node for another goes there. */
static void hand(plumtree_node *from, plumtree_node *to, const char *name)
{
    static uint8_t out[4096];
    uint64_t link = 0;
    LOOK(plumtree_wire_accept(to, &link) == PLUMTREE_DONE);
    LOOK(plumtree_wire_receive(to, link, out, take_out(from, name, out), dice) == PLUMTREE_DONE);
}

/* Of the news of a node whose only neighbour fails, the first are refused memory, and nothing is lost. */
static void refused_news(plumtree_node *node)
{
    plumtree_news refused = {99, 99, {"", 99}};
    LOOK(plumtree_wire_tell_news(node, true) == PLUMTREE_DONE);
    LOOK(plumtree_wire_unreachable(node, BYTES("a"), dice) == PLUMTREE_DONE);
    LOOK(plumtree_wire_tell_news(node, false) == PLUMTREE_DONE);
    seen before = see(node);
    until_refusal = 1;
    LOOK(plumtree_wire_next_news(node, &refused) == PLUMTREE_OUT_OF_MEMORY && until_refusal == 0);
    LOOK(refused.kind == 99 && refused.why == 99 && refused.name.length == 99 && same(before, see(node)));
    LOOK(tells(node, PLUMTREE_NEIGHBOR_DOWN, "a", PLUMTREE_FAILED));
    until_refusal = 1; /* the others were taken with the first */
    LOOK(tells(node, PLUMTREE_ISOLATED, "", 0) && tells(node, 0, "", 0) && until_refusal == 1);
    until_refusal = 0;
    LOOK(same(before, see(node)) && lost(node, "a") == PLUMTREE_DONE && lost(node, "") == PLUMTREE_NONE);
}

/* A node joins one whose only place is taken: who has it is displaced, and told so. */
static void news(void)
{
    plumtree_node a = {0}, b = {0}, c = {0};
    start_small(&a, "a", "b", "");
    start_small(&b, "b", "a", "");
    start_small(&c, "c", "", "a");
    LOOK(tells(&a, 0, "", 0) && plumtree_wire_tell_news(&a, true) == PLUMTREE_DONE && tells(&a, 0, "", 0));
    LOOK(plumtree_wire_tell_news(&b, true) == PLUMTREE_DONE);
    hand(&c, &a, "a");
    hand(&a, &b, "b");
    hand(&a, &c, "c");
    LOOK(tells(&a, PLUMTREE_NEIGHBOR_DOWN, "b", PLUMTREE_DISPLACED) && tells(&a, PLUMTREE_NEIGHBOR_UP, "c", 0));
    LOOK(tells(&b, PLUMTREE_NEIGHBOR_DOWN, "a", PLUMTREE_LEFT) && tells(&b, PLUMTREE_ISOLATED, "", 0));
    LOOK(tells(&a, 0, "", 0) && tells(&b, 0, "", 0));
    LOOK(see(&c).actives == 1 && tells(&c, 0, "", 0)); /* it was not to tell */
    refused_news(&c);
    LOOK(plumtree_free(&a) == PLUMTREE_DONE && plumtree_free(&b) == PLUMTREE_DONE);
    LOOK(plumtree_free(&c) == PLUMTREE_DONE && blocks == 0);
}

/* Each byte of a frame is spoiled in turn, behind a good frame: the good one is taken, and the connection ends if the
 * other is none. */
static void spoiled(void)
{
    static uint8_t good[4096], bad[4096];
    bool came[24] = {false};
    plumtree_node a = {0}, b = {0};
    uint64_t number, link;
    start_two(&a, &b);
    LOOK(plumtree_wire_broadcast(&a, BYTES("first"), &number) == PLUMTREE_DONE);
    size_t first = take_out(&a, "b", good);
    LOOK(plumtree_wire_broadcast(&a, BYTES("second"), &number) == PLUMTREE_DONE);
    size_t all = first + take_out(&a, "b", good + first);
    for (size_t at = first; at < all; at++)
        for (int value = 0; value < 256; value += at < first + 8 ? 1 : 5) {
            plumtree_node node = {0};
            plumtree_name peer = name_of("a");
            LOOK(start(&node, "b", PLUMTREE_WAITING, &peer, 1) == PLUMTREE_DONE);
            memcpy(bad, good, all);
            bad[at] = (uint8_t)value;
            LOOK(plumtree_wire_accept(&node, &link) == PLUMTREE_DONE);
            int32_t answer = plumtree_wire_receive(&node, link, bad, all, dice);
            LOOK(answer == PLUMTREE_DONE || (PLUMTREE_TRAILING <= answer && answer <= PLUMTREE_FRAME_TOO_LONG));
            LOOK(plumtree_wire_receive(&node, link, NULL, 0, dice) == (answer
                 == PLUMTREE_DONE ? PLUMTREE_DONE : PLUMTREE_NO_CONNECTION));
            LOOK(lost(&node, "a") == (answer == PLUMTREE_DONE ? PLUMTREE_NONE : PLUMTREE_DONE));
            came[answer < 0 ? -answer : 0] = true;
            plumtree_id id = {peer, 7, 1};
            LOOK(plumtree_knows(&node, &id) == PLUMTREE_DONE);
            LOOK(plumtree_free(&node) == PLUMTREE_DONE);
        }
    LOOK(came[0] && came[12] && came[13] && came[14] && came[15] && came[16] && came[18]);
    LOOK(plumtree_free(&a) == PLUMTREE_DONE && plumtree_free(&b) == PLUMTREE_DONE && blocks == 0);
}

/* ---- Refused allocations ---- */

static uint8_t heard[1 << 16];
static size_t heard_length;
static uint64_t heard_link;

static int32_t call_broadcast(plumtree_node *node)
{
    uint64_t number;
    return plumtree_wire_broadcast(node, BYTES("more"), &number);
}

static int32_t call_accept(plumtree_node *node)
{
    return plumtree_wire_accept(node, &heard_link);
}

static int32_t call_unreachable(plumtree_node *node)
{
    return plumtree_wire_unreachable(node, BYTES("a"), dice);
}

static int32_t call_join(plumtree_node *node)
{
    return plumtree_wire_join(node, BYTES("z"), dice);
}

static int32_t call_ended(plumtree_node *node)
{
    return plumtree_wire_ended(node, heard_link, dice);
}

static int32_t call_receivers(plumtree_node *node)
{
    plumtree_name names[4];
    size_t length;
    return plumtree_wire_receivers(node, names, 4, &length);
}

/* Each allocation of the call is refused in turn: nothing changes, and the call is made at last. */
static long refuse_each(plumtree_node *node, int32_t (*it)(plumtree_node *node))
{
    seen before = see(node);
    for (long nth = 1; nth < 100; nth++) {
        until_refusal = nth;
        int32_t answer = it(node);
        bool refused = until_refusal == 0;
        until_refusal = 0;
        if (!refused) {
            LOOK(answer == PLUMTREE_DONE);
            return nth - 1;
        }
        LOOK(answer == PLUMTREE_OUT_OF_MEMORY && same(before, see(node)));
    }
    LOOK(false);
    return 0;
}

/* A node that hears a message, with one allocation refused. Returns whether one was. */
static bool hears_refused(long nth)
{
    plumtree_node node = {0};
    plumtree_name peer = name_of("a");
    uint64_t link;
    LOOK(start(&node, "b", PLUMTREE_WAITING, &peer, 1) == PLUMTREE_DONE);
    LOOK(plumtree_wire_accept(&node, &link) == PLUMTREE_DONE);
    until_refusal = nth;
    int32_t answer = plumtree_wire_receive(&node, link, heard, heard_length, dice);
    bool was = until_refusal == 0;
    until_refusal = 0;
    LOOK(answer == (was ? PLUMTREE_OUT_OF_MEMORY : PLUMTREE_DONE));
    LOOK(plumtree_wire_ended(&node, link, dice) == (was ? PLUMTREE_NO_CONNECTION : PLUMTREE_DONE));
    LOOK(plumtree_free(&node) == PLUMTREE_DONE);
    return was;
}

static void refusals(void)
{
    plumtree_node a = {0}, b = {0};
    plumtree_limits limits = standard();
    plumtree_name peer = name_of("a");
    uint64_t number;
    long refused = 0;
    for (long nth = 1;; nth++) {
        until_refusal = nth;
        int32_t answer = plumtree_wire_start(&a, BYTES("c"), 1, &limits, 99, &peer, 1, BYTES("d"));
        bool was = until_refusal == 0;
        until_refusal = 0;
        LOOK(answer == (was ? PLUMTREE_OUT_OF_MEMORY : PLUMTREE_DONE));
        if (!was)
            break;
        LOOK(a.live == 0 && a.at == NULL && blocks == 0);
        refused++;
    }
    LOOK(refused > 2 && plumtree_free(&a) == PLUMTREE_DONE && blocks == 0);
    start_two(&a, &b);
    LOOK(plumtree_wire_broadcast(&a, BYTES("hello"), &number) == PLUMTREE_DONE);
    heard_length = take_out(&a, "b", heard);
    refused = 0;
    for (long nth = 1; hears_refused(nth); nth++)
        refused++;
    LOOK(refused > 2);
    refused = refuse_each(&b, call_accept);
    LOOK(plumtree_wire_receive(&b, heard_link, heard, heard_length, dice) == PLUMTREE_DONE);
    refused += refuse_each(&b, call_broadcast) + refuse_each(&b, call_receivers);
    refused += refuse_each(&b, call_ended) + refuse_each(&a, call_broadcast) + refuse_each(&b, call_unreachable);
    refused += refuse_each(&a, call_join);
    LOOK(refused >= 7);
    for (int tick = 1; tick <= 20; tick++)
        for (long nth = 1;; nth++) {
            until_refusal = nth;
            int32_t answer = plumtree_wire_tick(&a, dice);
            bool was = until_refusal == 0;
            until_refusal = 0;
            LOOK(answer == (was ? PLUMTREE_OUT_OF_MEMORY : PLUMTREE_DONE));
            if (!was)
                break;
        }
    LOOK(see(&a).counts.ticks == 20);
    LOOK(plumtree_free(&a) == PLUMTREE_DONE && plumtree_free(&b) == PLUMTREE_DONE && blocks == 0);
}

/* ---- A larger group, with calls in any order ---- */

#define MANY 8
#define MESSAGES 200

static plumtree_node many[MANY];
static uint64_t links[MANY][MANY]; /* at the second, of the first's connection to it; 0: there is none */
static bool has_delivered[MANY][MANY][MESSAGES + 1];
static uint64_t has_broadcast[MANY];
static bool is_near[MANY][MANY]; /* by the first's news, the second is its neighbour */

static int numbered(const plumtree_name *name)
{
    return atoi(name->text + 1);
}

/* Ends the connection from the one to the other, at the other. */
static void cut(int from, int to)
{
    int32_t answer;
    if (links[from][to] == 0)
        return;
    while ((answer = plumtree_wire_ended(&many[to], links[from][to], dice)) == PLUMTREE_OUT_OF_MEMORY)
        ;
    LOOK(answer == PLUMTREE_DONE || answer == PLUMTREE_NO_CONNECTION);
    links[from][to] = 0;
}

static void hang_up_lost(int at)
{
    plumtree_name name;
    while (plumtree_wire_next_lost(&many[at], &name) == PLUMTREE_DONE)
        cut(at, numbered(&name));
}

/* Some of the bytes that wait at a node for a name go to it. */
static void carry(int from, const plumtree_name *name)
{
    static uint8_t room[1 << 22];
    int to = numbered(name);
    hang_up_lost(from);
    size_t count = lent(&many[from], name->text, room);
    if (count == 0 || (links[from][to] == 0 && plumtree_wire_accept(&many[to], &links[from][to]) != PLUMTREE_DONE))
        return;
    count = random_word() % 4 == 0 ? count : random_word() % count + 1;
    LOOK(transmitted(&many[from], name->text, count) == PLUMTREE_DONE);
    roll();
    int32_t answer = plumtree_wire_receive(&many[to], links[from][to], room, count, dice);
    LOOK(answer == PLUMTREE_DONE || answer == PLUMTREE_OUT_OF_MEMORY);
    if (answer != PLUMTREE_DONE) { /* the connection is over at both ends */
        until_refusal = 0;
        cut(from, to);
        LOOK(plumtree_wire_unreachable(&many[from], (const uint8_t *)name->text, name->length, dice) == PLUMTREE_DONE);
    }
}

static void take_all(int at)
{
    uint8_t room[8];
    plumtree_id id;
    size_t length;
    int32_t answer;
    while ((answer = plumtree_wire_next_delivery(&many[at], &id, room, sizeof room, &length)) != PLUMTREE_NONE) {
        int origin = numbered(&id.name);
        LOOK(answer == PLUMTREE_DONE && 1 <= id.number && id.number <= has_broadcast[origin]);
        LOOK(!has_delivered[at][origin][id.number]);
        LOOK(length == 8 && room[0] == origin && room[1] == (uint8_t)id.number);
        has_delivered[at][origin][id.number] = true;
    }
}

/* How many neighbours the node has by its news. */
static size_t near(int at)
{
    size_t count = 0;
    for (int i = 0; i < MANY; i++)
        count += is_near[at][i];
    return count;
}

/* Takes the news. None says what was known, or leaves out what was not. */
static void take_news(int at)
{
    plumtree_news news;
    int32_t answer;
    while ((answer = plumtree_wire_next_news(&many[at], &news)) == PLUMTREE_DONE) {
        if (news.kind == PLUMTREE_ISOLATED || news.kind == PLUMTREE_JOINED) {
            LOOK(news.why == 0 && news.name.length == 0 && (near(at) == 0) == (news.kind == PLUMTREE_ISOLATED));
            continue;
        }
        bool goes = news.kind == PLUMTREE_NEIGHBOR_DOWN, *is = &is_near[at][numbered(&news.name)];
        LOOK((goes || news.kind == PLUMTREE_NEIGHBOR_UP) && *is == goes);
        LOOK(goes ? 1 <= news.why && news.why <= PLUMTREE_DISPLACED : news.why == 0);
        *is = !goes;
    }
    LOOK(answer == PLUMTREE_NONE || answer == PLUMTREE_OUT_OF_MEMORY);
}

/* After all news were taken, the neighbours are those of which they told. */
static void look_near(int at)
{
    plumtree_name names[MANY];
    size_t length = 0;
    take_news(at);
    LOOK(plumtree_active(&many[at], names, MANY, &length) == PLUMTREE_DONE && length == near(at));
    for (size_t i = 0; i < length; i++)
        LOOK(is_near[at][numbered(&names[i])]);
}

/* Bytes for some of the names go out. Returns whether any waited. */
static bool give_out(int at)
{
    plumtree_name names[MANY];
    size_t length;
    take_all(at);
    if (random_word() % 4 == 0)
        take_news(at);
    hang_up_lost(at);
    LOOK(plumtree_wire_receivers(&many[at], names, MANY, &length) != PLUMTREE_ROOM_TOO_SMALL);
    for (size_t i = 0; i < length; i++)
        carry(at, &names[i]);
    return length > 0;
}

static void any_order(long rounds)
{
    plumtree_limits limits = standard();
    for (int i = 0; i < MANY; i++) {
        char text[8];
        int length = snprintf(text, sizeof text, "n%d", i);
        LOOK(plumtree_wire_start(&many[i], (const uint8_t *)text, (size_t)length, 1, &limits, PLUMTREE_WAITING, NULL,
             0,
                                 (const uint8_t *)"n0", i == 0 ? 0 : 2) == PLUMTREE_DONE);
        LOOK(plumtree_wire_tell_news(&many[i], true) == PLUMTREE_DONE);
        for (bool waits = true; waits;) {
            waits = false;
            for (int j = 0; j <= i; j++)
                waits |= give_out(j);
        }
    }
    for (long round = 0; round < rounds; round++) {
        int at = (int)(random_word() % MANY);
        if (random_word() % 64 == 0)
            until_refusal = (long)(random_word() % 16) + 1;
        roll();
        if (random_word() % 8 == 0 && has_broadcast[at] < MESSAGES) {
            uint8_t payload[8] = {(uint8_t)at, (uint8_t)(has_broadcast[at] + 1)};
            uint64_t number = 0;
            int32_t answer = plumtree_wire_broadcast(&many[at], payload, sizeof payload, &number);
            LOOK(answer == PLUMTREE_DONE || answer == PLUMTREE_OUT_OF_MEMORY);
            if (answer == PLUMTREE_DONE)
                LOOK(number == ++has_broadcast[at]);
        } else if (random_word() % 4 == 0) {
            int32_t answer = plumtree_wire_tick(&many[at], dice);
            LOOK(answer == PLUMTREE_DONE || answer == PLUMTREE_OUT_OF_MEMORY);
        } else if (random_word() % 32 == 0) {
            const uint8_t contact[2] = {'n', (uint8_t)('0' + random_word() % MANY)};
            int32_t answer = plumtree_wire_join(&many[at], contact, sizeof contact, dice);
            LOOK(answer == PLUMTREE_DONE || answer == PLUMTREE_OUT_OF_MEMORY);
        } else {
            give_out(at);
        }
        until_refusal = 0;
    }
    for (int turn = 0; turn < 400; turn++)
        for (int i = 0; i < MANY; i++) {
            roll();
            if (turn % 4 == 0)
                LOOK(plumtree_wire_tick(&many[i], dice) == PLUMTREE_DONE);
            give_out(i);
        }
    for (int i = 0; i < MANY; i++) {
        for (int origin = 0; origin < MANY; origin++)
            for (uint64_t number = 1; number <= has_broadcast[origin]; number++)
                if (i == origin)
                    LOOK(has_delivered[i][origin][number]);
        look_near(i);
        LOOK(plumtree_free(&many[i]) == PLUMTREE_DONE);
    }
    LOOK(blocks == 0);
}

/* What the library writes stands where plumtree.h says, and nothing beside it. */
static void structs(void)
{
    struct {
        uint8_t before[8];
        plumtree_wire_counts it;
        uint8_t after[8];
    } counts;
    struct {
        uint8_t before[8];
        plumtree_piece it[PLUMTREE_PIECES];
        uint8_t after[8];
    } pieces;
    struct {
        uint8_t before[8];
        plumtree_news it;
        uint8_t after[8];
    } told;
    plumtree_node a = {0}, b = {0};
    uint64_t number;
    start_two(&a, &b);
    LOOK(plumtree_wire_broadcast(&a, BYTES("x"), &number) == PLUMTREE_DONE);
    LOOK(plumtree_wire_tick(&a, dice) == PLUMTREE_DONE);
    memset(&counts, 0xee, sizeof counts);
    LOOK(plumtree_wire_counts_of(&a, &counts.it) == PLUMTREE_DONE && counts.before[7] == 0xee
         && counts.after[0] == 0xee);
    LOOK(counts.it.held == 1 && counts.it.missing == 0 && counts.it.wants == 0 && counts.it.queued == 0
         && counts.it.ticks == 1);
    memset(&pieces, 0xee, sizeof pieces);
    LOOK(plumtree_wire_transmit(&a, BYTES("b"), pieces.it) == PLUMTREE_DONE && pieces.before[7] == 0xee
         && pieces.after[0] == 0xee);
    memset(&told, 0xee, sizeof told);
    LOOK(plumtree_wire_tell_news(&a, true) == PLUMTREE_DONE);
    LOOK(plumtree_wire_unreachable(&a, BYTES("b"), dice) == PLUMTREE_DONE);
    LOOK(plumtree_wire_next_news(&a, &told.it) == PLUMTREE_DONE && told.before[7] == 0xee && told.after[0] == 0xee);
    LOOK(told.it.kind == PLUMTREE_NEIGHBOR_DOWN && told.it.name.length == 1);
    LOOK(plumtree_free(&a) == PLUMTREE_DONE && plumtree_free(&b) == PLUMTREE_DONE && blocks == 0);
}

int main(int count, char **arguments)
{
    long rounds = count > 1 ? atol(arguments[1]) : 40000;
    structs();
    slots();
    starts();
    in_parts();
    no_bytes();
    payloads();
    downs();
    joins();
    news();
    spoiled();
    refusals();
    any_order(rounds);
    printf("%ld passed, %ld failed\n", looked - failed, failed);
    return failed != 0;
}
