/* Calls the library as no caller should, and looks that each call answers what plumtree.h says, and that a call that
 * was refused has changed nothing. The memory of this program counts its blocks and refuses them as it is told. */
#include "hostile.h"

static int32_t start(plumtree_node *node, const char *name, const plumtree_name *peers, size_t count)
{
    plumtree_limits limits = standard();
    return plumtree_start(node, (const uint8_t *)name, strlen(name), 7, &limits, peers, count, NULL, 0);
}

/* All that can be read of a node without taking anything. */
typedef struct seen {
    int32_t answer;
    plumtree_counts counts;
    plumtree_name me, active[16], passive[64], eager[16], lazy[16];
    uint64_t incarnation;
    size_t actives, passives, eagers, lazies;
    size_t send, delivery;
} seen;

static seen see(plumtree_node *node)
{
    seen it;
    plumtree_name to;
    plumtree_id id;
    memset(&it, 0, sizeof it);
    it.answer = plumtree_counts_of(node, &it.counts);
    plumtree_me(node, &it.me, &it.incarnation);
    plumtree_active(node, it.active, 16, &it.actives);
    plumtree_passive(node, it.passive, 64, &it.passives);
    plumtree_eager(node, it.eager, 16, &it.eagers);
    plumtree_lazy(node, it.lazy, 16, &it.lazies);
    long kept = until_refusal;
    until_refusal = 0;
    plumtree_next_send(node, &to, NULL, 0, &it.send);
    until_refusal = kept;
    if (it.counts.deliveries > 0) {
        if (plumtree_next_delivery(node, &id, NULL, 0, &it.delivery) == PLUMTREE_DONE)
            it.delivery = 1000000; /* a message without bytes was taken */
    }
    return it;
}

static bool same(seen a, seen b)
{
    return memcmp(&a, &b, sizeof a) == 0;
}

static void drop_all(plumtree_node *node)
{
    static uint8_t room[PLUMTREE_FRAME_MAX];
    plumtree_name to;
    plumtree_id id;
    size_t length;
    while (plumtree_next_send(node, &to, room, sizeof room, &length) == PLUMTREE_DONE)
        ;
    while (plumtree_next_delivery(node, &id, room, sizeof room, &length) == PLUMTREE_DONE)
        ;
}

/* Each call with the slot answers `wanted`, but for plumtree_free, which is not made. */
static void each_answers(plumtree_node *node, int32_t wanted)
{
    plumtree_counts counts;
    plumtree_name name, names[2];
    plumtree_id id;
    uint8_t room[64];
    uint64_t number = 99, incarnation;
    size_t length = 99, taken = 99;
    memset(&id, 0, sizeof id);
    id.name = name_of("a");
    LOOK(plumtree_broadcast(node, BYTES("x"), &number) == wanted && number == 99);
    LOOK(plumtree_receive(node, BYTES("x"), dice, &taken) == wanted && taken == 0);
    LOOK(plumtree_tick(node, dice) == wanted);
    LOOK(plumtree_flush(node) == wanted);
    LOOK(plumtree_fire(node, &id) == wanted);
    LOOK(plumtree_fire_at(node, 0) == wanted);
    LOOK(plumtree_shuffle(node, dice) == wanted);
    LOOK(plumtree_link_down(node, BYTES("a"), dice) == wanted);
    LOOK(plumtree_join(node, BYTES("a")) == wanted);
    LOOK(plumtree_next_send(node, &name, room, sizeof room, &length) == wanted && length == 0);
    length = 99;
    LOOK(plumtree_next_delivery(node, &id, room, sizeof room, &length) == wanted && length == 0);
    LOOK(plumtree_active(node, names, 2, &length) == wanted && length == 0);
    LOOK(plumtree_passive(node, names, 2, &length) == wanted && length == 0);
    LOOK(plumtree_eager(node, names, 2, &length) == wanted && length == 0);
    LOOK(plumtree_lazy(node, names, 2, &length) == wanted && length == 0);
    LOOK(plumtree_me(node, &name, &incarnation) == wanted);
    LOOK(plumtree_counts_of(node, &counts) == wanted);
    id.name = name_of("a");
    LOOK(plumtree_knows(node, &id) == wanted);
    LOOK(plumtree_timer(node, 0, &id) == wanted);
}

/* ---- Slots ---- */

static void slots(void)
{
    plumtree_node zeroed = {0}, used = {0}, spoiled, copy, moved;
    plumtree_name peer = name_of("b");
    uint64_t number;
    each_answers(&zeroed, PLUMTREE_NOT_LIVE);
    LOOK(plumtree_free(&zeroed) == PLUMTREE_NONE);
    for (int value = 1; value < 256; value++) {
        plumtree_node before;
        memset(&spoiled, value, sizeof spoiled);
        before = spoiled;
        LOOK(start(&spoiled, "a", NULL, 0) == PLUMTREE_NOT_ZEROED);
        LOOK(memcmp(&before, &spoiled, sizeof before) == 0);
        LOOK(plumtree_free(&spoiled) == PLUMTREE_NONE);
    }
    each_answers(&spoiled, PLUMTREE_NOT_LIVE);

    LOOK(start(&used, "a", &peer, 1) == PLUMTREE_DONE);
    seen first = see(&used);
    LOOK(start(&used, "c", NULL, 0) == PLUMTREE_LIVE);
    LOOK(same(first, see(&used)) && strcmp(first.me.text, "a") == 0 && first.incarnation == 7);

    copy = used;
    LOOK(plumtree_broadcast(&used, BYTES("x"), &number) == PLUMTREE_DONE && number == 1);
    each_answers(&copy, PLUMTREE_COPIED);
    LOOK(plumtree_free(&copy) == PLUMTREE_COPIED);
    LOOK(plumtree_broadcast(&used, BYTES("y"), &number) == PLUMTREE_DONE && number == 2);

    moved = used;
    memset(&used, 0, sizeof used);
    LOOK(plumtree_broadcast(&moved, BYTES("z"), &number) == PLUMTREE_DONE && number == 3);
    LOOK(plumtree_free(&moved) == PLUMTREE_DONE);
    LOOK(plumtree_free(&moved) == PLUMTREE_NONE);
    each_answers(&moved, PLUMTREE_NOT_LIVE);
    LOOK(start(&moved, "a", &peer, 1) == PLUMTREE_DONE);
    LOOK(plumtree_broadcast(&moved, BYTES("z"), &number) == PLUMTREE_DONE && number == 1);
    LOOK(plumtree_free(&moved) == PLUMTREE_DONE);
    LOOK(blocks == 0);
}

/* ---- NULL with the length 0, and rooms that are too small ---- */

static void empty(void)
{
    plumtree_node node = {0};
    plumtree_limits limits = standard();
    plumtree_name peer = name_of("b"), to;
    plumtree_id id;
    uint8_t room[64];
    uint64_t number;
    size_t length, taken;
    LOOK(plumtree_name_of(NULL, 0, &to) == PLUMTREE_BAD_NAME);
    LOOK(plumtree_start(&node, NULL, 0, 1, &limits, NULL, 0, NULL, 0) == PLUMTREE_BAD_NAME);
    LOOK(plumtree_start(&node, BYTES("a"), 1, &limits, &peer, 1, NULL, 0) == PLUMTREE_DONE);
    LOOK(plumtree_receive(&node, NULL, 0, dice, &taken) == PLUMTREE_NONE && taken == 0);
    LOOK(plumtree_link_down(&node, NULL, 0, dice) == PLUMTREE_BAD_NAME);
    LOOK(plumtree_join(&node, NULL, 0) == PLUMTREE_BAD_NAME);
    LOOK(plumtree_next_send(&node, &to, NULL, 0, &length) == PLUMTREE_NONE && length == 0);
    LOOK(plumtree_next_delivery(&node, &id, NULL, 0, &length) == PLUMTREE_NONE && length == 0);
    LOOK(plumtree_passive(&node, NULL, 0, &length) == PLUMTREE_DONE && length == 0);
    LOOK(plumtree_lazy(&node, NULL, 0, &length) == PLUMTREE_DONE && length == 0);
    LOOK(plumtree_active(&node, NULL, 0, &length) == PLUMTREE_ROOM_TOO_SMALL && length == 1);
    LOOK(plumtree_eager(&node, NULL, 0, &length) == PLUMTREE_ROOM_TOO_SMALL && length == 1);
    LOOK(plumtree_words(1, NULL, 0, &length) == PLUMTREE_ROOM_TOO_SMALL && length == 4);
    LOOK(plumtree_broadcast(&node, NULL, 0, &number) == PLUMTREE_DONE && number == 1);
    LOOK(plumtree_next_send(&node, &to, NULL, 0, &length) == PLUMTREE_ROOM_TOO_SMALL && length == 50);
    LOOK(plumtree_next_delivery(&node, &id, NULL, 0, &length) == PLUMTREE_DONE && length == 0 && id.number == 1);
    LOOK(plumtree_next_send(&node, &to, room, sizeof room, &length) == PLUMTREE_DONE && strcmp(to.text, "b") == 0);
    LOOK(plumtree_free(&node) == PLUMTREE_DONE && blocks == 0);
}

static void too_small(void)
{
    static uint8_t room[PLUMTREE_FRAME_MAX], wanted[PLUMTREE_FRAME_MAX];
    plumtree_node one = {0}, two = {0};
    plumtree_name peers[3] = {name_of("b"), name_of("c"), name_of("d")}, to, names[3];
    plumtree_id id;
    uint64_t number;
    size_t length = 0, all = 0;
    LOOK(start(&one, "a", peers, 3) == PLUMTREE_DONE && start(&two, "a", peers, 3) == PLUMTREE_DONE);
    LOOK(plumtree_broadcast(&one, BYTES("a message of some bytes"), &number) == PLUMTREE_DONE);
    LOOK(plumtree_broadcast(&two, BYTES("a message of some bytes"), &number) == PLUMTREE_DONE);
    for (int i = 0; i < 3; i++) {
        LOOK(plumtree_next_send(&two, &to, wanted, sizeof wanted, &all) == PLUMTREE_DONE);
        for (size_t size = 0; size < all; size++) {
            memset(room, 0xee, sizeof room);
            LOOK(plumtree_next_send(&one, &to, room, size, &length) == PLUMTREE_ROOM_TOO_SMALL && length == all);
            for (size_t at = 0; at < all + 8; at++)
                LOOK(room[at] == 0xee);
        }
        LOOK(plumtree_next_send(&one, &to, room, all, &length) == PLUMTREE_DONE && length == all);
        LOOK(memcmp(room, wanted, all) == 0 && room[all] == 0xee && strcmp(to.text, peers[i].text) == 0);
    }
    LOOK(plumtree_next_send(&one, &to, room, sizeof room, &length) == PLUMTREE_NONE && length == 0);
    for (size_t size = 0; size < 23; size++) {
        memset(room, 0xee, 32);
        LOOK(plumtree_next_delivery(&one, &id, room, size, &length) == PLUMTREE_ROOM_TOO_SMALL && length == 23);
        LOOK(room[0] == 0xee && room[22] == 0xee);
    }
    LOOK(plumtree_next_delivery(&one, &id, room, 23, &length) == PLUMTREE_DONE && length == 23);
    LOOK(memcmp(room, "a message of some bytes", 23) == 0 && room[23] == 0xee && id.number == 1);
    LOOK(plumtree_next_delivery(&one, &id, room, 23, &length) == PLUMTREE_NONE && length == 0);
    for (size_t size = 0; size < 3; size++) {
        memset(names, 0xee, sizeof names);
        LOOK(plumtree_active(&one, names, size, &length) == PLUMTREE_ROOM_TOO_SMALL && length == 3);
        for (size_t i = 0; i < 3; i++)
            LOOK(i < size ? strcmp(names[i].text, peers[i].text) == 0 : names[i].length == 0xee);
    }
    LOOK(plumtree_active(&one, names, 3, &length) == PLUMTREE_DONE && length == 3);
    LOOK(memcmp(names, peers, sizeof names) == 0);
    LOOK(plumtree_free(&one) == PLUMTREE_DONE && plumtree_free(&two) == PLUMTREE_DONE && blocks == 0);
}

/* ---- Sizes at every limit ---- */

static void text_limits(void)
{
    uint8_t text[40];
    plumtree_name name;
    memset(text, 'z', sizeof text);
    for (size_t length = 0; length < sizeof text; length++) {
        memset(&name, 0xee, sizeof name);
        int32_t answer = plumtree_name_of(text, length, &name);
        LOOK(answer == (1 <= length && length <= 32 ? PLUMTREE_DONE : PLUMTREE_BAD_NAME));
        if (answer == PLUMTREE_DONE) {
            LOOK(name.length == length && strlen(name.text) == length && memcmp(name.text, text, length) == 0);
            for (size_t at = length; at < sizeof name.text; at++)
                LOOK(name.text[at] == 0);
        } else {
            LOOK(name.length == 0xee && (uint8_t)name.text[0] == 0xee);
        }
    }
    for (int byte = 0; byte < 256; byte++) {
        bool good = ('a' <= byte && byte <= 'z') || ('0' <= byte && byte <= '9') || byte == '-';
        text[3] = (uint8_t)byte;
        LOOK(plumtree_name_of(text, 5, &name) == (good ? PLUMTREE_DONE : PLUMTREE_BAD_NAME));
    }
}

static int32_t with_limits(plumtree_limits limits)
{
    plumtree_node node = {0};
    int32_t answer = plumtree_start(&node, BYTES("a"), 1, &limits, NULL, 0, NULL, 0);
    if (answer == PLUMTREE_DONE)
        LOOK(plumtree_free(&node) == PLUMTREE_DONE);
    return answer;
}

static void limit_limits(void)
{
    for (int value = 0; value < 256; value++) {
        plumtree_limits limits = standard();
        limits.active = (uint8_t)value;
        LOOK(with_limits(limits) == (1 <= value && value <= 16 ? PLUMTREE_DONE : PLUMTREE_BAD_LIMITS));
        limits = standard();
        limits.passive = (uint8_t)value;
        LOOK(with_limits(limits) == (1 <= value && value <= 64 ? PLUMTREE_DONE : PLUMTREE_BAD_LIMITS));
        limits = standard();
        limits.arwl = (uint8_t)value;
        LOOK(with_limits(limits) == (3 <= value && value <= 32 ? PLUMTREE_DONE : PLUMTREE_BAD_LIMITS));
        limits = standard();
        limits.prwl = (uint8_t)value;
        LOOK(with_limits(limits) == (value <= 6 ? PLUMTREE_DONE : PLUMTREE_BAD_LIMITS));
        limits = standard();
        limits.ka = (uint8_t)value;
        LOOK(with_limits(limits) == (value <= 3 ? PLUMTREE_DONE : PLUMTREE_BAD_LIMITS));
        limits = standard();
        limits.kp = (uint8_t)value;
        LOOK(with_limits(limits) == (value <= 4 ? PLUMTREE_DONE : PLUMTREE_BAD_LIMITS));
    }
    plumtree_limits limits = standard();
    LOOK(limits.active == 5 && limits.passive == 30 && limits.arwl == 6 && limits.prwl == 3);
    LOOK(limits.ka == 3 && limits.kp == 4 && limits.threshold == 0 && limits.keep == 0);
    limits.threshold = UINT32_MAX;
    limits.keep = UINT32_MAX;
    LOOK(with_limits(limits) == PLUMTREE_DONE);
}

static void peer_limits(void)
{
    plumtree_node node = {0};
    plumtree_name peers[20];
    plumtree_limits limits = standard();
    char text[4];
    for (int i = 0; i < 20; i++) {
        snprintf(text, sizeof text, "p%02d", i);
        peers[i] = name_of(text);
    }
    for (uint8_t active = 1; active <= 16; active++)
        for (size_t count = 0; count <= 20; count++) {
            limits.active = active;
            int32_t answer = plumtree_start(&node, BYTES("a"), 1, &limits, peers, count, NULL, 0);
            LOOK(answer == (count <= active ? PLUMTREE_DONE : PLUMTREE_BAD_PEERS));
            if (answer == PLUMTREE_DONE) {
                LOOK(see(&node).actives == count);
                plumtree_free(&node);
            }
        }
    limits.active = 5;
    peers[1] = peers[0];
    LOOK(plumtree_start(&node, BYTES("a"), 1, &limits, peers, 2, NULL, 0) == PLUMTREE_BAD_PEERS);
    LOOK(plumtree_start(&node, BYTES("p00"), 1, &limits, peers, 1, NULL, 0) == PLUMTREE_BAD_PEERS);
    LOOK(plumtree_start(&node, BYTES("a"), 1, &limits, NULL, 0, BYTES("a")) == PLUMTREE_BAD_PEERS);
    LOOK(plumtree_start(&node, BYTES("a"), 1, &limits, NULL, 0, BYTES("B")) == PLUMTREE_BAD_NAME);
    peers[1].length = 33;
    LOOK(plumtree_start(&node, BYTES("a"), 1, &limits, peers, 2, NULL, 0) == PLUMTREE_BAD_NAME);
    peers[1].length = 255;
    LOOK(plumtree_start(&node, BYTES("a"), 1, &limits, peers, 2, NULL, 0) == PLUMTREE_BAD_NAME);
    peers[1].length = 0;
    LOOK(plumtree_start(&node, BYTES("a"), 1, &limits, peers, 2, NULL, 0) == PLUMTREE_BAD_NAME);
    LOOK(node.live == 0 && node.at == NULL && blocks == 0);
    LOOK(plumtree_start(&node, BYTES("a"), UINT64_MAX, &limits, NULL, 0, BYTES("b")) == PLUMTREE_DONE);
    seen it = see(&node);
    LOOK(it.counts.sends == 1 && it.actives == 0 && it.incarnation == UINT64_MAX);
    LOOK(plumtree_free(&node) == PLUMTREE_DONE && blocks == 0);
}

static void payload_limits(void)
{
    static uint8_t payload[PLUMTREE_PAYLOAD_MAX + 1], frame[PLUMTREE_FRAME_MAX];
    char long_one[33], long_two[33];
    plumtree_node one = {0}, two = {0};
    plumtree_name to;
    plumtree_id id;
    uint64_t number = 99;
    size_t length = 0, taken = 99;
    memset(long_one, 'a', 32);
    memset(long_two, 'b', 32);
    long_one[32] = long_two[32] = 0;
    for (size_t i = 0; i < sizeof payload; i++)
        payload[i] = (uint8_t)random_word();
    plumtree_name peer_one = name_of(long_one), peer_two = name_of(long_two);
    LOOK(start(&one, long_one, &peer_two, 1) == PLUMTREE_DONE && start(&two, long_two, &peer_one, 1) == PLUMTREE_DONE);
    seen before = see(&one);
    LOOK(plumtree_broadcast(&one, payload, PLUMTREE_PAYLOAD_MAX + 1, &number) == PLUMTREE_PAYLOAD_TOO_LONG);
    LOOK(number == 99 && same(before, see(&one)));
    LOOK(plumtree_broadcast(&one, payload, PLUMTREE_PAYLOAD_MAX, &number) == PLUMTREE_DONE && number == 1);
    LOOK(plumtree_next_send(&one, &to, frame, PLUMTREE_FRAME_MAX - 1, &length) == PLUMTREE_ROOM_TOO_SMALL);
    LOOK(length == PLUMTREE_FRAME_MAX);
    LOOK(plumtree_next_send(&one, &to, frame, PLUMTREE_FRAME_MAX, &length) == PLUMTREE_DONE && length == PLUMTREE_FRAME_MAX);
    before = see(&two);
    for (size_t size = 0; size < length; size++)
        LOOK(plumtree_receive(&two, frame, size, dice, &taken) == PLUMTREE_NONE && taken == 0);
    LOOK(same(before, see(&two)));
    LOOK(plumtree_receive(&two, frame, length, dice, &taken) == PLUMTREE_DONE && taken == length);
    LOOK(plumtree_next_delivery(&two, &id, frame, PLUMTREE_PAYLOAD_MAX, &length) == PLUMTREE_DONE);
    LOOK(length == PLUMTREE_PAYLOAD_MAX && memcmp(frame, payload, length) == 0);
    LOOK(strcmp(id.name.text, long_one) == 0 && id.incarnation == 7 && id.number == 1);
    LOOK(plumtree_knows(&two, &id) == PLUMTREE_DONE);
    id.number = 2;
    LOOK(plumtree_knows(&two, &id) == PLUMTREE_NONE);
    id.name.length = 40;
    LOOK(plumtree_knows(&two, &id) == PLUMTREE_BAD_NAME && plumtree_fire(&two, &id) == PLUMTREE_BAD_NAME);
    LOOK(plumtree_free(&one) == PLUMTREE_DONE && plumtree_free(&two) == PLUMTREE_DONE && blocks == 0);
}

/* ---- A group, whose frames come to the caller ---- */

#define GROUP 3

static plumtree_node group[GROUP];
static const char *const group_names[GROUP] = {"a", "b", "c"};

static int place_of(const plumtree_name *name)
{
    for (int i = 0; i < GROUP; i++)
        if (strcmp(name->text, group_names[i]) == 0)
            return i;
    return -1;
}

static void start_group(void)
{
    for (int i = 0; i < GROUP; i++) {
        plumtree_name peers[GROUP - 1];
        for (int j = 0, at = 0; j < GROUP; j++)
            if (j != i)
                peers[at++] = name_of(group_names[j]);
        LOOK(start(&group[i], group_names[i], peers, GROUP - 1) == PLUMTREE_DONE);
    }
}

static void free_group(void)
{
    for (int i = 0; i < GROUP; i++)
        LOOK(plumtree_free(&group[i]) == PLUMTREE_DONE);
    LOOK(blocks == 0);
}

/* Takes all frames to their receivers, but drops those of kind `lost` (the byte after the length and the version). */
static void carry(int lost)
{
    static uint8_t frame[PLUMTREE_FRAME_MAX];
    bool moved = true;
    while (moved) {
        moved = false;
        for (int i = 0; i < GROUP; i++) {
            plumtree_name to;
            size_t length, taken;
            while (plumtree_next_send(&group[i], &to, frame, sizeof frame, &length) == PLUMTREE_DONE) {
                moved = true;
                if (frame[5] == lost)
                    continue;
                roll();
                LOOK(plumtree_receive(&group[place_of(&to)], frame, length, dice, &taken) == PLUMTREE_DONE && taken == length);
            }
        }
    }
}

/* Makes a message that c lacks and that a or b has announced to it. */
static void make_missing(void)
{
    uint64_t number;
    start_group();
    LOOK(plumtree_broadcast(&group[0], BYTES("first"), &number) == PLUMTREE_DONE);
    carry(0);
    for (int i = 0; i < GROUP; i++)
        LOOK(plumtree_flush(&group[i]) == PLUMTREE_DONE);
    carry(0);
    LOOK(plumtree_broadcast(&group[0], BYTES("second"), &number) == PLUMTREE_DONE && number == 2);
    /* the frames of a go to b alone, and those of b, which announces, to c */
    static uint8_t frame[PLUMTREE_FRAME_MAX];
    plumtree_name to;
    size_t length, taken;
    while (plumtree_next_send(&group[0], &to, frame, sizeof frame, &length) == PLUMTREE_DONE)
        if (place_of(&to) == 1)
            LOOK(plumtree_receive(&group[1], frame, length, dice, &taken) == PLUMTREE_DONE);
    LOOK(plumtree_flush(&group[1]) == PLUMTREE_DONE);
    while (plumtree_next_send(&group[1], &to, frame, sizeof frame, &length) == PLUMTREE_DONE)
        if (place_of(&to) == 2)
            LOOK(plumtree_receive(&group[2], frame, length, dice, &taken) == PLUMTREE_DONE);
}

static void timers(void)
{
    plumtree_id id, other;
    for (int way = 0; way < 3; way++) {
        make_missing();
        seen before = see(&group[2]);
        LOOK(before.counts.missing == 1 && before.counts.wants == 1);
        LOOK(plumtree_timer(&group[2], 0, &id) == PLUMTREE_DONE && id.number == 2 && strcmp(id.name.text, "a") == 0);
        LOOK(plumtree_timer(&group[2], 1, &id) == PLUMTREE_NONE && plumtree_timer(&group[2], SIZE_MAX, &id) == PLUMTREE_NONE);
        LOOK(plumtree_fire_at(&group[2], 1) == PLUMTREE_NONE && plumtree_fire_at(&group[2], SIZE_MAX) == PLUMTREE_NONE);
        other = id;
        other.number = 3;
        LOOK(plumtree_fire(&group[2], &other) == PLUMTREE_NONE);
        LOOK(same(before, see(&group[2])));
        if (way == 0)
            LOOK(plumtree_fire(&group[2], &id) == PLUMTREE_DONE);
        else if (way == 1)
            LOOK(plumtree_fire_at(&group[2], 0) == PLUMTREE_DONE);
        else
            LOOK(plumtree_tick(&group[2], dice) == PLUMTREE_DONE);
        LOOK(see(&group[2]).counts.sends == before.counts.sends + 1);
        carry(0);
        LOOK(see(&group[2]).counts.known == 2 && see(&group[2]).counts.missing == 0);
        free_group();
    }
}

static void ticks(void)
{
    make_missing();
    drop_all(&group[0]);
    for (int tick = 1; tick <= 30; tick++) {
        static uint8_t frame[PLUMTREE_FRAME_MAX];
        plumtree_name to;
        size_t length;
        int shuffles = 0;
        LOOK(plumtree_tick(&group[0], dice) == PLUMTREE_DONE);
        while (plumtree_next_send(&group[0], &to, frame, sizeof frame, &length) == PLUMTREE_DONE)
            shuffles += frame[5] == 6;
        LOOK(shuffles == (tick % 10 == 0));
    }
    LOOK(plumtree_shuffle(&group[0], dice) == PLUMTREE_DONE && see(&group[0]).counts.sends == 1);
    seen before = see(&group[0]);
    LOOK(plumtree_link_down(&group[0], BYTES("nobody"), dice) == PLUMTREE_DONE && same(before, see(&group[0])));
    LOOK(plumtree_link_down(&group[0], BYTES("No"), dice) == PLUMTREE_BAD_NAME && same(before, see(&group[0])));
    LOOK(plumtree_link_down(&group[0], BYTES("b"), dice) == PLUMTREE_DONE && see(&group[0]).actives == 1);
    free_group();
}

/* All links of c fail, and it joins again by a: it gets what is broadcast from then on. */
static void joins(void)
{
    uint64_t number;
    start_group();
    for (int i = 0; i < 2; i++) {
        LOOK(plumtree_link_down(&group[i], BYTES("c"), dice) == PLUMTREE_DONE);
        LOOK(plumtree_link_down(&group[2], (const uint8_t *)group_names[i], 1, dice) == PLUMTREE_DONE);
    }
    LOOK(plumtree_broadcast(&group[0], BYTES("early"), &number) == PLUMTREE_DONE);
    carry(0);
    seen before = see(&group[2]);
    LOOK(before.actives == 0 && before.passives == 0 && before.counts.known == 0 && before.counts.sends == 0);
    LOOK(plumtree_join(&group[2], BYTES("c")) == PLUMTREE_DONE && same(before, see(&group[2])));
    LOOK(plumtree_join(&group[2], BYTES("No")) == PLUMTREE_BAD_NAME && same(before, see(&group[2])));
    LOOK(plumtree_join(&group[2], BYTES("a")) == PLUMTREE_DONE);
    LOOK(see(&group[2]).counts.sends == 1 && see(&group[2]).actives == 0);
    carry(0);
    before = see(&group[2]);
    LOOK(before.actives == 2 && see(&group[0]).actives == 2 && see(&group[1]).actives == 2);
    LOOK(plumtree_join(&group[2], BYTES("a")) == PLUMTREE_DONE && same(before, see(&group[2])));
    LOOK(plumtree_broadcast(&group[1], BYTES("late"), &number) == PLUMTREE_DONE);
    carry(0);
    LOOK(see(&group[2]).counts.known == 1 && see(&group[0]).counts.known == 2);
    free_group();
}

/* ---- Any bytes as frames ---- */

/* Gives the bytes to a node: it answers what plumtree.h says, and where it refuses nothing changes. */
static void take_any(plumtree_node *node, const uint8_t *bytes, size_t length)
{
    size_t taken = 99;
    seen before = see(node);
    int32_t answer = plumtree_receive(node, bytes, length, dice, &taken);
    if (answer == PLUMTREE_DONE) {
        LOOK(0 < taken && taken <= length);
        drop_all(node);
    } else {
        LOOK(taken == 0 && same(before, see(node)));
        LOOK(answer == PLUMTREE_NONE || (PLUMTREE_TRAILING <= answer && answer <= PLUMTREE_FRAME_TOO_LONG));
    }
}

/* Changes each byte of a frame to each `every`th value, and cuts the frame at each place. */
static void spoil(const uint8_t *frame, size_t length, int every)
{
    static uint8_t bytes[PLUMTREE_FRAME_MAX];
    plumtree_node node = {0};
    plumtree_name peers[3] = {name_of("a"), name_of("b"), name_of("c")};
    LOOK(start(&node, "d", peers, 3) == PLUMTREE_DONE);
    for (size_t at = 0; at < length; at++)
        for (int value = 0; value < 256; value += every) {
            memcpy(bytes, frame, length);
            bytes[at] = (uint8_t)value;
            take_any(&node, bytes, length);
        }
    for (size_t size = 0; size < length; size++)
        take_any(&node, frame, size);
    LOOK(plumtree_free(&node) == PLUMTREE_DONE);
}

static void any_bytes(long rounds)
{
    static const uint8_t graft_peer[] = {0, 0, 0, 0x14, 2, 0xc, 1, 'a', 0, 0, 0, 0, 0, 0, 0, 1, 0, 0, 0, 0, 0, 0, 0, 3};
    static uint8_t frame[PLUMTREE_FRAME_MAX];
    plumtree_node node = {0};
    plumtree_name peer = name_of("a"), to;
    size_t length;
    uint64_t number;
    int every = rounds < 100000 ? 37 : 1;
    spoil(graft_peer, sizeof graft_peer, every);
    make_missing();
    LOOK(plumtree_tick(&group[2], dice) == PLUMTREE_DONE);
    LOOK(plumtree_broadcast(&group[1], BYTES("third"), &number) == PLUMTREE_DONE);
    for (int i = 0; i < GROUP; i++) {
        LOOK(plumtree_flush(&group[i]) == PLUMTREE_DONE);
        LOOK(plumtree_shuffle(&group[i], dice) == PLUMTREE_DONE);
        while (plumtree_next_send(&group[i], &to, frame, sizeof frame, &length) == PLUMTREE_DONE)
            spoil(frame, length, every);
    }
    free_group();
    LOOK(start(&node, "c", &peer, 1) == PLUMTREE_DONE);
    for (long round = 0; round < rounds; round++) {
        length = random_word() % 120;
        for (size_t at = 0; at < length; at++)
            frame[at] = (uint8_t)random_word();
        if (length > 6 && random_word() % 8 != 0) { /* a length that fits, a version and a kind */
            frame[0] = frame[1] = frame[2] = 0;
            frame[3] = (uint8_t)(length - 4);
            frame[4] = 1;
            frame[5] = (uint8_t)(1 + random_word() % 11);
            frame[6] = 1;
            frame[7] = (uint8_t)('a' + random_word() % 26);
        }
        take_any(&node, frame, length);
    }
    LOOK(plumtree_free(&node) == PLUMTREE_DONE && blocks == 0);
}

/* ---- Refused allocations ---- */

typedef int32_t (*call)(plumtree_node *node);

static uint8_t heard[PLUMTREE_FRAME_MAX];
static size_t heard_length;

static int32_t call_broadcast(plumtree_node *node)
{
    uint64_t number;
    return plumtree_broadcast(node, BYTES("more"), &number);
}

static int32_t call_receive(plumtree_node *node)
{
    size_t taken;
    return plumtree_receive(node, heard, heard_length, dice, &taken);
}

static int32_t call_flush(plumtree_node *node)
{
    return plumtree_flush(node);
}

static int32_t call_fire(plumtree_node *node)
{
    return plumtree_fire_at(node, 0);
}

static int32_t call_shuffle(plumtree_node *node)
{
    return plumtree_shuffle(node, dice);
}

static int32_t call_link_down(plumtree_node *node)
{
    return plumtree_link_down(node, BYTES("a"), dice);
}

static int32_t call_join(plumtree_node *node)
{
    return plumtree_join(node, BYTES("a"));
}

static int32_t call_next_send(plumtree_node *node)
{
    static uint8_t room[PLUMTREE_FRAME_MAX];
    plumtree_name to;
    size_t length;
    return plumtree_next_send(node, &to, room, sizeof room, &length);
}

/* Each allocation of the call is refused in turn: nothing changes, and the call is made at last. */
static long refuse_each(plumtree_node *node, call it)
{
    seen before = see(node);
    for (long nth = 1; nth < 100; nth++) {
        until_refusal = nth;
        int32_t answer = it(node);
        bool refused = until_refusal == 0;
        until_refusal = 0;
        if (!refused) {
            LOOK(answer == PLUMTREE_DONE);
            return nth - 1;
        }
        LOOK(answer == PLUMTREE_OUT_OF_MEMORY && same(before, see(node)));
    }
    LOOK(false);
    return 0;
}

static void refusals(void)
{
    plumtree_node node = {0};
    plumtree_limits limits = standard();
    plumtree_name peers[2] = {name_of("a"), name_of("b")};
    long refused = 0;
    for (long nth = 1;; nth++) {
        until_refusal = nth;
        int32_t answer = plumtree_start(&node, BYTES("c"), 1, &limits, peers, 2, BYTES("d"));
        bool was = until_refusal == 0;
        until_refusal = 0;
        if (!was) {
            LOOK(answer == PLUMTREE_DONE && nth > 1);
            break;
        }
        LOOK(answer == PLUMTREE_OUT_OF_MEMORY && node.live == 0 && node.at == NULL && blocks == 0);
    }
    LOOK(plumtree_free(&node) == PLUMTREE_DONE && blocks == 0);
    make_missing();
    refused += refuse_each(&group[2], call_fire);
    refused += refuse_each(&group[2], call_next_send);
    refused += refuse_each(&group[2], call_broadcast);
    for (int i = 0; i < 2; i++) {
        plumtree_name to;
        refused += refuse_each(&group[i], call_broadcast);
        refused += refuse_each(&group[i], call_flush);
        while (plumtree_next_send(&group[i], &to, heard, sizeof heard, &heard_length) == PLUMTREE_DONE)
            if (place_of(&to) == 2)
                refused += refuse_each(&group[2], call_receive);
    }
    refused += refuse_each(&group[2], call_flush);
    refused += refuse_each(&group[2], call_shuffle);
    refused += refuse_each(&group[2], call_link_down);
    refused += refuse_each(&group[2], call_join);
    LOOK(refused >= 10);
    /* a tick that is refused is made at last, and nothing is lost */
    for (int tick = 1; tick <= 20; tick++)
        for (long nth = 1;; nth++) {
            until_refusal = nth;
            int32_t answer = plumtree_tick(&group[2], dice);
            bool was = until_refusal == 0;
            until_refusal = 0;
            LOOK(answer == (was ? PLUMTREE_OUT_OF_MEMORY : PLUMTREE_DONE));
            if (!was)
                break;
        }
    free_group();
}

/* ---- A larger group, with calls in any order ---- */

#define MANY 12
#define MESSAGES 400
#define FLIGHT 4096

static plumtree_node many[MANY];
static bool has_delivered[MANY][MANY][MESSAGES + 1];
static uint64_t has_broadcast[MANY];

/* Frames under way, each link's in order. */
static struct flying {
    uint8_t *bytes;
    size_t length;
    int from, to;
} flying[FLIGHT];
static int flights;

static int numbered(const plumtree_name *name)
{
    return atoi(name->text + 1);
}

/* Takes all that waits at a node. */
static void take_all(int at)
{
    static uint8_t room[PLUMTREE_FRAME_MAX];
    plumtree_name to;
    plumtree_id id;
    size_t length;
    int32_t answer;
    while (flights < FLIGHT && (answer = plumtree_next_send(&many[at], &to, room, sizeof room, &length)) != PLUMTREE_NONE) {
        LOOK(answer == PLUMTREE_DONE || answer == PLUMTREE_OUT_OF_MEMORY);
        if (answer != PLUMTREE_DONE)
            continue;
        struct flying it = {malloc(length), length, at, numbered(&to)};
        memcpy(it.bytes, room, length);
        flying[flights++] = it;
    }
    while ((answer = plumtree_next_delivery(&many[at], &id, room, sizeof room, &length)) != PLUMTREE_NONE) {
        int origin = numbered(&id.name);
        LOOK(answer == PLUMTREE_DONE && 1 <= id.number && id.number <= has_broadcast[origin]);
        LOOK(!has_delivered[at][origin][id.number]);
        LOOK(length == 8 && room[0] == origin && room[1] == (uint8_t)id.number);
        has_delivered[at][origin][id.number] = true;
    }
}

/* Some frame under way arrives: the first of some link. */
static void arrive(void)
{
    if (flights == 0)
        return;
    int at = (int)(random_word() % (uint64_t)flights);
    for (int i = 0; i < at; i++)
        if (flying[i].from == flying[at].from && flying[i].to == flying[at].to)
            at = i;
    size_t taken;
    roll();
    int32_t answer = plumtree_receive(&many[flying[at].to], flying[at].bytes, flying[at].length, dice, &taken);
    if (answer == PLUMTREE_OUT_OF_MEMORY)
        return;
    LOOK(answer == PLUMTREE_DONE && taken == flying[at].length);
    free(flying[at].bytes);
    memmove(&flying[at], &flying[at + 1], (size_t)(--flights - at) * sizeof flying[0]);
}

/* One frame of each kind that a small group with small views sends, spoiled. */
static void spoil_kinds(int every)
{
    static uint8_t copy[PLUMTREE_FRAME_MAX];
    bool spoiled[16] = {false};
    plumtree_limits limits = standard();
    int kinds = 0;
    limits.active = 2;
    limits.threshold = 1;
    memset(has_broadcast, 0, sizeof has_broadcast);
    memset(has_delivered, 0, sizeof has_delivered);
    for (int i = 0; i < 6; i++) {
        char text[8];
        int length = snprintf(text, sizeof text, "n%d", i);
        LOOK(plumtree_start(&many[i], (const uint8_t *)text, (size_t)length, 1, &limits, NULL, 0,
                            (const uint8_t *)"n0", i == 0 ? 0 : 2) == PLUMTREE_DONE);
        for (int turn = 0; turn < 400; turn++) {
            int at = (int)(random_word() % (uint64_t)(i + 1));
            uint8_t payload[8] = {(uint8_t)at, (uint8_t)(has_broadcast[at] + 1)};
            uint64_t number;
            if (turn % 20 == 0 && has_broadcast[at] < MESSAGES) {
                LOOK(plumtree_broadcast(&many[at], payload, sizeof payload, &number) == PLUMTREE_DONE);
                has_broadcast[at]++;
            }
            roll();
            if (turn % 3 == 0)
                LOOK(plumtree_tick(&many[at], dice) == PLUMTREE_DONE);
            take_all(at);
            if (flights > 0 && !spoiled[flying[0].bytes[5]]) {
                size_t size = flying[0].length;
                memcpy(copy, flying[0].bytes, size);
                spoiled[copy[5]] = true;
                kinds++;
                spoil(copy, size, every);
            }
            arrive();
        }
    }
    LOOK(kinds >= 11);
    while (flights > 0)
        free(flying[--flights].bytes);
    for (int i = 0; i < 6; i++)
        LOOK(plumtree_free(&many[i]) == PLUMTREE_DONE);
    memset(has_broadcast, 0, sizeof has_broadcast);
    memset(has_delivered, 0, sizeof has_delivered);
    LOOK(blocks == 0);
}

static void any_order(long rounds)
{
    plumtree_limits limits = standard();
    for (int i = 0; i < MANY; i++) {
        char text[8];
        int length = snprintf(text, sizeof text, "n%d", i);
        LOOK(plumtree_start(&many[i], (const uint8_t *)text, (size_t)length, 1, &limits, NULL, 0,
                            (const uint8_t *)"n0", i == 0 ? 0 : 2) == PLUMTREE_DONE);
        take_all(i);
        while (flights > 0) {
            arrive();
            for (int j = 0; j <= i; j++)
                take_all(j);
        }
    }
    for (long round = 0; round < rounds; round++) {
        int at = (int)(random_word() % MANY);
        if (random_word() % 16 == 0)
            until_refusal = (long)(random_word() % 8) + 1;
        switch (random_word() % 8) {
        case 0:
            if (has_broadcast[at] < MESSAGES) {
                uint8_t payload[8] = {(uint8_t)at, (uint8_t)(has_broadcast[at] + 1)};
                uint64_t number = 0;
                int32_t answer = plumtree_broadcast(&many[at], payload, sizeof payload, &number);
                LOOK(answer == PLUMTREE_DONE || answer == PLUMTREE_OUT_OF_MEMORY);
                if (answer == PLUMTREE_DONE)
                    LOOK(number == ++has_broadcast[at]);
            }
            break;
        case 1:
            roll();
            int32_t answer = plumtree_tick(&many[at], dice);
            LOOK(answer == PLUMTREE_DONE || answer == PLUMTREE_OUT_OF_MEMORY);
            break;
        default:
            arrive();
        }
        until_refusal = 0;
        if (round % 4 == 0)
            for (int i = 0; i < MANY; i++)
                take_all(i);
    }
    /* then the group comes to rest: all have all messages */
    for (int turn = 0; turn < 200; turn++) {
        for (int i = 0; i < MANY; i++) {
            roll();
            if (turn % 10 == 0)
                LOOK(plumtree_tick(&many[i], dice) == PLUMTREE_DONE);
            take_all(i);
        }
        while (flights > 0) {
            arrive();
            for (int i = 0; i < MANY; i++)
                take_all(i);
        }
    }
    for (int i = 0; i < MANY; i++) {
        seen it = see(&many[i]);
        uint64_t all = 0;
        for (int origin = 0; origin < MANY; origin++) {
            all += has_broadcast[origin];
            for (uint64_t number = 1; number <= has_broadcast[origin]; number++)
                LOOK(has_delivered[i][origin][number]);
        }
        LOOK(it.counts.known == all && it.counts.missing == 0 && it.actives == it.eagers + it.lazies);
        LOOK(plumtree_free(&many[i]) == PLUMTREE_DONE);
    }
    LOOK(blocks == 0);
}

/* ---- Words and structs ---- */

static void words(void)
{
    uint8_t room[64];
    size_t length;
    for (int32_t answer = -40; answer < 40; answer++) {
        memset(room, 0xee, sizeof room);
        int32_t found = plumtree_words(answer, room, sizeof room, &length);
        LOOK(found == (-19 <= answer && answer <= 1 ? PLUMTREE_DONE : PLUMTREE_NONE));
        if (found != PLUMTREE_DONE) {
            LOOK(length == 0 && room[0] == 0xee);
            continue;
        }
        LOOK(0 < length && length < sizeof room && strlen((char *)room) == length && room[length + 1] == 0xee);
        memset(room, 0xee, sizeof room);
        LOOK(plumtree_words(answer, room, length - 1, &length) == PLUMTREE_ROOM_TOO_SMALL && room[0] == 0xee);
        LOOK(plumtree_words(answer, room, length, &length) == PLUMTREE_DONE && room[length] == 0xee);
    }
    LOOK(plumtree_words(INT32_MIN, room, sizeof room, &length) == PLUMTREE_NONE);
    LOOK(plumtree_words(INT32_MAX, room, sizeof room, &length) == PLUMTREE_NONE);
    LOOK(plumtree_version() == PLUMTREE_VERSION);
}

/* What the library writes stands where plumtree.h says, and nothing beside it. */
static void structs(void)
{
    struct {
        uint8_t before[8];
        plumtree_limits it;
        uint8_t after[8];
    } limits;
    struct {
        uint8_t before[8];
        plumtree_counts it;
        uint8_t after[8];
    } counts;
    struct {
        uint8_t before[8];
        plumtree_id it;
        uint8_t after[8];
    } id;
    plumtree_node node = {0};
    plumtree_name peer = name_of("b");
    uint64_t number;
    uint8_t payload[8];
    size_t length;
    memset(&limits, 0xee, sizeof limits);
    plumtree_limits_default(&limits.it);
    LOOK(limits.before[7] == 0xee && limits.after[0] == 0xee && limits.it.kp == 4 && limits.it.keep == 0);
    LOOK(start(&node, "a", &peer, 1) == PLUMTREE_DONE);
    LOOK(plumtree_broadcast(&node, BYTES("x"), &number) == PLUMTREE_DONE);
    LOOK(plumtree_broadcast(&node, BYTES("y"), &number) == PLUMTREE_DONE);
    memset(&counts, 0xee, sizeof counts);
    LOOK(plumtree_counts_of(&node, &counts.it) == PLUMTREE_DONE);
    LOOK(counts.before[7] == 0xee && counts.after[0] == 0xee);
    LOOK(counts.it.known == 2 && counts.it.held == 2 && counts.it.missing == 0 && counts.it.wants == 0);
    LOOK(counts.it.queued == 0 && counts.it.sends == 2 && counts.it.deliveries == 2);
    memset(&id, 0xee, sizeof id);
    LOOK(plumtree_next_delivery(&node, &id.it, payload, sizeof payload, &length) == PLUMTREE_DONE);
    LOOK(id.before[7] == 0xee && id.after[0] == 0xee && id.it.incarnation == 7 && id.it.number == 1);
    LOOK(plumtree_counts_of(&node, &counts.it) == PLUMTREE_DONE && counts.it.known == 2 && counts.it.deliveries == 1);
    LOOK(plumtree_free(&node) == PLUMTREE_DONE && blocks == 0);
}

int main(int count, char **arguments)
{
    long rounds = count > 1 ? atol(arguments[1]) : 200000;
    words();
    structs();
    slots();
    empty();
    too_small();
    text_limits();
    limit_limits();
    peer_limits();
    payload_limits();
    timers();
    ticks();
    joins();
    any_bytes(rounds);
    refusals();
    spoil_kinds(rounds < 100000 ? 37 : 1);
    any_order(rounds);
    printf("%ld passed, %ld failed\n", looked - failed, failed);
    return failed != 0;
}
