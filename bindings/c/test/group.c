/* Plays a random group of nodes over the library, and writes the same group as a scenario of the simulator, so that
 * what both say can be compared: bindings/check does so.
 *
 * usage: group SEED EVENTS SCENARIO
 *
 * Standard output has a line for each packet and delivery, in order, and at the end one for each node that runs. The
 * memory of this program refuses now and then: the call is then made again, and must go on as if nothing had been.
 * Before some calls stand others that must be refused and change nothing. Standard error counts the calls. */
#include "plumtree.h"

#include <inttypes.h>
#include <stdbool.h>
#include <stdio.h>
#include <stdlib.h>
#include <string.h>

enum { NODES = 8, PACKETS = 1 << 20, FLIGHT = 4096, TEXT = 600 };

/* A frame that was sent, and its receiver. */
typedef struct packet {
    char to;
    size_t length;
    uint8_t *bytes;
} packet;

static plumtree_node nodes[NODES];
static bool runs[NODES];
static uint64_t highest[NODES], ticks[NODES];
static plumtree_limits limits;
static packet sent[PACKETS];
static size_t sent_count, flight[FLIGHT], flight_count;
static FILE *scenario;
static uint64_t calls;

static void fail(const char *what, int32_t answer)
{
    fprintf(stderr, "group: %s: answer %" PRId32 "\n", what, answer);
    exit(1);
}

/* ---- Memory that refuses ---- */

typedef struct rattle_tried {
    bool ok;
    void *p;
} rattle_tried;

rattle_tried rattle_alloc(size_t n, size_t align);
rattle_tried rattle_realloc(void *p, size_t kept, size_t n, size_t align);
void rattle_dealloc(void *p);

static long until_refusal; /* this many growths more, and one is refused; 0: none is */
static max_align_t nowhere;

static rattle_tried grown(void *p, size_t n)
{
    bool refuses = until_refusal > 0 && --until_refusal == 0;
    void *q = refuses ? NULL : realloc(p, n);
    return (rattle_tried){q != NULL, q != NULL ? q : &nowhere};
}

rattle_tried rattle_alloc(size_t n, size_t align)
{
    return grown(NULL, n != 0 ? n : align);
}

rattle_tried rattle_realloc(void *p, size_t kept, size_t n, size_t align)
{
    (void)kept;
    return grown(p, n != 0 ? n : align);
}

void rattle_dealloc(void *p)
{
    free(p);
}

/* ---- Random numbers ---- */

static uint64_t state;

/* The next number below a bound, by SplitMix64. */
static uint64_t below(uint64_t bound)
{
    uint64_t z = state += 0x9e3779b97f4a7c15;
    z = (z ^ z >> 30) * 0xbf58476d1ce4e5b9;
    z = (z ^ z >> 27) * 0x94d049bb133111eb;
    return (z ^ z >> 31) % bound;
}

/* The simulator's dice: the generator PCG XSL RR 128/64 that a seed starts (docs/scenarios.md). */
typedef unsigned __int128 wide;
static wide dice_state, dice_step;

static void turn_dice(void)
{
    dice_state = dice_state * ((wide)0x2360ed051fc65da4 << 64 | 0x4385df649fccf645) + dice_step;
}

/* Starts the dice by a seed, which PCG32 makes into 32 bytes. */
static void seed_dice(uint64_t seed)
{
    wide half[2] = {0, 0};
    for (int i = 0; i < 8; i++) {
        seed = seed * 6364136223846793005u + 11634580027462260723u;
        uint32_t mixed = (uint32_t)((seed >> 18 ^ seed) >> 27), turns = (uint32_t)(seed >> 59);
        uint32_t word = mixed >> turns | mixed << (-turns & 31);
        half[i / 4] |= (wide)word << i % 4 * 32;
    }
    dice_step = half[1] | 1;
    dice_state = half[0] + dice_step;
    turn_dice();
}

static void roll(uint64_t dice[PLUMTREE_DICE])
{
    for (int i = 0; i < PLUMTREE_DICE; i++) {
        turn_dice();
        uint64_t mixed = (uint64_t)(dice_state >> 64) ^ (uint64_t)dice_state;
        unsigned turns = (unsigned)(dice_state >> 122);
        dice[i] = mixed >> turns | mixed << (-turns & 63);
    }
}

/* ---- Calls ---- */

/* Makes a call, at times first with memory that refuses. */
#define CALL(answer, call)                                        \
    do {                                                          \
        until_refusal = below(4) == 0 ? 1 + (long)below(12) : 0;  \
        calls++;                                                  \
        answer = (call);                                          \
        until_refusal = 0;                                        \
        if (answer == PLUMTREE_OUT_OF_MEMORY) {                   \
            calls++;                                              \
            answer = (call);                                      \
        }                                                         \
    } while (0)

static void wants(const char *what, int32_t answer, int32_t wanted)
{
    calls++;
    if (answer != wanted)
        fail(what, answer);
}

static char name_of(int at)
{
    return (char)('a' + at);
}

static void print_hex(const uint8_t *bytes, size_t length)
{
    for (size_t i = 0; i < length; i++)
        printf("%02x", bytes[i]);
    printf("%s\n", length == 0 ? "-" : "");
}

/* Puts a frame into flight. */
static void fly(int from, const plumtree_name *to, const uint8_t *bytes, size_t length)
{
    uint8_t *copy = malloc(length);
    if (copy == NULL || sent_count == PACKETS || flight_count == FLIGHT)
        fail("too many packets", 0);
    memcpy(copy, bytes, length);
    printf("packet %zu %c/%" PRIu64 " -> %s ", sent_count, name_of(from), highest[from], to->text);
    print_hex(bytes, length);
    flight[flight_count++] = sent_count;
    sent[sent_count++] = (packet){to->text[0], length, copy};
}

/* Takes all that a node has to send and to deliver, each once with too little room first. */
static void take_all(int at)
{
    static uint8_t room[PLUMTREE_FRAME_MAX];
    plumtree_name to;
    plumtree_id id;
    size_t length, size;
    int32_t answer;
    for (;;) {
        size = below(3) == 0 ? below(40) : sizeof room;
        CALL(answer, plumtree_next_delivery(&nodes[at], &id, room, size, &length));
        if (answer == PLUMTREE_NONE)
            break;
        if (answer == PLUMTREE_DONE) {
            printf("deliver %c/%" PRIu64 " %s/%" PRIu64 "/%" PRIu64 " %zu ", name_of(at), highest[at], id.name.text,
                   id.incarnation, id.number, length);
            print_hex(room, length);
        } else if (answer != PLUMTREE_ROOM_TOO_SMALL || length <= size) {
            fail("next_delivery", answer);
        }
    }
    for (;;) {
        size = below(3) == 0 ? below(80) : sizeof room;
        CALL(answer, plumtree_next_send(&nodes[at], &to, room, size, &length));
        if (answer == PLUMTREE_NONE)
            break;
        if (answer == PLUMTREE_DONE)
            fly(at, &to, room, length);
        else if (answer != PLUMTREE_ROOM_TOO_SMALL || length <= size)
            fail("next_send", answer);
    }
}

/* Makes calls with a running node that are refused or find nothing. */
static void bother(int at)
{
    static const uint8_t garbage[] = {0, 0, 0, 9, 7, 200, 1, 2, 3, 4, 5, 6, 7};
    static uint8_t long_payload[PLUMTREE_PAYLOAD_MAX + 1];
    static const uint64_t dice[PLUMTREE_DICE];
    plumtree_id id = {{"nobody", 6}, 7, 7};
    plumtree_name bad = {"Nobody", 6};
    uint64_t number;
    size_t taken;
    wants("no bytes", plumtree_receive(&nodes[at], NULL, 0, dice, &taken), PLUMTREE_NONE);
    wants("garbage", plumtree_receive(&nodes[at], garbage, sizeof garbage, dice, &taken), PLUMTREE_BAD_VERSION);
    wants("long", plumtree_broadcast(&nodes[at], long_payload, sizeof long_payload, &number), PLUMTREE_PAYLOAD_TOO_LONG);
    wants("no timer", plumtree_fire(&nodes[at], &id), PLUMTREE_NONE);
    wants("unknown", plumtree_knows(&nodes[at], &id), PLUMTREE_NONE);
    wants("bad name", plumtree_link_down(&nodes[at], (const uint8_t *)bad.text, 6, dice), PLUMTREE_BAD_NAME);
    wants("bad contact", plumtree_join(&nodes[at], (const uint8_t *)bad.text, 6), PLUMTREE_BAD_NAME);
    wants("twice", plumtree_start(&nodes[at], (const uint8_t *)"z", 1, 1, &limits, NULL, 0, NULL, 0), PLUMTREE_LIVE);
}

/* ---- Events ---- */

static void start(int at)
{
    plumtree_name peers[NODES] = {0};
    size_t count = 0, most = below(limits.active + 1u);
    char contact = below(2) ? name_of((at + 1 + (int)below(NODES - 1)) % NODES) : 0;
    int32_t answer;
    for (int other = 0; other < NODES; other++)
        if (other != at && count < most && below(2))
            peers[count++] = (plumtree_name){{name_of(other)}, 1};
    highest[at] += 1 + below(3);
    fprintf(scenario, "{do=\"start\",node=\"%c\",incarnation=%" PRIu64 ",peers=[", name_of(at), highest[at]);
    for (size_t i = 0; i < count; i++)
        fprintf(scenario, "\"%s\",", peers[i].text);
    fprintf(scenario, contact ? "],contact=\"%c\"},\n" : "]},\n", contact);
    char name = name_of(at);
    CALL(answer, plumtree_start(&nodes[at], (const uint8_t *)&name, 1, highest[at], &limits, peers, count,
                                (const uint8_t *)&contact, contact != 0));
    if (answer != PLUMTREE_DONE)
        fail("start", answer);
    runs[at] = true;
    ticks[at] = 0;
    take_all(at);
}

static void stop(int at)
{
    wants("free", plumtree_free(&nodes[at]), PLUMTREE_DONE);
    wants("free again", plumtree_free(&nodes[at]), PLUMTREE_NONE);
    runs[at] = false;
    fprintf(scenario, "{do=\"stop\",node=\"%c\"},\n", name_of(at));
}

static void broadcast(int at)
{
    char text[TEXT + 1];
    size_t length = below(20) == 0 ? below(TEXT) : below(20);
    uint64_t number;
    int32_t answer;
    for (size_t i = 0; i < length; i++)
        text[i] = (char)('a' + below(26));
    text[length] = 0;
    fprintf(scenario, "{do=\"broadcast\",node=\"%c\",text=\"%s\"},\n", name_of(at), text);
    CALL(answer, plumtree_broadcast(&nodes[at], (const uint8_t *)text, length, &number));
    if (answer != PLUMTREE_DONE)
        fail("broadcast", answer);
    take_all(at);
}

/* Takes a packet out of the flight. */
static packet *land(size_t place)
{
    packet *it = &sent[flight[place]];
    flight_count--;
    memmove(flight + place, flight + place + 1, (flight_count - place) * sizeof *flight);
    return it;
}

/* A packet arrives, with bytes of another behind it, or is lost where its receiver does not run. */
static void arrive(size_t place)
{
    static uint8_t room[PLUMTREE_FRAME_MAX + 8];
    uint64_t dice[PLUMTREE_DICE];
    size_t taken, more = below(9);
    int32_t answer;
    packet *it = land(place);
    int at = it->to - 'a';
    fprintf(scenario, "{do=\"%s\",place=%zu},\n", runs[at] ? "arrive" : "lose", place);
    if (!runs[at])
        return;
    roll(dice);
    memcpy(room, it->bytes, it->length);
    memset(room + it->length, 0, 8);
    CALL(answer, plumtree_receive(&nodes[at], room, it->length - 1, dice, &taken));
    if (answer != PLUMTREE_NONE || taken != 0)
        fail("receive a cut frame", answer);
    CALL(answer, plumtree_receive(&nodes[at], room, it->length + more, dice, &taken));
    if (answer != PLUMTREE_DONE || taken != it->length)
        fail("receive", answer);
    take_all(at);
}

static void fire(int at)
{
    plumtree_counts counts;
    plumtree_id id = {{"a", 1}, highest[0] + 9, 1};
    int32_t answer, wanted = PLUMTREE_NONE;
    wants("counts_of", plumtree_counts_of(&nodes[at], &counts), PLUMTREE_DONE);
    if (counts.missing > 0) {
        wants("timer", plumtree_timer(&nodes[at], below(counts.missing), &id), PLUMTREE_DONE);
        wanted = PLUMTREE_DONE;
    }
    fprintf(scenario, "{do=\"fire\",node=\"%c\",origin=\"%s\",incarnation=%" PRIu64 ",seq=%" PRIu64 "},\n", name_of(at),
            id.name.text, id.incarnation, id.number);
    CALL(answer, plumtree_fire(&nodes[at], &id));
    if (answer != wanted)
        fail("fire", answer);
    take_all(at);
}

static void flush(int at)
{
    int32_t answer;
    fprintf(scenario, "{do=\"flush\",node=\"%c\"},\n", name_of(at));
    CALL(answer, plumtree_flush(&nodes[at]));
    if (answer != PLUMTREE_DONE)
        fail("flush", answer);
    take_all(at);
}

static void shuffle(int at)
{
    uint64_t dice[PLUMTREE_DICE];
    int32_t answer;
    roll(dice);
    fprintf(scenario, "{do=\"shuffle\",node=\"%c\"},\n", name_of(at));
    CALL(answer, plumtree_shuffle(&nodes[at], dice));
    if (answer != PLUMTREE_DONE)
        fail("shuffle", answer);
    take_all(at);
}

static void down(int at)
{
    uint64_t dice[PLUMTREE_DICE];
    char peer = name_of((int)below(NODES));
    int32_t answer;
    roll(dice);
    fprintf(scenario, "{do=\"down\",node=\"%c\",peer=\"%c\"},\n", name_of(at), peer);
    CALL(answer, plumtree_link_down(&nodes[at], (const uint8_t *)&peer, 1, dice));
    if (answer != PLUMTREE_DONE)
        fail("link_down", answer);
    take_all(at);
}

static void join(int at)
{
    char contact = name_of((int)below(NODES));
    int32_t answer;
    fprintf(scenario, "{do=\"join\",node=\"%c\",contact=\"%c\"},\n", name_of(at), contact);
    CALL(answer, plumtree_join(&nodes[at], (const uint8_t *)&contact, 1));
    if (answer != PLUMTREE_DONE)
        fail("join", answer);
    take_all(at);
}

/* A tick is a flush, a firing of each armed timer, and at each tenth a shuffle. Memory does not refuse it: a tick that
 * was refused keeps the steps before. */
static void tick(int at)
{
    uint64_t dice[PLUMTREE_DICE] = {0};
    plumtree_id id;
    fprintf(scenario, "{do=\"flush\",node=\"%c\"},\n", name_of(at));
    for (size_t i = 0; plumtree_timer(&nodes[at], i, &id) == PLUMTREE_DONE; i++)
        fprintf(scenario, "{do=\"fire\",node=\"%c\",origin=\"%s\",incarnation=%" PRIu64 ",seq=%" PRIu64 "},\n",
                name_of(at), id.name.text, id.incarnation, id.number);
    if (++ticks[at] % 10 == 0) {
        roll(dice);
        fprintf(scenario, "{do=\"shuffle\",node=\"%c\"},\n", name_of(at));
    }
    wants("tick", plumtree_tick(&nodes[at], dice), PLUMTREE_DONE);
    take_all(at);
}

/* A packet is lost, or is in flight once more. */
static void lose_or_repeat(void)
{
    if (flight_count > 0 && below(2)) {
        size_t place = below(flight_count);
        land(place);
        fprintf(scenario, "{do=\"lose\",place=%zu},\n", place);
    } else if (sent_count > 0 && flight_count < FLIGHT / 2) {
        size_t number = below(2) ? below(sent_count) : sent_count - 1 - below(sent_count < 50 ? sent_count : 50);
        flight[flight_count++] = number;
        fprintf(scenario, "{do=\"again\",number=%zu},\n", number);
    }
}

/* Something happens to a node that runs. */
static void happen(int at, uint64_t what)
{
    if (what < 34)
        broadcast(at);
    else if (what < 54)
        flush(at);
    else if (what < 74)
        fire(at);
    else if (what < 83)
        tick(at);
    else if (what < 90)
        shuffle(at);
    else if (what < 95)
        down(at);
    else if (what < 98)
        join(at);
    else if (what < 99)
        bother(at);
    else
        stop(at);
}

static void play_one(void)
{
    int at = (int)below(NODES);
    if (flight_count > 0 && below(100) < (flight_count > 40 ? 90 : 60))
        arrive(below(3) ? 0 : below(flight_count));
    else if (below(12) == 0)
        lose_or_repeat();
    else if (!runs[at])
        start(at);
    else
        happen(at, below(100));
}

/* ---- The end ---- */

typedef int32_t reader(plumtree_node *node, plumtree_name *room, size_t room_size, size_t *length);

static void print_names(const char *part, reader *read, int at)
{
    plumtree_name names[PLUMTREE_PASSIVE_MAX];
    size_t length;
    wants(part, read(&nodes[at], names, PLUMTREE_PASSIVE_MAX, &length), PLUMTREE_DONE);
    if (length > 0)
        printf(" | %s:", part);
    for (size_t i = 0; i < length; i++)
        printf(" %s", names[i].text);
}

/* Prints a node as a trace of the simulator does, but of what is queued and wanted only how many there are. */
static void print_node(int at)
{
    plumtree_counts counts;
    plumtree_id id;
    wants("counts_of", plumtree_counts_of(&nodes[at], &counts), PLUMTREE_DONE);
    printf("node %c/%" PRIu64, name_of(at), highest[at]);
    print_names("active", plumtree_active, at);
    print_names("passive", plumtree_passive, at);
    print_names("eager", plumtree_eager, at);
    print_names("lazy", plumtree_lazy, at);
    printf(" | queue %" PRIu64 " | wants %" PRIu64 " | timers:", counts.queued, counts.wants);
    for (size_t i = 0; plumtree_timer(&nodes[at], i, &id) == PLUMTREE_DONE; i++)
        printf(" %s/%" PRIu64 "/%" PRIu64, id.name.text, id.incarnation, id.number);
    printf("\n");
    wants("free", plumtree_free(&nodes[at]), PLUMTREE_DONE);
}

static void set_limits(void)
{
    plumtree_limits_default(&limits);
    limits.active = (uint8_t)(2 + below(3));
    limits.passive = (uint8_t)(1 + below(6));
    limits.threshold = (uint32_t)below(3);
    limits.keep = below(2) ? 0 : 1 + (uint32_t)below(8);
    fprintf(scenario, "limits = {active=%d,passive=%d,threshold=%" PRIu32 ",keep=%" PRIu32 "}\nevent = [\n", limits.active,
            limits.passive, limits.threshold, limits.keep);
}

int main(int count, char **words)
{
    if (count != 4 || (scenario = fopen(words[3], "w")) == NULL) {
        fprintf(stderr, "usage: group SEED EVENTS SCENARIO\n");
        return 2;
    }
    state = strtoull(words[1], NULL, 10);
    fprintf(scenario, "seed = %" PRIu64 "\n", state);
    seed_dice(state);
    set_limits();
    for (long left = atol(words[2]); left > 0; left--)
        play_one();
    fprintf(scenario, "]\n");
    for (int at = 0; at < NODES; at++)
        if (runs[at])
            print_node(at);
    for (size_t i = 0; i < sent_count; i++)
        free(sent[i].bytes);
    fprintf(stderr, "group: %" PRIu64 " calls\n", calls);
    return fclose(scenario) != 0 || fflush(stdout) != 0;
}
