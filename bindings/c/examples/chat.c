/* A node over TCP: lines of standard input are broadcast, and messages of the group are printed; news of neighbours go to
 * standard error.
 *
 * usage: chat NAME PORT [--join NAME] [PEER=PORT]..
 *
 *   chat a 7201 b=7202 &        a node that b may join
 *   chat b 7202 --join a a=7201
 *
 * The node that is joined may start later, or anew: a node that has no peer tries again once a second. Every name that
 * the node may have to call stands on the command line with its port on this machine. One thread, one poll; a peer that
 * takes nothing for a second is hung up. */
#define _DEFAULT_SOURCE
#include "plumtree.h"

#include <arpa/inet.h>
#include <poll.h>
#include <stdio.h>
#include <stdlib.h>
#include <string.h>
#include <sys/random.h>
#include <sys/socket.h>
#include <sys/timerfd.h>
#include <time.h>
#include <unistd.h>

enum { PEERS = 64, CALLERS = 64, LISTENER = 0, INPUT, TIMER, FIRST_CALLER, ALL = FIRST_CALLER + CALLERS };

static plumtree_node node;
static const char *contact = ""; /* the name by which the node joins, if there is one */
static plumtree_name peers[PEERS]; /* other nodes, with their ports and the connections to them, or -1 */
static int ports[PEERS], links[PEERS], peer_count;
static struct pollfd polled[ALL]; /* connections of others have these numbers */
static uint64_t numbers[ALL];

/* Ends the program unless the call was done, or there was nothing to do. */
static int32_t checked(const char *what, int32_t answer)
{
    char words[64] = "";
    size_t length;
    if (answer < 0) {
        plumtree_words(answer, (uint8_t *)words, sizeof words, &length);
        fprintf(stderr, "chat: %s: %s\n", what, words);
        exit(1);
    }
    return answer;
}

static const uint64_t *roll(void)
{
    static uint64_t dice[PLUMTREE_DICE];
    checked("getrandom", getrandom(dice, sizeof dice, 0) == sizeof dice ? PLUMTREE_DONE : PLUMTREE_OUT_OF_MEMORY);
    return dice;
}

/* Connects to a port of this machine, or listens at it. Returns -1 if that fails. */
static int open_socket(int port, int is_listener)
{
    struct sockaddr_in at = {AF_INET, htons((uint16_t)port), {htonl(INADDR_LOOPBACK)}, {0}};
    struct timeval second = {1, 0};
    int on = 1, made = socket(AF_INET, SOCK_STREAM, 0);
    setsockopt(made, SOL_SOCKET, SO_REUSEADDR, &on, sizeof on);
    setsockopt(made, SOL_SOCKET, SO_SNDTIMEO, &second, sizeof second);
    if (is_listener ? bind(made, (struct sockaddr *)&at, sizeof at) == 0 && listen(made, CALLERS) == 0
                    : connect(made, (struct sockaddr *)&at, sizeof at) == 0)
        return made;
    close(made);
    return -1;
}

/* The place of a name among the peers, or their number. */
static int place_of(const plumtree_name *name)
{
    int place = 0;
    while (place < peer_count && strcmp(peers[place].text, name->text) != 0)
        place++;
    return place;
}

/* Writes what waits for a name to a connection, which is made where there is none. */
static void send_to(const plumtree_name *name)
{
    const uint8_t *text = (const uint8_t *)name->text;
    int place = place_of(name);
    plumtree_piece pieces[PLUMTREE_PIECES];
    struct msghdr message = {.msg_iov = (void *)pieces, .msg_iovlen = PLUMTREE_PIECES};
    ssize_t sent = place < peer_count ? 0 : -1;
    if (sent == 0 && links[place] < 0)
        links[place] = open_socket(ports[place], 0);
    while (sent >= 0 && checked("transmit", plumtree_wire_transmit(&node, text, name->length, pieces)) == PLUMTREE_DONE)
        if ((sent = sendmsg(links[place], &message, MSG_NOSIGNAL)) >= 0)
            checked("transmitted", plumtree_wire_transmitted(&node, text, name->length, (size_t)sent));
    if (sent < 0)
        checked("unreachable", plumtree_wire_unreachable(&node, text, name->length, roll()));
}

/* Prints which neighbours came and went, and why. */
static void print_news(void)
{
    static const char *const ways[] = {"came", "left", "failed", "was displaced"};
    plumtree_news news;
    while (checked("next_news", plumtree_wire_next_news(&node, &news)) == PLUMTREE_DONE)
        if (news.name.length > 0)
            fprintf(stderr, "chat: %s %s\n", news.name.text, ways[news.why]);
        else
            fprintf(stderr, "chat: %s\n", news.kind == PLUMTREE_ISOLATED ? "no neighbour is left" : "joined");
}

/* Prints what was delivered, writes what waits, and closes connections to names that were lost, until nothing waits. */
static void give_out(void)
{
    static uint8_t room[PLUMTREE_PAYLOAD_MAX];
    plumtree_name names[PEERS];
    plumtree_id id;
    size_t length = 1;
    print_news();
    while (checked("next_delivery", plumtree_wire_next_delivery(&node, &id, room, sizeof room, &length)) == PLUMTREE_DONE)
        printf("%s: %.*s\n", id.name.text, (int)length, (const char *)room);
    fflush(stdout);
    while (checked("receivers", plumtree_wire_receivers(&node, names, PEERS, &length)) == PLUMTREE_DONE && length > 0) {
        for (size_t i = 0; i < length; i++)
            send_to(&names[i]);
        while (checked("next_lost", plumtree_wire_next_lost(&node, &names[0])) == PLUMTREE_DONE)
            if (place_of(&names[0]) < peer_count) {
                close(links[place_of(&names[0])]);
                links[place_of(&names[0])] = -1;
            }
    }
}

static void accept_one(void)
{
    int made = accept(polled[LISTENER].fd, NULL, NULL), place = FIRST_CALLER;
    while (place < ALL && polled[place].fd >= 0)
        place++;
    if (place == ALL) {
        close(made);
    } else if (made >= 0) {
        checked("accept", plumtree_wire_accept(&node, &numbers[place]));
        polled[place] = (struct pollfd){made, POLLIN, 0};
    }
}

/* Makes a tick, and joins again at every tenth without a peer. */
static void tick(void)
{
    static int alone;
    plumtree_name names[PLUMTREE_ACTIVE_MAX];
    size_t length;
    checked("tick", plumtree_wire_tick(&node, roll()));
    checked("active", plumtree_active(&node, names, PLUMTREE_ACTIVE_MAX, &length));
    if (length == 0 && contact[0] != 0 && ++alone % 10 == 0)
        checked("join", plumtree_wire_join(&node, (const uint8_t *)contact, strlen(contact), roll()));
}

/* Reads a line of standard input, the timer, or what a connection brings. */
static void read_from(int place)
{
    static uint8_t bytes[PLUMTREE_PAYLOAD_MAX];
    uint64_t number;
    ssize_t count = read(polled[place].fd, bytes, sizeof bytes);
    int32_t answer = PLUMTREE_DONE;
    if (place == TIMER)
        tick();
    else if (place == INPUT && count > 0)
        checked("broadcast", plumtree_wire_broadcast(&node, bytes, (size_t)count - (bytes[count - 1]
             == '\n'), &number));
    else if (place != INPUT && count > 0)
        answer = plumtree_wire_receive(&node, numbers[place], bytes, (size_t)count, roll());
    else if (place != INPUT)
        plumtree_wire_ended(&node, numbers[place], roll());
    if (count <= 0 || answer < 0) {
        close(polled[place].fd);
        polled[place].fd = -1;
    }
}

int main(int count, char **words)
{
    struct itimerspec ticks = {{0, 100000000}, {0, 100000000}};
    plumtree_limits limits;
    if (count < 3) {
        fprintf(stderr, "usage: chat NAME PORT [--join NAME] [PEER=PORT]..\n");
        return 2;
    }
    for (int i = 3; i < count; i++) {
        size_t length = strcspn(words[i], "=");
        if (strcmp(words[i], "--join") == 0 && i + 1 < count) {
            contact = words[++i];
        } else if (words[i][length] == '=' && peer_count < PEERS) {
            checked(words[i], plumtree_name_of((const uint8_t *)words[i], length, &peers[peer_count]));
            ports[peer_count] = atoi(words[i] + length + 1);
            links[peer_count++] = -1;
        }
    }
    for (int i = 0; i < ALL; i++)
        polled[i] = (struct pollfd){-1, POLLIN, 0};
    polled[LISTENER].fd = open_socket(atoi(words[2]), 1);
    polled[INPUT].fd = STDIN_FILENO;
    polled[TIMER].fd = timerfd_create(CLOCK_MONOTONIC, 0);
    timerfd_settime(polled[TIMER].fd, 0, &ticks, NULL);
    if (polled[LISTENER].fd < 0) {
        perror("chat: listen");
        return 1;
    }
    plumtree_limits_default(&limits);
    checked("start", plumtree_wire_start(&node, (const uint8_t *)words[1], strlen(words[1]), (uint64_t)time(NULL), &limits,
                                         PLUMTREE_WAITING, NULL, 0, (const uint8_t *)contact, strlen(contact)));
    checked("tell_news", plumtree_wire_tell_news(&node, true));
    for (;;) {
        give_out();
        poll(polled, ALL, -1);
        if (polled[LISTENER].revents)
            accept_one();
        for (int i = INPUT; i < ALL; i++)
            if (polled[i].fd >= 0 && polled[i].revents)
                read_from(i);
    }
}
