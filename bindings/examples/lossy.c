/* Sends the packets of an Annex B stream over UDP on 127.0.0.1, some of which are lost, come twice
 * or behind later ones, and compares what a receiver says of each and what it writes with what must
 * be:
 *
 *     lossy list|network h264|h265|h266 IN [LIMIT]
 *
 * LIMIT is the largest RTP payload, 1200 bytes unless said. By a list, the program draws which
 * packets it sends, how often and in which order, at several rates and from several seeds, and what
 * comes must be what the list has. In a network, it sends each packet once, and takes what comes:
 * `netem` beside this file runs it where the kernel loses, repeats and reorders packets.
 *
 * What must be is computed from the order in which packets come and from the bytes of those sent: a
 * packet that comes behind a later one is late, and the units that are written are those of which
 * each packet was taken, in order (outcome.h, packet_units.h). Nothing that the receiver says goes
 * into it. The stream's parameter sets must stand as udp.c has it. The last line says how often
 * each kind of loss occurred. Ends with status 1 where anything differs, or one never occurred. */
#define _GNU_SOURCE
#include "access_units.h"
#include "ends.h"
#include "losses.h"
#include "outcome.h"
#include "packet_units.h"
#include "stream.h"
#include <poll.h>
#include <stdio.h>
#include <stdlib.h>
#include <string.h>
#include <unistd.h>

/* Rounds through a network; rounds by a list at each rate; packets that are sent together. */
enum { NETWORK_ROUNDS = 8, SEEDS = 30, TOGETHER = 16 };

/* For how many milliseconds nothing comes before the next packets are sent through a network, and
 * before a round ends. */
enum { PAUSE = 1, SILENCE = 100 };

/* Under half of the sequence numbers: so a number tells a packet, and no gap is as long. */
enum { MOST_PACKETS = 32767 };

/* What is counted. */
enum {
    FIRST_LOST,
    MIDDLE_LOST,
    LAST_LOST,
    AGGREGATE_LOST,
    END_LOST,
    WRAP,
    GAP,
    BEHIND,
    TWICE,
    EVENTS
};

static const char *const event_names[EVENTS] = {"first fragments lost",
                                                "middle fragments lost",
                                                "last fragments lost",
                                                "aggregates lost",
                                                "ends of the stream lost",
                                                "passes of 65535",
                                                "gaps",
                                                "packets behind later ones",
                                                "packets twice"};

/* The packets of a stream, each behind its header, and the units that they hold. */
struct sent {
    uint8_t *at;
    size_t *ends;
    struct packets packets;
    struct packet_units units;
};

/* A round: the number of the first packet, how often each came, how many came in all, and what must
 * become of them. */
struct round {
    uint16_t first_number;
    size_t *times, came;
    struct outcome outcome;
};

/* Of all rounds: how many they were, what came, how many units were written, and what occurred. */
struct tally {
    size_t rounds, came, written, events[EVENTS];
};

struct test {
    struct sent sent;
    struct server server;
    struct client client;
    struct list *list; /* NULL where packets go through a network */
    uint64_t draws;
    struct round round;
    struct tally tally;
};

/* ---- The packets ---- */

/* Appends the packets of a frame. */
static void append(struct sent *s, const struct packets *made)
{
    const size_t count = s->packets.count, from = packet_begin(&s->packets, count);
    const size_t size = packet_begin(made, made->count);
    if (made->count == 0)
        return;
    s->at = grown(s->at, from + size);
    s->ends = grown(s->ends, (count + made->count) * sizeof *s->ends);
    memcpy(s->at + from, made->at, size);
    for (size_t i = 0; i < made->count; i++)
        s->ends[count + i] = from + made->ends[i];
    s->packets = (struct packets){s->at, s->ends, count + made->count};
}

/* Makes the packets of all frames, and looks whether they hold the units of the stream. */
static bool make_all(struct sent *sent, struct server *server, const struct stream *s)
{
    size_t begin, end = 0, units;
    struct packets made;
    while (next_access_unit(s->codec, s->at, s->len, end, &begin, &end)) {
        if (!make_packets(server, s->limit, s->at + begin, end - begin, &made))
            return false;
        append(sent, &made);
    }
    if (sent->packets.count > MOST_PACKETS)
        return fail("the stream takes over 32767 packets: take a shorter one, or a higher LIMIT");
    return read_packet_units(s->codec, &sent->packets, RTP_HEADER, &sent->units)
        && is_text_of(s, sent->units.text, sent->units.len, &units);
}

/* Numbers the packets from a first one on. */
static bool number_packets(struct sent *s, uint16_t first)
{
    h26x_rtp_packet packet;
    for (size_t n = 0; n < s->packets.count; n++) {
        uint8_t *at = s->at + packet_begin(&s->packets, n);
        if (h26x_rtp_read(at, RTP_HEADER, &packet) != H26X_OK)
            return fail("a header isn't read");
        packet.header.sequence = (uint16_t)(first + n);
        if (!write_header(&packet.header, at))
            return fail("a header isn't written");
    }
    return true;
}

/* A packet as packets that are sent. */
static struct packets packet_alone(const struct sent *s, size_t n, size_t *len)
{
    const size_t begin = packet_begin(&s->packets, n);
    *len = s->ends[n] - begin;
    return (struct packets){s->at + begin, len, 1};
}

/* ---- Receiving ---- */

static void tell_answer(const char *what, const struct answer *a)
{
    const char *names[] = {"in order", "a gap", "too long", "late"};
    fprintf(stderr, "%s: %s (%u), %zu bytes\n", what,
            a->received < 4 ? names[a->received] : "unknown", a->count, a->written);
}

/* Compares what a receiver says of a packet with what must be. */
static bool is_answer(const struct test *t, uint16_t number, const struct answer *must,
                      const struct answer *is)
{
    if (must->received == is->received && must->count == is->count && must->written == is->written)
        return true;
    fprintf(stderr, "round %zu, number %u, behind %zu packets\n", t->tally.rounds, number,
            t->round.came - 1);
    tell_answer("must be", must);
    tell_answer("is", is);
    return fail("a wrong answer, or other units");
}

/* Counts what occurred with a packet that comes. `before` is how many packets stood up to the
 * newest one that was taken before it. */
static void count_packet(struct test *t, size_t packet, const struct answer *a, size_t before)
{
    size_t *events = t->tally.events;
    const uint16_t first = t->round.first_number;
    t->round.times[packet]++;
    t->round.came++;
    if (a->received == H26X_LATE)
        events[t->round.times[packet] > 1 ? TWICE : BEHIND]++;
    else if (before > 0 && (uint16_t)(first + packet) < (uint16_t)(first + before - 1))
        events[WRAP]++;
    if (a->received == H26X_GAP)
        events[GAP]++;
}

/* Whether a datagram is this packet, byte for byte, and comes where the list has it. */
static bool is_sent_so(const struct test *t, size_t packet, const uint8_t *at, size_t len)
{
    if (packet >= t->sent.packets.count)
        return fail("a packet has a number that none has that was sent");
    size_t sent_len;
    const struct packets sent = packet_alone(&t->sent, packet, &sent_len);
    if (len != sent_len || memcmp(at, sent.at, len) != 0)
        return fail("a packet came other than it was sent");
    const struct list *l = t->list;
    if (l != NULL && (t->round.came == l->count || l->at[t->round.came].packet != packet))
        return fail("packets came in another order than they were sent");
    return true;
}

/* Gives a datagram to the receiver, and compares what it says with what must be. */
static bool take_datagram(struct test *t, const uint8_t *at, size_t len)
{
    const size_t before = t->round.outcome.up_to;
    h26x_rtp_packet read;
    struct answer is;
    const uint32_t code = h26x_rtp_read(at, len, &read);
    if (code != H26X_OK)
        return fail(h26x_strerror(code));
    const uint16_t sequence = read.header.sequence;
    const size_t packet = (uint16_t)(sequence - t->round.first_number);
    if (!is_sent_so(t, packet, at, len))
        return false;
    const struct answer must = must_answer(&t->round.outcome, packet);
    count_packet(t, packet, &must, before);
    return take_payload(&t->client, sequence, at + read.payload, read.payload_len, &is)
        && is_answer(t, sequence, &must, &is);
}

/* Waits for datagrams, and takes them. */
static bool take_some(struct test *t)
{
    static struct inbox in;
    if (!receive(t->client.socket, &in))
        return fail_by_errno("no packet comes");
    for (size_t i = 0; i < in.count; i++)
        if (!take_datagram(t, in.at[i], in.lens[i]))
            return false;
    return true;
}

/* Takes what comes until so many packets have. */
static bool take_up_to(struct test *t, size_t count)
{
    while (t->round.came < count)
        if (!take_some(t))
            return false;
    return true;
}

/* Takes what comes until nothing has for so many milliseconds. */
static bool take_what_comes(struct test *t, int silence)
{
    struct pollfd is_there = {t->client.socket, POLLIN, 0};
    while (poll(&is_there, 1, silence) > 0)
        if (!take_some(t))
            return false;
    return true;
}

/* ---- Rounds ---- */

static bool send_packet(struct test *t, size_t packet)
{
    size_t len;
    const struct packets alone = packet_alone(&t->sent, packet, &len);
    return send_packets(&t->server.sender, &alone) || fail_by_errno("a packet can't be sent");
}

/* Sends the packets of the list, and takes some of them before the next ones. */
static bool carry_by_list(struct test *t)
{
    const struct list *l = t->list;
    for (size_t n = 0; n < l->count; n++)
        if (!send_packet(t, l->at[n].packet) || (n % TOGETHER == 0 && !take_up_to(t, n + 1)))
            return false;
    return take_up_to(t, l->count);
}

/* Sends each packet once, and takes what comes meanwhile, and behind the last. */
static bool carry_through_network(struct test *t)
{
    for (size_t n = 0; n < t->sent.packets.count; n++)
        if (!send_packet(t, n) || (n % TOGETHER == 0 && !take_what_comes(t, PAUSE)))
            return false;
    return take_what_comes(t, SILENCE);
}

/* Counts which fragments of a unit never came. */
static void count_lost_fragments(size_t *events, const size_t *times, const struct placed_unit *u)
{
    events[FIRST_LOST] += times[u->first] == 0;
    events[LAST_LOST] += times[u->last] == 0;
    for (size_t n = u->first + 1; n < u->last; n++)
        events[MIDDLE_LOST] += times[n] == 0;
}

/* Counts which packets never came. The first two units of an aggregate are in one packet. */
static void count_lost(struct test *t)
{
    const struct packet_units *units = &t->sent.units;
    const size_t *times = t->round.times;
    size_t *events = t->tally.events, place = 0;
    for (size_t i = 0; i < units->count; i++) {
        const struct placed_unit *u = &units->at[i];
        place = i > 0 && u->first == u[-1].last ? place + 1 : 0;
        if (u->first < u->last)
            count_lost_fragments(events, times, u);
        events[AGGREGATE_LOST] += place == 1 && times[u->first] == 0;
    }
    events[END_LOST] += times[t->sent.packets.count - 1] == 0;
}

/* Begins a round: with numbers that pass 65535 among the packets, a receiver that takes any number
 * as the first, and sockets of its own, to which nothing comes of the round before. */
static bool begin_round(struct test *t)
{
    struct round *r = &t->round;
    const size_t count = t->sent.packets.count;
    r->first_number = (uint16_t)(0 - draw_below(&t->draws, count));
    if (!number_packets(&t->sent, r->first_number))
        return false;
    memset(r->times, 0, count * sizeof *r->times);
    memset(r->outcome.is_taken, 0, count * sizeof *r->outcome.is_taken);
    r->outcome.up_to = r->came = t->client.len = 0;
    t->tally.rounds++;
    if (h26x_receiver_restart(&t->client.receiver) != H26X_OK)
        return fail("the receiver doesn't begin again");
    return open_sockets(&t->server.sender.socket, &t->client.socket)
        || fail_by_errno("no sockets on 127.0.0.1");
}

/* Compares what was written, and counts. */
static bool end_round(struct test *t)
{
    size_t written;
    close(t->server.sender.socket);
    close(t->client.socket);
    if (!is_outcome(&t->round.outcome, t->client.at, t->client.len, &written))
        return false;
    count_lost(t);
    t->tally.came += t->round.came;
    t->tally.written += written;
    return true;
}

/* Carries the stream at each rate, from each seed. */
static bool go_by_lists(struct test *t)
{
    const struct rates all[] = {{0, 0, 0},    {30, 0, 0},     {0, 60, 0},     {0, 0, 60},
                                {30, 30, 30}, {150, 50, 100}, {400, 200, 200}};
    for (size_t i = 0; i < sizeof all / sizeof *all; i++)
        for (int seed = 0; seed < SEEDS; seed++) {
            t->draws = (uint64_t)seed;
            draw_list(t->list, &t->draws, t->sent.packets.count, &all[i]);
            if (!begin_round(t) || !carry_by_list(t) || !end_round(t))
                return false;
        }
    return true;
}

static bool go_through_network(struct test *t)
{
    for (int round = 0; round < NETWORK_ROUNDS; round++)
        if (!begin_round(t) || !carry_through_network(t) || !end_round(t))
            return false;
    return true;
}

/* ---- The program ---- */

/* Whether all occurred that has to: of a list everything, so that no test is of nothing; of a
 * network losses and packets behind later ones. */
static bool has_occurred(const struct test *t)
{
    for (int i = 0; i < EVENTS; i++) {
        if (t->tally.events[i] > 0 || (t->list == NULL && i != GAP && i != BEHIND))
            continue;
        fprintf(stderr, "no round had %s\n", event_names[i]);
        return fail(t->list == NULL ? "this is no network that `netem` makes"
                                    : "take a longer stream, or another LIMIT");
    }
    return true;
}

static void tell(const struct tally *all, size_t packets, size_t units)
{
    printf("%zu rounds of %zu packets: %zu came, and %zu of %zu units were whole", all->rounds,
           packets, all->came, all->written, all->rounds * units);
    for (int i = 0; i < EVENTS; i++)
        printf("%s %zu %s", i == 0 ? ";" : ",", all->events[i], event_names[i]);
    puts("");
}

static bool open_test(struct test *t, const struct stream *s)
{
    if (!make_ends(s->codec, &t->server, &t->client) || !make_all(&t->sent, &t->server, s))
        return false;
    const size_t count = t->sent.packets.count;
    t->round.times = grown(NULL, count * sizeof *t->round.times);
    t->round.outcome.is_taken = grown(NULL, count * sizeof *t->round.outcome.is_taken);
    t->round.outcome.units = &t->sent.units;
    return true;
}

static void free_test(struct test *t)
{
    free_ends(&t->server, &t->client);
    free_packet_units(&t->sent.units);
    free(t->sent.at);
    free(t->sent.ends);
    free(t->round.times);
    free(t->round.outcome.is_taken);
}

int main(int argc, char **argv)
{
    const bool by_list = argc > 1 && strcmp(argv[1], "list") == 0;
    struct list list = {0};
    struct stream s = {0};
    struct test t = {.list = by_list ? &list : NULL};
    if (!by_list && (argc < 2 || strcmp(argv[1], "network") != 0))
        return !fail("list|network h264|h265|h266 IN [LIMIT]");
    if (!read_stream(argc - 2, argv + 2, &s) || !open_test(&t, &s)
        || !(by_list ? go_by_lists(&t) : go_through_network(&t)))
        return 1;
    tell(&t.tally, t.sent.packets.count, t.sent.units.count);
    if (!has_occurred(&t))
        return 1;
    free_test(&t);
    free(list.at);
    free(s.at);
    return 0;
}
