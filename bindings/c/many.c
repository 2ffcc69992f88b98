/* Many packets in one call, beside the same packets one by one; and where such a call stops, or takes none. */
#include "calls.h"
#include <string.h>

enum { PACKETS = 300, BYTES = 65536, BATCH = 24 };

/* Packets of three pictures, an SPS and a PPS before each, as a network brings them. */
struct network {
    uint8_t bytes[BYTES];
    h26x_rtp_payload payloads[PACKETS];
    size_t len, count;
    uint32_t seed;
};

static uint32_t draw(struct network *n, uint32_t below)
{
    n->seed = n->seed * 1664525 + 1013904223;
    return (n->seed >> 8) % below;
}

/* Puts a payload behind the others, some bytes behind the one before: as of headers. */
static void bring(struct network *n, const uint8_t *payload, size_t len, uint16_t sequence, uint32_t timestamp,
                  bool marker)
{
    if (n->count == PACKETS || n->len + 12 + len > BYTES)
        return;
    const size_t begin = n->len + draw(n, 12);
    memcpy(n->bytes + begin, payload, len);
    n->len = begin + len;
    n->payloads[n->count++] = (h26x_rtp_payload){
        .begin = begin, .end = n->len, .timestamp = timestamp, .sequence = sequence, .marker = marker};
}

static void exchange(struct network *n, size_t a, size_t b)
{
    const h26x_rtp_payload first = n->payloads[a];
    n->payloads[a] = n->payloads[b];
    n->payloads[b] = first;
}

/* The packets of some pictures, of which some are lost, come twice, too early, or are none that a depacketizer takes. */
static void draw_packets(struct tally *t, struct network *n, uint32_t seed)
{
    static const uint8_t sets[] = {0, 0,    1,    0x67, 0x42, 0, 0x1e, 0xda, 0,    0,
                                   1, 0x68, 0xce, 0x3c, 0x80, 0, 0,    1,    0x65, 0x88};
    static const uint8_t refused[] = {0x7c};
    uint8_t picture[900], made[4096];
    size_t ends[64];
    h26x_packetizer p;
    uint16_t sequence = (uint16_t)(seed * 7919);
    expect(t, h26x_packetizer_new(H26X_H264, false, &p) == H26X_OK);
    n->len = n->count = 0;
    n->seed = seed;
    memcpy(picture, sets, sizeof sets);
    memset(picture + sizeof sets, 0x55, sizeof picture - sizeof sets);
    for (uint32_t at = 0; at < 12; at++) {
        size_t count, size, begin = 0;
        expect(t,
               h26x_packetize_units_into(&p, 120, picture, 100 + draw(n, 800), 0, made, sizeof made, ends, 64, &count,
                                         &size, NULL)
                   == H26X_OK);
        for (size_t i = 0; i < count; begin = ends[i++], sequence++) {
            const uint32_t fate = draw(n, 16);
            if (fate == 0)
                continue;
            if (fate == 1)
                bring(n, refused, sizeof refused, sequence, at * 3000, false);
            bring(n, made + begin, ends[i] - begin, sequence, at * 3000, i + 1 == count);
            if (fate == 2)
                bring(n, made + begin, ends[i] - begin, sequence, at * 3000, i + 1 == count);
            if (fate == 3 && n->count > 3)
                exchange(n, n->count - 1, n->count - 1 - draw(n, 3));
        }
    }
    h26x_packetizer_free(p);
}

/* ---- A receiver of access units ---- */

static h26x_access_units_config settings(size_t held_limit)
{
    return (h26x_access_units_config){.codec = H26X_H264,
                                      .max_wait = 100,
                                      .window = 8,
                                      .far_away = 100,
                                      .held_limit = held_limit,
                                      .run_limit = 100000,
                                      .unit_limit = 100000};
}

/* Takes all access units of two receivers, and compares them. */
static void compare_units(struct tally *t, h26x_access_units *a, h26x_access_units *b, uint32_t now)
{
    uint8_t to[2][ROOM];
    h26x_access_unit unit[2];
    uint32_t code;
    do {
        memset(unit, 0, sizeof unit);
        code = h26x_access_units_next(a, now, to[0], ROOM, &unit[0]);
        expect(t, h26x_access_units_next(b, now, to[1], ROOM, &unit[1]) == code);
        expect(t, memcmp(&unit[0], &unit[1], sizeof unit[0]) == 0);
        expect(t, code != H26X_OK || memcmp(to[0], to[1], unit[0].len) == 0);
    } while (code == H26X_OK);
    expect(t, code == H26X_NOTHING_YET);
}

/* Pushes packets to `a` one by one, up to the first that is full. What is told of each; how many are not to be given
 * again. */
static size_t push_each(struct tally *t, h26x_access_units *a, uint32_t now, const struct network *n, size_t from,
                        size_t count, h26x_push_told *told)
{
    for (size_t i = 0; i < count; i++) {
        const h26x_rtp_payload *it = &n->payloads[from + i];
        expect(t,
               h26x_access_units_push(a, now, it->sequence, it->timestamp, it->marker, n->bytes + it->begin,
                                      it->end - it->begin, &told[i].pushed, &told[i].behind)
                   == H26X_OK);
        if (told[i].pushed == H26X_FULL)
            return i;
    }
    return count;
}

static void check_pushed(struct tally *t, size_t held_limit, uint32_t seed)
{
    struct network n;
    h26x_access_units a, b;
    const h26x_access_units_config config = settings(held_limit);
    uint32_t now = 0;
    expect(t, h26x_access_units_new(&config, &a) == H26X_OK && h26x_access_units_new(&config, &b) == H26X_OK);
    draw_packets(t, &n, seed);
    for (size_t from = 0; from < n.count; now += 20) {
        h26x_push_told one[BATCH], all[BATCH];
        size_t taken = 99;
        size_t count = 1 + draw(&n, BATCH), room = draw(&n, BATCH + 1);
        count = count > n.count - from ? n.count - from : count;
        memset(one, 0xee, sizeof one);
        memset(all, 0xee, sizeof all);
        const size_t each = push_each(t, &a, now, &n, from, count, one);
        expect(t,
               h26x_access_units_push_all(&b, now, n.bytes, n.len, n.payloads + from, count, all, room, &taken)
                   == H26X_OK);
        expect(t, taken == each);
        for (size_t i = 0; i < BATCH; i++)
            if (i < room)
                expect(t, all[i].pushed == one[i].pushed && all[i].behind == one[i].behind);
            else
                expect(t, all[i].pushed == 0xeeeeeeee && all[i].behind == 0xeeee);
        compare_units(t, &a, &b, now);
        from += taken;
    }
    expect(t, h26x_access_units_finish(&a) == H26X_OK && h26x_access_units_finish(&b) == H26X_OK);
    compare_units(t, &a, &b, now);
    h26x_access_units_free(a);
    h26x_access_units_free(b);
}

/* One that is full stops the call, and is given again; what lies in no buffer is refused, and nothing is taken. */
static void check_push_stops(struct tally *t)
{
    static const uint8_t bytes[] = {0x41, 1, 2, 3, 0x41, 5, 6, 7, 0x41, 9, 10, 11};
    h26x_rtp_payload payloads[] = {{0, 4, 1, 10, false}, {4, 8, 2, 12, false}, {8, 12, 3, 14, false}};
    h26x_push_told told[3] = {{9, 9}, {9, 9}, {9, 9}};
    size_t taken = 99;
    h26x_access_units u;
    h26x_packetizer p;
    const h26x_access_units_config config = settings(7);
    expect(t, h26x_access_units_new(&config, &u) == H26X_OK);
    expect(t, h26x_access_units_push_all(&u, 0, bytes, 12, NULL, 7, NULL, 7, &taken) == H26X_OK && taken == 0);
    expect(t, h26x_access_units_push_all(&u, 0, bytes, 12, payloads, 0, told, 3, &taken) == H26X_OK && taken == 0);
    expect(t, told[0].pushed == 9);
    expect(t, h26x_access_units_push_all(&u, 0, bytes, 11, payloads, 3, told, 3, &taken) == H26X_OUT_OF_RANGE);
    expect(t, taken == 0 && told[0].pushed == 9);
    payloads[1].begin = 9;
    expect(t, h26x_access_units_push_all(&u, 0, bytes, 12, payloads, 3, told, 3, NULL) == H26X_OUT_OF_RANGE);
    payloads[1].begin = 4;
    expect(t, h26x_access_units_push_all(&u, 0, bytes, 12, payloads, 3, told, 3, &taken) == H26X_OK);
    expect(t, taken == 2 && told[0].pushed == H26X_HELD && told[1].pushed == H26X_HELD && told[2].pushed == H26X_FULL);
    expect(t, h26x_access_units_push_all(&u, 0, bytes, 12, payloads + 2, 1, NULL, 3, &taken) == H26X_OK && taken == 0);
    expect(t, h26x_access_units_push_all(&u, 0, NULL, 12, payloads, 1, told, 3, &taken) == H26X_OUT_OF_RANGE);
    h26x_access_units_free(u);
    expect(t, h26x_packetizer_new(H26X_H264, false, &p) == H26X_OK);
    taken = 99;
    expect(t,
           h26x_access_units_push_all((h26x_access_units *)&p, 0, bytes, 12, payloads, 3, told, 3, &taken)
                   == H26X_WRONG_END
               && taken == 0);
    h26x_packetizer_free(p);
}

/* ---- A receiver of packets with their sequence numbers ---- */

/* Receives packets one by one, each behind what those before it wrote, up to the first that has no room; how many are
 * not to be given again. */
static size_t receive_each(h26x_receiver *a, const struct network *n, size_t from, size_t count, uint8_t *to,
                           size_t room, h26x_receive_told *told, size_t *written)
{
    *written = 0;
    for (size_t i = 0; i < count; i++) {
        const h26x_rtp_payload *it = &n->payloads[from + i];
        memset(&told[i], 0, sizeof told[i]);
        told[i].code =
            h26x_receive(a, it->sequence, n->bytes + it->begin, it->end - it->begin, to + *written, room - *written,
                         &told[i].written, &told[i].extra, &told[i].received, &told[i].count, &told[i].why);
        if (told[i].written > room - *written)
            return i + 1;
        *written += told[i].written;
    }
    return count;
}

static bool is_told(const h26x_receive_told *a, const h26x_receive_told *b)
{
    return a->written == b->written && a->why.first == b->why.first && a->why.second == b->why.second
        && a->code == b->code && a->received == b->received && a->count == b->count && a->extra == b->extra;
}

static void check_received(struct tally *t, size_t most_room, uint32_t seed)
{
    struct network n;
    uint8_t to[2][ROOM], left[2][ROOM];
    h26x_receiver a, b;
    expect(t,
           h26x_receiver_new(H26X_H264, false, false, 100000, &a) == H26X_OK
               && h26x_receiver_new(H26X_H264, false, false, 100000, &b) == H26X_OK);
    draw_packets(t, &n, seed);
    for (size_t from = 0; from < n.count;) {
        h26x_receive_told one[BATCH], all[BATCH];
        size_t taken = 99, written[2] = {99, 99};
        size_t count = 1 + draw(&n, BATCH), room = draw(&n, (uint32_t)most_room), told_room = draw(&n, BATCH + 1);
        count = count > n.count - from ? n.count - from : count;
        memset(to, 7, sizeof to);
        memset(all, 0xee, sizeof all);
        const size_t each = receive_each(&a, &n, from, count, to[0], room, one, &written[0]);
        const bool lacks = one[each - 1].written > 0 && h26x_written_copy(&a.at, left[0], ROOM) > 0;
        const uint32_t code = h26x_receive_all(&b, n.bytes, n.len, n.payloads + from, count, to[1], room, all,
                                               told_room, &taken, &written[1]);
        expect(t, code == (lacks ? H26X_NO_ROOM : H26X_OK));
        expect(t, taken == each && written[1] == written[0]);
        expect(t, memcmp(to[0], to[1], ROOM) == 0);
        for (size_t i = 0; i < each && i < told_room; i++)
            expect(t, is_told(&all[i], &one[i]));
        for (size_t i = told_room < each ? told_room : each; i < BATCH; i++)
            expect(t, all[i].code == 0xeeeeeeee);
        if (lacks) {
            const size_t len = h26x_written_copy(&b.at, left[1], ROOM);
            expect(t, len == one[each - 1].written && memcmp(left[0], left[1], len) == 0);
        }
        expect(t, h26x_receiver_run_len(&a) == h26x_receiver_run_len(&b));
        from += taken;
    }
    h26x_receiver_free(a);
    h26x_receiver_free(b);
}

static void check_receive_stops(struct tally *t)
{
    static const uint8_t bytes[] = {0x65, 1, 2, 0x41, 5, 0x41, 9};
    h26x_rtp_payload payloads[] = {{0, 3, 1, 65535, false}, {3, 5, 2, 0, false}, {5, 7, 3, 1, false}};
    h26x_receive_told told[3];
    uint8_t to[32];
    size_t taken = 99, written = 99;
    h26x_receiver r;
    h26x_packetizer p;
    memset(told, 0xee, sizeof told);
    expect(t, h26x_receiver_new(H26X_H264, false, false, 1000, &r) == H26X_OK);
    expect(t, h26x_receive_all(&r, bytes, 7, NULL, 3, to, 32, told, 3, &taken, &written) == H26X_OK);
    expect(t, taken == 0 && written == 0);
    expect(t, h26x_receive_all(&r, bytes, 6, payloads, 3, to, 32, told, 3, &taken, &written) == H26X_OUT_OF_RANGE);
    payloads[2].begin = 8;
    expect(t, h26x_receive_all(&r, bytes, 7, payloads, 3, to, 32, told, 3, &taken, &written) == H26X_OUT_OF_RANGE);
    payloads[2].begin = 5;
    expect(t, taken == 0 && written == 0 && told[0].code == 0xeeeeeeee);
    expect(t, h26x_receive_all(&r, bytes, 7, payloads, 3, to, 9, told, 3, &taken, &written) == H26X_NO_ROOM);
    expect(t, taken == 2 && written == 7 && is_same(to, 7, "00 00 00 01 65 01 02"));
    expect(t,
           told[0].extra == 2 && told[1].extra == 1 && told[1].code == H26X_OK && told[1].written == 6
               && told[2].code == 0xeeeeeeee);
    expect(t, h26x_written_copy(&r.at, to, 32) == 6 && is_same(to, 6, "00 00 00 01 41 05"));
    expect(t, h26x_receive_all(&r, bytes, 7, payloads + taken, 1, to, 32, NULL, 3, NULL, &written) == H26X_OK);
    expect(t, written == 6 && is_same(to, 6, "00 00 00 01 41 09"));
    h26x_receiver_free(r);
    expect(t, h26x_packetizer_new(H26X_H264, false, &p) == H26X_OK);
    taken = written = 99;
    expect(t,
           h26x_receive_all((h26x_receiver *)&p, bytes, 7, payloads, 3, to, 32, told, 3, &taken, &written)
                   == H26X_WRONG_END
               && taken == 0 && written == 0);
    h26x_packetizer_free(p);
}

void check_many(struct tally *t)
{
    check_push_stops(t);
    check_receive_stops(t);
    for (uint32_t seed = 0; seed < 8; seed++) {
        check_pushed(t, 100000, seed);
        check_pushed(t, 300, seed);
        check_received(t, ROOM, seed);
        check_received(t, 700, seed);
    }
}
