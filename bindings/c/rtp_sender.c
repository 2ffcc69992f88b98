/* Access units sent as datagrams, by a sender, and beside it by the calls that write RTP packets and retransmissions: the
 * bytes, numbers and counts are the same (RFC 3550, RFC 4588). A receiver is brought what was sent, whatever is lost. */
#include "calls.h"
#include <string.h>

/* The payload types of all streams here, and their SSRCs. */
enum { MEDIA = 96, RTX = 97, STREAM = 1, RESENT = 2 };

/* Numbers go round behind the second packet, those of retransmissions behind the first. */
static const h26x_rtp_streams streams = {STREAM, RESENT, 65534, 65535, MEDIA, RTX, true};

/* What stands in memory before anything is written. */
enum { BEFORE = 0xee };

/* ---- Memory, and what is written ---- */

/* Packets in memory, each behind a headroom. */
struct packets {
    uint8_t at[ROOM];
    size_t ends[16], count, size, headroom;
};

static void put_packet(struct packets *p, const uint8_t *payload, size_t len)
{
    memset(p->at + p->size, BEFORE, p->headroom);
    if (len > 0)
        memcpy(p->at + p->size + p->headroom, payload, len);
    p->size += p->headroom + len;
    p->ends[p->count++] = p->size;
}

/* Packets of these payloads, which '|' divides. */
static struct packets packets_of(size_t headroom, const char *payloads)
{
    struct packets p = {.headroom = headroom};
    for (; *payloads != '\0'; payloads = behind_bar(payloads)) {
        const struct bytes payload = bytes_of(payloads);
        put_packet(&p, payload.at, payload.len);
    }
    memset(p.at + p.size, BEFORE, sizeof p.at - p.size);
    return p;
}

static h26x_rtp_sender sender_of(struct tally *t, const h26x_rtp_streams *of, size_t history)
{
    h26x_rtp_sender s = {NULL};
    expect(t, h26x_rtp_sender_new(of, history, &s) == H26X_OK);
    return s;
}

static uint32_t send_packets(h26x_rtp_sender *s, struct packets *p, size_t *len)
{
    return h26x_rtp_sender_send(s, 0x01020304, 0, NULL, 0, p->headroom, p->at, p->size, p->ends, p->count, len);
}

/* Nothing but the headers is written: the byte before each, and all behind the last packet, stay. */
static void check_bytes(struct tally *t)
{
    h26x_rtp_sender s = sender_of(t, &streams, 100);
    struct packets p = packets_of(13, "7c8501|7c0502|7c4503");
    size_t len = 9;
    expect(t, send_packets(&s, &p, &len) == H26X_OK && len == 12);
    expect(t,
           is_same(p.at, p.size,
                   "ee 8060fffe0102030400000001 7c8501 ee 8060ffff0102030400000001 7c0502"
                   "ee 80e000000102030400000001 7c4503"));
    expect(t, p.at[p.size] == BEFORE && p.at[sizeof p.at - 1] == BEFORE);

    struct packets extended = packets_of(20, "419a");
    const struct bytes extension = bytes_of("10aa0000");
    expect(t,
           h26x_rtp_sender_send(&s, 7, 0xbede, extension.at, extension.len, 20, extended.at, extended.size,
                                extended.ends, 1, &len)
                   == H26X_OK
               && len == 20);
    expect(t, is_same(extended.at, extended.size, "90e000010000000700000001 bede0001 10aa0000 419a"));

    uint8_t to[40] = {BEFORE};
    expect(t, h26x_rtp_sender_resend(&s, 65535, to, sizeof to, &len) == H26X_OK);
    expect(t, is_same(to, len, "8061ffff0102030400000002 ffff 7c0502"));
    expect(t, h26x_rtp_sender_resend(&s, 1, to, sizeof to, &len) == H26X_OK);
    expect(t, is_same(to, len, "90e100000000000700000002 bede0001 10aa0000 0001 419a"));
    h26x_rtp_sender_close(&s);
    h26x_rtp_sender_close(&s);
    expect(t, s.at == NULL);
}

/* ---- By hand ---- */

enum { HELD = 256 };

/* What was sent by hand, and what is counted of it. */
struct by_hand {
    struct tally *tally;
    h26x_rtp_streams streams;
    h26x_rtp_sent sent;
    uint8_t at[HELD][64];
    size_t lens[HELD], payload_lens[HELD], count;
};

static void send_by_hand(struct by_hand *h, bool marker, uint32_t timestamp, const uint8_t *payload, size_t len)
{
    const size_t n = h->count++ % HELD;
    const h26x_rtp_header header = {.marker = marker,
                                    .payload_type = h->streams.payload_type,
                                    .sequence = h->streams.sequence++,
                                    .timestamp = timestamp,
                                    .ssrc = h->streams.ssrc};
    expect(h->tally,
           h26x_rtp_write(&header, NULL, 0, NULL, 0, payload, len, NULL, 0, h->at[n], sizeof h->at[n], &h->lens[n])
               == H26X_OK);
    h->payload_lens[n] = len;
    h->sent.packets++;
    h->sent.bytes += len;
}

/* Whether the packet so far back is held, where the payloads have so many bytes at most. */
static bool is_held(const struct by_hand *h, size_t back, size_t history)
{
    size_t bytes = 0;
    for (size_t i = 1; i <= back && i <= h->count; i++)
        bytes += h->payload_lens[(h->count - i) % HELD];
    return back >= 1 && back <= h->count && bytes <= history;
}

/* What goes again for the packet so far back, by hand; how many bytes it has. */
static size_t send_again(struct by_hand *h, size_t back, uint8_t *to, size_t room)
{
    const size_t n = (h->count - back) % HELD;
    size_t len = 0;
    if (!h->streams.has_rtx) {
        memcpy(to, h->at[n], h->lens[n]);
        h->sent.packets++;
        h->sent.bytes += h->payload_lens[n];
        return h->lens[n];
    }
    expect(h->tally,
           h26x_rtx_write(h->at[n], h->lens[n], h->streams.rtx_payload_type, h->streams.rtx_sequence++,
                          h->streams.rtx_ssrc, to, room, &len)
               == H26X_OK);
    h->sent.rtx_packets++;
    h->sent.rtx_bytes += 2 + h->payload_lens[n];
    return len;
}

static void compare_again(struct by_hand *h, h26x_rtp_sender *s, size_t history)
{
    for (size_t back = 0; back < 40; back++) {
        uint8_t to[64], by_hand[64];
        size_t len = 99;
        const uint16_t number = (uint16_t)(h->streams.sequence - back);
        expect(h->tally, h26x_rtp_sender_resend(s, number, to, sizeof to, &len) == H26X_OK);
        const size_t wanted = is_held(h, back, history) ? send_again(h, back, by_hand, sizeof by_hand) : 0;
        expect(h->tally, len == wanted && memcmp(to, by_hand, len) == 0);
    }
}

static void compare_told(struct by_hand *h, const h26x_rtp_sender *s)
{
    h26x_rtp_streams of;
    h26x_rtp_sent sent;
    expect(h->tally, h26x_rtp_sender_streams(s, &of) == H26X_OK);
    expect(h->tally, of.ssrc == h->streams.ssrc && of.rtx_ssrc == h->streams.rtx_ssrc);
    expect(h->tally, of.sequence == h->streams.sequence && of.rtx_sequence == h->streams.rtx_sequence);
    expect(h->tally, of.payload_type == h->streams.payload_type && of.has_rtx == h->streams.has_rtx);
    expect(h->tally, of.rtx_payload_type == h->streams.rtx_payload_type);
    expect(h->tally, h26x_rtp_sender_count(s, &sent) == H26X_OK);
    expect(h->tally, sent.packets == h->sent.packets && sent.bytes == h->sent.bytes);
    expect(h->tally, sent.rtx_packets == h->sent.rtx_packets && sent.rtx_bytes == h->sent.rtx_bytes);
}

/* Access units of one packet to seven, of payloads of 0 bytes to 30, and what goes again of those before. */
static void check_by_hand(struct tally *t, const h26x_rtp_streams *of, size_t history)
{
    struct by_hand h = {.tally = t, .streams = *of};
    h26x_rtp_sender s = sender_of(t, of, history);
    for (size_t i = 0; i < 60; i++) {
        struct packets p = {.headroom = 12 + i % 3};
        const size_t count = 1 + i % 7, first = h.count;
        size_t len, begin = 0;
        for (size_t n = 0; n < count; n++) {
            uint8_t payload[30];
            memset(payload, (int)(i + n), sizeof payload);
            put_packet(&p, payload, (i * 11 + n * 7) % 31);
            send_by_hand(&h, n + 1 == count, (uint32_t)i * 3000, payload, (i * 11 + n * 7) % 31);
        }
        expect(t,
               h26x_rtp_sender_send(&s, (uint32_t)i * 3000, 0, NULL, 0, p.headroom, p.at, p.size, p.ends, count, &len)
                       == H26X_OK
                   && len == 12);
        for (size_t n = 0; n < count; begin = p.ends[n++]) {
            const size_t place = begin + p.headroom - len;
            expect(t, p.ends[n] - place == h.lens[(first + n) % HELD]);
            expect(t, memcmp(p.at + place, h.at[(first + n) % HELD], p.ends[n] - place) == 0);
        }
        compare_again(&h, &s, history);
        compare_told(&h, &s);
    }
    h26x_rtp_sender_free(s);
}

/* ---- To a receiver ---- */

/* Sends an access unit, of whose packets each third is lost, but not the last one. */
static void send_unit(struct tally *t, h26x_packetizer *p, h26x_rtp_sender *s, h26x_rtp_receiver *r, uint32_t i,
                      const struct bytes *unit)
{
    uint8_t at[ROOM];
    size_t ends[64], count, size, len, begin = 0;
    expect(t,
           h26x_packetize_units_into(p, 20, unit->at, unit->len, 12, at, sizeof at, ends, 64, &count, &size, NULL)
                   == H26X_OK
               && count > 3);
    expect(t, h26x_rtp_sender_send(s, i * 3000, 0, NULL, 0, 12, at, size, ends, count, &len) == H26X_OK && len == 12);
    for (size_t n = 0; n < count; begin = ends[n++])
        if (n % 3 != 1 || n + 1 == count)
            expect(t, h26x_rtp_receiver_push(r, i, i * 90, at + begin, ends[n] - begin, NULL) == H26X_OK);
}

/* Sends again what the receiver asks for; how many packets. */
static size_t answer(struct tally *t, h26x_rtp_sender *s, h26x_rtp_receiver *r, uint32_t now)
{
    static const h26x_nack_times times = {.first = 0, .again = 20, .most = 3};
    uint16_t asked[64], read[64];
    uint8_t packet[ROOM];
    size_t count, wanted, len;
    h26x_rtp_told told;
    expect(t, h26x_rtp_receiver_nacks(r, now, &times, asked, 64, &wanted) == H26X_OK && wanted > 0);
    expect(t, h26x_nack_write(9, STREAM, asked, wanted, packet, sizeof packet, &len, &count) == H26X_OK);
    expect(t, h26x_nack_read(packet, len, NULL, NULL, read, 64, &count) && count == wanted);
    for (size_t i = 0; i < count; i++) {
        expect(t, h26x_rtp_sender_resend(s, read[i], packet, sizeof packet, &len) == H26X_OK && len > 12);
        expect(t, h26x_rtp_receiver_push(r, now, now * 90, packet, len, &told) == H26X_OK);
        expect(t, told.became == H26X_RTP_TAKEN && told.sequence == read[i]);
    }
    return count;
}

/* A stream of keyframes, of which each access unit comes whole, by retransmissions or the same packets again. */
static void check_received(struct tally *t, uint32_t codec, const char *sets, const char *slice, bool has_rtx)
{
    const h26x_access_units_config config = {.codec = codec,
                                             .max_wait = 100,
                                             .window = 64,
                                             .far_away = 3000,
                                             .far_behind = 100,
                                             .held_limit = 40000,
                                             .run_limit = 1000,
                                             .unit_limit = 4000};
    const h26x_rtp_payload_types types = {.media = MEDIA, .rtx = RTX, .has_rtx = has_rtx};
    h26x_rtp_streams of = streams;
    h26x_rtp_receiver r;
    h26x_packetizer p;
    of.has_rtx = has_rtx;
    h26x_rtp_sender s = sender_of(t, &of, 2000);
    expect(t, h26x_rtp_receiver_new(&config, &types, &r) == H26X_OK);
    expect(t, h26x_packetizer_new(codec, false, &p) == H26X_OK);
    for (uint32_t i = 0; i < 10; i++) {
        struct bytes unit = bytes_of(sets), behind = bytes_of(slice);
        uint8_t to[ROOM];
        h26x_access_unit told;
        memset(behind.at + behind.len, (int)(i + 0x11), 150);
        memcpy(unit.at + unit.len, behind.at, behind.len + 150);
        unit.len += behind.len + 150;
        send_unit(t, &p, &s, &r, i, &unit);
        expect(t, answer(t, &s, &r, i) > 1);
        expect(t, h26x_rtp_receiver_finish(&r) == H26X_OK);
        expect(t, h26x_rtp_receiver_next(&r, i, to, sizeof to, &told) == H26X_OK);
        expect(t, told.is_whole && told.is_clean && told.missing == 0 && told.timestamp == i * 3000);
        expect(t, told.len == unit.len && memcmp(to, unit.at, unit.len) == 0);
    }
    h26x_rtp_sender_free(s);
    h26x_rtp_receiver_free(r);
    h26x_packetizer_free(p);
}

/* ---- What is refused ---- */

/* A call that is refused sends nothing: memory, numbers, counts and what is told stay. */
static void refuses(struct tally *t, h26x_rtp_sender *s, struct packets *p, uint32_t wanted, size_t told)
{
    const struct packets before = *p;
    h26x_rtp_streams of;
    size_t len = 9;
    expect(t, send_packets(s, p, &len) == wanted && len == told);
    expect(t, memcmp(&before, p, sizeof before) == 0);
    expect(t, h26x_rtp_sender_streams(s, &of) == H26X_OK && of.sequence == streams.sequence);
}

static void check_refused_packets(struct tally *t)
{
    h26x_rtp_sender s = sender_of(t, &streams, 100);
    struct packets p = packets_of(11, "7c8501|7c4502");
    refuses(t, &s, &p, H26X_NO_ROOM, 12);
    p = packets_of(12, "7c8501|7c4502");
    p.size--;
    refuses(t, &s, &p, H26X_OUT_OF_RANGE, 9);
    p.size = 0;
    refuses(t, &s, &p, H26X_OUT_OF_RANGE, 9);
    p = packets_of(12, "7c8501|7c4502");
    p.ends[1] = p.ends[0] + 11;
    refuses(t, &s, &p, H26X_OUT_OF_RANGE, 9);
    p.ends[1] = 3;
    refuses(t, &s, &p, H26X_OUT_OF_RANGE, 9);
    p.ends[1] = SIZE_MAX;
    refuses(t, &s, &p, H26X_OUT_OF_RANGE, 9);
    p = packets_of(12, "7c8501|7c4502");
    p.headroom = SIZE_MAX;
    refuses(t, &s, &p, H26X_OUT_OF_RANGE, 9);
    h26x_rtp_sender_free(s);
}

/* Extensions that have no place in a header, or in a headroom, or in 272 bytes. */
static void check_refused_extensions(struct tally *t)
{
    static const uint8_t extension[4 * 65536];
    h26x_rtp_sender s = sender_of(t, &streams, 100);
    struct packets p = packets_of(300, "7c8501|7c4502");
    static const struct {
        size_t extension_len, len;
        uint32_t code;
    } rows[] = {{3, 9, H26X_RTP_EXTENSION},
                {4 * 65536, 9, H26X_RTP_EXTENSION},
                {260, 276, H26X_NO_ROOM},
                {4 * 65535, 4 * 65535 + 16, H26X_NO_ROOM},
                {256, 272, H26X_OK}};
    for (size_t i = 0; i < sizeof rows / sizeof *rows; i++) {
        size_t len = 9;
        expect(t,
               h26x_rtp_sender_send(&s, 1, 1, extension, rows[i].extension_len, p.headroom, p.at, p.size, p.ends,
                                    p.count, &len)
                   == rows[i].code);
        expect(t, len == rows[i].len && (p.at[28] == BEFORE) == (rows[i].code != H26X_OK) && p.at[27] == BEFORE);
    }
    h26x_rtp_sender_free(s);
}

/* Packets that don't go again: none of that number is held, or there is no room. */
static void check_refused_again(struct tally *t)
{
    h26x_rtp_sender s = sender_of(t, &streams, 3);
    struct packets p = packets_of(12, "7c8501|7c4502");
    uint8_t to[17] = {BEFORE};
    size_t len = 9;
    h26x_rtp_sent sent;
    expect(t, send_packets(&s, &p, &len) == H26X_OK);
    for (uint32_t number = 0; number < 65536; number++)
        expect(t,
               number == 65535 || (h26x_rtp_sender_resend(&s, (uint16_t)number, to, 17, &len) == H26X_OK && len == 0));
    expect(t, h26x_rtp_sender_resend(&s, 65535, to, 16, &len) == H26X_NO_ROOM && len == 17 && to[0] == BEFORE);
    expect(t, h26x_rtp_sender_count(&s, &sent) == H26X_OK && sent.packets == 2 && sent.rtx_packets == 0);
    expect(t, h26x_rtp_sender_resend(&s, 65535, to, 17, &len) == H26X_OK && len == 17);
    expect(t, h26x_rtp_sender_count(&s, &sent) == H26X_OK && sent.rtx_packets == 1 && sent.rtx_bytes == 5);
    h26x_rtp_sender_free(s);
}

/* Payload types with no place in a header, where they are looked at. */
static void check_payload_types(struct tally *t)
{
    h26x_rtp_streams of = streams;
    h26x_rtp_sender s = {NULL};
    of.payload_type = 128;
    expect(t, h26x_rtp_sender_new(&of, 1, &s) == H26X_RTP_PAYLOAD_TYPE && s.at == NULL);
    of.payload_type = 127;
    of.rtx_payload_type = 128;
    expect(t, h26x_rtp_sender_new(&of, 1, &s) == H26X_RTP_PAYLOAD_TYPE && s.at == NULL);
    of.has_rtx = false;
    s = sender_of(t, &of, 1);
    h26x_rtp_streams told;
    expect(t, h26x_rtp_sender_streams(&s, &told) == H26X_OK && told.rtx_payload_type == 0 && told.rtx_ssrc == 0);
    expect(t, told.rtx_sequence == 0 && !told.has_rtx && told.payload_type == 127);
    h26x_rtp_sender_free(s);
}

/* What may be NULL, and no packets, which send nothing. */
static void check_left_out(struct tally *t)
{
    h26x_rtp_sender s = sender_of(t, &streams, 100);
    struct packets p = packets_of(12, "7c85");
    size_t len = 9;
    expect(t, h26x_rtp_sender_send(&s, 1, 1, NULL, 7, 12, NULL, 7, NULL, 7, &len) == H26X_OK && len == 12);
    expect(t, h26x_rtp_sender_send(&s, 1, 1, NULL, 7, 12, NULL, 7, p.ends, 1, NULL) == H26X_OUT_OF_RANGE);
    expect(t, h26x_rtp_sender_send(&s, 1, 1, NULL, 7, 12, p.at, p.size, NULL, 7, NULL) == H26X_OK && p.at[0] == BEFORE);
    expect(t, h26x_rtp_sender_send(&s, 1, 1, NULL, 7, 12, p.at, p.size, p.ends, 1, NULL) == H26X_OK && p.at[0] == 0x80);
    expect(t, h26x_rtp_sender_resend(&s, 65534, NULL, 99, &len) == H26X_NO_ROOM && len == 16);
    expect(t, h26x_rtp_sender_resend(&s, 65534, p.at, p.size, NULL) == H26X_NO_ROOM);
    expect(t, h26x_rtp_sender_streams(&s, NULL) == H26X_OK && h26x_rtp_sender_count(&s, NULL) == H26X_OK);
    h26x_rtp_sender_free(s);
    h26x_rtp_sender_free((h26x_rtp_sender){NULL});
    h26x_rtp_sender_close(NULL);
}

/* A handle of another kind, and a sender where another is wanted. */
static void check_wrong_ends(struct tally *t)
{
    h26x_depacketizer d;
    expect(t, h26x_depacketizer_new(H26X_H264, false, &d) == H26X_OK);
    h26x_rtp_sender wrong = {d.at}, s = sender_of(t, &streams, 100);
    struct packets p = packets_of(12, "7c85");
    uint8_t to[20] = {BEFORE};
    size_t len = 9, count = 9;
    h26x_rtp_streams of = {.ssrc = 9};
    h26x_rtp_sent sent = {.packets = 9};
    expect(t, send_packets(&wrong, &p, &len) == H26X_WRONG_END && len == 9 && p.at[0] == BEFORE);
    expect(t, h26x_rtp_sender_resend(&wrong, 1, to, 20, &len) == H26X_WRONG_END && len == 9 && to[0] == BEFORE);
    expect(t, h26x_rtp_sender_streams(&wrong, &of) == H26X_WRONG_END && of.ssrc == 9);
    expect(t, h26x_rtp_sender_count(&wrong, &sent) == H26X_WRONG_END && sent.packets == 9);
    h26x_packetizer no_packetizer = {s.at};
    expect(t, h26x_packetize(&no_packetizer, 99, to, 4, &count) == H26X_WRONG_END && count == 0);
    h26x_depacketizer_free(d);
    h26x_rtp_sender_free(s);
}

void check_rtp_sender(struct tally *t)
{
    static const h26x_rtp_streams same = {.ssrc = STREAM, .sequence = 65534, .payload_type = MEDIA};
    check_bytes(t);
    check_by_hand(t, &streams, 200);
    check_by_hand(t, &streams, 0);
    check_by_hand(t, &same, 300);
    for (int has_rtx = 0; has_rtx < 2; has_rtx++) {
        check_received(t, H26X_H264, "00000001 6742c01f 00000001 68ce", "00000001 6588", has_rtx);
        check_received(t, H26X_H265, "00000001 40010c 00000001 420101 00000001 4401c1", "00000001 2601ac", has_rtx);
        check_received(t, H26X_H266, "00000001 007900 00000001 008100", "00000001 0041c0", has_rtx);
    }
    check_refused_packets(t);
    check_refused_extensions(t);
    check_refused_again(t);
    check_payload_types(t);
    check_left_out(t);
    check_wrong_ends(t);
}
