/* Datagrams, any whatever: an input is one. What is read of it lies in it and is written as the same bytes, a
 * retransmission bears it, what is counted of its bytes as numbers of packets is within bounds, and a receiver tells of
 * what it is cut into what is read of that. */
#include "fuzz.h"
#include <string.h>

int LLVMFuzzerTestOneInput(const uint8_t *at, size_t len);

enum { NOT_SAID = 99, OTHER_SSRC = 0x01020304 };

static bool is_same_header(const h26x_rtp_header *a, const h26x_rtp_header *b)
{
    return a->timestamp == b->timestamp && a->profile == b->profile && a->marker == b->marker
        && a->has_extension == b->has_extension;
}

/* The parts stand one behind the other, and are all of the datagram (RFC 3550, 5.1). */
static void check_places(const h26x_rtp_packet *p, size_t len)
{
    const size_t extension = p->header.has_extension ? 4 + p->extension_len : 0;
    expect(p->csrcs_len % 4 == 0 && p->csrcs_len <= 60 && p->extension_len % 4 == 0 && p->header.payload_type < 128);
    expect(p->header.has_extension || (p->extension_len == 0 && p->header.profile == 0));
    expect(p->payload == 12 + p->csrcs_len + extension);
    expect(p->payload + p->payload_len + p->padding_len == len && p->padding_len < 256);
}

/* It is written as it stood, where there is room for it, and so is its header alone. */
static void check_written(const h26x_rtp_packet *p, struct input in)
{
    const uint8_t *at = copied(PACKET, in), *csrcs = at + 12, *extension = csrcs + p->csrcs_len + 4;
    const uint8_t *payload = at + p->payload, *padding = payload + p->payload_len;
    size_t size = NOT_SAID;
    uint8_t *to = room_for(OUTPUT, in.len - 1);
    expect(h26x_rtp_write(&p->header, csrcs, p->csrcs_len, extension, p->extension_len, payload, p->payload_len,
                          padding, p->padding_len, to, in.len - 1, &size)
           == H26X_NO_ROOM);
    expect(size == in.len && is_untouched(to, in.len - 1));
    to = room_for(OUTPUT, in.len);
    expect(h26x_rtp_write(&p->header, csrcs, p->csrcs_len, extension, p->extension_len, payload, p->payload_len,
                          padding, p->padding_len, to, in.len, &size)
           == H26X_OK);
    expect(size == in.len && memcmp(to, at, size) == 0);
    to = room_for(OTHER, p->payload + 3);
    expect(h26x_rtp_write_before(&p->header, csrcs, p->csrcs_len, extension, p->extension_len, p->padding_len > 0,
                                 p->payload + 3, to, p->payload + 3, &size)
           == H26X_OK);
    expect(size == p->payload && memcmp(to + 3, at, size) == 0 && is_untouched(to, 3));
}

/* Its retransmission bears it (RFC 4588, 4). */
static void check_resent(const h26x_rtp_packet *p, struct input in)
{
    const size_t len = in.len - p->padding_len + 2;
    const uint8_t *at = copied(PACKET, in);
    uint8_t *to = room_for(OUTPUT, len);
    size_t size = NOT_SAID;
    h26x_rtp_packet original;
    expect(h26x_rtx_write(at, in.len, 97, 7, OTHER_SSRC, to, len - 1, &size) == H26X_NO_ROOM && size == len);
    expect(is_untouched(to, len));
    expect(h26x_rtx_write(at, in.len, 97, 7, OTHER_SSRC, to, len, &size) == H26X_OK && size == len);
    expect(h26x_rtp_original(to, len, p->header.payload_type, p->header.ssrc, &original) == H26X_OK);
    expect(is_same_header(&original.header, &p->header) && original.header.sequence == p->header.sequence);
    expect(original.payload == p->payload + 2 && original.payload_len == p->payload_len && original.padding_len == 0);
    expect(memcmp(to + original.payload, at + p->payload, p->payload_len) == 0);
}

/* What it bears where it is a retransmission, and where it is redundant. */
static void check_borne(const h26x_rtp_packet *p, struct input in)
{
    const uint8_t *at = copied(PACKET, in);
    h26x_rtp_packet original = {.payload = NOT_SAID};
    const uint32_t code = h26x_rtp_original(at, in.len, 96, OTHER_SSRC, &original);
    expect(code == (p->payload_len < 2 ? H26X_RTX_NO_ORIGINAL : H26X_OK));
    if (code == H26X_OK) {
        expect(is_same_header(&original.header, &p->header) && original.header.ssrc == OTHER_SSRC);
        expect(original.payload == p->payload + 2 && original.payload_len + 2 == p->payload_len);
    } else {
        expect(original.payload == NOT_SAID);
    }
    saw(2, code, about(p->payload_len), 0);
}

static void check_red(struct input in)
{
    const uint8_t *at = copied(PACKET, in);
    uint8_t payload_type = NOT_SAID;
    size_t place = NOT_SAID;
    const uint32_t code = h26x_red_primary(at, in.len, &payload_type, &place);
    if (code == H26X_OK)
        expect(place >= 1 && place <= in.len && payload_type < 128);
    else
        expect(code >= H26X_RED_HEADERS_PAST_THE_END && code <= H26X_RED_BLOCKS_PAST_THE_END && place == NOT_SAID);
    saw(3, code, about(place), about(in.len));
}

/* Its blocks stand one behind the other, from behind the headers to the primary one. */
static void check_red_blocks(struct input in)
{
    const uint8_t *at = copied(PACKET, in);
    h26x_red_block blocks[64];
    size_t count = NOT_SAID, place = NOT_SAID;
    const uint32_t code = h26x_red_blocks(at, in.len, blocks, 64, &count);
    expect(code == h26x_red_primary(at, in.len, NULL, &place) && (code == H26X_OK || count == NOT_SAID));
    if (code != H26X_OK)
        return;
    const size_t told = count < 64 ? count : 64;
    size_t end = 4 * count + 1;
    for (size_t i = 0; i < told; end += blocks[i++].len)
        expect(blocks[i].begin == end && blocks[i].len < 1024 && blocks[i].payload_type < 128
               && blocks[i].timestamp_offset < 16384);
    expect(told == count ? end == place : end <= place);
    saw(10, about(count), about(end), about(place));
}

/* The elements of the bytes in both forms: each behind the one before, and within. */
static void check_elements(struct input in)
{
    static const uint16_t profiles[] = {0xbede, 0x1000, 0x100f, 0x1010};
    const uint8_t *at = copied(PACKET, in);
    for (size_t i = 0; i < 4; i++) {
        h26x_rtp_element it = {0};
        size_t from = 0, count = 0;
        uint32_t code;
        for (; (code = h26x_rtp_element_next(profiles[i], at, in.len, from, &it)) == H26X_OK; count++) {
            expect(it.begin > from && it.id > 0 && it.begin + it.len <= in.len);
            expect(i > 0 ? at[it.begin - 2] == it.id && at[it.begin - 1] == it.len
                         : at[it.begin - 1] == (it.id << 4 | (it.len - 1)));
            from = it.begin + it.len;
        }
        expect(code == H26X_RTP_NO_ELEMENT || (code == H26X_RTP_ELEMENT_PAST_THE_END && i < 3));
        expect(i < 3 || count == 0);
        saw(11, i, about(count), code);
    }
}

/* A NACK, written again, asks for the same numbers in no more bytes. */
static bool check_nack(struct input in)
{
    const uint8_t *at = copied(PACKET, in);
    uint32_t sender, media;
    size_t count = NOT_SAID, len, all;
    if (!h26x_nack_read(at, in.len, &sender, &media, NULL, 0, &count)) {
        expect(count == NOT_SAID);
        return false;
    }
    uint16_t *numbers = (void *)room_for(OTHER, 2 * count), *again = (void *)room_for(ENDS, 2 * count);
    expect(h26x_nack_read(at, in.len, &sender, &media, numbers, count, &all) && all == count);
    uint8_t *to = room_for(OUTPUT, in.len);
    expect(h26x_nack_write(sender, media, numbers, count, to, in.len, &len, &all) == H26X_OK && all == count);
    expect(len <= in.len && memcmp(to, at, 2) == 0 && memcmp(to + 4, at + 4, 8) == 0);
    expect(h26x_nack_read(to, len, NULL, NULL, again, count, &all) && all == count);
    expect(memcmp(again, numbers, 2 * count) == 0);
    saw(6, about(in.len), about(count), about(len));
    return true;
}

/* Its packets of RTCP stand one behind the other; one that is read alone is all of it. */
static void check_compound(struct input in, bool is_one)
{
    const uint8_t *at = copied(PACKET, in);
    size_t from = 0, end = 0, packets = 0;
    for (; h26x_rtcp_next(at, in.len, from, &end); from = end, packets++)
        expect(at[from] >> 6 == 2 && end == from + 4 * (size_t)(at[from + 2] << 8 | at[from + 3]) + 4 && end <= in.len);
    expect(end == from && (!is_one || (packets == 1 && end == in.len)));
    saw(7, about(packets), about(end), is_one);
}

/* One of the packets of RTCP at most, written as the same but for what is reserved. */
static void check_rtcp(struct input in)
{
    const bool is_nack = check_nack(in);
    const uint8_t *at = copied(PACKET, in);
    uint8_t to[32], number;
    uint32_t sender, media;
    h26x_report report;
    size_t len = 0;
    const bool is_pli = h26x_pli_read(at, in.len, &sender, &media);
    if (is_pli)
        expect(h26x_pli_write(sender, media, to, sizeof to, &len) == H26X_OK && memcmp(to, at, 12) == 0);
    const bool is_fir = h26x_fir_read(at, in.len, &sender, &media, &number);
    if (is_fir)
        expect(h26x_fir_write(sender, media, number, to, sizeof to, &len) == H26X_OK && memcmp(to, at, 8) == 0
               && memcmp(to + 12, at + 12, 5) == 0);
    const bool is_report = h26x_receiver_report_read(at, in.len, &sender, &report);
    if (is_report)
        expect(h26x_receiver_report_write(sender, &report, to, sizeof to, &len) == H26X_OK && memcmp(to, at, 32) == 0);
    expect(is_nack + is_pli + is_fir + is_report <= 1 && len == (is_pli || is_fir || is_report ? in.len : 0));
    expect((len == 0 && !is_nack) || h26x_is_rtcp(at, in.len));
    saw(4, is_pli, is_fir, is_report);
    check_compound(in, is_nack || len > 0);
}

/* Each two bytes as a number, with a report behind each eighth. */
static void check_counts(struct input in)
{
    h26x_rtp_statistics it = {0};
    h26x_report report;
    for (uint32_t i = 0; in.len > 0; i++) {
        const h26x_rtp_statistics before = it;
        const uint16_t sequence = take_word(&in);
        const bool counts = h26x_rtp_statistics_receive(&it, sequence * 7u, sequence, i * 3000, i);
        expect(counts ? it.received == before.received + 1 || it.received == 1 : it.received == before.received);
        expect((counts || it.has_jumped) && it.expected >= 1 && it.received >= 1 && it.has_transit);
        expect((uint16_t)(it.base + it.expected - 1) == it.highest);
        saw(5, counts, about((size_t)it.expected), about((size_t)it.received));
        if (i % 8 != 7)
            continue;
        h26x_rtp_statistics_report(&it, 9, 1, 2, &report);
        expect((int64_t)report.lost == (int64_t)it.expected - (int64_t)it.received
               && report.highest % 65536 == it.highest);
        expect(report.ssrc == 9 && report.last_sender_report == 1 && report.delay == 2
               && report.jitter == it.jitter / 16);
        expect(it.expected_before == it.expected && it.received_before == it.received);
    }
}

/* A datagram to a receiver, which tells what is read of it. */
static void push_datagram(h26x_rtp_receiver *r, uint32_t now, struct input in)
{
    const uint8_t *at = copied(PACKET, in);
    h26x_rtp_told told = {.became = NOT_SAID};
    h26x_rtp_packet packet;
    const uint32_t code = h26x_rtp_receiver_push(r, now, now * 90, at, in.len, &told);
    const uint32_t read = h26x_rtp_read(at, in.len, &packet);
    saw(8, code << 8 | told.became, told.no_media << 4 | told.pushed, told.is_recovered);
    if (h26x_is_rtcp(at, in.len)) {
        expect(code == H26X_OK && told.became == H26X_RTP_RTCP);
    } else if (read != H26X_OK) {
        expect(code == read && told.became == NOT_SAID);
    } else if (code != H26X_OK) {
        expect(code == H26X_RED_HEADERS_PAST_THE_END || code == H26X_RED_BLOCKS_PAST_THE_END);
        expect(told.became == NOT_SAID && packet.payload_len > 0);
    } else if (told.became == H26X_RTP_TAKEN) {
        expect(told.is_recovered || told.sequence == packet.header.sequence);
        expect(told.no_media <= H26X_RTP_OTHER_TYPE && told.pushed <= H26X_JUMPED);
    } else {
        expect(told.became >= H26X_RTP_PROBE && told.became <= H26X_RTP_OTHER_SOURCE);
        expect(told.ssrc == (told.became == H26X_RTP_PROBE ? 0 : packet.header.ssrc));
    }
}

/* Takes the access units that have ended; how many they are. */
static uint64_t take_units(h26x_rtp_receiver *r, uint32_t now)
{
    h26x_access_unit unit;
    uint64_t count = 0;
    while (h26x_rtp_receiver_next(r, now, NULL, 0, &unit) == H26X_NO_ROOM) {
        uint8_t *to = room_for(OUTPUT, unit.len);
        expect(h26x_rtp_receiver_next(r, now, to, unit.len, NULL) == H26X_OK && unit.len > 0);
        count++;
    }
    return count;
}

/* All of an input, and then the datagrams that it is cut into, as those of one stream. */
static void check_received(struct input in)
{
    const h26x_rtp_payload_types types = {96, 97, 98, 99, 100, true, true, true, true};
    const h26x_nack_times times = {.again = 3, .most = 2};
    h26x_rtp_receiver r;
    h26x_access_units_counts counts;
    h26x_rtp_statistics counted;
    uint16_t numbers[8];
    size_t asked;
    uint64_t units = 0;
    uint32_t now = 0;
    const struct input all = in;
    const struct settings set = take_settings(&in);
    const h26x_access_units_config config = {.codec = set.codec,
                                             .max_wait = 5,
                                             .window = 16,
                                             .far_away = 100,
                                             .numbers = set.numbers,
                                             .avc = set.avc,
                                             .held_limit = LONGEST,
                                             .run_limit = LONGEST,
                                             .unit_limit = LONGEST};
    expect(h26x_rtp_receiver_new(&config, &types, &r) == H26X_OK);
    for (struct input one = all; one.len > 0; one = take_bytes(&in), now++) {
        push_datagram(&r, now, one);
        units += take_units(&r, now);
        expect(h26x_rtp_receiver_nacks(&r, now, &times, numbers, 8, &asked) == H26X_OK && asked <= 8);
        saw(9, about(asked), about((size_t)units), h26x_rtp_receiver_keyframe_wanted(&r, now, 4));
    }
    expect(h26x_rtp_receiver_finish(&r) == H26X_OK);
    units += take_units(&r, now);
    expect(h26x_rtp_receiver_count(&r, &counts) == H26X_OK && counts.units == units);
    expect(h26x_rtp_receiver_statistics(&r, &counted) == H26X_OK && counted.received + counted.recovered <= now);
    h26x_rtp_receiver_free(r);
}

int LLVMFuzzerTestOneInput(const uint8_t *at, size_t len)
{
    const struct input in = {at, len < LONGEST ? len : LONGEST};
    h26x_rtp_packet packet = {.payload = NOT_SAID};
    const uint32_t code = h26x_rtp_read(copied(PACKET, in), in.len, &packet);
    saw(1, code, packet.csrcs_len / 4 + packet.extension_len,
        about(packet.payload_len) << 4 | about(packet.padding_len));
    if (code == H26X_OK) {
        check_places(&packet, in.len);
        check_written(&packet, in);
        check_resent(&packet, in);
        check_borne(&packet, in);
        check_red((struct input){in.at + packet.payload, packet.payload_len});
        check_elements((struct input){in.at + 16 + packet.csrcs_len, packet.extension_len});
    } else {
        expect(code >= H26X_RTP_TOO_SHORT && code <= H26X_RTP_PADDING_TOO_LONG && packet.payload == NOT_SAID);
    }
    check_red(in);
    check_red_blocks(in);
    check_elements(in);
    check_rtcp(in);
    check_counts(in);
    check_received(in);
    return 0;
}
