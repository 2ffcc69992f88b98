/* What stands round payloads: bytes by the figures of RFC 3550, 5.1, 5.3.1 and 6.4.2, RFC 5761, 4, RFC 4588, 4, RFC 2198,
 * 3, RFC 4585, 6.1, 6.2.1 and 6.3.1, and RFC 5104, 4.3.1; and what is counted of a source by RFC 3550, A.1, A.3 and A.8. */
#include "calls.h"
#include <stdlib.h>
#include <string.h>

/* The longest packet without CSRCs, payload and padding: an extension of 65535 words. */
enum { LONGEST = 12 + 4 + 262140 };

/* A packet with a CSRC, an extension of one word and a byte of padding: its header, and all of it. */
#define HEADER "b1ff ffff 00000000 ffffffff 0a0b0c0d bede0001 10aa0000"
#define WHOLE HEADER " 41 01"
#define FIELDS                                                                                         \
    {                                                                                                  \
        .ssrc = UINT32_MAX, .sequence = 65535, .profile = 0xbede, .payload_type = 127, .marker = true, \
        .has_extension = true                                                                          \
    }
static const uint8_t csrc[] = {10, 11, 12, 13}, word[] = {0x10, 0xaa, 0, 0}, slice[] = {0x41}, padding[] = {1};

/* ---- Packets that are read ---- */

static bool is_header(const h26x_rtp_header *a, const h26x_rtp_header *b)
{
    return a->timestamp == b->timestamp && a->ssrc == b->ssrc && a->sequence == b->sequence && a->profile == b->profile
        && a->payload_type == b->payload_type && a->marker == b->marker && a->has_extension == b->has_extension;
}

static bool is_packet(const h26x_rtp_packet *a, const h26x_rtp_packet *b)
{
    return is_header(&a->header, &b->header) && a->csrcs_len == b->csrcs_len && a->extension_len == b->extension_len
        && a->payload == b->payload && a->payload_len == b->payload_len && a->padding_len == b->padding_len;
}

#define ZEROS_12 "000000000000000000000000"
#define ZEROS_60 ZEROS_12 ZEROS_12 ZEROS_12 ZEROS_12 ZEROS_12

static void check_packets(struct tally *t)
{
    static const struct {
        const char *bytes;
        h26x_rtp_packet packet;
    } rows[] = {
        {"8060 1234 01020304 a1a2a3a4",
         {{.payload_type = 96, .sequence = 0x1234, .timestamp = 0x01020304, .ssrc = 0xa1a2a3a4}, .payload = 12}},
        {"80e0 1234 01020304 a1a2a3a4 65",
         {{.payload_type = 96, .marker = true, .sequence = 0x1234, .timestamp = 0x01020304, .ssrc = 0xa1a2a3a4},
          .payload = 12,
          .payload_len = 1}},
        {"a060 0007 00000000 00000001 000003",
         {{.payload_type = 96, .sequence = 7, .ssrc = 1}, .payload = 12, .padding_len = 3}},
        {"9060 0007 00000000 00000001 10000000 65",
         {{.payload_type = 96, .sequence = 7, .ssrc = 1, .profile = 0x1000, .has_extension = true},
          .payload = 16,
          .payload_len = 1}},
        {"8f00 0000 00000000 00000000" ZEROS_60 "6501", {.csrcs_len = 60, .payload = 72, .payload_len = 2}},
        {WHOLE, {FIELDS, .csrcs_len = 4, .extension_len = 4, .payload = 24, .payload_len = 1, .padding_len = 1}},
    };
    for (size_t i = 0; i < sizeof rows / sizeof rows[0]; i++) {
        const struct bytes in = bytes_of(rows[i].bytes);
        h26x_rtp_packet packet = {.payload = 99};
        expect_at(t, h26x_rtp_read(in.at, in.len, &packet) == H26X_OK, rows[i].bytes, __FILE__, __LINE__);
        expect_at(t, is_packet(&packet, &rows[i].packet), rows[i].bytes, __FILE__, __LINE__);
        expect(t, h26x_rtp_read(in.at, in.len, NULL) == H26X_OK);
    }
}

/* Each fault alone, and the first of two. */
static void check_refused(struct tally *t)
{
    static const struct {
        const char *bytes;
        uint32_t code;
    } rows[] = {
        {"", H26X_RTP_TOO_SHORT},
        {"4060 0001 00000000 000000", H26X_RTP_TOO_SHORT},
        {"0060 0001 00000000 00000000", H26X_RTP_OTHER_VERSION},
        {"4160 0001 00000000 00000000", H26X_RTP_OTHER_VERSION},
        {"c060 0001 00000000 00000000", H26X_RTP_OTHER_VERSION},
        {"b160 0001 00000000 00000000 0a0b00", H26X_RTP_CSRCS_PAST_THE_END},
        {"8f60 0001 00000000 00000000" ZEROS_12 ZEROS_12 ZEROS_12 ZEROS_12 "0000000000000000000000",
         H26X_RTP_CSRCS_PAST_THE_END},
        {"b060 0001 00000000 00000000 bede00", H26X_RTP_EXTENSION_PAST_THE_END},
        {"b060 0001 00000000 00000000 bede0001 000000", H26X_RTP_EXTENSION_PAST_THE_END},
        {"a060 0001 00000000 00000000 4100", H26X_RTP_PADDING_OF_ZERO},
        {"a060 0001 00000000 00000000 4103", H26X_RTP_PADDING_TOO_LONG},
        {"b060 0001 00000000 00000000 bede0001 00000001", H26X_RTP_PADDING_TOO_LONG},
    };
    for (size_t i = 0; i < sizeof rows / sizeof rows[0]; i++) {
        const struct bytes in = bytes_of(rows[i].bytes);
        const h26x_rtp_packet before = {.payload = 99};
        h26x_rtp_packet packet = before;
        uint8_t to[ROOM] = {7};
        size_t len = 9;
        const uint32_t codes[] = {h26x_rtp_read(in.at, in.len, &packet),
                                  h26x_rtp_original(in.at, in.len, 96, 1, &packet),
                                  h26x_rtx_write(in.at, in.len, 97, 5, 2, to, sizeof to, &len)};
        for (size_t j = 0; j < 3; j++)
            expect_at(t, codes[j] == rows[i].code, rows[i].bytes, __FILE__, __LINE__);
        expect(t, is_packet(&packet, &before) && to[0] == 7 && len == 9);
    }
}

/* 192 to 223 of the second byte are RTCP (RFC 5761, 4). */
static void check_rtcp(struct tally *t)
{
    uint8_t both[] = {0x80, 0};
    for (unsigned second = 0; second < 256; second++) {
        both[1] = (uint8_t)second;
        expect(t, h26x_is_rtcp(both, 2) == (second >= 192 && second <= 223));
    }
    both[1] = 200;
    expect(t, !h26x_is_rtcp(both, 1) && !h26x_is_rtcp(both + 1, 1) && !h26x_is_rtcp(both, 0));
}

/* ---- Packets that are written ---- */

static const h26x_rtp_header fields = FIELDS;

static void check_written(struct tally *t)
{
    uint8_t to[30];
    size_t len = 9;
    memset(to, 7, sizeof to);
    expect(t, h26x_rtp_write(&fields, csrc, 4, word, 4, slice, 1, padding, 1, to, 25, &len) == H26X_NO_ROOM);
    expect(t, len == 26 && is_same(to, 2, "0707"));
    expect(t, h26x_rtp_write(&fields, csrc, 4, word, 4, slice, 1, padding, 1, to, 26, &len) == H26X_OK);
    expect(t, len == 26 && is_same(to, 26, WHOLE) && is_same(to + 26, 4, "07070707"));
    /* (an extension that the header hasn't isn't looked at) */
    const h26x_rtp_header plain = {.timestamp = 0x01020304, .ssrc = 0xa1a2a3a4, .sequence = 0x1234, .payload_type = 96};
    expect(t, h26x_rtp_write(&plain, NULL, 0, word, 3, slice, 1, NULL, 0, to, sizeof to, &len) == H26X_OK);
    expect(t, is_same(to, len, "8060 1234 01020304 a1a2a3a4 41"));
    expect(t, h26x_rtp_write(&plain, NULL, 0, NULL, 0, NULL, 0, NULL, 0, to, sizeof to, NULL) == H26X_OK);
    expect(t, h26x_rtp_write(&fields, NULL, 9, NULL, 9, NULL, 9, NULL, 9, to, sizeof to, &len) == H26X_OK);
    expect(t, is_same(to, len, "90ff ffff 00000000 ffffffff bede0000"));
}

/* The first part of a packet that has no place in one. */
static void check_unwritten(struct tally *t)
{
    static const uint8_t zeros[262144], of_two[] = {0, 2};
    uint8_t *to = malloc(LONGEST);
    h26x_rtp_header header = {.payload_type = 128, .has_extension = true};
    size_t len = 9;
    expect(t, h26x_rtp_write(&header, zeros, 3, zeros, 3, NULL, 0, zeros, 1, NULL, 0, &len) == H26X_RTP_PAYLOAD_TYPE);
    expect(t, h26x_rtp_write_before(&header, zeros, 3, zeros, 3, false, 0, NULL, 0, &len) == H26X_RTP_PAYLOAD_TYPE);
    header.payload_type = 127;
    expect(t, h26x_rtp_write(&header, zeros, 3, zeros, 3, NULL, 0, zeros, 1, NULL, 0, &len) == H26X_RTP_CSRCS);
    expect(t, h26x_rtp_write(&header, zeros, 64, zeros, 3, NULL, 0, zeros, 1, NULL, 0, &len) == H26X_RTP_CSRCS);
    expect(t, h26x_rtp_write_before(&header, zeros, 64, zeros, 3, false, 0, NULL, 0, &len) == H26X_RTP_CSRCS);
    expect(t, h26x_rtp_write(&header, zeros, 60, zeros, 3, NULL, 0, zeros, 1, NULL, 0, &len) == H26X_RTP_EXTENSION);
    expect(t, h26x_rtp_write(&header, zeros, 60, zeros, 262144, NULL, 0, NULL, 0, NULL, 0, &len) == H26X_RTP_EXTENSION);
    expect(t, h26x_rtp_write_before(&header, zeros, 60, zeros, 3, false, 0, NULL, 0, &len) == H26X_RTP_EXTENSION);
    expect(t, h26x_rtp_write(&header, zeros, 60, zeros, 4, NULL, 0, zeros, 1, NULL, 0, &len) == H26X_RTP_PADDING);
    expect(t, h26x_rtp_write(&header, zeros, 60, zeros, 4, NULL, 0, zeros, 256, NULL, 0, &len) == H26X_RTP_PADDING);
    expect(t, h26x_rtp_write(&header, zeros, 60, zeros, 4, NULL, 0, of_two, 1, NULL, 0, &len) == H26X_RTP_PADDING);
    expect(t, len == 9);
    expect(t, h26x_rtp_write(&header, zeros, 60, zeros, 4, NULL, 0, of_two, 2, NULL, 0, &len) == H26X_NO_ROOM);
    expect(t, len == 82);
    expect(t, h26x_rtp_write(&header, NULL, 0, zeros, 262140, NULL, 0, NULL, 0, to, LONGEST, &len) == H26X_OK);
    expect(t, len == LONGEST && is_same(to, 16, "907f 0000 00000000 00000000 0000ffff"));
    free(to);
}

/* A header that ends where a payload begins. */
static void check_before(struct tally *t)
{
    uint8_t to[30];
    size_t len = 9;
    memset(to, 7, sizeof to);
    expect(t, h26x_rtp_write_before(&fields, csrc, 4, word, 4, true, 23, to, 30, &len) == H26X_NO_ROOM && len == 24);
    len = 9;
    expect(t, h26x_rtp_write_before(&fields, csrc, 4, word, 4, true, 31, to, 30, &len) == H26X_NO_ROOM && len == 24);
    expect(t, is_same(to, 4, "07070707") && is_same(to + 26, 4, "07070707"));
    len = 9;
    expect(t, h26x_rtp_write_before(&fields, csrc, 4, word, 4, true, 26, to, 30, &len) == H26X_OK && len == 24);
    expect(t, is_same(to, 2, "0707") && is_same(to + 2, 24, HEADER) && is_same(to + 26, 4, "07070707"));
    expect(t, h26x_rtp_write_before(&fields, csrc, 4, word, 4, false, 30, to, 30, NULL) == H26X_OK && to[6] == 0x91);
}

/* A header in the headroom of each packet of an access unit. */
static void check_headroom(struct tally *t)
{
    const struct bytes unit = bytes_of("00000001 67420a 00000001 68cb 00000001 65" ZEROS_60);
    h26x_packetizer p;
    uint8_t at[ROOM];
    size_t ends[8], count = 0, begin = 0;
    expect(t, h26x_packetizer_new(H26X_H264, false, &p) == H26X_OK);
    expect(t,
           h26x_packetize_units_into(&p, 30, unit.at, unit.len, 12, at, sizeof at, ends, 8, &count, NULL, NULL)
               == H26X_OK);
    expect(t, count == 4);
    for (size_t i = 0; i < count; begin = ends[i++]) {
        const h26x_rtp_header header = {.timestamp = 3000,
                                        .ssrc = 7,
                                        .sequence = (uint16_t)(65534 + i),
                                        .payload_type = 96,
                                        .marker = i + 1 == count};
        uint8_t *packet = at + begin;
        const size_t packet_len = ends[i] - begin;
        h26x_rtp_packet read;
        size_t len = 9;
        expect(t, h26x_rtp_write_before(&header, NULL, 0, NULL, 0, false, 12, packet, packet_len, &len) == H26X_OK);
        expect(t, len == 12 && h26x_rtp_read(packet, packet_len, &read) == H26X_OK);
        expect(t, is_packet(&read, &(h26x_rtp_packet){header, .payload = 12, .payload_len = packet_len - 12}));
    }
    expect(t, is_same(at, ends[0], "8060 fffe 00000bb8 00000007 78 0003 67420a 0002 68cb"));
    h26x_packetizer_free(p);
}

/* ---- Retransmissions and redundant payloads ---- */

static void check_rtx(struct tally *t)
{
    const struct bytes sent = bytes_of("80e0 1234 00000009 00000001 65"),
                       padded = bytes_of("a0e0 1234 00000009 00000001 65 01");
    const struct bytes resent = bytes_of("a0e1 0005 00000009 00000002 1234 65 01");
    const h26x_rtp_packet original = {
        {.payload_type = 96, .marker = true, .sequence = 0x1234, .timestamp = 9, .ssrc = 1},
        .payload = 14,
        .payload_len = 1};
    h26x_rtp_packet packet;
    uint8_t to[40] = {7};
    size_t len = 9;
    expect(t, h26x_rtx_write(sent.at, sent.len, 128, 5, 2, to, sizeof to, &len) == H26X_RTP_PAYLOAD_TYPE && len == 9);
    expect(t, h26x_rtx_write(sent.at, sent.len, 97, 5, 2, to, 14, &len) == H26X_NO_ROOM && len == 15 && to[0] == 7);
    expect(t, h26x_rtx_write(sent.at, sent.len, 97, 5, 2, to, 15, &len) == H26X_OK);
    expect(t, is_same(to, len, "80e1 0005 00000009 00000002 1234 65"));
    expect(t, h26x_rtp_original(to, len, 96, 1, &packet) == H26X_OK && is_packet(&packet, &original));
    /* Neither has the padding of the other. */
    expect(t, h26x_rtx_write(padded.at, padded.len, 97, 5, 2, to, sizeof to, &len) == H26X_OK);
    expect(t, is_same(to, len, "80e1 0005 00000009 00000002 1234 65"));
    expect(t, h26x_rtp_original(resent.at, resent.len, 96, 1, &packet) == H26X_OK && is_packet(&packet, &original));
    expect(t, h26x_rtp_original(resent.at, resent.len, 96, 1, NULL) == H26X_OK);
    /* CSRCs and the extension stay; and a packet of no payload. */
    const struct bytes all = bytes_of(WHOLE);
    expect(t, h26x_rtx_write(all.at, all.len, 97, 5, 2, to, sizeof to, &len) == H26X_OK);
    expect(t, is_same(to, len, "91e1 0005 00000000 00000002 0a0b0c0d bede0001 10aa0000 ffff 41"));
    expect(t, h26x_rtp_original(to, len, 127, UINT32_MAX, &packet) == H26X_OK);
    expect(t, is_packet(&packet, &(h26x_rtp_packet){fields, 4, 4, 26, 1, 0}));
    const struct bytes empty = bytes_of("8061 0005 00000009 00000002 1234");
    expect(t, h26x_rtp_original(empty.at, empty.len, 96, 1, &packet) == H26X_OK);
    expect(t, packet.payload == 14 && packet.payload_len == 0 && packet.header.sequence == 0x1234);
}

static void check_no_original(struct tally *t)
{
    static const char *const rows[] = {"8061 0005 00000009 00000002", "8061 0005 00000009 00000002 12",
                                       "a061 0005 00000009 00000002 01", "a061 0005 00000009 00000002 12 0002"};
    for (size_t i = 0; i < 4; i++) {
        const struct bytes in = bytes_of(rows[i]);
        h26x_rtp_packet packet = {.payload = 99};
        expect_at(t, h26x_rtp_original(in.at, in.len, 96, 1, &packet) == H26X_RTX_NO_ORIGINAL, rows[i], __FILE__,
                  __LINE__);
        expect(t, packet.payload == 99);
    }
}

/* Of a block before the primary one: F, its payload type, an offset of 160 in 14 bits, a length of 2 in 10. */
static void check_red(struct tally *t)
{
    static const struct {
        const char *bytes;
        uint32_t code;
        uint8_t payload_type;
        size_t place;
    } rows[] = {
        {"60 65", H26X_OK, 96, 1},
        {"05", H26X_OK, 5, 1},
        {"87028002 05 aabb cc", H26X_OK, 5, 7},
        {"87028002 ff000001 7f aabb dd", H26X_OK, 127, 12},
        {"", H26X_RED_HEADERS_PAST_THE_END, 99, 99},
        {"870280", H26X_RED_HEADERS_PAST_THE_END, 99, 99},
        {"87028002", H26X_RED_HEADERS_PAST_THE_END, 99, 99},
        {"87028002 05 aa", H26X_RED_BLOCKS_PAST_THE_END, 99, 99},
        {"8700ffff 05 aabb", H26X_RED_BLOCKS_PAST_THE_END, 99, 99},
    };
    for (size_t i = 0; i < sizeof rows / sizeof rows[0]; i++) {
        const struct bytes in = bytes_of(rows[i].bytes);
        uint8_t payload_type = 99;
        size_t place = 99;
        const uint32_t code = h26x_red_primary(in.at, in.len, &payload_type, &place);
        expect_at(t, code == rows[i].code, rows[i].bytes, __FILE__, __LINE__);
        expect_at(t, payload_type == rows[i].payload_type && place == rows[i].place, rows[i].bytes, __FILE__, __LINE__);
        expect(t, h26x_red_primary(in.at, in.len, NULL, NULL) == code);
    }
}

static bool is_block(const h26x_red_block *a, const h26x_red_block *b)
{
    return a->begin == b->begin && a->len == b->len && a->timestamp_offset == b->timestamp_offset
        && a->payload_type == b->payload_type;
}

/* The blocks before the primary one, the first of which are told where there is no room for all. */
static void check_red_blocks(struct tally *t)
{
    static const struct {
        const char *bytes;
        uint32_t code;
        size_t count;
        h26x_red_block blocks[2];
    } rows[] = {
        {"60 65", H26X_OK, 0, {{0}}},
        {"87028002 05 aabb cc", H26X_OK, 1, {{5, 2, 160, 7}}},
        {"87028002 ff000001 7f aabb dd", H26X_OK, 2, {{9, 2, 160, 7}, {11, 1, 0, 127}}},
        {"80000000 fffffc00 00", H26X_OK, 2, {{9, 0, 0, 0}, {9, 0, 16383, 127}}},
        {"870280", H26X_RED_HEADERS_PAST_THE_END, 9, {{0}}},
        {"87028002 05 aa", H26X_RED_BLOCKS_PAST_THE_END, 9, {{0}}},
    };
    for (size_t i = 0; i < sizeof rows / sizeof rows[0]; i++) {
        const struct bytes in = bytes_of(rows[i].bytes);
        const size_t there = rows[i].code == H26X_OK ? rows[i].count : 0;
        for (size_t room = 0; room <= 3; room++) {
            h26x_red_block blocks[3] = {{.len = 99}, {.len = 99}, {.len = 99}};
            size_t count = 9;
            expect_at(t, h26x_red_blocks(in.at, in.len, blocks, room, &count) == rows[i].code, rows[i].bytes, __FILE__,
                      __LINE__);
            expect_at(t, count == rows[i].count, rows[i].bytes, __FILE__, __LINE__);
            for (size_t j = 0; j < 3; j++)
                expect(t, j < room && j < there ? is_block(&blocks[j], &rows[i].blocks[j]) : blocks[j].len == 99);
        }
    }
}

/* ---- Elements of header extensions ---- */

/* All elements by RFC 8285, 4.2 and 4.3, each as its place, its length and its id, and the code behind the last. */
static void check_elements(struct tally *t)
{
    static const struct {
        const char *bytes;
        uint16_t profile;
        uint32_t code;
        h26x_rtp_element elements[4];
    } rows[] = {
        {"10aa 21bbcc 0000 33d0d1d2d3", 0xbede, H26X_RTP_NO_ELEMENT, {{1, 1, 1}, {3, 2, 2}, {8, 4, 3}}},
        {"0100 0201bb 00 0304d0d1d2d3", 0x1000, H26X_RTP_NO_ELEMENT, {{2, 0, 1}, {4, 1, 2}, {8, 4, 3}}},
        {"0f01aa ff00 00", 0x100f, H26X_RTP_NO_ELEMENT, {{2, 1, 15}, {5, 0, 255}}},
        {"", 0xbede, H26X_RTP_NO_ELEMENT, {{0}}},
        {"000000", 0xbede, H26X_RTP_NO_ELEMENT, {{0}}},
        {"10aa f000 20bb", 0xbede, H26X_RTP_NO_ELEMENT, {{1, 1, 1}}},
        {"10aa 01aabb 10cc", 0xbede, H26X_RTP_NO_ELEMENT, {{1, 1, 1}}},
        {"ef00112233445566778899aabbccddeeff 10aa", 0xbede, H26X_RTP_NO_ELEMENT, {{1, 16, 14}, {18, 1, 1}}},
        {"10aa 11aa", 0xbede, H26X_RTP_ELEMENT_PAST_THE_END, {{1, 1, 1}}},
        {"0100 1102aa", 0x1000, H26X_RTP_ELEMENT_PAST_THE_END, {{2, 0, 1}}},
        {"0100 11", 0x1000, H26X_RTP_ELEMENT_PAST_THE_END, {{2, 0, 1}}},
        {"10aa", 0x1010, H26X_RTP_NO_ELEMENT, {{0}}},
        {"10aa", 0x0fff, H26X_RTP_NO_ELEMENT, {{0}}},
    };
    for (size_t i = 0; i < sizeof rows / sizeof rows[0]; i++) {
        const struct bytes in = bytes_of(rows[i].bytes);
        size_t from = 0;
        for (const h26x_rtp_element *it = rows[i].elements; it->id != 0; it++) {
            h26x_rtp_element found = {.len = 99};
            expect_at(t, h26x_rtp_element_next(rows[i].profile, in.at, in.len, from, &found) == H26X_OK, rows[i].bytes,
                      __FILE__, __LINE__);
            expect_at(t, found.begin == it->begin && found.len == it->len && found.id == it->id, rows[i].bytes,
                      __FILE__, __LINE__);
            from = found.begin + found.len;
        }
        h26x_rtp_element none = {.len = 99};
        expect_at(t, h26x_rtp_element_next(rows[i].profile, in.at, in.len, from, &none) == rows[i].code, rows[i].bytes,
                  __FILE__, __LINE__);
        expect(t, h26x_rtp_element_next(rows[i].profile, in.at, in.len, in.len, &none) == H26X_RTP_NO_ELEMENT);
        expect(t, h26x_rtp_element_next(rows[i].profile, in.at, in.len, SIZE_MAX, &none) == H26X_RTP_NO_ELEMENT);
        expect(t, none.len == 99);
    }
}

/* ---- RTCP ---- */

#define PLI "81ce0002 01020304 a1a2a3a4"
#define FIR "84ce0004 00000001 00000000 a1a2a3a4 07000000"
#define NACK "81cd0003 00000001 a1a2a3a4 00058001"
#define RR "81c90007 00000001 00000002 40fffffe 00020003 00000044 a1a2a3a4 00010000"

static void check_requests(struct tally *t)
{
    uint8_t to[32] = {7}, number = 9;
    size_t len = 9;
    uint32_t sender = 9, media = 9;
    expect(t, h26x_pli_write(0x01020304, 0xa1a2a3a4, to, 11, &len) == H26X_NO_ROOM && len == 12 && to[0] == 7);
    expect(t, h26x_pli_write(0x01020304, 0xa1a2a3a4, to, 12, &len) == H26X_OK && is_same(to, len, PLI));
    expect(t, h26x_is_rtcp(to, len) && h26x_pli_read(to, len, &sender, &media));
    expect(t, sender == 0x01020304 && media == 0xa1a2a3a4 && h26x_pli_read(to, len, NULL, NULL));
    len = 9, to[0] = 7;
    expect(t, h26x_fir_write(1, 0xa1a2a3a4, 7, to, 19, &len) == H26X_NO_ROOM && len == 20 && to[0] == 7);
    expect(t, h26x_fir_write(1, 0xa1a2a3a4, 7, to, 20, &len) == H26X_OK && is_same(to, len, FIR));
    media = 9;
    expect(t, h26x_fir_read(to, len, &sender, &media, &number) && h26x_fir_read(to, len, NULL, NULL, NULL));
    expect(t, sender == 1 && media == 0xa1a2a3a4 && number == 7);
}

static bool is_report(const h26x_report *a, const h26x_report *b)
{
    return a->ssrc == b->ssrc && a->lost == b->lost && a->highest == b->highest && a->jitter == b->jitter
        && a->last_sender_report == b->last_sender_report && a->delay == b->delay
        && a->fraction_lost == b->fraction_lost;
}

static void check_reports(struct tally *t)
{
    static const struct {
        int32_t given, written;
        const char *bytes;
    } lost[] = {{0, 0, "000000"},
                {1, 1, "000001"},
                {8388607, 8388607, "7fffff"},
                {8388608, 8388607, "7fffff"},
                {INT32_MAX, 8388607, "7fffff"},
                {-1, -1, "ffffff"},
                {-8388608, -8388608, "800000"},
                {-8388609, -8388608, "800000"},
                {INT32_MIN, -8388608, "800000"}};
    h26x_report report = {2, -2, 0x00020003, 0x44, 0xa1a2a3a4, 0x00010000, 0x40}, read;
    uint8_t to[32] = {7};
    size_t len = 9;
    uint32_t sender = 9;
    expect(t, h26x_receiver_report_write(1, &report, to, 31, &len) == H26X_NO_ROOM && len == 32 && to[0] == 7);
    expect(t, h26x_receiver_report_write(1, &report, to, 32, &len) == H26X_OK && is_same(to, len, RR));
    expect(t, h26x_receiver_report_read(to, len, &sender, &read) && sender == 1 && is_report(&read, &report));
    expect(t, h26x_receiver_report_read(to, len, NULL, NULL));
    for (size_t i = 0; i < sizeof lost / sizeof lost[0]; i++) {
        report.lost = lost[i].given;
        expect(t,
               h26x_receiver_report_write(1, &report, to, 32, NULL) == H26X_OK && is_same(to + 13, 3, lost[i].bytes));
        expect(t, h26x_receiver_report_read(to, 32, NULL, &read) && read.lost == lost[i].written);
    }
}

/* A number, and bits for the sixteen behind it, of which the lowest is for the next one (RFC 4585, 6.2.1). */
static void check_nacks(struct tally *t)
{
    static const struct {
        size_t count;
        uint16_t numbers[17];
        const char *bytes;
    } rows[] = {
        {1, {0x1234}, "81cd0003 00000001 a1a2a3a4 12340000"},
        {3, {5, 6, 21}, "81cd0003 00000001 a1a2a3a4 00058001"},
        {2, {65535, 0}, "81cd0003 00000001 a1a2a3a4 ffff0001"},
        {17, {0, 1, 2, 3, 4, 5, 6, 7, 8, 9, 10, 11, 12, 13, 14, 15, 16}, "81cd0003 00000001 a1a2a3a4 0000ffff"},
        {2, {5, 22}, "81cd0004 00000001 a1a2a3a4 00050000 00160000"},
        {3, {5, 8, 6}, "81cd0004 00000001 a1a2a3a4 00050004 00060000"},
        {2, {7, 7}, "81cd0004 00000001 a1a2a3a4 00070000 00070000"},
    };
    for (size_t i = 0; i < sizeof rows / sizeof rows[0]; i++) {
        const size_t wanted = rows[i].count;
        uint16_t numbers[18];
        uint8_t to[24];
        uint32_t sender = 9, media = 9;
        size_t len = 9, count = 99;
        memset(numbers, 7, sizeof numbers);
        expect(t, h26x_nack_write(1, 0xa1a2a3a4, rows[i].numbers, wanted, to, sizeof to, &len, &count) == H26X_OK);
        expect_at(t, count == wanted && is_same(to, len, rows[i].bytes), rows[i].bytes, __FILE__, __LINE__);
        count = 99;
        expect(t, h26x_is_rtcp(to, len) && h26x_nack_read(to, len, &sender, &media, numbers, 18, &count));
        expect(t, sender == 1 && media == 0xa1a2a3a4 && count == wanted && numbers[wanted] == 0x0707);
        expect_at(t, memcmp(numbers, rows[i].numbers, 2 * wanted) == 0, rows[i].bytes, __FILE__, __LINE__);
    }
}

/* As many of the first ones as have room are asked for, and the rest by a packet behind it; so many are read. */
static void check_room_of_nacks(struct tally *t)
{
    static const uint16_t numbers[] = {5, 6, 22, 40};
    uint16_t read[] = {9, 9, 9, 9};
    uint8_t to[60];
    size_t len = 9, count = 9, behind = 9;
    memset(to, 7, sizeof to);
    expect(t, h26x_nack_write(1, 2, numbers, 4, to, 15, &len, &count) == H26X_NO_ROOM && len == 16 && count == 9);
    expect(t, h26x_nack_write(1, 2, numbers, 0, to, 60, &len, &count) == H26X_OK && len == 0 && count == 0);
    expect(t, h26x_nack_write(1, 2, NULL, 0, NULL, 0, &len, &count) == H26X_OK && len == 0 && count == 0);
    expect(t, to[0] == 7 && to[15] == 7);
    expect(t, h26x_nack_write(1, 2, numbers, 4, to, 19, &len, &count) == H26X_OK && len == 16 && count == 2);
    expect(t, is_same(to, 20, "81cd0003 00000001 00000002 00050001 07070707"));
    expect(t, h26x_nack_write(1, 2, numbers + 2, 2, to + 16, 44, &behind, &count) == H26X_OK && count == 2);
    expect(t, is_same(to + 16, behind, "81cd0004 00000001 00000002 00160000 00280000") && to[36] == 7);
    expect(t, h26x_nack_read(to, len, NULL, NULL, read, 1, &count) && count == 2 && read[0] == 5 && read[1] == 9);
    expect(t, h26x_nack_read(to, len, NULL, NULL, read, 0, &count) && count == 2 && read[0] == 5);
    expect(t, h26x_nack_read(to + 16, behind, NULL, NULL, read, 4, &count) && count == 2);
    expect(t, read[0] == 22 && read[1] == 40 && read[2] == 9);
}

/* The length of a NACK says 65533 pairs at most (RFC 3550, 6.4.1). */
static void check_longest_nack(struct tally *t)
{
    enum { PAIRS = 65533, MOST = 12 + 4 * PAIRS };
    uint16_t *numbers = calloc(PAIRS + 1, sizeof *numbers);
    uint8_t *to = malloc(MOST + 4);
    size_t len = 9, count = 9, end = 9;
    expect(t, h26x_nack_write(1, 2, numbers, PAIRS + 1, to, MOST + 4, &len, &count) == H26X_OK);
    expect(t, len == MOST && count == PAIRS && is_same(to, 4, "81cdffff"));
    expect(t, h26x_rtcp_next(to, len, 0, &end) && end == len);
    expect(t, h26x_nack_read(to, len, NULL, NULL, numbers, PAIRS, &count) && count == PAIRS);
    free(to);
    free(numbers);
}

/* Another version, padding, format, type or length is none of them, nor are several packets at once. */
static void check_others(struct tally *t)
{
    static const char *const rows[] = {"",
                                       "41ce0002 01020304 a1a2a3a4",
                                       "a1ce0002 01020304 a1a2a304",
                                       "82ce0002 01020304 a1a2a3a4",
                                       "81cd0002 01020304 a1a2a3a4",
                                       "81ce0003 01020304 a1a2a3a4",
                                       "81ce0002 01020304 a1a2a3",
                                       PLI "00",
                                       PLI PLI,
                                       "84ce0004 00000001 00000000 a1a2a3a4 070000",
                                       FIR "00000000",
                                       "84ce0006 00000001 00000000 a1a2a3a4 07000000 a1a2a3a4 07000000",
                                       "8fcd0003 00000001 00000002 00050000",
                                       "81ce0003 00000001 00000002 00050000",
                                       "81cd0004 00000001 00000002 00050000",
                                       "a1cd0003 00000001 00000002 00000004",
                                       "81cd0002 00000001 00000002",
                                       NACK PLI,
                                       "80c90001 00000001",
                                       "81c80007 00000001 00000002 40fffffe 00020003 00000044 a1a2a3a4 00010000",
                                       "82c90007 00000001 00000002 40fffffe 00020003 00000044 a1a2a3a4 00010000",
                                       RR PLI};
    for (size_t i = 0; i < sizeof rows / sizeof rows[0]; i++) {
        const struct bytes in = bytes_of(rows[i]);
        uint32_t sender = 9, media = 9;
        uint8_t number = 9;
        uint16_t numbers[] = {9};
        size_t count = 9;
        h26x_report report = {.ssrc = 9};
        expect_at(t, !h26x_pli_read(in.at, in.len, &sender, &media), rows[i], __FILE__, __LINE__);
        expect_at(t, !h26x_fir_read(in.at, in.len, &sender, &media, &number), rows[i], __FILE__, __LINE__);
        expect_at(t, !h26x_receiver_report_read(in.at, in.len, &sender, &report), rows[i], __FILE__, __LINE__);
        expect_at(t, !h26x_nack_read(in.at, in.len, &sender, &media, numbers, 1, &count), rows[i], __FILE__, __LINE__);
        expect(t, sender == 9 && media == 9 && number == 9 && report.ssrc == 9 && numbers[0] == 9 && count == 9);
    }
}

/* A compound of a receiver report, a NACK and a PLI, which ends anywhere; its packets are told apart (RFC 3550, 6.1). */
static void check_compounds(struct tally *t)
{
    static const size_t ends[] = {0, 32, 48, 60};
    const struct bytes all = bytes_of(RR NACK PLI);
    for (size_t len = 0; len <= all.len; len++) {
        const size_t whole = (size_t)(len >= 32) + (len >= 48) + (len >= 60);
        size_t end = 0;
        for (size_t i = 0; i < whole; i++)
            expect(t, h26x_rtcp_next(all.at, len, ends[i], &end) && end == ends[i + 1]);
        expect(t, !h26x_rtcp_next(all.at, len, end, &end) && end == ends[whole]);
    }
    expect(t,
           h26x_receiver_report_read(all.at, 32, NULL, NULL)
               && h26x_nack_read(all.at + 32, 16, NULL, NULL, NULL, 0, NULL));
    expect(t, h26x_pli_read(all.at + 48, 12, NULL, NULL) && h26x_rtcp_next(all.at, all.len, 0, NULL));
    size_t end = 9;
    expect(t,
           !h26x_rtcp_next(all.at, all.len, 61, &end) && !h26x_rtcp_next(all.at, all.len, SIZE_MAX, &end) && end == 9);
}

/* What begins with a packet of RTCP: of version 2, and all there (RFC 3550, 6.4.1 and A.2). 9: none. */
static void check_packets_of_rtcp(struct tally *t)
{
    static const struct {
        const char *bytes;
        size_t end;
    } rows[] = {{"", 9},
                {"81ce00", 9},
                {"80cb0000", 4},
                {"01ce0002 01020304 a1a2a3a4", 9},
                {"41ce0002 01020304 a1a2a3a4", 9},
                {"c1ce0002 01020304 a1a2a3a4", 9},
                {"81ce0002 01020304 a1a2a3", 9},
                {"81ce0002 01020304 a1a2a3a4", 12},
                {"bfff0002 01020304 a1a2a3a4 00", 12},
                {"81ce0100 01020304 a1a2a3a4", 9}};
    for (size_t i = 0; i < sizeof rows / sizeof rows[0]; i++) {
        const struct bytes in = bytes_of(rows[i].bytes);
        size_t end = 9;
        expect_at(t, h26x_rtcp_next(in.at, in.len, 0, &end) == (rows[i].end != 9), rows[i].bytes, __FILE__, __LINE__);
        expect_at(t, end == rows[i].end, rows[i].bytes, __FILE__, __LINE__);
    }
}

/* ---- What is counted of a source ---- */

/* Counts packets of these numbers, which all come 100 ticks behind their timestamps. */
static h26x_rtp_statistics counted(struct tally *t, const uint16_t *numbers, size_t count)
{
    h26x_rtp_statistics it = {0};
    for (size_t i = 0; i < count; i++)
        expect(t, h26x_rtp_statistics_receive(&it, (uint32_t)(100 + 3000 * i), numbers[i], (uint32_t)(3000 * i), 10));
    return it;
}

static void check_counted(struct tally *t)
{
    /* Numbers go round; 1 is lost, and 65535 comes late. */
    static const uint16_t numbers[] = {65534, 0, 65535, 2};
    h26x_rtp_statistics it = counted(t, numbers, 4);
    h26x_report report;
    expect(t, it.expected == 5 && it.received == 4 && it.bytes == 40 && it.recovered == 0 && it.jitter == 0);
    expect(t, it.base == 65534 && it.highest == 2 && it.has_transit && it.transit == 100 && !it.has_jumped);
    h26x_rtp_statistics_report(&it, 9, 7, 8, &report);
    /* A fifth of 256 is 51. */
    expect(t, is_report(&report, &(h26x_report){9, 1, 0x10002, 0, 7, 8, 51}));
    expect(t, it.expected_before == 5 && it.received_before == 4);
    /* Of three more one comes: two thirds of 256 are 170. */
    expect(t, h26x_rtp_statistics_receive(&it, 100, 5, 0, 10));
    h26x_rtp_statistics_report(&it, 9, 0, 0, &report);
    expect(t, is_report(&report, &(h26x_report){9, 3, 0x10005, 0, 0, 0, 170}));
    /* None more, and one that came as a retransmission. */
    h26x_rtp_statistics_recover(&it);
    h26x_rtp_statistics_report(&it, 9, 0, 0, &report);
    expect(t, report.fraction_lost == 0 && report.lost == 3 && it.recovered == 1 && it.received == 5);
    h26x_rtp_statistics_report(&it, 9, 0, 0, NULL);
    /* More came than were expected. */
    static const uint16_t twice[] = {7, 7, 7};
    it = counted(t, twice, 3);
    h26x_rtp_statistics_report(&it, 9, 0, 0, &report);
    expect(t, report.lost == -2 && report.fraction_lost == 0 && report.highest == 7);
}

/* 3000 ahead (MAX_DROPOUT) and 100 behind (MAX_MISORDER) jump; two in a row begin anew (RFC 3550, A.1). */
static void check_jumps(struct tally *t)
{
    static const uint16_t first[] = {7, 8};
    static const struct {
        uint16_t number;
        bool counts;
    } rows[] = {{3007, true}, {3008, false}, {65445, true}, {65444, false}};
    for (size_t i = 0; i < 4; i++) {
        h26x_rtp_statistics it = counted(t, first, 2);
        expect(t, h26x_rtp_statistics_receive(&it, 100, rows[i].number, 0, 10) == rows[i].counts);
        expect(t, it.received == (rows[i].counts ? 3 : 2) && it.has_jumped == !rows[i].counts);
        expect(t, rows[i].counts || it.after_jump == rows[i].number + 1);
    }
    h26x_rtp_statistics it = counted(t, first, 2);
    h26x_report report;
    expect(t,
           !h26x_rtp_statistics_receive(&it, 100, 5000, 0, 10) && h26x_rtp_statistics_receive(&it, 100, 5001, 0, 10));
    expect(t, it.base == 5001 && it.highest == 5001 && it.received == 1 && it.expected == 1 && !it.has_jumped);
    h26x_rtp_statistics_report(&it, 9, 0, 0, &report);
    expect(t, is_report(&report, &(h26x_report){.ssrc = 9, .highest = 5001}));
    /* One near the highest between the two changes nothing of that (A.1, bad_seq). */
    it = counted(t, first, 2);
    expect(t, !h26x_rtp_statistics_receive(&it, 100, 5000, 0, 10) && h26x_rtp_statistics_receive(&it, 100, 9, 0, 10));
    expect(t, it.highest == 9 && it.has_jumped && it.after_jump == 5001);
    expect(t, h26x_rtp_statistics_receive(&it, 100, 5001, 0, 10) && it.base == 5001 && it.received == 1);
    /* Two that jump to different places are none. */
    it = counted(t, first, 2);
    expect(t,
           !h26x_rtp_statistics_receive(&it, 100, 5000, 0, 10) && !h26x_rtp_statistics_receive(&it, 100, 9001, 0, 10));
    expect(t, it.highest == 8 && it.received == 2 && it.after_jump == 9002);
}

/* J += (|D| - J) / 16, in sixteenths (RFC 3550, A.8). */
static void check_jitter(struct tally *t)
{
    h26x_rtp_statistics it = {0};
    h26x_report report;
    expect(t, h26x_rtp_statistics_receive(&it, 1000, 1, 0, 0) && it.jitter == 0);
    expect(t, h26x_rtp_statistics_receive(&it, 4160, 2, 3000, 0) && it.jitter == 160);
    expect(t, h26x_rtp_statistics_receive(&it, 7000, 3, 6000, 0) && it.jitter == 310);
    h26x_rtp_statistics_report(&it, 9, 0, 0, &report);
    expect(t, report.jitter == 19);
    /* Clocks go round at 2^32. */
    it = (h26x_rtp_statistics){0};
    expect(t, h26x_rtp_statistics_receive(&it, UINT32_MAX - 15, 1, 0, 0));
    expect(t, h26x_rtp_statistics_receive(&it, 16, 2, 0, 0) && it.jitter == 32);
}

void check_datagrams(struct tally *t)
{
    check_packets(t);
    check_refused(t);
    check_rtcp(t);
    check_written(t);
    check_unwritten(t);
    check_before(t);
    check_headroom(t);
    check_rtx(t);
    check_no_original(t);
    check_red(t);
    check_red_blocks(t);
    check_elements(t);
    check_requests(t);
    check_reports(t);
    check_nacks(t);
    check_room_of_nacks(t);
    check_longest_nack(t);
    check_others(t);
    check_compounds(t);
    check_packets_of_rtcp(t);
    check_counted(t);
    check_jumps(t);
    check_jitter(t);
}
