/* What may be left out: buffers, outputs that aren't wanted, handles to be freed; and what calls say in
 * words. */
#include "calls.h"
#include <stdio.h>
#include <string.h>

/* A payload without bytes has no packets, and packets without bytes are short, for all codecs. */
static void check_empty_inputs(struct tally *t, uint32_t codec)
{
    h26x_packetizer p;
    h26x_depacketizer d;
    h26x_receiver r;
    uint8_t to[4] = {7};
    size_t count = 9, size = 9;
    expect(t, h26x_packetizer_new(codec, false, &p) == H26X_OK);
    expect(t, h26x_depacketizer_new(codec, false, &d) == H26X_OK);
    expect(t, h26x_receiver_new(codec, false, false, 9, &r) == H26X_OK);
    expect(t, h26x_packetize(&p, 9, NULL, 0, &count) == H26X_OK && count == 0);
    count = 9;
    expect(t, h26x_packetize_unit(&p, 9, NULL, 0, &count) == H26X_OK && count == 0);
    expect(t, h26x_packetize_into(&p, 9, NULL, 0, 12, NULL, 0, NULL, 0, &count, &size) == H26X_OK);
    expect(t, count == 0 && size == 0);
    expect(t, h26x_packetize_unit_into(&p, 9, NULL, 0, 12, NULL, 0, NULL, 0, NULL, NULL) == H26X_OK);
    expect(t, h26x_packets_size(&p, 9, NULL, 0, 12, NULL, NULL) == H26X_OK);
    count = 9;
    expect(t, h26x_packetize_units(&p, 9, NULL, 0, &count, NULL) == H26X_OK && count == 0);
    expect(t, h26x_packetize_units_into(&p, 9, NULL, 0, 12, NULL, 0, NULL, 0, NULL, NULL, NULL) == H26X_OK);
    expect(t, h26x_units_size(&p, 9, NULL, 0, 12, NULL, NULL, NULL) == H26X_OK);
    expect(t, h26x_depacketize(&d, false, NULL, 0, NULL, 0, NULL, NULL, NULL) == H26X_SHORT_PACKET);
    expect(t, h26x_receive(&r, 1, NULL, 0, to, 4, NULL, NULL, NULL, NULL, NULL) == H26X_SHORT_PACKET);
    expect(t, to[0] == 7);
    expect(t, !h26x_is_partition_head(codec, NULL, 0) && !h26x_detect_keyframe(codec, NULL, 0));
    expect(t, !h26x_begins_keyframe(codec, true, NULL, 0));
    expect(t, h26x_is_partition_tail(codec, true, NULL, 0) == (codec == H26X_H264));
    expect(t, !h26x_next_unit(codec, NULL, 0, 0, NULL, NULL) && !h26x_unit_is_plain(codec, NULL, 0));
    expect(t, !h26x_next_avc_unit(NULL, 0, 0, NULL, NULL));
    h26x_packetizer_free(p);
    h26x_depacketizer_free(d);
    h26x_receiver_free(r);
}

/* Packets and payloads of NULL have length 0, whatever length is said. */
static void check_inputs_of_null(struct tally *t, uint32_t codec, size_t len)
{
    h26x_packetizer p;
    h26x_depacketizer d;
    h26x_receiver r;
    uint8_t to[16], extra = 0;
    size_t ends[2], count = 9, size = 9, begin = 9, end = 9;
    expect(t, h26x_packetizer_new(codec, false, &p) == H26X_OK);
    expect(t, h26x_depacketizer_new(codec, false, &d) == H26X_OK);
    expect(t, h26x_receiver_new(codec, false, false, 9, &r) == H26X_OK);
    expect(t, h26x_packetize(&p, 1200, NULL, len, &count) == H26X_OK && count == 0);
    count = 9;
    expect(t, h26x_packetize_unit(&p, 1200, NULL, len, &count) == H26X_OK && count == 0);
    count = 9;
    expect(t, h26x_packetize_into(&p, 9, NULL, len, 0, to, 16, ends, 2, &count, &size) == H26X_OK);
    expect(t, count == 0 && size == 0);
    count = size = 9;
    expect(t, h26x_packetize_unit_into(&p, 9, NULL, len, 0, to, 16, ends, 2, &count, &size) == H26X_OK);
    expect(t, count == 0 && size == 0);
    count = size = 9;
    expect(t, h26x_packets_size(&p, 1200, NULL, len, 12, &count, &size) == H26X_OK);
    expect(t, count == 0 && size == 0);
    count = 9;
    expect(t, h26x_packetize_units(&p, 1200, NULL, len, &count, NULL) == H26X_OK && count == 0);
    count = size = 9;
    expect(t, h26x_packetize_units_into(&p, 9, NULL, len, 0, to, 16, ends, 2, &count, &size, NULL) == H26X_OK);
    expect(t, count == 0 && size == 0);
    count = size = 9;
    expect(t, h26x_units_size(&p, 9, NULL, len, 12, &count, &size, NULL) == H26X_OK);
    expect(t, count == 0 && size == 0);
    expect(t, h26x_depacketize(&d, true, NULL, len, to, 16, &size, &extra, NULL) == H26X_SHORT_PACKET);
    expect(t, h26x_receive(&r, 7, NULL, len, to, 16, &size, &extra, NULL, NULL, NULL) == H26X_SHORT_PACKET);
    expect(t, !h26x_is_partition_head(codec, NULL, len) && !h26x_detect_keyframe(codec, NULL, len));
    expect(t, !h26x_begins_keyframe(codec, false, NULL, len));
    expect(t, h26x_is_partition_tail(codec, true, NULL, len) == (codec == H26X_H264));
    expect(t, !h26x_detect_h264_nalu(NULL, len, 0));
    h26x_set_lowest_header(codec, true, NULL, len);
    expect(t, !h26x_next_unit(codec, NULL, len, 0, &begin, &end) && begin == 9 && end == 9);
    expect(t, !h26x_next_avc_unit(NULL, len, 0, &begin, &end) && begin == 9 && end == 9);
    expect(t, !h26x_unit_is_plain(codec, NULL, len));
    h26x_packetizer_free(p);
    h26x_depacketizer_free(d);
    h26x_receiver_free(r);
}

/* Memory of NULL has no room, whatever room is said. */
static void check_memory_of_null(struct tally *t, size_t room)
{
    const uint8_t unit[] = {0x65, 1, 2, 3};
    h26x_packetizer p;
    h26x_depacketizer d;
    h26x_receiver r;
    uint8_t to[16] = {7};
    size_t ends[2] = {9, 9}, size = 9;
    expect(t, h26x_packetizer_new(H26X_H264, false, &p) == H26X_OK);
    expect(t, h26x_packetize_into(&p, 9, unit, 4, 0, NULL, room, ends, 2, NULL, &size) == H26X_NO_ROOM);
    expect(t, size == 4 && ends[0] == 9);
    expect(t, h26x_packetize_into(&p, 9, unit, 4, 0, to, 16, NULL, room, NULL, NULL) == H26X_NO_ROOM);
    expect(t, h26x_packetize_unit_into(&p, 9, unit, 4, 0, NULL, room, ends, 2, NULL, NULL) == H26X_NO_ROOM);
    expect(t, h26x_packetize_unit_into(&p, 9, unit, 4, 0, to, 16, NULL, room, NULL, NULL) == H26X_NO_ROOM);
    expect(t, h26x_packetize_units_into(&p, 9, unit, 4, 0, NULL, room, ends, 2, NULL, &size, NULL) == H26X_NO_ROOM);
    expect(t, size == 4 && ends[0] == 9);
    expect(t, h26x_packetize_units_into(&p, 9, unit, 4, 0, to, 16, NULL, room, NULL, NULL, NULL) == H26X_NO_ROOM);
    expect(t, h26x_packetize(&p, 3, unit, 4, NULL) == H26X_OK);
    expect(t, h26x_packet_copy(&p, 2, NULL, room) == 3);
    expect(t, h26x_packets_copy(&p, 0, NULL, room, ends, 2) == 0);
    expect(t, h26x_packets_copy(&p, 0, to, 16, NULL, room) == 0);
    expect(t, to[0] == 7 && ends[0] == 9);
    h26x_packetizer_free(p);

    expect(t, h26x_depacketizer_new(H26X_H264, false, &d) == H26X_OK);
    expect(t, h26x_depacketize(&d, false, unit, 4, NULL, room, NULL, NULL, NULL) == H26X_OK);
    expect(t, h26x_written_copy(&d, NULL, room) == 8);
    expect(t, h26x_written_copy(&d, to, 16) == 8 && is_same(to, 8, "00000001 65010203"));
    h26x_depacketizer_free(d);

    expect(t, h26x_receiver_new(H26X_H264, false, false, 9, &r) == H26X_OK);
    expect(t, h26x_receive(&r, 7, unit, 4, NULL, room, NULL, NULL, NULL, NULL, NULL) == H26X_OK);
    expect(t, h26x_written_copy(&r.at, to, 16) == 8 && is_same(to, 8, "00000001 65010203"));
    h26x_receiver_free(r);
}

/* The same of the calls of H.265. */
static void check_null_of_h265(struct tally *t, size_t len)
{
    const uint8_t unit[] = {2, 1, 0xaa};
    h26x_depacketizer d;
    uint8_t to[8];
    size_t size = 9;
    expect(t, h26x_depacketizer_new(H26X_H265, false, &d) == H26X_OK);
    expect(t, h26x_depacketize(&d, false, unit, 3, to, 8, NULL, NULL, NULL) == H26X_OK);
    expect(t, h26x_h265_part_copy(&d, 0, NULL, len, NULL) == 1);
    h26x_depacketizer_free(d);
    expect(t, h26x_h265_paci_packet(NULL, len, NULL, 0, to, 8, NULL) == H26X_SHORT_PACKET);
    expect(t, h26x_h265_paci_packet(unit, 3, NULL, len, to, 8, &size) == H26X_OK && size == 5);
    expect(t, h26x_h265_paci_packet(unit, 3, NULL, 0, NULL, len, &size) == H26X_OK && size == 5);
}

/* The same of the calls on what stands round payloads. */
static void check_null_round_payloads(struct tally *t, size_t len)
{
    const h26x_rtp_header header = {.sequence = 7, .has_extension = true};
    const uint16_t numbers[] = {5, 6};
    uint8_t to[40] = {7}, small = 9;
    size_t size = 9, count = 9;
    uint32_t sender = 9;
    expect(t, !h26x_is_rtcp(NULL, len) && h26x_rtp_read(NULL, len, NULL) == H26X_RTP_TOO_SHORT);
    expect(t, h26x_rtp_original(NULL, len, 96, 1, NULL) == H26X_RTP_TOO_SHORT);
    expect(t, h26x_rtx_write(NULL, len, 96, 1, 2, to, 40, &size) == H26X_RTP_TOO_SHORT);
    expect(t, h26x_red_primary(NULL, len, &small, &size) == H26X_RED_HEADERS_PAST_THE_END && small == 9 && size == 9);
    expect(t, h26x_red_blocks(NULL, len, NULL, len, &count) == H26X_RED_HEADERS_PAST_THE_END && count == 9);
    expect(t, h26x_red_blocks((const uint8_t *)"\x80\0\0\0\x60", 5, NULL, len, NULL) == H26X_OK);
    expect(t, h26x_rtp_element_next(0xbede, NULL, len, 0, NULL) == H26X_RTP_NO_ELEMENT);
    expect(t, h26x_rtp_element_next(0xbede, (const uint8_t *)"\x10", 1, 0, NULL) == H26X_RTP_ELEMENT_PAST_THE_END);
    expect(t, h26x_rtp_element_next(0xbede, (const uint8_t *)"\x10", 2, 0, NULL) == H26X_OK);
    expect(t, !h26x_pli_read(NULL, len, &sender, NULL) && !h26x_fir_read(NULL, len, &sender, NULL, NULL));
    expect(t, !h26x_receiver_report_read(NULL, len, &sender, NULL) && sender == 9 && to[0] == 7);
    expect(t, !h26x_nack_read(NULL, len, &sender, NULL, NULL, len, &count) && sender == 9 && count == 9);
    expect(t, !h26x_rtcp_next(NULL, len, 0, &count) && !h26x_rtcp_next(NULL, len, len, &count) && count == 9);
    expect(t,
           h26x_rtp_write(&header, NULL, len, NULL, len, NULL, len, NULL, len, to, 40, &size) == H26X_OK && size == 16);
    expect(t, is_same(to, 16, "9000 0007 00000000 00000000 00000000"));
    expect(t, h26x_rtp_write(&header, NULL, 0, NULL, 0, NULL, 0, NULL, 0, NULL, len, NULL) == H26X_NO_ROOM);
    expect(t, h26x_rtp_write_before(&header, NULL, len, NULL, len, true, 16, to, 40, NULL) == H26X_OK && to[0] == 0xb0);
    expect(t,
           h26x_rtp_write_before(&header, NULL, 0, NULL, 0, true, 16, NULL, len, &size) == H26X_NO_ROOM && size == 16);
    expect(t, h26x_rtx_write(to, 16, 96, 1, 2, NULL, len, NULL) == H26X_RTP_PADDING_TOO_LONG);
    expect(t, h26x_pli_write(1, 2, NULL, len, &size) == H26X_NO_ROOM && size == 12);
    expect(t, h26x_fir_write(1, 2, 3, NULL, len, &size) == H26X_NO_ROOM && size == 20);
    expect(t, h26x_receiver_report_write(1, &(h26x_report){.ssrc = 2}, NULL, len, &size) == H26X_NO_ROOM && size == 32);
    expect(t, h26x_pli_write(1, 2, NULL, len, NULL) == H26X_NO_ROOM);
    expect(t, h26x_nack_write(1, 2, numbers, 2, NULL, len, &size, &count) == H26X_NO_ROOM && size == 16 && count == 9);
    expect(t, h26x_nack_write(1, 2, NULL, len, to, 40, &size, &count) == H26X_OK && size == 0 && count == 0);
    expect(t, h26x_nack_write(1, 2, numbers, 2, to, 40, NULL, NULL) == H26X_OK);
    expect(t, is_same(to, 16, "81cd0003 00000001 00000002 00050001") && h26x_rtcp_next(to, 16, 0, NULL));
    expect(t, h26x_nack_read(to, 16, NULL, NULL, NULL, len, &count) && count == 2);
    expect(t, h26x_nack_read(to, 16, NULL, NULL, NULL, 0, NULL));
}

/* NULL with a length of one byte, of some, and of as many as there can be. */
static void check_null_with_lengths(struct tally *t)
{
    const size_t lengths[] = {1, 4, 400, SIZE_MAX};
    for (size_t i = 0; i < sizeof lengths / sizeof *lengths; i++) {
        check_inputs_of_null(t, H26X_H264, lengths[i]);
        check_inputs_of_null(t, H26X_H265, lengths[i]);
        check_inputs_of_null(t, H26X_H266, lengths[i]);
        check_memory_of_null(t, lengths[i]);
        check_null_of_h265(t, lengths[i]);
        check_null_round_payloads(t, lengths[i]);
    }
}

/* The same is done where nobody wants to know how much it is. */
static void check_unwanted_outputs(struct tally *t)
{
    const uint8_t unit[] = {0x65, 1, 2, 3}, twice[] = {0, 0, 1, 9, 2, 0, 0, 1, 9, 3};
    h26x_packetizer p;
    h26x_depacketizer d;
    h26x_receiver r;
    uint8_t to[16], extra = 0;
    size_t ends[2], count = 9, size = 9, begin = 9, end = 9;
    expect(t, h26x_packetizer_new(H26X_H264, false, &p) == H26X_OK);
    expect(t, h26x_packets_len(&p) == 0);
    expect(t, h26x_packetize(&p, 3, unit, 4, NULL) == H26X_OK);
    expect(t, h26x_packet_count(&p) == 3 && h26x_packets_len(&p) == 9);
    expect(t, h26x_packets_copy(&p, 0, NULL, 0, NULL, 0) == 0);
    expect(t, h26x_packets_copy(&p, 0, to, 9, ends, 2) == 2 && ends[1] == 6);
    expect(t, h26x_packet_copy(&p, 2, NULL, 0) == 3);
    expect(t, h26x_packetize_unit(&p, 9, unit, 4, NULL) == H26X_OK && h26x_packets_len(&p) == 4);
    expect(t, h26x_packets_size(&p, 3, unit, 4, 5, NULL, &size) == H26X_OK && size == 24);
    expect(t, h26x_packets_size(&p, 3, unit, 4, 5, &count, NULL) == H26X_OK && count == 3);
    expect(t, h26x_packetize_into(&p, 9, unit, 4, 2, NULL, 0, NULL, 0, &count, &size) == H26X_NO_ROOM);
    expect(t, count == 1 && size == 6);
    expect(t, h26x_packetize_into(&p, 9, unit, 4, 2, to, 6, ends, 1, NULL, NULL) == H26X_OK);
    expect(t, ends[0] == 6 && is_same(to + 2, 4, "65010203"));
    h26x_packetizer_free(p);

    expect(t, h26x_depacketizer_new(H26X_H264, false, &d) == H26X_OK);
    expect(t, h26x_depacketize(&d, false, unit, 4, NULL, 0, NULL, &extra, NULL) == H26X_OK);
    expect(t, extra == 2 && h26x_written_copy(&d, NULL, 0) == 8);
    expect(t, h26x_written_copy(&d, to, 16) == 8 && is_same(to, 8, "00000001 65010203"));
    expect(t, h26x_depacketize(&d, true, unit, 4, to, 16, &size, NULL, NULL) == H26X_OK);
    expect(t, is_same(to, size, "00000004 65010203"));
    h26x_depacketizer_free(d);

    expect(t, h26x_receiver_new(H26X_H264, false, false, 9, &r) == H26X_OK);
    expect(t, h26x_receive(&r, 7, unit, 4, to, 16, &size, NULL, NULL, NULL, NULL) == H26X_OK);
    expect(t, is_same(to, size, "00000001 65010203"));
    expect(t, h26x_receive(&r, 7, unit, 4, to, 16, NULL, &extra, NULL, &(uint16_t){0}, NULL) == H26X_OK);
    h26x_receiver_free(r);

    expect(t, h26x_next_unit(H26X_H264, twice, 10, 0, NULL, &end) && end == 5);
    expect(t, h26x_next_unit(H26X_H264, twice, 10, end, &begin, NULL) && begin == 8);
    expect(t, h26x_h264_profile_level(0x42e01f, NULL, NULL));
    expect(t, !h26x_h264_profile_level(0, NULL, NULL));
}

/* Of H.265: what is shown, and a packed PACI packet. */
static void check_h265(struct tally *t)
{
    const uint8_t unit[] = {2, 1, 0xaa};
    h26x_depacketizer d;
    uint8_t to[8];
    size_t len = 9;
    expect(t, h26x_depacketizer_new(H26X_H265, false, &d) == H26X_OK);
    expect(t, h26x_depacketize(&d, false, unit, 3, to, 8, NULL, NULL, NULL) == H26X_OK);
    expect(t, h26x_h265_part_copy(&d, 0, NULL, 0, NULL) == 1);
    expect(t, h26x_h265_part_copy(&d, 0, to, 8, NULL) == 1 && to[0] == 0xaa);
    h26x_depacketizer_free(d);
    expect(t, h26x_h265_paci_packet(unit, 3, NULL, 0, to, 8, &len) == H26X_OK && len == 5);
    expect(t, h26x_h265_paci_packet(unit, 3, NULL, 0, NULL, 0, NULL) == H26X_OK);
    expect(t, h26x_h265_paci_packet(NULL, 0, NULL, 0, NULL, 0, NULL) == H26X_SHORT_PACKET);
    expect(t, !h26x_detect_h264_nalu(NULL, 0, 5));
}

/* Handles of NULL are freed as often as anybody likes, and so is one that was closed. */
static void check_frees(struct tally *t)
{
    h26x_packetizer p;
    h26x_depacketizer d;
    h26x_receiver r;
    h26x_access_units u;
    expect(t, h26x_packetizer_new(H26X_H264, false, &p) == H26X_OK);
    expect(t, h26x_depacketizer_new(H26X_H265, false, &d) == H26X_OK);
    expect(t, h26x_receiver_new(H26X_H266, false, false, 9, &r) == H26X_OK);
    expect(t, h26x_access_units_new(&(h26x_access_units_config){.codec = H26X_H266, .window = 1}, &u) == H26X_OK);
    for (int i = 0; i < 2; i++) {
        h26x_packetizer_free((h26x_packetizer){NULL});
        h26x_depacketizer_free((h26x_depacketizer){NULL});
        h26x_receiver_free((h26x_receiver){{NULL}});
        h26x_access_units_free((h26x_access_units){NULL});
        h26x_packetizer_close(NULL);
        h26x_depacketizer_close(NULL);
        h26x_receiver_close(NULL);
        h26x_access_units_close(NULL);
        h26x_packetizer_close(&p);
        h26x_depacketizer_close(&d);
        h26x_receiver_close(&r);
        h26x_access_units_close(&u);
        expect(t, p.at == NULL && d.at == NULL && r.at.at == NULL && u.at == NULL);
    }
    h26x_packetizer_free(p);
    h26x_depacketizer_free(d);
    h26x_receiver_free(r);
    h26x_access_units_free(u);
}

static bool is_code(uint32_t n)
{
    return n <= H26X_UNIT_TOO_LONG || (H26X_SDP_OPEN_BRACE <= n && n <= H26X_SDP_NO_PROFILE)
        || (H26X_SDP_NO_ANSWER <= n && n <= H26X_SDP_NOT_A_VALUE)
        || (H26X_RTP_TOO_SHORT <= n && n <= H26X_RTP_ELEMENT_PAST_THE_END);
}

/* Each code has words of its own, and so do numbers that are none. */
static void check_words(struct tally *t)
{
    char version[16];
    for (uint32_t code = 0; code <= H26X_RTP_ELEMENT_PAST_THE_END + 1; code++) {
        for (uint32_t other = 0; other < code; other++)
            expect(t, (strcmp(h26x_strerror(code), h26x_strerror(other)) == 0) == (!is_code(code) && !is_code(other)));
        expect(t, is_code(code) == (strcmp(h26x_strerror(code), h26x_strerror(UINT32_MAX)) != 0));
    }
    expect(t, strstr(h26x_strerror(H26X_OUT_OF_MEMORY), "memory") != NULL);
    expect(t, strcmp(h26x_codec_name(H26X_H264), "H264") == 0);
    expect(t, strcmp(h26x_codec_name(H26X_H265), "H265") == 0);
    expect(t, strcmp(h26x_codec_name(H26X_H266), "H266") == 0);
    expect(t, h26x_codec_name(0) == NULL && h26x_codec_name(263) == NULL);
    expect(t, h26x_version() == H26X_VERSION_NUMBER);
    snprintf(version, sizeof version, "%u.%u.%u", h26x_version() >> 16, h26x_version() >> 8 & 255,
             h26x_version() & 255);
    expect(t, strcmp(version, H26X_VERSION) == 0);
    expect(t,
           strncmp(h26x_origin(), "proved " H26X_VERSION " ", sizeof "proved " H26X_VERSION) == 0
               || strncmp(h26x_origin(), "source " H26X_VERSION " ", sizeof "source " H26X_VERSION) == 0);
}

void check_optional(struct tally *t)
{
    check_empty_inputs(t, H26X_H264);
    check_empty_inputs(t, H26X_H265);
    check_empty_inputs(t, H26X_H266);
    check_null_with_lengths(t);
    check_unwanted_outputs(t);
    check_h265(t);
    check_frees(t);
    check_words(t);
}
