/* What C's callers may leave out: a buffer, an output that isn't wanted, a handle to be freed. For each
 * of these the proved call is given something of the same meaning, since it can't take NULL: a
 * reference of Rattle is never null, and `Option<&T>` doesn't cross to C. c/handed_on.c checks what it
 * is given.
 *
 * `proved_packetize` is what crates/h26x_c exports as h26x_packetize, and so on: bindings/build
 * renames each export of which this file asks for the proved one. */
#include "h26x.h"

/* The proved calls that are handed on to, with the types of those in h26x.h. */
#define PROVED(name) extern __typeof__(h26x_##name) proved_##name
PROVED(packetizer_free);
PROVED(packetize);
PROVED(packetize_unit);
PROVED(packetize_into);
PROVED(packetize_unit_into);
PROVED(packets_size);
PROVED(packetize_units);
PROVED(packetize_units_into);
PROVED(units_size);
PROVED(packet_copy);
PROVED(packets_copy);
PROVED(depacketizer_free);
PROVED(depacketize);
PROVED(written_copy);
PROVED(receiver_free);
PROVED(receive);
PROVED(receive_all);
PROVED(receiver_skip);
PROVED(access_units_free);
PROVED(access_units_push);
PROVED(access_units_push_all);
PROVED(access_units_skip);
PROVED(access_units_next);
PROVED(access_units_so_far);
PROVED(access_units_deadline);
PROVED(access_units_missing);
PROVED(access_units_nacks);
PROVED(access_units_begin_at);
PROVED(access_units_count);
PROVED(h265_part_copy);
PROVED(h265_paci_packet);
PROVED(is_partition_head);
PROVED(is_partition_tail);
PROVED(detect_keyframe);
PROVED(begins_keyframe);
PROVED(detect_h264_nalu);
PROVED(set_lowest_header);
PROVED(next_unit);
PROVED(next_avc_unit);
PROVED(unit_is_plain);
PROVED(h264_profile_level);
PROVED(is_rtcp);
PROVED(rtp_read);
PROVED(rtp_element_next);
PROVED(rtp_original);
PROVED(rtp_write);
PROVED(rtp_write_before);
PROVED(rtx_write);
PROVED(red_primary);
PROVED(red_blocks);
PROVED(pli_write);
PROVED(pli_read);
PROVED(fir_write);
PROVED(fir_read);
PROVED(receiver_report_write);
PROVED(receiver_report_read);
PROVED(nack_write);
PROVED(nack_read);
PROVED(rtcp_next);
PROVED(rtp_statistics_report);
PROVED(rtp_receiver_free);
PROVED(rtp_receiver_sources);
PROVED(rtp_receiver_push);
PROVED(rtp_receiver_next);
PROVED(rtp_receiver_so_far);
PROVED(rtp_receiver_deadline);
PROVED(rtp_receiver_nacks);
PROVED(rtp_receiver_statistics);
PROVED(rtp_receiver_report);
PROVED(rtp_receiver_count);
PROVED(rtp_sender_free);
PROVED(rtp_sender_send);
PROVED(rtp_sender_resend);
PROVED(rtp_sender_streams);
PROVED(rtp_sender_count);
PROVED(sdp_read);
PROVED(sdp_of_payload);
PROVED(sdp_agreed);
PROVED(sdp_broken_rule);
PROVED(sdp_name);
PROVED(sdp_free);
PROVED(sdp_write);
PROVED(sdp_set);
PROVED(sdp_unset);
PROVED(sdp_value);
PROVED(sdp_number);
PROVED(sdp_units);
PROVED(sdp_unit);
PROVED(sdp_level_unit);
PROVED(sdp_other);
PROVED(sdp_max_don_diff);
PROVED(sdp_constraints);
PROVED(sdp_capability_points);
PROVED(fits_single_units);
PROVED(rtpmap_read);
PROVED(rtpmap_write);
PROVED(repairmap_read);
PROVED(repairmap_write);
PROVED(rtx_format_read);
PROVED(rtx_format_write);

/* Keeps what is seldom needed out of a call that is made for each packet, which then goes straight on
 * to the proved one. */
#define APART __attribute__((noinline, cold))
#if __has_attribute(musttail)
#define GO_ON __attribute__((musttail)) return
#else
#define GO_ON return
#endif

/* The output, or a place for it that nobody reads. */
#define WANTED(output, unwanted) ((output) != NULL ? (output) : (unwanted))

/* In the place of a buffer of length 0, which is neither read nor written. */
static uint8_t no_bytes[1];
static size_t no_ends[1];
static uint16_t no_numbers[1];
static h26x_capability_point no_points[1];
static h26x_rtp_payload no_payloads[1];
static h26x_red_block no_blocks[1];
static h26x_push_told none_pushed[1];
static h26x_receive_told none_received[1];

/* A buffer and its length, as two arguments: NULL has length 0, whatever the caller says. */
#define BYTES(at, len) WANTED(at, no_bytes), (at) != NULL ? (len) : 0
#define ENDS(at, len) WANTED(at, no_ends), (at) != NULL ? (len) : 0
#define NUMBERS(at, len) WANTED(at, no_numbers), (at) != NULL ? (len) : 0
#define POINTS(at, len) WANTED(at, no_points), (at) != NULL ? (len) : 0
#define PAYLOADS(at, len) WANTED(at, no_payloads), (at) != NULL ? (len) : 0
#define BLOCKS(at, len) WANTED(at, no_blocks), (at) != NULL ? (len) : 0
#define PUSHED(at, len) WANTED(at, none_pushed), (at) != NULL ? (len) : 0
#define RECEIVED(at, len) WANTED(at, none_received), (at) != NULL ? (len) : 0

/* ---- Sending ---- */

void h26x_packetizer_free(h26x_packetizer p)
{
    if (p.at != NULL)
        proved_packetizer_free(p);
}

uint32_t h26x_packetize(h26x_packetizer *p, size_t mtu, const uint8_t *payload, size_t payload_len,
                        size_t *count)
{
    size_t unwanted;
    return proved_packetize(p, mtu, BYTES(payload, payload_len), WANTED(count, &unwanted));
}

uint32_t h26x_packetize_unit(h26x_packetizer *p, size_t mtu, const uint8_t *unit, size_t unit_len,
                             size_t *count)
{
    size_t unwanted;
    return proved_packetize_unit(p, mtu, BYTES(unit, unit_len), WANTED(count, &unwanted));
}

uint32_t h26x_packetize_into(h26x_packetizer *p, size_t mtu, const uint8_t *payload,
                             size_t payload_len, size_t headroom, uint8_t *to, size_t room,
                             size_t *ends, size_t ends_room, size_t *count, size_t *size)
{
    size_t unwanted[2];
    return proved_packetize_into(p, mtu, BYTES(payload, payload_len), headroom, BYTES(to, room),
                                 ENDS(ends, ends_room), WANTED(count, &unwanted[0]),
                                 WANTED(size, &unwanted[1]));
}

uint32_t h26x_packetize_unit_into(h26x_packetizer *p, size_t mtu, const uint8_t *unit,
                                  size_t unit_len, size_t headroom, uint8_t *to, size_t room,
                                  size_t *ends, size_t ends_room, size_t *count, size_t *size)
{
    size_t unwanted[2];
    return proved_packetize_unit_into(p, mtu, BYTES(unit, unit_len), headroom, BYTES(to, room),
                                      ENDS(ends, ends_room), WANTED(count, &unwanted[0]),
                                      WANTED(size, &unwanted[1]));
}

uint32_t h26x_packets_size(const h26x_packetizer *p, size_t mtu, const uint8_t *payload,
                           size_t payload_len, size_t headroom, size_t *count, size_t *size)
{
    size_t unwanted[2];
    return proved_packets_size(p, mtu, BYTES(payload, payload_len), headroom,
                               WANTED(count, &unwanted[0]), WANTED(size, &unwanted[1]));
}

uint32_t h26x_packetize_units(h26x_packetizer *p, size_t mtu, const uint8_t *access_unit,
                              size_t access_unit_len, size_t *count, h26x_refusal *why)
{
    size_t unwanted;
    h26x_refusal unwanted_why;
    return proved_packetize_units(p, mtu, BYTES(access_unit, access_unit_len),
                                  WANTED(count, &unwanted), WANTED(why, &unwanted_why));
}

uint32_t h26x_packetize_units_into(h26x_packetizer *p, size_t mtu, const uint8_t *access_unit,
                                   size_t access_unit_len, size_t headroom, uint8_t *to,
                                   size_t room, size_t *ends, size_t ends_room, size_t *count,
                                   size_t *size, h26x_refusal *why)
{
    size_t unwanted[2];
    h26x_refusal unwanted_why;
    return proved_packetize_units_into(p, mtu, BYTES(access_unit, access_unit_len), headroom,
                                       BYTES(to, room), ENDS(ends, ends_room),
                                       WANTED(count, &unwanted[0]), WANTED(size, &unwanted[1]),
                                       WANTED(why, &unwanted_why));
}

uint32_t h26x_units_size(const h26x_packetizer *p, size_t mtu, const uint8_t *access_unit,
                         size_t access_unit_len, size_t headroom, size_t *count, size_t *size,
                         h26x_refusal *why)
{
    size_t unwanted[2];
    h26x_refusal unwanted_why;
    return proved_units_size(p, mtu, BYTES(access_unit, access_unit_len), headroom,
                             WANTED(count, &unwanted[0]), WANTED(size, &unwanted[1]),
                             WANTED(why, &unwanted_why));
}

size_t h26x_packet_copy(const h26x_packetizer *p, size_t i, uint8_t *to, size_t room)
{
    return proved_packet_copy(p, i, BYTES(to, room));
}

size_t h26x_packets_copy(const h26x_packetizer *p, size_t first, uint8_t *to, size_t room,
                         size_t *ends, size_t ends_room)
{
    return proved_packets_copy(p, first, BYTES(to, room), ENDS(ends, ends_room));
}

/* ---- Receiving ---- */

void h26x_depacketizer_free(h26x_depacketizer d)
{
    if (d.at != NULL)
        proved_depacketizer_free(d);
}

/* The same as h26x_depacketize, with something in the place of each NULL. */
static APART uint32_t depacketize_in_part(h26x_depacketizer *d, bool avc, const uint8_t *packet,
                                          size_t packet_len, uint8_t *to, size_t room,
                                          size_t *written, uint8_t *extra, h26x_refusal *why)
{
    size_t unwanted_len;
    uint8_t unwanted_extra = 0;
    h26x_refusal unwanted_why;
    return proved_depacketize(d, avc, BYTES(packet, packet_len), BYTES(to, room),
                              WANTED(written, &unwanted_len), WANTED(extra, &unwanted_extra),
                              WANTED(why, &unwanted_why));
}

uint32_t h26x_depacketize(h26x_depacketizer *d, bool avc, const uint8_t *packet, size_t packet_len,
                          uint8_t *to, size_t room, size_t *written, uint8_t *extra,
                          h26x_refusal *why)
{
    if (packet != NULL && to != NULL && written != NULL && extra != NULL && why != NULL)
        GO_ON proved_depacketize(d, avc, packet, packet_len, to, room, written, extra, why);
    return depacketize_in_part(d, avc, packet, packet_len, to, room, written, extra, why);
}

size_t h26x_written_copy(const h26x_depacketizer *d, uint8_t *to, size_t room)
{
    return proved_written_copy(d, BYTES(to, room));
}

void h26x_receiver_free(h26x_receiver r)
{
    if (r.at.at != NULL)
        proved_receiver_free(r);
}

/* The same as h26x_receive, with something in the place of each NULL. */
static APART uint32_t receive_in_part(h26x_receiver *r, uint16_t sequence, const uint8_t *packet,
                                      size_t packet_len, uint8_t *to, size_t room, size_t *written,
                                      uint8_t *extra, uint32_t *received, uint16_t *count,
                                      h26x_refusal *why)
{
    size_t unwanted_len;
    uint8_t unwanted_extra = 0;
    uint32_t unwanted_received;
    uint16_t unwanted_count;
    h26x_refusal unwanted_why;
    return proved_receive(r, sequence, BYTES(packet, packet_len), BYTES(to, room),
                          WANTED(written, &unwanted_len), WANTED(extra, &unwanted_extra),
                          WANTED(received, &unwanted_received), WANTED(count, &unwanted_count),
                          WANTED(why, &unwanted_why));
}

uint32_t h26x_receive(h26x_receiver *r, uint16_t sequence, const uint8_t *packet, size_t packet_len,
                      uint8_t *to, size_t room, size_t *written, uint8_t *extra, uint32_t *received,
                      uint16_t *count, h26x_refusal *why)
{
    if (packet != NULL && to != NULL && written != NULL && extra != NULL && received != NULL
        && count != NULL && why != NULL)
        GO_ON proved_receive(r, sequence, packet, packet_len, to, room, written, extra, received, count,
                             why);
    return receive_in_part(r, sequence, packet, packet_len, to, room, written, extra, received, count,
                           why);
}

uint32_t h26x_receive_all(h26x_receiver *r, const uint8_t *bytes, size_t bytes_len,
                          const h26x_rtp_payload *payloads, size_t payloads_len, uint8_t *to, size_t room,
                          h26x_receive_told *told, size_t told_room, size_t *taken, size_t *written)
{
    size_t unwanted[2];
    return proved_receive_all(r, BYTES(bytes, bytes_len), PAYLOADS(payloads, payloads_len), BYTES(to, room),
                              RECEIVED(told, told_room), WANTED(taken, &unwanted[0]), WANTED(written, &unwanted[1]));
}

uint32_t h26x_receiver_skip(h26x_receiver *r, uint16_t sequence, uint32_t *received, uint16_t *count)
{
    uint32_t unwanted_received;
    uint16_t unwanted_count;
    return proved_receiver_skip(r, sequence, WANTED(received, &unwanted_received),
                                WANTED(count, &unwanted_count));
}

/* ---- Receiving access units ---- */

void h26x_access_units_free(h26x_access_units u)
{
    if (u.at != NULL)
        proved_access_units_free(u);
}

uint32_t h26x_access_units_push(h26x_access_units *u, uint32_t now, uint16_t sequence, uint32_t timestamp,
                                bool marker, const uint8_t *payload, size_t payload_len, uint32_t *pushed,
                                uint16_t *behind)
{
    uint32_t unwanted_pushed;
    uint16_t unwanted_behind;
    return proved_access_units_push(u, now, sequence, timestamp, marker, BYTES(payload, payload_len),
                                    WANTED(pushed, &unwanted_pushed), WANTED(behind, &unwanted_behind));
}

uint32_t h26x_access_units_push_all(h26x_access_units *u, uint32_t now, const uint8_t *bytes, size_t bytes_len,
                                    const h26x_rtp_payload *payloads, size_t payloads_len, h26x_push_told *told,
                                    size_t told_room, size_t *taken)
{
    size_t unwanted;
    return proved_access_units_push_all(u, now, BYTES(bytes, bytes_len), PAYLOADS(payloads, payloads_len),
                                        PUSHED(told, told_room), WANTED(taken, &unwanted));
}

uint32_t h26x_access_units_skip(h26x_access_units *u, uint32_t now, uint16_t sequence, uint32_t *pushed,
                                uint16_t *behind)
{
    uint32_t unwanted_pushed;
    uint16_t unwanted_behind;
    return proved_access_units_skip(u, now, sequence, WANTED(pushed, &unwanted_pushed),
                                    WANTED(behind, &unwanted_behind));
}

uint32_t h26x_access_units_next(h26x_access_units *u, uint32_t now, uint8_t *to, size_t room,
                                h26x_access_unit *unit)
{
    h26x_access_unit unwanted;
    return proved_access_units_next(u, now, BYTES(to, room), WANTED(unit, &unwanted));
}

bool h26x_access_units_so_far(const h26x_access_units *u, size_t from, uint8_t *to, size_t room,
                              h26x_so_far *so_far)
{
    h26x_so_far unwanted;
    return proved_access_units_so_far(u, from, BYTES(to, room), WANTED(so_far, &unwanted));
}

bool h26x_access_units_deadline(const h26x_access_units *u, uint32_t *at)
{
    uint32_t unwanted;
    return proved_access_units_deadline(u, WANTED(at, &unwanted));
}

uint32_t h26x_access_units_missing(const h26x_access_units *u, uint16_t *numbers, size_t numbers_room,
                                   size_t *count)
{
    size_t unwanted;
    return proved_access_units_missing(u, NUMBERS(numbers, numbers_room), WANTED(count, &unwanted));
}

uint32_t h26x_access_units_nacks(h26x_access_units *u, uint32_t now, const h26x_nack_times *times,
                                 uint16_t *numbers, size_t numbers_room, size_t *count)
{
    size_t unwanted;
    return proved_access_units_nacks(u, now, times, NUMBERS(numbers, numbers_room), WANTED(count, &unwanted));
}

uint32_t h26x_access_units_begin_at(h26x_access_units *u, uint16_t sequence, uint32_t *in_time)
{
    uint32_t unwanted;
    return proved_access_units_begin_at(u, sequence, WANTED(in_time, &unwanted));
}

uint32_t h26x_access_units_count(const h26x_access_units *u, h26x_access_units_counts *counts)
{
    h26x_access_units_counts unwanted;
    return proved_access_units_count(u, WANTED(counts, &unwanted));
}

/* ---- The packets that H.265 shows ---- */

size_t h26x_h265_part_copy(const h26x_depacketizer *d, size_t i, uint8_t *to, size_t room,
                           uint32_t *number)
{
    uint32_t unwanted;
    return proved_h265_part_copy(d, i, BYTES(to, room), WANTED(number, &unwanted));
}

uint32_t h26x_h265_paci_packet(const uint8_t *unit, size_t unit_len, const uint8_t *extension,
                               size_t extension_len, uint8_t *to, size_t room, size_t *len)
{
    size_t unwanted;
    return proved_h265_paci_packet(BYTES(unit, unit_len), BYTES(extension, extension_len),
                                   BYTES(to, room), WANTED(len, &unwanted));
}

/* ---- Packets and payloads ---- */

bool h26x_is_partition_head(uint32_t codec, const uint8_t *packet, size_t packet_len)
{
    return proved_is_partition_head(codec, BYTES(packet, packet_len));
}

bool h26x_is_partition_tail(uint32_t codec, bool marker, const uint8_t *packet, size_t packet_len)
{
    return proved_is_partition_tail(codec, marker, BYTES(packet, packet_len));
}

bool h26x_detect_keyframe(uint32_t codec, const uint8_t *packet, size_t packet_len)
{
    return proved_detect_keyframe(codec, BYTES(packet, packet_len));
}

bool h26x_begins_keyframe(uint32_t codec, bool numbers, const uint8_t *packet, size_t packet_len)
{
    return proved_begins_keyframe(codec, numbers, BYTES(packet, packet_len));
}

bool h26x_detect_h264_nalu(const uint8_t *packet, size_t packet_len, uint8_t type)
{
    return proved_detect_h264_nalu(BYTES(packet, packet_len), type);
}

void h26x_set_lowest_header(uint32_t codec, bool numbers, uint8_t *packet, size_t packet_len)
{
    proved_set_lowest_header(codec, numbers, BYTES(packet, packet_len));
}

bool h26x_next_unit(uint32_t codec, const uint8_t *payload, size_t payload_len, size_t from,
                    size_t *begin, size_t *end)
{
    size_t unwanted[2];
    return proved_next_unit(codec, BYTES(payload, payload_len), from, WANTED(begin, &unwanted[0]),
                            WANTED(end, &unwanted[1]));
}

bool h26x_next_avc_unit(const uint8_t *text, size_t text_len, size_t from, size_t *begin, size_t *end)
{
    size_t unwanted[2];
    return proved_next_avc_unit(BYTES(text, text_len), from, WANTED(begin, &unwanted[0]), WANTED(end, &unwanted[1]));
}

bool h26x_unit_is_plain(uint32_t codec, const uint8_t *unit, size_t unit_len)
{
    return proved_unit_is_plain(codec, BYTES(unit, unit_len));
}

bool h26x_h264_profile_level(uint32_t profile_level_id, uint8_t *profile, uint8_t *level)
{
    uint8_t unwanted[2];
    return proved_h264_profile_level(profile_level_id, WANTED(profile, &unwanted[0]),
                                     WANTED(level, &unwanted[1]));
}

/* ---- What stands round payloads ---- */

bool h26x_is_rtcp(const uint8_t *datagram, size_t datagram_len)
{
    return proved_is_rtcp(BYTES(datagram, datagram_len));
}

uint32_t h26x_rtp_read(const uint8_t *datagram, size_t datagram_len, h26x_rtp_packet *packet)
{
    h26x_rtp_packet unwanted;
    return proved_rtp_read(BYTES(datagram, datagram_len), WANTED(packet, &unwanted));
}

uint32_t h26x_rtp_element_next(uint16_t profile, const uint8_t *extension, size_t extension_len, size_t from,
                               h26x_rtp_element *element)
{
    h26x_rtp_element unwanted;
    return proved_rtp_element_next(profile, BYTES(extension, extension_len), from, WANTED(element, &unwanted));
}

uint32_t h26x_rtp_original(const uint8_t *datagram, size_t datagram_len, uint8_t payload_type, uint32_t ssrc,
                           h26x_rtp_packet *packet)
{
    h26x_rtp_packet unwanted;
    return proved_rtp_original(BYTES(datagram, datagram_len), payload_type, ssrc, WANTED(packet, &unwanted));
}

uint32_t h26x_rtp_write(const h26x_rtp_header *header, const uint8_t *csrcs, size_t csrcs_len,
                        const uint8_t *extension, size_t extension_len, const uint8_t *payload, size_t payload_len,
                        const uint8_t *padding, size_t padding_len, uint8_t *to, size_t room, size_t *len)
{
    size_t unwanted;
    return proved_rtp_write(header, BYTES(csrcs, csrcs_len), BYTES(extension, extension_len),
                            BYTES(payload, payload_len), BYTES(padding, padding_len), BYTES(to, room),
                            WANTED(len, &unwanted));
}

uint32_t h26x_rtp_write_before(const h26x_rtp_header *header, const uint8_t *csrcs, size_t csrcs_len,
                               const uint8_t *extension, size_t extension_len, bool padded, size_t place, uint8_t *to,
                               size_t room, size_t *len)
{
    size_t unwanted;
    return proved_rtp_write_before(header, BYTES(csrcs, csrcs_len), BYTES(extension, extension_len), padded, place,
                                   BYTES(to, room), WANTED(len, &unwanted));
}

uint32_t h26x_rtx_write(const uint8_t *datagram, size_t datagram_len, uint8_t payload_type, uint16_t sequence,
                        uint32_t ssrc, uint8_t *to, size_t room, size_t *len)
{
    size_t unwanted;
    return proved_rtx_write(BYTES(datagram, datagram_len), payload_type, sequence, ssrc, BYTES(to, room),
                            WANTED(len, &unwanted));
}

uint32_t h26x_red_primary(const uint8_t *payload, size_t payload_len, uint8_t *payload_type, size_t *place)
{
    uint8_t unwanted_type;
    size_t unwanted_place;
    return proved_red_primary(BYTES(payload, payload_len), WANTED(payload_type, &unwanted_type),
                              WANTED(place, &unwanted_place));
}

uint32_t h26x_red_blocks(const uint8_t *payload, size_t payload_len, h26x_red_block *blocks, size_t blocks_room,
                         size_t *count)
{
    size_t unwanted;
    return proved_red_blocks(BYTES(payload, payload_len), BLOCKS(blocks, blocks_room), WANTED(count, &unwanted));
}

uint32_t h26x_pli_write(uint32_t sender, uint32_t media, uint8_t *to, size_t room, size_t *len)
{
    size_t unwanted;
    return proved_pli_write(sender, media, BYTES(to, room), WANTED(len, &unwanted));
}

bool h26x_pli_read(const uint8_t *packet, size_t packet_len, uint32_t *sender, uint32_t *media)
{
    uint32_t unwanted[2];
    return proved_pli_read(BYTES(packet, packet_len), WANTED(sender, &unwanted[0]), WANTED(media, &unwanted[1]));
}

uint32_t h26x_fir_write(uint32_t sender, uint32_t media, uint8_t number, uint8_t *to, size_t room, size_t *len)
{
    size_t unwanted;
    return proved_fir_write(sender, media, number, BYTES(to, room), WANTED(len, &unwanted));
}

bool h26x_fir_read(const uint8_t *packet, size_t packet_len, uint32_t *sender, uint32_t *media, uint8_t *number)
{
    uint32_t unwanted[2];
    uint8_t unwanted_number;
    return proved_fir_read(BYTES(packet, packet_len), WANTED(sender, &unwanted[0]), WANTED(media, &unwanted[1]),
                           WANTED(number, &unwanted_number));
}

uint32_t h26x_receiver_report_write(uint32_t sender, const h26x_report *report, uint8_t *to, size_t room, size_t *len)
{
    size_t unwanted;
    return proved_receiver_report_write(sender, report, BYTES(to, room), WANTED(len, &unwanted));
}

bool h26x_receiver_report_read(const uint8_t *packet, size_t packet_len, uint32_t *sender, h26x_report *report)
{
    uint32_t unwanted_sender;
    h26x_report unwanted;
    return proved_receiver_report_read(BYTES(packet, packet_len), WANTED(sender, &unwanted_sender),
                                       WANTED(report, &unwanted));
}

uint32_t h26x_nack_write(uint32_t sender, uint32_t media, const uint16_t *numbers, size_t numbers_len, uint8_t *to,
                         size_t room, size_t *len, size_t *count)
{
    size_t unwanted[2];
    return proved_nack_write(sender, media, NUMBERS(numbers, numbers_len), BYTES(to, room),
                             WANTED(len, &unwanted[0]), WANTED(count, &unwanted[1]));
}

bool h26x_nack_read(const uint8_t *packet, size_t packet_len, uint32_t *sender, uint32_t *media, uint16_t *numbers,
                    size_t numbers_room, size_t *count)
{
    uint32_t unwanted[2];
    size_t unwanted_count;
    return proved_nack_read(BYTES(packet, packet_len), WANTED(sender, &unwanted[0]), WANTED(media, &unwanted[1]),
                            NUMBERS(numbers, numbers_room), WANTED(count, &unwanted_count));
}

bool h26x_rtcp_next(const uint8_t *datagram, size_t datagram_len, size_t from, size_t *end)
{
    size_t unwanted;
    return proved_rtcp_next(BYTES(datagram, datagram_len), from, WANTED(end, &unwanted));
}

void h26x_rtp_statistics_report(h26x_rtp_statistics *statistics, uint32_t ssrc, uint32_t last_sender_report,
                                uint32_t delay, h26x_report *report)
{
    h26x_report unwanted;
    proved_rtp_statistics_report(statistics, ssrc, last_sender_report, delay, WANTED(report, &unwanted));
}

/* ---- Receiving access units, of datagrams ---- */

void h26x_rtp_receiver_free(h26x_rtp_receiver r)
{
    if (r.at != NULL)
        proved_rtp_receiver_free(r);
}

uint32_t h26x_rtp_receiver_sources(const h26x_rtp_receiver *r, h26x_rtp_sources *sources)
{
    h26x_rtp_sources unwanted;
    return proved_rtp_receiver_sources(r, WANTED(sources, &unwanted));
}

uint32_t h26x_rtp_receiver_push(h26x_rtp_receiver *r, uint32_t now, uint32_t arrival, const uint8_t *datagram,
                                size_t datagram_len, h26x_rtp_told *told)
{
    h26x_rtp_told unwanted;
    return proved_rtp_receiver_push(r, now, arrival, BYTES(datagram, datagram_len), WANTED(told, &unwanted));
}

uint32_t h26x_rtp_receiver_next(h26x_rtp_receiver *r, uint32_t now, uint8_t *to, size_t room,
                                h26x_access_unit *unit)
{
    h26x_access_unit unwanted;
    return proved_rtp_receiver_next(r, now, BYTES(to, room), WANTED(unit, &unwanted));
}

bool h26x_rtp_receiver_so_far(const h26x_rtp_receiver *r, size_t from, uint8_t *to, size_t room,
                             h26x_so_far *so_far)
{
    h26x_so_far unwanted;
    return proved_rtp_receiver_so_far(r, from, BYTES(to, room), WANTED(so_far, &unwanted));
}

bool h26x_rtp_receiver_deadline(const h26x_rtp_receiver *r, uint32_t *at)
{
    uint32_t unwanted;
    return proved_rtp_receiver_deadline(r, WANTED(at, &unwanted));
}

uint32_t h26x_rtp_receiver_nacks(h26x_rtp_receiver *r, uint32_t now, const h26x_nack_times *times,
                                 uint16_t *numbers, size_t numbers_room, size_t *count)
{
    size_t unwanted;
    return proved_rtp_receiver_nacks(r, now, times, NUMBERS(numbers, numbers_room), WANTED(count, &unwanted));
}

uint32_t h26x_rtp_receiver_statistics(const h26x_rtp_receiver *r, h26x_rtp_statistics *counted)
{
    h26x_rtp_statistics unwanted;
    return proved_rtp_receiver_statistics(r, WANTED(counted, &unwanted));
}

bool h26x_rtp_receiver_report(h26x_rtp_receiver *r, uint32_t last_sender_report, uint32_t delay,
                              h26x_report *report)
{
    h26x_report unwanted;
    return proved_rtp_receiver_report(r, last_sender_report, delay, WANTED(report, &unwanted));
}

uint32_t h26x_rtp_receiver_count(const h26x_rtp_receiver *r, h26x_access_units_counts *counts)
{
    h26x_access_units_counts unwanted;
    return proved_rtp_receiver_count(r, WANTED(counts, &unwanted));
}

/* ---- Sending access units, as datagrams ---- */

void h26x_rtp_sender_free(h26x_rtp_sender s)
{
    if (s.at != NULL)
        proved_rtp_sender_free(s);
}

uint32_t h26x_rtp_sender_send(h26x_rtp_sender *s, uint32_t timestamp, uint16_t profile,
                              const uint8_t *extension, size_t extension_len, size_t headroom,
                              uint8_t *packets, size_t packets_len, const size_t *ends, size_t ends_len,
                              size_t *len)
{
    size_t unwanted;
    return proved_rtp_sender_send(s, timestamp, profile, BYTES(extension, extension_len), headroom,
                                  BYTES(packets, packets_len), ENDS(ends, ends_len), WANTED(len, &unwanted));
}

uint32_t h26x_rtp_sender_resend(h26x_rtp_sender *s, uint16_t number, uint8_t *to, size_t room, size_t *len)
{
    size_t unwanted;
    return proved_rtp_sender_resend(s, number, BYTES(to, room), WANTED(len, &unwanted));
}

uint32_t h26x_rtp_sender_streams(const h26x_rtp_sender *s, h26x_rtp_streams *streams)
{
    h26x_rtp_streams unwanted;
    return proved_rtp_sender_streams(s, WANTED(streams, &unwanted));
}

uint32_t h26x_rtp_sender_count(const h26x_rtp_sender *s, h26x_rtp_sent *sent)
{
    h26x_rtp_sent unwanted;
    return proved_rtp_sender_count(s, WANTED(sent, &unwanted));
}

/* ---- Format parameters of SDP ---- */

uint32_t h26x_sdp_read(uint32_t codec, const uint8_t *text, size_t text_len, h26x_sdp *made,
                       h26x_refusal *why)
{
    h26x_refusal unwanted;
    return proved_sdp_read(codec, BYTES(text, text_len), made, WANTED(why, &unwanted));
}

uint32_t h26x_sdp_of_payload(uint32_t codec, const uint8_t *payload, size_t payload_len,
                             h26x_sdp *made)
{
    return proved_sdp_of_payload(codec, BYTES(payload, payload_len), made);
}

uint32_t h26x_sdp_agreed(const h26x_sdp *own, const h26x_sdp *other, uint32_t options,
                         h26x_sdp_stream *sends, h26x_sdp_stream *receives)
{
    h26x_sdp_stream unwanted[2];
    return proved_sdp_agreed(own, other, options, WANTED(sends, &unwanted[0]),
                             WANTED(receives, &unwanted[1]));
}

uint32_t h26x_sdp_broken_rule(const h26x_sdp *h, uint32_t options, h26x_refusal *why)
{
    h26x_refusal unwanted;
    return proved_sdp_broken_rule(h, options, WANTED(why, &unwanted));
}

uint32_t h26x_sdp_name(const h26x_sdp *h, size_t i, uint8_t *to, size_t room, size_t *len)
{
    size_t unwanted;
    return proved_sdp_name(h, i, BYTES(to, room), WANTED(len, &unwanted));
}

void h26x_sdp_free(h26x_sdp h)
{
    if (h.at != NULL)
        proved_sdp_free(h);
}

uint32_t h26x_sdp_write(const h26x_sdp *h, uint8_t *to, size_t room, size_t *len)
{
    size_t unwanted;
    return proved_sdp_write(h, BYTES(to, room), WANTED(len, &unwanted));
}

uint32_t h26x_sdp_set(h26x_sdp *h, const uint8_t *name, size_t name_len, const uint8_t *value,
                      size_t value_len)
{
    return proved_sdp_set(h, BYTES(name, name_len), BYTES(value, value_len));
}

uint32_t h26x_sdp_unset(h26x_sdp *h, const uint8_t *name, size_t name_len)
{
    return proved_sdp_unset(h, BYTES(name, name_len));
}

uint32_t h26x_sdp_value(const h26x_sdp *h, const uint8_t *name, size_t name_len, bool or_default,
                        uint8_t *to, size_t room, size_t *len)
{
    size_t unwanted;
    return proved_sdp_value(h, BYTES(name, name_len), or_default, BYTES(to, room),
                            WANTED(len, &unwanted));
}

uint32_t h26x_sdp_number(const h26x_sdp *h, const uint8_t *name, size_t name_len, bool or_default,
                         uint64_t *value)
{
    uint64_t unwanted;
    return proved_sdp_number(h, BYTES(name, name_len), or_default, WANTED(value, &unwanted));
}

uint32_t h26x_sdp_units(const h26x_sdp *h, const uint8_t *name, size_t name_len, size_t *count,
                        h26x_refusal *why)
{
    size_t unwanted_count;
    h26x_refusal unwanted_why;
    return proved_sdp_units(h, BYTES(name, name_len), WANTED(count, &unwanted_count),
                            WANTED(why, &unwanted_why));
}

uint32_t h26x_sdp_unit(const h26x_sdp *h, const uint8_t *name, size_t name_len, size_t i,
                       uint8_t *to, size_t room, size_t *len, h26x_refusal *why)
{
    size_t unwanted_len;
    h26x_refusal unwanted_why;
    return proved_sdp_unit(h, BYTES(name, name_len), i, BYTES(to, room),
                           WANTED(len, &unwanted_len), WANTED(why, &unwanted_why));
}

uint32_t h26x_sdp_level_unit(const h26x_sdp *h, uint64_t level, size_t i, uint8_t *to, size_t room,
                             size_t *len, h26x_refusal *why)
{
    size_t unwanted_len;
    h26x_refusal unwanted_why;
    return proved_sdp_level_unit(h, level, i, BYTES(to, room), WANTED(len, &unwanted_len),
                                 WANTED(why, &unwanted_why));
}

uint32_t h26x_sdp_other(const h26x_sdp *h, size_t i, uint8_t *name_to, size_t name_room,
                        size_t *name_len, uint8_t *value_to, size_t value_room, size_t *value_len)
{
    size_t unwanted[2];
    return proved_sdp_other(h, i, BYTES(name_to, name_room), WANTED(name_len, &unwanted[0]),
                            BYTES(value_to, value_room), WANTED(value_len, &unwanted[1]));
}

uint32_t h26x_sdp_max_don_diff(const h26x_sdp *h, uint32_t *value)
{
    uint32_t unwanted;
    return proved_sdp_max_don_diff(h, WANTED(value, &unwanted));
}

uint32_t h26x_sdp_constraints(const h26x_sdp *h, uint8_t *to, size_t room, h26x_constraints *said)
{
    h26x_constraints unwanted;
    return proved_sdp_constraints(h, BYTES(to, room), WANTED(said, &unwanted));
}

uint32_t h26x_sdp_capability_points(const h26x_sdp *h, bool or_default, h26x_capability_point *points,
                                    size_t points_room, size_t *count, h26x_refusal *why)
{
    size_t unwanted_count;
    h26x_refusal unwanted_why;
    return proved_sdp_capability_points(h, or_default, POINTS(points, points_room),
                                        WANTED(count, &unwanted_count), WANTED(why, &unwanted_why));
}

bool h26x_fits_single_units(const uint8_t *payload, size_t payload_len, size_t limit)
{
    return proved_fits_single_units(BYTES(payload, payload_len), limit);
}

uint32_t h26x_rtpmap_read(const uint8_t *text, size_t text_len, uint8_t *payload_type,
                          uint32_t *codec)
{
    uint8_t unwanted_type;
    uint32_t unwanted_codec;
    return proved_rtpmap_read(BYTES(text, text_len), WANTED(payload_type, &unwanted_type),
                              WANTED(codec, &unwanted_codec));
}

uint32_t h26x_rtpmap_write(uint8_t payload_type, uint32_t codec, uint8_t *to, size_t room, size_t *len)
{
    size_t unwanted;
    return proved_rtpmap_write(payload_type, codec, BYTES(to, room), WANTED(len, &unwanted));
}

uint32_t h26x_repairmap_read(const uint8_t *text, size_t text_len, uint8_t *payload_type,
                             uint32_t *format)
{
    uint8_t unwanted_type;
    uint32_t unwanted_format;
    return proved_repairmap_read(BYTES(text, text_len), WANTED(payload_type, &unwanted_type),
                                 WANTED(format, &unwanted_format));
}

uint32_t h26x_repairmap_write(uint8_t payload_type, uint32_t format, uint8_t *to, size_t room,
                              size_t *len)
{
    size_t unwanted;
    return proved_repairmap_write(payload_type, format, BYTES(to, room), WANTED(len, &unwanted));
}

uint32_t h26x_rtx_format_read(const uint8_t *text, size_t text_len, h26x_rtx_format *format,
                              h26x_refusal *why)
{
    h26x_rtx_format unwanted_format;
    h26x_refusal unwanted_why;
    return proved_rtx_format_read(BYTES(text, text_len), WANTED(format, &unwanted_format),
                                  WANTED(why, &unwanted_why));
}

uint32_t h26x_rtx_format_write(const h26x_rtx_format *format, uint8_t *to, size_t room, size_t *len)
{
    size_t unwanted;
    return proved_rtx_format_write(format, BYTES(to, room), WANTED(len, &unwanted));
}
