/* A sender of datagrams: an input says its streams and how much it holds, and then what is done. What is sent is read
 * again, and what a NACK asks for is the packet that was sent, while it is held; numbers and counts go on by what went. */
#include "fuzz.h"
#include <string.h>

int LLVMFuzzerTestOneInput(const uint8_t *at, size_t len);

enum { NOT_SAID = 99, MOST_SENT = 8192, IN_UNIT = 4 };

/* A packet that was sent: its payload stands in the input. */
struct sent {
    struct input payload;
    uint32_t timestamp;
    bool marker;
};

struct session {
    h26x_rtp_sender sender;
    h26x_rtp_streams streams; /* with the next numbers, as the sender should tell them */
    h26x_rtp_sent counts;
    size_t history, sent_len;
    struct sent sent[MOST_SENT];
};

/* What is told of the streams and of what was sent. */
static void check_told(const struct session *s)
{
    h26x_rtp_streams it;
    h26x_rtp_sent counts;
    expect(h26x_rtp_sender_streams(&s->sender, &it) == H26X_OK
           && h26x_rtp_sender_count(&s->sender, &counts) == H26X_OK);
    expect(it.ssrc == s->streams.ssrc && it.sequence == s->streams.sequence);
    expect(it.payload_type == s->streams.payload_type && it.has_rtx == s->streams.has_rtx);
    expect(it.rtx_ssrc == s->streams.rtx_ssrc && it.rtx_sequence == s->streams.rtx_sequence);
    expect(it.rtx_payload_type == s->streams.rtx_payload_type);
    expect(counts.packets == s->counts.packets && counts.bytes == s->counts.bytes);
    expect(counts.rtx_packets == s->counts.rtx_packets && counts.rtx_bytes == s->counts.rtx_bytes);
}

/* A packet as it was sent: with this header, and nothing else but the payload. */
static void check_packet(const uint8_t *at, size_t len, const h26x_rtp_header *header, size_t payload,
                         const struct sent *sent)
{
    h26x_rtp_packet it;
    expect(h26x_rtp_read(at, len, &it) == H26X_OK && it.csrcs_len == 0 && it.padding_len == 0);
    expect(it.header.ssrc == header->ssrc && it.header.sequence == header->sequence);
    expect(it.header.payload_type == header->payload_type && it.header.timestamp == sent->timestamp);
    expect(it.header.marker == sent->marker && it.payload + payload + sent->payload.len == len);
    expect(sent->payload.len == 0 || memcmp(at + len - sent->payload.len, sent->payload.at, sent->payload.len) == 0);
}

/* The packets of an access unit, each behind a headroom: cut from the input into the end of memory. */
static uint8_t *lay(struct session *s, struct input *in, size_t count, size_t headroom, size_t *ends,
                    uint32_t timestamp)
{
    size_t size = 0;
    for (size_t n = 0; n < count; n++) {
        s->sent[s->sent_len + n] = (struct sent){take_bytes(in), timestamp, n + 1 == count};
        size += headroom + s->sent[s->sent_len + n].payload.len;
        ends[n] = size;
    }
    uint8_t *at = room_for(PACKET, size);
    for (size_t n = 0; n < count; n++) {
        const struct input payload = s->sent[s->sent_len + n].payload;
        if (payload.len > 0)
            memcpy(at + ends[n] - payload.len, payload.at, payload.len);
    }
    return at;
}

/* What was sent is read, and stands where it should. */
static void check_sent(struct session *s, const uint8_t *at, const size_t *ends, size_t count, size_t headroom,
                       size_t len)
{
    size_t begin = 0;
    for (size_t n = 0; n < count; begin = ends[n++]) {
        const struct sent *sent = &s->sent[s->sent_len + n];
        const h26x_rtp_header header = {
            .ssrc = s->streams.ssrc, .sequence = s->streams.sequence++, .payload_type = s->streams.payload_type};
        expect(is_untouched(at + begin, headroom - len));
        check_packet(at + begin + headroom - len, ends[n] - begin - headroom + len, &header, 0, sent);
        s->counts.packets++;
        s->counts.bytes += sent->payload.len;
    }
    s->sent_len += count;
}

/* Sends an access unit; where its headers have no room, or it has a faulty extension, nothing is sent. */
static void send_unit(struct session *s, struct input *in, uint8_t how)
{
    const size_t count = how & 3, headroom = take_byte(in) % 40, extension_len = how >> 4;
    const uint8_t extension[15] = {0x10, 0xaa};
    const uint32_t timestamp = (uint32_t)take_word(in) << 16;
    const size_t wanted = extension_len == 0 ? 12 : 16 + extension_len;
    size_t ends[IN_UNIT], len = NOT_SAID;
    if (s->sent_len + count > MOST_SENT)
        return;
    uint8_t *at = lay(s, in, count, headroom, ends, timestamp);
    const size_t size = count == 0 ? 0 : ends[count - 1];
    const uint32_t code = h26x_rtp_sender_send(&s->sender, timestamp, 0xbede, extension, extension_len, headroom, at,
                                               size, ends, count, &len);
    saw(1, code, (uint32_t)count, about(size));
    if (extension_len % 4 != 0)
        expect(code == H26X_RTP_EXTENSION && len == NOT_SAID);
    else if (headroom < wanted)
        expect(code == H26X_NO_ROOM && len == wanted);
    else
        expect(code == H26X_OK && len == wanted);
    if (code == H26X_OK)
        check_sent(s, at, ends, count, headroom, len);
}

/* The packet of a number, where the last packets up to it have no more bytes than are held; or NULL. */
static const struct sent *held(const struct session *s, uint16_t number)
{
    size_t bytes = 0;
    for (size_t n = s->sent_len; n > 0; n--) {
        bytes += s->sent[n - 1].payload.len;
        if (bytes > s->history)
            return NULL;
        if ((uint16_t)(s->streams.sequence - (s->sent_len - n) - 1) == number)
            return &s->sent[n - 1];
    }
    return NULL;
}

/* A packet that goes again is counted, and its retransmission has a number of its own. */
static h26x_rtp_header resent_header(struct session *s, uint16_t number, size_t payload_len)
{
    h26x_rtp_header it = {.ssrc = s->streams.ssrc, .sequence = number, .payload_type = s->streams.payload_type};
    if (!s->streams.has_rtx) {
        s->counts.packets++;
        s->counts.bytes += payload_len;
        return it;
    }
    it = (h26x_rtp_header){.ssrc = s->streams.rtx_ssrc,
                           .sequence = s->streams.rtx_sequence++,
                           .payload_type = s->streams.rtx_payload_type};
    s->counts.rtx_packets++;
    s->counts.rtx_bytes += payload_len + 2;
    return it;
}

/* What goes again of a number: nothing, or the packet, with two bytes more where it is a retransmission (RFC 4588, 4). */
static void resend(struct session *s, uint16_t number)
{
    const struct sent *sent = held(s, number);
    size_t len = NOT_SAID, size = NOT_SAID;
    const uint32_t code = h26x_rtp_sender_resend(&s->sender, number, NULL, 0, &len);
    saw(2, code, about(s->sent_len), about(len));
    if (sent == NULL) {
        expect(code == H26X_OK && len == 0);
        return;
    }
    expect(code == H26X_NO_ROOM && len >= 12 + sent->payload.len);
    check_told(s);
    uint8_t *to = room_for(OUTPUT, len);
    expect(h26x_rtp_sender_resend(&s->sender, number, to, len - 1, &size) == H26X_NO_ROOM && size == len);
    expect(is_untouched(to, len));
    expect(h26x_rtp_sender_resend(&s->sender, number, to, len, &size) == H26X_OK && size == len);
    const h26x_rtp_header header = resent_header(s, number, sent->payload.len);
    check_packet(to, len, &header, s->streams.has_rtx ? 2 : 0, sent);
    h26x_rtp_packet original;
    if (!s->streams.has_rtx)
        return;
    expect(h26x_rtp_original(to, len, s->streams.payload_type, s->streams.ssrc, &original) == H26X_OK);
    expect(original.header.sequence == number && original.payload_len == sent->payload.len);
}

/* Sends again what a NACK asks for, of numbers near the last ones, or whatever the input has for one. */
static void answer(struct session *s, struct input *in, uint8_t how)
{
    uint16_t numbers[64];
    uint8_t nack[12 + 4 * 16] = {0x81, 205};
    size_t count = 0, len = 12;
    for (size_t pairs = 1 + (how & 3); pairs > 0; pairs--, len += 4) {
        const uint16_t first = (uint16_t)(s->streams.sequence - take_byte(in)), bits = take_word(in);
        const uint8_t pair[] = {(uint8_t)(first >> 8), (uint8_t)first, (uint8_t)(bits >> 8), (uint8_t)bits};
        memcpy(nack + len, pair, 4);
    }
    nack[3] = (uint8_t)(len / 4 - 1);
    const struct input any = take_bytes(in);
    const bool is_nack = (how & 4) == 0 ? h26x_nack_read(nack, len, NULL, NULL, numbers, 64, &count)
                                        : h26x_nack_read(copied(OTHER, any), any.len, NULL, NULL, numbers, 64, &count);
    expect(is_nack || (how & 4) != 0);
    for (size_t i = 0; is_nack && i < count && i < 64; i++)
        resend(s, numbers[i]);
}

/* Where an end is before that of its headroom, or behind the packets, nothing is sent. */
static void refuse(struct session *s, struct input *in)
{
    const size_t headroom = take_byte(in), size = take_byte(in), ends[] = {take_word(in), take_word(in)};
    if (headroom >= 12 && headroom <= ends[0] && headroom <= ends[1] && ends[0] <= ends[1] - headroom
        && ends[1] <= size)
        return;
    size_t len = NOT_SAID;
    const uint32_t code =
        h26x_rtp_sender_send(&s->sender, 0, 0, NULL, 0, headroom, room_for(PACKET, size), size, ends, 2, &len);
    saw(3, code, about(headroom), about(size));
    expect(code == H26X_OUT_OF_RANGE || code == H26X_NO_ROOM);
    expect(len == (code == H26X_NO_ROOM ? 12 : NOT_SAID));
}

/* The streams of a session, and whether they may be. */
static bool begin(struct session *s, struct input *in)
{
    const uint8_t how = take_byte(in);
    h26x_rtp_streams it = {.ssrc = take_word(in), .sequence = take_word(in), .payload_type = how & 0x7f};
    it.has_rtx = how >= 0x80;
    s->history = take_word(in);
    if (it.has_rtx) {
        it.rtx_ssrc = it.ssrc ^ 1;
        it.rtx_sequence = take_word(in);
        it.rtx_payload_type = take_byte(in);
    }
    s->streams = it;
    const uint32_t code = h26x_rtp_sender_new(&it, s->history, &s->sender);
    expect(code == (it.rtx_payload_type > 127 ? H26X_RTP_PAYLOAD_TYPE : H26X_OK));
    return code == H26X_OK;
}

int LLVMFuzzerTestOneInput(const uint8_t *at, size_t len)
{
    static struct session s;
    struct input in = {at, len < LONGEST ? len : LONGEST};
    s.counts = (h26x_rtp_sent){0};
    s.sent_len = 0;
    if (!begin(&s, &in))
        return 0;
    while (in.len > 0) {
        const uint8_t how = take_byte(&in);
        if ((how & 0xc) == 0xc)
            answer(&s, &in, how >> 4);
        else if ((how & 0xc) == 8)
            refuse(&s, &in);
        else
            send_unit(&s, &in, how);
        check_told(&s);
    }
    h26x_rtp_sender_free(s.sender);
    return 0;
}
