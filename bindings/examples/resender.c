/* A sender of whose packets some are lost. */
#define _GNU_SOURCE
#include "resender.h"
#include "access_units.h"
#include "datagrams.h"
#include "h26x.h"
#include "losses.h"
#include <inttypes.h>
#include <poll.h>
#include <stdio.h>
#include <stdlib.h>
#include <string.h>
#include <sys/socket.h>

/* Of how many packets one is lost, or comes behind the next one; packets without a payload at a time. */
enum { OF = 10, EMPTY = 3 };

/* Numbers that are asked for at once; the room for RTCP; and for how many milliseconds the sender waits at the end: until
 * nothing was asked for that long. */
enum { ASKED = 512, RTCP_ROOM = 1200, SILENCE = 1000 };

/* How many bytes of payloads are held, to go again; ticks of the timestamps' clock. */
enum { HISTORY = 64 << 20, TICKS_A_FRAME = 90000 / 25 };

/* SSRCs and first numbers should be random (RFC 3550, 5.1); from here numbers soon pass 65535. */
static const h26x_rtp_streams streams = {.ssrc = 0x68323658,
                                         .sequence = 65530,
                                         .payload_type = MEDIA_TYPE,
                                         .rtx_ssrc = 0x6832365a,
                                         .rtx_payload_type = RTX_TYPE,
                                         .has_rtx = true};

/* What makes and sends the packets, with room for those of a frame, and what became of them; and the one
 * that goes behind the next, if one does. */
struct lossy {
    h26x_packetizer packetizer;
    h26x_rtp_sender sender;
    uint8_t *at;
    size_t *ends;
    size_t room, ends_room;
    uint32_t timestamp;
    int socket;
    uint64_t state;
    size_t lost, keyframes_asked, behind_len;
    uint8_t behind[LONGEST_DATAGRAM];
    bool is_end;
};

static bool send_one(const struct lossy *l, const uint8_t *packet, size_t len)
{
    return send(l->socket, packet, len, 0) >= 0 || fail_by_errno("a packet can't be sent");
}

/* Sends a packet again as a retransmission, or loses that. */
static bool send_again(struct lossy *l, uint16_t number)
{
    uint8_t packet[LONGEST_DATAGRAM];
    size_t len;
    if (h26x_rtp_sender_resend(&l->sender, number, packet, sizeof packet, &len) != H26X_OK)
        return fail("a retransmission isn't written");
    if (len > 0 && draw_below(&l->state, OF) == 0) {
        l->lost++;
        return true;
    }
    return len == 0 || send_one(l, packet, len);
}

/* Sends a packet, or loses it, or lets the next one go before it. The last ones go in any case. */
static bool send_lossy(struct lossy *l, const uint8_t *packet, size_t len)
{
    if (!l->is_end && draw_below(&l->state, OF) == 0) {
        l->lost++;
        return true;
    }
    if (!l->is_end && l->behind_len == 0 && draw_below(&l->state, OF) == 0) {
        memcpy(l->behind, packet, len);
        l->behind_len = len;
        return true;
    }
    const size_t behind_len = l->behind_len;
    l->behind_len = 0;
    return send_one(l, packet, len) && (behind_len == 0 || send_one(l, l->behind, behind_len));
}

/* Does what a packet of RTCP asks for. */
static bool answer_packet(struct lossy *l, const uint8_t *packet, size_t len)
{
    uint16_t numbers[ASKED];
    if (h26x_pli_read(packet, len, NULL, NULL)) {
        l->keyframes_asked++;
        return true;
    }
    size_t count;
    if (!h26x_nack_read(packet, len, NULL, NULL, numbers, ASKED, &count))
        return true;
    for (size_t i = 0; i < count && i < ASKED; i++)
        if (!send_again(l, numbers[i]))
            return false;
    return true;
}

/* Does what the packets of a datagram of RTCP ask for. */
static bool answer_datagram(struct lossy *l, const uint8_t *at, size_t len)
{
    size_t end;
    for (size_t from = 0; h26x_rtcp_next(at, len, from, &end); from = end)
        if (!answer_packet(l, at + from, end - from))
            return false;
    return true;
}

/* Does what is asked for, until for so many milliseconds nothing is. */
static bool answer_for(struct lossy *l, int milliseconds)
{
    uint8_t packet[RTCP_ROOM];
    struct pollfd waits = {.fd = l->socket, .events = POLLIN};
    while (poll(&waits, 1, milliseconds) > 0) {
        const ssize_t len = recv(l->socket, packet, sizeof packet, MSG_DONTWAIT);
        if (len > 0 && !answer_datagram(l, packet, (size_t)len))
            return false;
    }
    return true;
}

/* Sends packets that lie in the buffer, each behind room for its header. */
static bool send_packets_lossy(struct lossy *l, size_t count, size_t size)
{
    size_t begin = 0;
    if (h26x_rtp_sender_send(&l->sender, l->timestamp, 0, NULL, 0, RTP_HEADER, l->at, size, l->ends,
                             count, NULL)
        != H26X_OK)
        return fail("headers aren't written");
    for (size_t n = 0; n < count; begin = l->ends[n++])
        if (!send_lossy(l, l->at + begin, l->ends[n] - begin) || !answer_for(l, 1))
            return false;
    return true;
}

static void grow(struct lossy *l, size_t count, size_t size)
{
    l->at = grown(l->at, size);
    l->ends = grown(l->ends, count * sizeof *l->ends);
    l->room = size;
    l->ends_room = count;
}

/* Sends a frame. Where the buffer has no room for its packets it grows, and the call is made again. */
static bool send_frame(struct lossy *l, size_t limit, const uint8_t *frame, size_t len)
{
    size_t count, size;
    uint32_t code;
    while ((code = h26x_packetize_units_into(&l->packetizer, limit, frame, len, RTP_HEADER, l->at,
                                             l->room, l->ends, l->ends_room, &count, &size, NULL))
           == H26X_NO_ROOM)
        grow(l, count > l->ends_room ? count : l->ends_room, size > l->room ? size : l->room);
    if (code != H26X_OK)
        return fail(h26x_strerror(code));
    l->timestamp += TICKS_A_FRAME;
    return send_packets_lossy(l, count, size);
}

/* Headers alone, as congestion control sends padding: numbers, and nothing of the stream. */
static bool send_empty(struct lossy *l)
{
    if (l->room < EMPTY * RTP_HEADER || l->ends_room < EMPTY)
        grow(l, EMPTY, EMPTY * RTP_HEADER);
    for (size_t n = 0; n < EMPTY; n++)
        l->ends[n] = (n + 1) * RTP_HEADER;
    return send_packets_lossy(l, EMPTY, EMPTY * RTP_HEADER);
}

/* Sends all, with packets that bear nothing behind each tenth frame, and at the end, where a receiver sees
 * by them whether the last packets are missing; and then what it is asked for. */
static bool send_all(struct lossy *l, const struct stream *s)
{
    size_t begin, end = 0, frames = 0;
    while (next_access_unit(s->codec, s->at, s->len, end, &begin, &end))
        if (!send_frame(l, s->limit, s->at + begin, end - begin)
            || (++frames % 10 == 0 && !send_empty(l)))
            return false;
    l->is_end = true;
    if (!send_empty(l))
        return false;
    return answer_for(l, SILENCE);
}

static bool tell(const struct lossy *l)
{
    h26x_rtp_sent sent;
    if (h26x_rtp_sender_count(&l->sender, &sent) != H26X_OK)
        return fail("no counts");
    printf("%" PRIu64 " packets sent, %zu losses, %" PRIu64
           " sent again; a keyframe was asked for %zu times\n",
           sent.packets, l->lost, sent.rtx_packets, l->keyframes_asked);
    return true;
}

bool send_stream(const struct stream *s, int socket)
{
    static struct lossy l;
    l = (struct lossy){.socket = socket, .state = 1};
    const bool is_sent = h26x_packetizer_new(s->codec, false, &l.packetizer) == H26X_OK
        && h26x_rtp_sender_new(&streams, HISTORY, &l.sender) == H26X_OK && send_all(&l, s)
        && tell(&l);
    h26x_packetizer_free(l.packetizer);
    h26x_rtp_sender_free(l.sender);
    free(l.at);
    free(l.ends);
    return is_sent;
}
