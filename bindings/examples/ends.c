/* The two ends of a stream. */
#include "ends.h"
#include "stream.h"
#include <stdio.h>
#include <stdlib.h>

enum { PAYLOAD_TYPE = 96, SOURCE = 0x68323658, TICKS_A_FRAME = 90000 / 25 };

/* Where sequence numbers begin. It should be random (RFC 3550, 5.1); from here they soon pass
 * 65535. */
enum { FIRST_SEQUENCE = 65530 };

/* How many bytes of data a unit may have that waits for its last packet. */
enum { RUN_LIMIT = 64 << 20 };

/* Lets the buffer have room for so many packets, which take `size` bytes. */
static void grow(struct server *s, size_t count, size_t size)
{
    if (size > s->room) {
        s->at = grown(s->at, size);
        s->room = size;
    }
    if (count > s->ends_room) {
        s->ends = grown(s->ends, count * sizeof *s->ends);
        s->ends_room = count;
    }
}

bool make_ends(uint32_t codec, struct server *server, struct client *client)
{
    *server = (struct server){
        .header = {.payload_type = PAYLOAD_TYPE, .sequence = FIRST_SEQUENCE, .ssrc = SOURCE}};
    *client = (struct client){0};
    if (h26x_packetizer_new(codec, false, &server->packetizer) != H26X_OK
        || h26x_receiver_new(codec, false, false, RUN_LIMIT, &client->receiver) != H26X_OK)
        return fail("no memory");
    return true;
}

void free_ends(struct server *server, struct client *client)
{
    h26x_packetizer_free(server->packetizer);
    h26x_receiver_free(client->receiver);
    free(server->at);
    free(server->ends);
    free(client->at);
}

bool write_header(const h26x_rtp_header *header, uint8_t *packet)
{
    return h26x_rtp_write_before(header, NULL, 0, NULL, 0, false, RTP_HEADER, packet, RTP_HEADER,
                                 NULL)
        == H26X_OK;
}

/* Writes each packet's header before it. Those of a frame have one timestamp. */
static bool write_headers(struct server *s, const struct packets *made)
{
    for (size_t i = 0; i < made->count; i++) {
        s->header.marker = i + 1 == made->count;
        if (!write_header(&s->header, s->at + packet_begin(made, i)))
            return fail("a header isn't written");
        s->header.sequence++;
    }
    s->header.timestamp += TICKS_A_FRAME;
    return true;
}

/* Where the buffer has no room for the packets it grows, and the call is made again. */
bool make_packets(struct server *s, size_t limit, const uint8_t *frame, size_t len,
                  struct packets *made)
{
    size_t count, size;
    uint32_t code;
    h26x_refusal why;
    while ((code = h26x_packetize_units_into(&s->packetizer, limit, frame, len, RTP_HEADER, s->at,
                                             s->room, s->ends, s->ends_room, &count, &size, &why))
           == H26X_NO_ROOM)
        grow(s, count, size);
    if (code != H26X_OK) {
        fprintf(stderr, "unit %zu of %zu bytes: ", why.first, why.second);
        return fail(h26x_strerror(code));
    }
    *made = (struct packets){s->at, s->ends, count};
    return write_headers(s, made);
}

/* Units that have no room are kept behind the handle up to the next packet, and copied once there
 * is. */
bool take_payload(struct client *c, uint16_t sequence, const uint8_t *payload, size_t len,
                  struct answer *a)
{
    uint8_t extra = 0;
    h26x_refusal why;
    if (h26x_receive(&c->receiver, sequence, payload, len, c->at + c->len, c->room - c->len,
                     &a->written, &extra, &a->received, &a->count, &why)
        != H26X_OK)
        return fail("a packet is refused");
    if (a->written > c->room - c->len) {
        c->room = 2 * (c->len + a->written);
        c->at = grown(c->at, c->room);
        h26x_written_copy(&c->receiver.at, c->at + c->len, a->written);
    }
    c->len += a->written;
    return true;
}
