/* Sends an Annex B stream as RTP over UDP on 127.0.0.1, frame by frame, as a media server would,
 * and receives it again:
 *
 *     udp h264|h265|h266 IN [LIMIT]
 *
 * LIMIT is the largest RTP payload, 1200 bytes unless said; of H.265 and H.266 no more than that,
 * which a packetizer's largest size is at first. A frame's packets are made in one buffer, which is
 * kept, each behind room for RTP's header; headers are written into that room, and packets go out
 * of the buffer as they lie there. That happens three times: each packet as a message of its own;
 * runs of packets as one message, which the kernel cuts (UDP_SEGMENT); and such runs through a
 * socket for which the kernel refuses them, which go packet by packet then.
 *
 * Each time the receiver looks at every header, and the units that it writes are compared with
 * those of the stream. Of parameter sets there must be one of each kind before the slices that need
 * them, in the order of VPS, SPS and PPS, and no longer than a packet: of those of a kind that wait
 * together only the last is sent, and never in fragments. The last line says how many messages and
 * calls of the kernel it took. Ends with status 1 where anything differs. */
#define _GNU_SOURCE
#include "access_units.h"
#include "ends.h"
#include "stream.h"
#include <stdio.h>
#include <stdlib.h>
#include <sys/socket.h>
#include <unistd.h>

/* Sends a frame. *count is how many packets it took. */
static bool send_frame(struct server *s, size_t limit, const uint8_t *frame, size_t len,
                       size_t *count)
{
    struct packets made;
    if (!make_packets(s, limit, frame, len, &made))
        return false;
    *count = made.count;
    return send_packets(&s->sender, &made) || fail_by_errno("packets can't be sent");
}

/* Takes a packet, which must be the next of the frame: it has the frame's header, and the last one
 * alone has the marker. No packet may be missing here. */
static bool take_packet(struct client *c, const h26x_rtp_header *frame, const uint8_t *at,
                        size_t len, bool is_last)
{
    h26x_rtp_packet packet;
    struct answer answer;
    const uint32_t code = h26x_rtp_read(at, len, &packet);
    if (code != H26X_OK)
        return fail(h26x_strerror(code));
    if (packet.header.marker != is_last)
        return fail("the marker is on another packet than the last of a frame");
    if (packet.header.payload_type != frame->payload_type || packet.header.ssrc != frame->ssrc
        || packet.header.timestamp != frame->timestamp)
        return fail("a header differs");
    if (!take_payload(c, packet.header.sequence, at + packet.payload, packet.payload_len, &answer))
        return false;
    if (answer.received == H26X_GAP || answer.received == H26X_TOO_LONG)
        return fail("a packet was lost, or a unit is too long");
    return answer.received != H26X_LATE || fail("a packet came late, or twice");
}

/* Takes the packets of a frame, so many. Before they are read no other frame is sent, so what waits
 * at the socket is a frame at most. Where its buffer has no room for that, which is so from some
 * megabytes on, the kernel drops packets, and it fails. */
static bool receive_frame(struct client *c, const h26x_rtp_header *frame, size_t count)
{
    static struct inbox in;
    size_t taken = 0;
    while (taken < count) {
        if (!receive(c->socket, &in))
            return fail_by_errno("no packet comes");
        for (size_t i = 0; i < in.count; i++)
            if (!take_packet(c, frame, in.at[i], in.lens[i], ++taken == count))
                return false;
    }
    return taken == count || fail("more packets came than were sent");
}

/* What became of a stream, in one way of sending. */
struct carried {
    size_t frames, units;
    struct sender sender;
};

/* Sends each frame and receives it, before the next one. */
static bool carry(const struct stream *s, struct server *server, struct client *client,
                  struct carried *carried)
{
    size_t begin, end = 0, count;
    while (next_access_unit(s->codec, s->at, s->len, end, &begin, &end)) {
        const h26x_rtp_header frame = server->header;
        if (!send_frame(server, s->limit, s->at + begin, end - begin, &count)
            || !receive_frame(client, &frame, count))
            return false;
        carried->frames++;
    }
    return true;
}

/* How a stream is sent: by runs, or each packet as a message; and whether the kernel is to refuse
 * runs, which it does where it mayn't make checksums, as it would for a device that can't. */
struct way {
    bool by_runs, is_refused;
};

/* Opens the sockets of both ends. */
static bool open_way(const struct way *way, struct sender *sender, struct client *client)
{
    const int on = 1;
    if (!open_sockets(&sender->socket, &client->socket))
        return fail_by_errno("no sockets on 127.0.0.1");
    if (way->is_refused && setsockopt(sender->socket, SOL_SOCKET, SO_NO_CHECK, &on, sizeof on) != 0)
        return fail_by_errno("SO_NO_CHECK");
    sender->by_runs = way->by_runs && knows_runs(sender->socket);
    if (way->by_runs && !sender->by_runs)
        puts("the kernel doesn't know UDP_SEGMENT: each packet is a message of its own");
    return true;
}

/* Sends the stream in one way, and compares what comes back. Where it fails, the program ends, and
 * nothing is freed. */
static bool carry_in_way(const struct stream *s, const struct way *way, struct carried *carried)
{
    struct server server;
    struct client client;
    *carried = (struct carried){0};
    if (!make_ends(s->codec, &server, &client) || !open_way(way, &server.sender, &client)
        || !carry(s, &server, &client, carried)
        || !is_text_of(s, client.at, client.len, &carried->units))
        return false;
    carried->sender = server.sender;
    close(server.sender.socket);
    close(client.socket);
    free_ends(&server, &client);
    return true;
}

int main(int argc, char **argv)
{
    const struct way ways[] = {{false, false}, {true, false}, {true, true}};
    const char *names[] = {"sendmmsg", "UDP_SEGMENT", "refused"};
    struct stream s = {0};
    struct carried by[3];
    if (!read_stream(argc - 1, argv + 1, &s))
        return 1;
    for (int i = 0; i < 3; i++)
        if (!carry_in_way(&s, &ways[i], &by[i]))
            return 1;
    printf("%zu units of %zu frames in %zu packets of %zu bytes at most, and back:", by[0].units,
           by[0].frames, by[0].sender.packets, s.limit);
    for (int i = 0; i < 3; i++)
        printf("%s %s %zu messages in %zu calls", i == 0 ? "" : ",", names[i],
               by[i].sender.messages, by[i].sender.calls);
    puts("");
    free(s.at);
    return 0;
}
