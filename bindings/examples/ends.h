/* The two ends of a stream: a server, which makes packets in one buffer, and a client, which writes
 * their units again. */
#ifndef ENDS_H
#define ENDS_H

#include "datagrams.h"
#include "h26x.h"

/* Writes a header of RTP_HEADER bytes before a packet's payload. */
bool write_header(const h26x_rtp_header *header, uint8_t *packet);

/* A server's end: a packetizer, the buffer for a frame's packets with the ends of these, the header
 * of the next packet, and what sends. */
struct server {
    h26x_packetizer packetizer;
    uint8_t *at;
    size_t *ends;
    size_t room, ends_room;
    h26x_rtp_header header;
    struct sender sender;
};

/* A client's end: a receiver, the units that it wrote so far, and the socket that packets come
 * to. */
struct client {
    h26x_receiver receiver;
    uint8_t *at;
    size_t len, room;
    int socket;
};

/* Makes both ends, whose buffers are small at first, without sockets. */
bool make_ends(uint32_t codec, struct server *server, struct client *client);

/* Frees what they hold but their sockets. */
void free_ends(struct server *server, struct client *client);

/* Makes the packets of a frame, each behind its header, the last with the marker. There are none
 * where the frame has nothing but sets, which wait for the next. */
bool make_packets(struct server *s, size_t limit, const uint8_t *frame, size_t len,
                  struct packets *made);

/* What became of a packet, as h26x_receive tells it, and how many bytes its units take. */
struct answer {
    uint32_t received;
    uint16_t count;
    size_t written;
};

/* Takes a packet's payload, and appends the units that it completes. */
bool take_payload(struct client *c, uint16_t sequence, const uint8_t *payload, size_t len,
                  struct answer *answer);

#endif
