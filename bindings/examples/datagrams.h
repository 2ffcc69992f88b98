/* Packets that lie one behind the other in a buffer, as datagrams over UDP on 127.0.0.1 (Linux).
 * They go straight out of that buffer, many in a call of the kernel (sendmmsg). */
#ifndef DATAGRAMS_H
#define DATAGRAMS_H

#include <stdbool.h>
#include <stddef.h>
#include <stdint.h>

/* How long RTP's header is without CSRCs and an extension (RFC 3550, 5.1). */
enum { RTP_HEADER = 12 };

/* Packets as h26x_packetize_into leaves them: the n-th ends at ends[n], where the next begins. */
struct packets {
    const uint8_t *at;
    const size_t *ends;
    size_t count;
};

/* Where the n-th packet begins. */
size_t packet_begin(const struct packets *p, size_t n);

/* A socket that sends, how it does, and what went so far. */
struct sender {
    int socket;
    bool by_runs; /* A message is a run of packets of one size, which the kernel cuts (UDP_SEGMENT);
                   * else it is a packet. */
    size_t packets, messages, calls;
};

/* Opens a socket that receives, on a port that the kernel chooses, and one that sends to it. */
bool open_sockets(int *sends, int *receives);

/* Whether the kernel knows UDP_SEGMENT. One that doesn't would send a run as one datagram. */
bool knows_runs(int socket);

/* Sends packets. Where the kernel refuses runs, it says so, and these and later packets go as
 * messages of their own. False, with errno, where they can't be sent. */
bool send_packets(struct sender *s, const struct packets *p);

/* Datagrams that came together. */
enum { INBOX = 64, LONGEST_DATAGRAM = 65507 };
struct inbox {
    uint8_t at[INBOX][LONGEST_DATAGRAM];
    size_t lens[INBOX];
    size_t count;
};

/* Waits for a datagram, and takes it with those that are there behind it. False, with errno, where
 * none comes within two seconds (EAGAIN). */
bool receive(int socket, struct inbox *in);

#endif
