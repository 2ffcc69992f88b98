/* What the checks of the calls share. */
#ifndef CALLS_H
#define CALLS_H

#include "h26x.h"

enum { ROOM = 8192 };

/* Counts the checks of one thread. */
struct tally {
    size_t passed;
};

/* Counts a check that holds; else says where it stands and ends the program with status 1. */
void expect_at(struct tally *t, bool holds, const char *what, const char *file, int line);
#define expect(t, what) expect_at(t, what, #what, __FILE__, __LINE__)

/* The bytes that hexadecimal digits name, up to a '|'; spaces are for the reader. */
struct bytes {
    uint8_t at[ROOM];
    size_t len;
};
struct bytes bytes_of(const char *hex);
bool is_same(const uint8_t *at, size_t len, const char *hex);
const char *behind_bar(const char *hex);

/* The checks of every call: of packetizers, of depacketizers and what they show, of receivers of
 * packets with their sequence numbers and of access units, of packets and of datagrams, of senders of
 * datagrams, of those without a handle, on packets, on payloads and on profiles, on what stands round
 * payloads, of format parameters of SDP, and what may be left out of all. */
void check_sending(struct tally *t);
void check_receiving(struct tally *t);
void check_sequenced(struct tally *t);
void check_access_units(struct tally *t);
void check_access_unit_rows(struct tally *t);
void check_nack_rows(struct tally *t);
void check_rtp_receiver(struct tally *t);
void check_rtp_sender(struct tally *t);
void check_showing(struct tally *t);
void check_looking(struct tally *t);
void check_cutting(struct tally *t);
void check_profiles(struct tally *t);
void check_sdp(struct tally *t);
void check_sdp_rows(struct tally *t);
void check_answer_rows(struct tally *t);
void check_direction_rows(struct tally *t);
void check_unit_rows(struct tally *t);
void check_place_rows(struct tally *t);
void check_datagrams(struct tally *t);
void check_many(struct tally *t);
void check_optional(struct tally *t);

/* Compares the packets that a packetizer holds, so many, which `packets` names with '|' between
 * two. */
void holds_at(struct tally *t, h26x_packetizer *p, size_t count, const char *packets, const char *file, int line);

/* Sends a payload and compares its packets, which `packets` names with '|' between two. */
void sends_at(struct tally *t, h26x_packetizer *p, size_t mtu, const char *payload, const char *packets,
              const char *file, int line);
#define sends(t, p, mtu, payload, packets) sends_at(t, p, mtu, payload, packets, __FILE__, __LINE__)

/* Gives a packet that is accepted, and compares what is written and told. */
void takes_at(struct tally *t, h26x_depacketizer *d, const char *packet, const char *written, uint8_t told,
              const char *file, int line);
#define takes(t, d, packet, written, told) takes_at(t, d, packet, written, told, __FILE__, __LINE__)

#endif
