/* Numbers, payloads and packets that are drawn: the same of a seed on each machine. */
#ifndef DRAWN_H
#define DRAWN_H

#include "h26x.h"

enum { MOST = 1 << 14, LONGEST_KEPT = 1500 };

/* Bytes that are drawn. */
struct bytes {
    uint8_t at[MOST];
    size_t len;
};

void begin(uint64_t seed);
uint32_t draw(void);
uint32_t below(uint32_t n);
bool one_in(uint32_t n);

/* A codec, or a number that is none. */
uint32_t any_codec(void);

/* A unit, with its header mostly that of a unit of the codec. */
void draw_unit(struct bytes *it, uint32_t codec);

/* Units behind start codes. */
void draw_payload(struct bytes *it, uint32_t codec);

/* A packet: one of those that were kept, as it is, cut or with a byte changed; or drawn bytes. */
void draw_packet(struct bytes *it, uint32_t codec);

/* The first fragment of a unit, or a later one. */
void draw_fragment(struct bytes *it, uint32_t codec);

/* A datagram of RTP or RTCP near the rules: its parts as they are, cut, or with a bit turned; and a redundant payload. */
void draw_datagram(struct bytes *it);
void draw_red(struct bytes *it);

/* What stands in an a=fmtp line, many of whose parameters are the codec's; the name of one; and what stands in an a=rtpmap
 * line. */
void draw_format(struct bytes *it, uint32_t codec);
void draw_name(struct bytes *it, uint32_t codec);
void draw_value(struct bytes *it, uint32_t codec);
void draw_rtpmap(struct bytes *it);
void draw_rtx_format(struct bytes *it);

/* A few bytes. */
void draw_few(struct bytes *it, size_t most);

/* Keeps a packet that was made, to be drawn again. */
void keep(uint32_t codec, const uint8_t *packet, size_t len);

#endif
