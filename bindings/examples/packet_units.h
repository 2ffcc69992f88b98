/* Which units packets hold, and which packets hold a unit: read as the RFCs have them (RFC 6184, 5;
 * RFC 7798, 4.4; RFC 9328, 4.3), without the library. */
#ifndef PACKET_UNITS_H
#define PACKET_UNITS_H

#include "datagrams.h"
#include <stdbool.h>
#include <stddef.h>
#include <stdint.h>

/* A unit: its packets, from `first` to `last`, which are one, or its fragments; and where it stands
 * in the text, with its start code. */
struct placed_unit {
    size_t first, last;
    size_t begin, end;
};

/* Units in order, and their text: each behind 00 00 00 01. */
struct packet_units {
    struct placed_unit *at;
    size_t count;
    uint8_t *text;
    size_t len;
};

/* Reads all packets of a stream, each behind a headroom and without decoding order numbers. False
 * where a packet is neither a unit, an aggregate nor a fragment, or a fragment is missing. */
bool read_packet_units(uint32_t codec, const struct packets *p, size_t headroom,
                       struct packet_units *u);

void free_packet_units(struct packet_units *u);

#endif
