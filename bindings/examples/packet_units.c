/* The units of packets. */
#include "packet_units.h"
#include "access_units.h"
#include "h26x.h"
#include "stream.h"
#include <stdlib.h>
#include <string.h>

/* What packets are read into, and whether its last unit waits for fragments. */
struct reader {
    uint32_t codec;
    struct packet_units *units;
    bool is_open;
};

/* A packet without its headroom, and its number. */
struct payload {
    const uint8_t *at;
    size_t len, number;
};

static size_t header_len(uint32_t codec)
{
    return codec == H26X_H264 ? 1 : 2;
}

/* Whether a packet has this type: STAP-A and FU-A of H.264, else AP and FU. */
static bool is_aggregate(uint32_t codec, unsigned type)
{
    return type == (codec == H26X_H264 ? 24 : codec == H26X_H265 ? 48 : 28);
}

static bool is_fragment(uint32_t codec, unsigned type)
{
    return type == (codec == H26X_H264 ? 28 : codec == H26X_H265 ? 49 : 29);
}

/* Whether a packet of this type is one unit: H.264 has units of 1 to 23, H.265 up to 47, H.266 up
 * to 27. */
static bool is_single(uint32_t codec, unsigned type)
{
    return codec == H26X_H264 ? 1 <= type && type <= 23 : type < (codec == H26X_H265 ? 48 : 28);
}

/* Appends bytes to the last unit, whose last packet is this one. */
static void add_bytes(struct packet_units *u, size_t number, const void *bytes, size_t len)
{
    u->text = grown(u->text, u->len + len);
    memcpy(u->text + u->len, bytes, len);
    u->len += len;
    u->at[u->count - 1].last = number;
    u->at[u->count - 1].end = u->len;
}

/* Begins a unit in this packet, with its start code. */
static void begin_unit(struct packet_units *u, size_t number)
{
    u->at = grown(u->at, (u->count + 1) * sizeof *u->at);
    u->at[u->count++] = (struct placed_unit){.first = number, .begin = u->len};
    add_bytes(u, number, "\0\0\0\1", 4);
}

static void read_single(struct reader *r, const struct payload *p)
{
    begin_unit(r->units, p->number);
    add_bytes(r->units, p->number, p->at, p->len);
}

/* Behind the header each unit stands behind its length, in two bytes. */
static bool read_aggregate(struct reader *r, const struct payload *p)
{
    size_t at = header_len(r->codec);
    while (p->len - at > 2) {
        const size_t len = (size_t)p->at[at] << 8 | p->at[at + 1];
        at += 2;
        if (len == 0 || len > p->len - at)
            return false;
        begin_unit(r->units, p->number);
        add_bytes(r->units, p->number, p->at + at, len);
        at += len;
    }
    return at == p->len;
}

/* The header of the unit that a fragment is of: the packet's, but for the type, which stands in the
 * byte behind it. */
static void write_unit_header(uint32_t codec, const uint8_t *packet, uint8_t *to)
{
    const uint8_t word = packet[header_len(codec)];
    to[0] = packet[0];
    to[1] = packet[1];
    switch (codec) {
    case H26X_H264:
        to[0] = (uint8_t)((packet[0] & 0xe0) | (word & 0x1f));
        break;
    case H26X_H265:
        to[0] = (uint8_t)((packet[0] & 0x81) | (word & 0x3f) << 1);
        break;
    default:
        to[1] = (uint8_t)((word & 0x1f) << 3 | (packet[1] & 7));
    }
}

/* The byte behind the header says by its highest bit, S, that the unit begins here, and by the next
 * one, E, that it ends. */
static bool read_fragment(struct reader *r, const struct payload *p)
{
    const size_t begin = header_len(r->codec) + 1;
    uint8_t unit_header[2];
    if (p->len <= begin)
        return false;
    const bool is_first = p->at[begin - 1] >> 7, is_last = p->at[begin - 1] >> 6 & 1;
    if (is_first == r->is_open || (is_first && is_last))
        return false;
    if (is_first) {
        begin_unit(r->units, p->number);
        write_unit_header(r->codec, p->at, unit_header);
        add_bytes(r->units, p->number, unit_header, header_len(r->codec));
    }
    add_bytes(r->units, p->number, p->at + begin, p->len - begin);
    r->is_open = !is_last;
    return true;
}

static bool read_packet(struct reader *r, const struct payload *p)
{
    const unsigned type = unit_type(r->codec, p->at, p->len);
    if (is_fragment(r->codec, type))
        return read_fragment(r, p);
    if (r->is_open)
        return false;
    if (is_aggregate(r->codec, type))
        return read_aggregate(r, p);
    read_single(r, p);
    return is_single(r->codec, type);
}

bool read_packet_units(uint32_t codec, const struct packets *p, size_t headroom,
                       struct packet_units *u)
{
    struct reader r = {codec, u, false};
    *u = (struct packet_units){0};
    for (size_t n = 0; n < p->count; n++) {
        const size_t begin = packet_begin(p, n) + headroom;
        const struct payload payload = {p->at + begin, p->ends[n] - begin, n};
        if (!read_packet(&r, &payload))
            return fail("a packet is neither a unit, an aggregate nor the next fragment");
    }
    return !r.is_open || fail("the last fragment of a unit is missing");
}

void free_packet_units(struct packet_units *u)
{
    free(u->at);
    free(u->text);
}
