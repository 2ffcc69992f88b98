/* Makes one case so many times, for counting: libraries CASE CODEC TIMES. It prints the cases where it is given
 * none. Payloads are units of drawn bytes with no start code within, or these bytes again and again; the limit is
 * 1200 bytes. */
#include "h26x.h"
#include <stdio.h>
#include <stdlib.h>
#include <string.h>

enum { LIMIT = 1200, ROOM = 1 << 19, MOST = 1024, HEADROOM = 12 };

enum what { INTO, PACKETIZE, TAKE, TAKE_WITHOUT_ROOM, RECEIVE, CUT };

static const struct one {
    const char *name;
    size_t units, len;
    enum what what;
    const char *again;
    size_t again_len;
} cases[] = {
    {"into a buffer, 8 kB", 1, 8000, INTO},
    {"into a buffer, 200 kB", 1, 200000, INTO},
    {"into a buffer, 50 units of 100 bytes", 50, 100, INTO},
    {"into a buffer, 50 units of 20 bytes", 50, 20, INTO},
    {"packetize, 8 kB", 1, 8000, PACKETIZE},
    {"packetize, 50 units of 100 bytes", 50, 100, PACKETIZE},
    {"take the packets of 8 kB", 1, 8000, TAKE},
    {"take those of 50 units of 100 bytes", 50, 100, TAKE},
    {"take those of 8 kB without room", 1, 8000, TAKE_WITHOUT_ROOM},
    {"receive the packets of 8 kB", 1, 8000, RECEIVE},
    {"receive those of 50 units of 100 bytes", 50, 100, RECEIVE},
    {"cut 200 kB", 1, 200000, CUT},
    {"cut 200 kB of zeros", 1, 200000, CUT, "\0", 1},
    {"cut 200 kB of `00 01`", 1, 200000, CUT, "\0\1", 2},
    {"cut 200 kB of start codes", 1, 200000, CUT, "\0\0\1", 3},
};

static uint8_t payload[ROOM], packets[ROOM], out[ROOM];
static size_t payload_len, ends[MOST], count, size;

static void expect(bool holds)
{
    if (!holds) {
        fprintf(stderr, "a call failed\n");
        exit(2);
    }
}

static void add_unit(uint32_t codec, size_t len)
{
    static uint32_t state = 12345;
    uint8_t *at = payload + payload_len;
    memcpy(at, "\0\0\0\1", 4);
    for (size_t i = 4; i < 4 + len; i++)
        at[i] = (state = state * 1664525 + 1013904223) >> 24 | 1;
    at[4] = codec == H26X_H264 ? 0x41 : codec == H26X_H265 ? 2 : 0;
    at[5] = codec == H26X_H264 ? at[5] : 1;
    payload_len += 4 + len;
}

static void add_again(const char *bytes, size_t bytes_len, size_t len)
{
    for (size_t i = 0; i < len; i++)
        payload[payload_len++] = bytes[i % bytes_len];
}

/* Gives the packets to a depacketizer, or with sequence numbers to a receiver. */
static void take(h26x_depacketizer *d, h26x_receiver *r, size_t room)
{
    static uint16_t sequence;
    size_t written, total = 0;
    uint8_t extra = 0;
    uint32_t received;
    uint16_t gap;
    h26x_refusal why;
    for (size_t i = 0, begin = 0; i < count; begin = ends[i++]) {
        const uint8_t *packet = packets + begin + HEADROOM;
        const size_t len = ends[i] - begin - HEADROOM;
        const uint32_t code = d != NULL
            ? h26x_depacketize(d, false, packet, len, out + total, room - total, &written, &extra, &why)
            : h26x_receive(r, sequence++, packet, len, out + total, room - total, &written, &extra, &received, &gap,
                           &why);
        expect(code == H26X_OK);
        total += room == ROOM ? written : 0;
    }
}

static void cut(uint32_t codec, size_t units)
{
    size_t n = 0, begin, end = 0;
    while (h26x_next_unit(codec, payload, payload_len, end, &begin, &end))
        n++;
    expect(n == units);
}

int main(int argc, char **argv)
{
    if (argc != 4) {
        for (size_t i = 0; i < sizeof cases / sizeof *cases; i++)
            printf("%s\n", cases[i].name);
        return 0;
    }
    const struct one *c = &cases[atoi(argv[1])];
    const uint32_t codec = atoi(argv[2]);
    h26x_packetizer p;
    h26x_depacketizer d;
    h26x_receiver r;
    expect(h26x_packetizer_new(codec, false, &p) == H26X_OK && h26x_depacketizer_new(codec, false, &d) == H26X_OK
           && h26x_receiver_new(codec, false, false, ROOM, &r) == H26X_OK);
    for (size_t i = 0; i < c->units && !c->again; i++)
        add_unit(codec, c->len);
    if (c->again)
        add_again(c->again, c->again_len, c->len);
    expect(h26x_packetize_into(&p, LIMIT, payload, payload_len, HEADROOM, packets, ROOM, ends, MOST, &count, &size)
           == H26X_OK);
    for (long i = atol(argv[3]); i > 0; i--)
        switch (c->what) {
        case INTO:
            expect(
                h26x_packetize_into(&p, LIMIT, payload, payload_len, HEADROOM, packets, ROOM, ends, MOST, &count, &size)
                == H26X_OK);
            break;
        case PACKETIZE:
            expect(h26x_packetize(&p, LIMIT, payload, payload_len, &count) == H26X_OK);
            break;
        case TAKE:
            take(&d, NULL, ROOM);
            break;
        case TAKE_WITHOUT_ROOM:
            take(&d, NULL, 8);
            break;
        case RECEIVE:
            take(NULL, &r, ROOM);
            break;
        case CUT:
            cut(codec, c->units);
        }
    return 0;
}
