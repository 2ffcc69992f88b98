/* How much memory a peer can make a receiver hold, by packets that no packetizer sends: aggregates in which each unit
 * is long once, of many units and of empty ones, units that never end, and whatever has no room in the caller's
 * memory; how much a packetizer takes for a long unit and for many short ones; how much a receiver of access units
 * keeps of a long one, and one of datagrams of what strangers and its own peer send. Says the most that was held; past
 * the limits it ends with status 1.
 * Link with -Wl,--wrap=malloc,--wrap=realloc,--wrap=free. */
#include "h26x.h"
#include <malloc.h>
#include <stdio.h>
#include <stdlib.h>
#include <string.h>

enum {
    /* The longest packet that UDP brings, and the limit on an open unit. */
    PACKET = 65507,
    RUN_LIMIT = 1000,
    /* How many bytes a receiver of H.265 may hold for what it shows of packets. */
    SHOWN_MOST = 3 * 1024 * 1024,
    /* An open unit and the packet that is taken, and what was completed and had no room, twice; each in a buffer that
     * grew to twice its length. An empty unit of an aggregate is written in twice its bytes. */
    RUN_MOST = 2 * (RUN_LIMIT + PACKET),
    WRITTEN_MOST = 2 * 2 * (2 * PACKET),
    SMALL = 16 * 1024,
    /* A payload of one unit, or of units of so many bytes, and its packets with their ends in buffers that grew to
     * twice their length: those of the call, and those of the one before. */
    PAYLOAD = 1200000,
    UNIT = 100,
    SENT_MOST = 2 * 2 * (PAYLOAD + PAYLOAD / 10),
};

static uint8_t packet[PACKET];
static uint8_t payload[PAYLOAD], placed[2 * PAYLOAD];
static size_t ends[2 * PAYLOAD / UNIT];

void *__real_malloc(size_t size);
void *__real_realloc(void *block, size_t size);
void __real_free(void *block);
void *__wrap_malloc(size_t size);
void *__wrap_realloc(void *block, size_t size);
void __wrap_free(void *block);

/* How many bytes the blocks have that weren't given back, and had at most since that was last set to 0. */
static size_t held, held_most;

static void take(size_t more)
{
    held += more;
    held_most = held > held_most ? held : held_most;
}

void *__wrap_malloc(size_t size)
{
    void *block = __real_malloc(size);
    take(malloc_usable_size(block));
    return block;
}

void *__wrap_realloc(void *block, size_t size)
{
    const size_t before = malloc_usable_size(block);
    void *moved = __real_realloc(block, size);
    if (moved != NULL)
        take(malloc_usable_size(moved) - before);
    return moved;
}

void __wrap_free(void *block)
{
    held -= malloc_usable_size(block);
    __real_free(block);
}

/* A receiver, and how many bytes it held at most. */
struct receiving {
    uint32_t codec;
    h26x_receiver r;
    uint16_t sequence;
    size_t most;
};

static void give(struct receiving *it, size_t len)
{
    uint32_t received;
    uint8_t told = 0;
    if (h26x_receive(&it->r, it->sequence++, packet, len, NULL, 0, NULL, &told, &received, NULL, NULL) != H26X_OK
        || received == H26X_LATE) {
        fprintf(stderr, "held.c: a packet of %zu bytes is not taken\n", len);
        exit(1);
    }
    it->most = held > it->most ? held : it->most;
}

/* What stands before the units of an aggregate (RFC 6184, 5.7.1; RFC 7798, 4.4.2; RFC 9328, 4.3.2). */
static size_t aggregate_header(uint32_t codec)
{
    packet[0] = codec == H26X_H264 ? 0x78 : codec == H26X_H265 ? 0x60 : 0x00;
    packet[1] = codec == H26X_H265 ? 0x01 : 0xe1;
    return codec == H26X_H264 ? 1 : 2;
}

/* An aggregate of so many units, in as many bytes as a packet has: that at one place takes all that is left, the
 * others so many. Of H.266 a unit has two bytes or more. */
static size_t aggregate(uint32_t codec, size_t units, size_t at, size_t others)
{
    size_t n = aggregate_header(codec);
    const size_t len = PACKET - n - 2 * units - others * (units - 1);
    for (size_t i = 0; i < units; i++) {
        const size_t unit = i == at ? len : others;
        packet[n++] = (uint8_t)(unit >> 8);
        packet[n++] = (uint8_t)unit;
        memset(packet + n, 0x0a, unit);
        n += unit;
    }
    return n;
}

/* An aggregate of units as short as they may be, as many as a packet has room for. */
static size_t shortest(uint32_t codec)
{
    const size_t unit = codec == H26X_H266 ? 2 : 0, units = (PACKET - 2) / (2 + unit) - 1;
    return aggregate(codec, units, 0, unit);
}

/* A fragment with data up to a packet's end, which starts a unit or goes on with one (RFC 6184, 5.8; RFC 7798, 4.4.3;
 * RFC 9328, 4.3.3). */
static size_t fragment(uint32_t codec, bool starts)
{
    const uint8_t headers[3][3] = {{0x7c, 0x05, 0xaa}, {0x62, 0x01, 0x13}, {0x00, 0xe9, 0x07}};
    memset(packet, 0xaa, PACKET);
    memcpy(packet, headers[codec - H26X_H264], 3);
    packet[codec == H26X_H264 ? 1 : 2] |= starts ? 0x80 : 0;
    return PACKET;
}

static size_t single(uint32_t codec, size_t len)
{
    memset(packet, 0x0a, len);
    packet[0] = codec == H26X_H264 ? 0x65 : codec == H26X_H265 ? 0x26 : 0x00;
    return len;
}

static void give_all(struct receiving *it)
{
    const uint32_t codec = it->codec;
    const size_t other = codec == H26X_H266 ? 2 : 0;
    for (int round = 0; round < 2; round++) {
        /* Each place is long in both lists that are shown by turns; then they get short, and long again. */
        for (size_t at = 1; at <= 256; at++)
            for (int i = 0; i < 2; i++)
                give(it, aggregate(codec, 257, at, other));
        for (int i = 0; i < 2; i++)
            give(it, aggregate(codec, 3, 1, other));
        for (int i = 0; i < 2; i++)
            give(it, shortest(codec));
        for (int i = 0; i < 4; i++)
            give(it, fragment(codec, i == 0));
        give(it, single(codec, PACKET));
    }
    /* What is kept at most for later aggregates, and then none come. */
    for (int i = 0; i < 5; i++)
        give(it, aggregate(codec, i == 2 ? 3 : 34, 0, 1400));
    for (int i = 0; i < 100; i++)
        give(it, single(codec, 3));
}

/* Returns what is left after a restart, which may be this much. */
static size_t check(uint32_t codec, size_t left_most)
{
    struct receiving it = {.codec = codec};
    const size_t most = RUN_MOST + WRITTEN_MOST + SMALL + (codec == H26X_H265 ? SHOWN_MOST : 0);
    if (h26x_receiver_new(codec, false, false, RUN_LIMIT, &it.r) != H26X_OK)
        exit(1);
    give_all(&it);
    if (h26x_receiver_restart(&it.r) != H26X_OK)
        exit(1);
    const size_t left = held;
    h26x_receiver_free(it.r);
    printf("%s: %zu bytes at most, %zu after a restart; %zu and %zu may be\n", h26x_codec_name(codec), it.most, left,
           most, left_most);
    if (it.most > most || left > left_most || held != 0) {
        fprintf(stderr, "held.c: that is too much, or not given back: %zu bytes\n", held);
        exit(1);
    }
    return left;
}

/* Packetizes a payload of units of so many bytes three times, into the packetizer's memory and into the caller's. */
static void check_sending(uint32_t codec, size_t unit)
{
    const uint8_t begins[3][5] = {{0, 0, 1, 0x61, 7}, {0, 0, 1, 0x02, 1}, {0, 0, 1, 0, 9}};
    h26x_packetizer p;
    size_t count, placed_count, size;
    memset(payload, 7, sizeof payload);
    for (size_t i = 0; i < PAYLOAD; i += unit)
        memcpy(payload + i, begins[codec - H26X_H264], 5);
    if (h26x_packetizer_new(codec, false, &p) != H26X_OK)
        exit(1);
    held_most = 0;
    for (int i = 0; i < 3; i++)
        if (h26x_packetize(&p, 1200, payload, PAYLOAD, &count) != H26X_OK
            || h26x_packetize_into(&p, 1200, payload, PAYLOAD, 0, placed, sizeof placed, ends,
                                   sizeof ends / sizeof *ends, &placed_count, &size)
                != H26X_OK
            || placed_count != count || count < PAYLOAD / 1200)
            exit(1);
    const size_t most = SENT_MOST + SMALL;
    printf("%s: %zu bytes at most for %zu packets, %zu may be\n", h26x_codec_name(codec), held_most, count, most);
    h26x_packetizer_free(p);
    if (held_most > most || held != 0) {
        fprintf(stderr, "held.c: that is too much, or not given back: %zu bytes\n", held);
        exit(1);
    }
}

/* An access unit of LONG packets, and short ones. */
enum { LONG = 64, SHORT = 65 };

static void check_kept(uint32_t codec)
{
    const h26x_access_units_config config = {
        .codec = codec, .window = 64, .held_limit = 1 << 20, .run_limit = 1 << 20, .unit_limit = SIZE_MAX};
    static uint8_t text[(LONG + 1) * PACKET];
    h26x_access_units u;
    h26x_access_unit unit;
    uint32_t pushed;
    uint16_t behind, sequence = 0;
    size_t given = 0;
    if (h26x_access_units_new(&config, &u) != H26X_OK)
        exit(1);
    for (int i = 0; i < LONG + SHORT; i++) {
        const size_t len = single(codec, i < LONG ? PACKET : 100);
        const uint32_t timestamp = i < LONG ? 0 : (uint32_t)i;
        if (codec != H26X_H264)
            packet[1] = 1; /* the base layer, whose slices let a marker end an access unit */
        if (h26x_access_units_push(&u, 0, sequence++, timestamp, i >= LONG - 1, packet, len, &pushed, &behind)
            != H26X_OK)
            exit(1);
        while (h26x_access_units_next(&u, 0, text, sizeof text, &unit) == H26X_OK)
            given++;
    }
    const size_t kept = held;
    if (h26x_access_units_restart(&u) != H26X_OK)
        exit(1);
    printf("%s: %zu bytes kept behind %zu access units, %zu after a restart; %d may be\n", h26x_codec_name(codec), kept,
           given, held, SMALL);
    if (given != SHORT + 1 || kept > SMALL || held > SMALL) {
        fprintf(stderr, "held.c: that is too much, or not what was given\n");
        exit(1);
    }
    h26x_access_units_free(u);
    if (held != 0)
        exit(1);
}

/* Gives a receiver of datagrams one of a payload type, a number and an SSRC, whose payload begins with a number; and takes
 * what has ended. */
static void give_datagram(h26x_rtp_receiver *r, uint8_t type, uint16_t sequence, uint32_t ssrc, uint16_t number)
{
    static uint8_t text[PACKET];
    const h26x_rtp_header header = {.payload_type = type, .marker = true, .sequence = sequence, .ssrc = ssrc};
    uint8_t payload[1000] = {(uint8_t)(number >> 8), (uint8_t)number, 0x61, 1};
    h26x_access_unit unit;
    size_t len;
    if (h26x_rtp_write(&header, NULL, 0, NULL, 0, payload, sizeof payload, NULL, 0, packet, PACKET, &len) != H26X_OK)
        exit(1);
    const uint32_t code = h26x_rtp_receiver_push(r, 0, 0, packet, len, NULL);
    if (code == H26X_OUT_OF_MEMORY || code == H26X_WRONG_END)
        exit(1);
    while (h26x_rtp_receiver_next(r, 0, text, sizeof text, &unit) == H26X_OK)
        continue;
}

/* Strangers' datagrams leave nothing; a peer that sends each number as a retransmission, what its limits say. */
static void check_datagrams(uint32_t codec)
{
    enum { LIMIT = 20000, DATAGRAMS_MOST = 4 * LIMIT + SMALL };
    const h26x_access_units_config config = {.codec = codec,
                                             .max_wait = UINT32_MAX,
                                             .window = 16384,
                                             .held_limit = LIMIT,
                                             .run_limit = LIMIT,
                                             .unit_limit = LIMIT};
    const h26x_rtp_payload_types types = {96, 97, 98, 99, 100, true, true, true, true};
    const h26x_rtp_sources sources = {1, 2, true, true};
    h26x_rtp_receiver r;
    if (h26x_rtp_receiver_new(&config, &types, &r) != H26X_OK || h26x_rtp_receiver_follow(&r, &sources) != H26X_OK)
        exit(1);
    const size_t fresh = held;
    held_most = held;
    for (uint32_t i = 0; i < 30000; i++)
        give_datagram(&r, (uint8_t)(95 + i % 8), (uint16_t)i, 3 + i, (uint16_t)i);
    if (held_most != fresh) {
        fprintf(stderr, "held.c: strangers' datagrams are held: %zu bytes\n", held_most - fresh);
        exit(1);
    }
    for (uint32_t i = 0; i < 3 * 65536; i++)
        give_datagram(&r, 97, (uint16_t)i, 2, (uint16_t)(2 * i + i / 32768));
    const size_t most = held_most;
    if (h26x_rtp_receiver_follow(&r, &sources) != H26X_OK)
        exit(1);
    printf("%s: %zu bytes at most of datagrams, %d may be; %zu once another source is followed\n",
           h26x_codec_name(codec), most, DATAGRAMS_MOST, held);
    if (most > DATAGRAMS_MOST || held > DATAGRAMS_MOST) {
        fprintf(stderr, "held.c: that is too much\n");
        exit(1);
    }
    h26x_rtp_receiver_free(r);
    if (held != 0)
        exit(1);
}

int main(void)
{
    /* Its own memory is the system's, and none of it is counted. */
    setvbuf(stdout, NULL, _IONBF, 0);
    const size_t written = check(H26X_H264, WRITTEN_MOST + SMALL);
    check(H26X_H266, WRITTEN_MOST + SMALL);
    /* The same for what had no room, and a buffer for what is shown. */
    check(H26X_H265, written + 2 * PACKET + SMALL);
    for (uint32_t codec = H26X_H264; codec <= H26X_H266; codec++) {
        check_sending(codec, PAYLOAD);
        check_sending(codec, UNIT);
        check_kept(codec);
        check_datagrams(codec);
    }
    return 0;
}
