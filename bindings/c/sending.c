/* The calls of packetizers. */
#include "calls.h"
#include <string.h>

static h26x_packetizer made(struct tally *t, uint32_t codec, bool numbers)
{
    h26x_packetizer p;
    expect(t, h26x_packetizer_new(codec, numbers, &p) == H26X_OK);
    expect(t, h26x_packet_count(&p) == 0);
    return p;
}

static void check_h264(struct tally *t)
{
    h26x_packetizer p = made(t, H26X_H264, false), q;
    sends(t, &p, 4, "65010203", "65010203");
    sends(t, &p, 5, "000001 90 000001 90", "90|90");
    sends(t, &p, 3, "65010203", "7c8501|7c0502|7c4503");
    sends(t, &p, 2, "65010203", "");
    sends(t, &p, 0, "65", "");
    sends(t, &p, 5, "", "");
    sends(t, &p, 5, "090000", "");
    sends(t, &p, 11, "000001 070001 000001 080203 000001 050405", "78 0003 070001 0003 080203|050405");
    sends(t, &p, 10, "000001 070001 000001 080203 000001 050405", "070001|080203|050405");

    /* What waits is copied; what packets are held is not. */
    sends(t, &p, 1500, "000001 070001 000001 080203", "");
    sends(t, &p, 1500, "090000", "");
    expect(t, h26x_packetizer_clone(&p, &q) == H26X_OK);
    sends(t, &q, 1500, "050405", "78 0003 070001 0003 080203|050405");
    h26x_packetizer_free(q);
    sends(t, &p, 1500, "050405", "78 0003 070001 0003 080203|050405");
    expect(t, h26x_packetizer_clone(&p, &q) == H26X_OK);
    expect(t, h26x_packet_count(&q) == 0);
    h26x_packetizer_free(q);

    expect(t, h26x_packetizer_set_numbers(&p, true) == H26X_NOT_OF_THIS_CODEC);
    expect(t, h26x_packetizer_set_numbers(&p, false) == H26X_NOT_OF_THIS_CODEC);
    expect(t, h26x_packetizer_set_max_size(&p, 1000) == H26X_NOT_OF_THIS_CODEC);
    expect(t, h26x_packetizer_set_lowest_header(&p, true) == H26X_NOT_OF_THIS_CODEC);
    h26x_packetizer_free(p);
}

static void check_h265(struct tally *t)
{
    const char *units = "000001 40010c 000001 420101 000001 4401c1 000001 2601af";
    h26x_packetizer p = made(t, H26X_H265, false), q;
    sends(t, &p, 4, "2601aabbcc", "620193aa|620113bb|620153cc");
    sends(t, &p, 3, "0201aa", "");
    sends(t, &p, 17, units, "6001 0003 40010c 0003 420101 0003 4401c1|2601af");
    sends(t, &p, 16, units, "40010c|420101|4401c1|2601af");
    expect(t, h26x_packetizer_set_numbers(&p, true) == H26X_OK);
    sends(t, &p, 100, units, "6001 0000 0003 40010c 00 0003 420101 00 0003 4401c1|26010003af");
    expect(t, h26x_packetizer_clone(&p, &q) == H26X_OK);
    sends(t, &q, 6, "0201aabbcc", "6201810004aa|620141bbcc");
    h26x_packetizer_free(q);
    expect(t, h26x_packetizer_set_numbers(&p, true) == H26X_OK);
    sends(t, &p, 100, "0201aa", "02010000aa");
    expect(t, h26x_packetizer_set_numbers(&p, false) == H26X_OK);
    sends(t, &p, 100, "0201aa", "0201aa");
    h26x_packetizer_free(p);
}

static void check_h266(struct tally *t)
{
    h26x_packetizer p = made(t, H26X_H266, true);
    sends(t, &p, 1200, "000001 0079bb 000001 0081cc 000001 0039dd", "00e1 0000 0003 0079bb 0003 0081cc|00390002dd");
    h26x_packetizer_free(p);
    p = made(t, H26X_H266, false);
    sends(t, &p, 4, "0039aabb", "0039aabb");
    sends(t, &p, 4, "0039aabbcc", "00e987aa|00e907bb|00e947cc");
    sends(t, &p, 1200, "000001 0009aa00 00000001 0011bb", "0009aa00|0011bb");
    h26x_packetizer_free(p);
}

/* Makes the packets of a unit as it is, and compares them. */
static void sends_unit(struct tally *t, h26x_packetizer *p, size_t mtu, const char *unit, const char *packets)
{
    struct bytes b = bytes_of(unit);
    size_t count = 99;
    expect(t, h26x_packetize_unit(p, mtu, b.at, b.len, &count) == H26X_OK);
    holds_at(t, p, count, packets, __FILE__, __LINE__);
}

/* Units as they are: no start code is searched, no set waits, and those that wait stay. */
static void check_units(struct tally *t)
{
    h26x_packetizer p = made(t, H26X_H264, false);
    sends(t, &p, 1500, "000001 070001 000001 080203", "");
    sends_unit(t, &p, 1500, "67aa", "67aa");
    sends_unit(t, &p, 1500, "65 000001 66", "65 000001 66");
    sends_unit(t, &p, 3, "65010203", "7c8501|7c0502|7c4503");
    sends_unit(t, &p, 2, "65010203", "");
    sends_unit(t, &p, 1, "65", "65");
    sends_unit(t, &p, 2, "6501", "6501");
    sends_unit(t, &p, 0, "65", "");
    sends_unit(t, &p, 1500, "", "");
    sends(t, &p, 1500, "050405", "78 0003 070001 0003 080203|050405");
    h26x_packetizer_free(p);
    p = made(t, H26X_H265, true);
    sends_unit(t, &p, 100, "4201aa", "42010000aa");
    sends_unit(t, &p, 100, "0201bb", "02010001bb");
    sends_unit(t, &p, 5, "0201cc", "02010002cc");
    sends_unit(t, &p, 5, "0201ccdd", "");
    sends_unit(t, &p, 6, "0201ccddee", "6201 81 0003 cc|6201 41 ddee");
    sends_unit(t, &p, 3, "0201cc", "");
    sends_unit(t, &p, 100, "02", "");
    h26x_packetizer_free(p);
    p = made(t, H26X_H266, false);
    sends_unit(t, &p, 4, "0039aabbcc", "00e987aa|00e907bb|00e947cc");
    h26x_packetizer_free(p);
}

/* Whether it holds these packets of its last call, which have so many bytes, and none behind them. */
static void holds(struct tally *t, h26x_packetizer *p, size_t count, const char *packets, size_t bytes)
{
    holds_at(t, p, count, packets, __FILE__, __LINE__);
    expect(t, h26x_packet_len(p, count) == 0 && h26x_packets_len(p) == bytes);
}

/* The packets of the last call alone are held. A copy holds none; then both go on. */
static void check_held(struct tally *t)
{
    h26x_packetizer p = made(t, H26X_H264, false), q;
    holds(t, &p, 0, "", 0);
    sends(t, &p, 4, "6501020304", "7c850102|7c450304");
    holds(t, &p, 2, "7c850102|7c450304", 8);
    h26x_packetizer_free(p);
    p = made(t, H26X_H265, true);
    sends(t, &p, 100, "0201aa", "02010000aa");
    sends(t, &p, 100, "0201bb", "02010001bb");
    holds(t, &p, 1, "02010001bb", 5);
    h26x_packetizer_free(p);
    p = made(t, H26X_H266, true);
    sends(t, &p, 100, "0039aa", "00390000aa");
    expect(t, h26x_packetizer_clone(&p, &q) == H26X_OK);
    holds(t, &q, 0, "", 0);
    holds(t, &p, 1, "00390000aa", 5);
    sends(t, &q, 100, "0039bb", "00390001bb");
    holds(t, &q, 1, "00390001bb", 5);
    holds(t, &p, 1, "00390000aa", 5);
    h26x_packetizer_free(q);
    h26x_packetizer_free(p);

    /* Units as they are. */
    p = made(t, H26X_H264, false);
    sends_unit(t, &p, 100, "67aa", "67aa");
    holds(t, &p, 1, "67aa", 2);
    sends_unit(t, &p, 100, "6501", "6501");
    sends_unit(t, &p, 100, "65020304000001", "65020304000001");
    holds(t, &p, 1, "65020304000001", 7);
    h26x_packetizer_free(p);
    p = made(t, H26X_H265, true);
    sends_unit(t, &p, 100, "4201aa", "42010000aa");
    sends_unit(t, &p, 100, "4201bb", "42010001bb");
    holds(t, &p, 1, "42010001bb", 5);
    h26x_packetizer_free(p);
}

/* The largest size of H.265 and H.266: 1200 at first. */
static void check_max_size(struct tally *t, uint32_t codec, uint8_t first, uint8_t second)
{
    uint8_t unit[1201];
    size_t count;
    h26x_packetizer p = made(t, codec, false);
    memset(unit, 0xaa, sizeof unit);
    unit[0] = first;
    unit[1] = second;
    expect(t, h26x_packetize(&p, 5000, unit, 1201, &count) == H26X_OK && count == 2);
    expect(t, h26x_packet_len(&p, 0) == 1200 && h26x_packet_len(&p, 1) == 5);
    expect(t, h26x_packetizer_set_max_size(&p, 3) == H26X_OUT_OF_RANGE);
    expect(t, h26x_packetizer_set_max_size(&p, 1201) == H26X_OK);
    expect(t, h26x_packetize(&p, 5000, unit, 1201, &count) == H26X_OK && count == 1);
    expect(t, h26x_packetizer_set_max_size(&p, 4) == H26X_OK);
    expect(t, h26x_packetize(&p, 5000, unit, 1201, &count) == H26X_OK && count == 1199);
    h26x_packetizer_free(p);
}

static void check_copies(struct tally *t)
{
    h26x_packetizer p = made(t, H26X_H264, false);
    uint8_t to[16];
    sends(t, &p, 5, "65010203 040506", "7c85010203|7c45040506");
    memset(to, 7, sizeof to);
    expect(t, h26x_packet_copy(&p, 0, to, 4) == 5 && to[0] == 7);
    expect(t, h26x_packet_copy(&p, 2, to, 16) == 0 && to[0] == 7);
    expect(t, h26x_packet_len(&p, 2) == 0 && h26x_packet_len(&p, SIZE_MAX) == 0);
    expect(t, h26x_packet_copy(&p, 1, to, 5) == 5 && is_same(to, 6, "7c45040506 07"));
    sends(t, &p, 4, "", "");
    expect(t, h26x_packet_copy(&p, 0, to, 16) == 0 && to[0] == 0x7c);
    h26x_packetizer_free(p);
}

/* Copies of packets behind each other. */
static void check_joined(struct tally *t)
{
    h26x_packetizer p = made(t, H26X_H264, false);
    uint8_t to[16];
    size_t ends[3] = {99, 99, 99};
    sends(t, &p, 4, "6501020304", "7c850102|7c450304");
    memset(to, 7, sizeof to);
    expect(t, h26x_packets_copy(&p, 0, to, 16, ends, 3) == 2);
    expect(t, is_same(to, 9, "7c850102 7c450304 07"));
    expect(t, ends[0] == 4 && ends[1] == 8 && ends[2] == 99);

    /* As many as fit, and as many as have room for their ends. */
    memset(to, 7, sizeof to);
    expect(t, h26x_packets_copy(&p, 0, to, 7, ends, 3) == 1 && is_same(to, 5, "7c850102 07"));
    expect(t, h26x_packets_copy(&p, 0, to, 3, ends, 3) == 0 && ends[1] == 8);
    expect(t, h26x_packets_copy(&p, 0, to, 8, ends, 1) == 1 && to[4] == 7);
    expect(t, h26x_packets_copy(&p, 1, to, 8, ends, 0) == 0 && to[1] == 0x85);

    /* From a later one on, and past the last. */
    expect(t, h26x_packets_copy(&p, 1, to, 4, ends, 3) == 1 && is_same(to, 5, "7c450304 07"));
    expect(t, ends[0] == 4 && ends[1] == 8);
    expect(t, h26x_packets_copy(&p, 2, to, 16, ends, 3) == 0);
    expect(t, h26x_packets_copy(&p, SIZE_MAX, to, 16, ends, 3) == 0);
    h26x_packetizer_free(p);
}

/* A call straight into the caller's memory, of a payload or of one unit. */
typedef uint32_t into_call(h26x_packetizer *p, size_t mtu, const uint8_t *bytes, size_t len, size_t headroom,
                           uint8_t *to, size_t room, size_t *ends, size_t ends_room, size_t *count, size_t *size);

/* Makes packets in memory of 0xee, and compares the answer, how many and how long they are, where each ends, and all of
 * that memory: `memory` has the packets behind their headroom with '|' between two, or nothing where it is left. */
static void makes_into(struct tally *t, into_call *call, h26x_packetizer *p, size_t mtu, const char *bytes,
                       size_t headroom, size_t room, size_t ends_room, uint32_t code, size_t count, size_t size,
                       const char *memory)
{
    struct bytes b = bytes_of(bytes);
    uint8_t to[64];
    size_t ends[4] = {99, 99, 99, 99}, made = 98, bytes_made = 97, start = 0;
    memset(to, 0xee, sizeof to);
    expect(t, call(p, mtu, b.at, b.len, headroom, to, room, ends, ends_room, &made, &bytes_made) == code);
    expect(t, made == count && bytes_made == size);
    for (size_t i = 0; *memory != '\0'; memory = behind_bar(memory), start = ends[i++])
        expect(t, ends[i] >= start && is_same(to + start, ends[i] - start, memory));
    for (size_t i = start; i < sizeof to; i++)
        expect(t, to[i] == 0xee);
    expect(t, code == H26X_OK ? start == size && ends[count] == 99 : start == 0 && ends[0] == 99);
}

/* Asks how much memory packets take, which leaves the packetizer. */
static void takes_memory(struct tally *t, h26x_packetizer *p, size_t mtu, const char *payload, size_t headroom,
                         uint32_t code, size_t count, size_t size)
{
    struct bytes b = bytes_of(payload);
    size_t made = 98, bytes_made = 97;
    expect(t, h26x_packets_size(p, mtu, b.at, b.len, headroom, &made, &bytes_made) == code);
    expect(t, made == count && bytes_made == size);
}

/* Packets straight in the caller's memory. */
static void check_into(struct tally *t)
{
    static const char frame[] = "6501020304", packets[] = "eeee7c850102|eeee7c450304";
    into_call *payload = h26x_packetize_into, *as_it_is = h26x_packetize_unit_into;
    h26x_packetizer p = made(t, H26X_H264, false);
    makes_into(t, payload, &p, 4, frame, 2, 64, 3, H26X_OK, 2, 12, packets);
    makes_into(t, payload, &p, 4, frame, 2, 12, 2, H26X_OK, 2, 12, packets);
    makes_into(t, payload, &p, 4, frame, 0, 8, 2, H26X_OK, 2, 8, "7c850102|7c450304");

    /* One byte, or one end, is missing; with no room at all it tells how much it takes. */
    makes_into(t, payload, &p, 4, frame, 2, 11, 2, H26X_NO_ROOM, 2, 12, "");
    makes_into(t, payload, &p, 4, frame, 2, 64, 1, H26X_NO_ROOM, 2, 12, "");
    makes_into(t, payload, &p, 4, frame, 2, 0, 0, H26X_NO_ROOM, 2, 12, "");
    makes_into(t, payload, &p, 4, frame, SIZE_MAX, 64, 3, H26X_NO_ROOM, 2, SIZE_MAX, "");

    takes_memory(t, &p, 4, frame, 2, H26X_OK, 2, 12);
    takes_memory(t, &p, 4, frame, SIZE_MAX, H26X_OK, 2, SIZE_MAX);
    takes_memory(t, &p, 1500, "000001 0799 000001 0899 000001 05", 1, H26X_OK, 2, 12);
    takes_memory(t, &p, 1500, "000001 0799", 1, H26X_OK, 0, 0);

    /* Sets that wait, or came with what didn't fit, wait as before. */
    makes_into(t, payload, &p, 1500, "000001 070001 000001 080203", 2, 0, 0, H26X_OK, 0, 0, "");
    makes_into(t, payload, &p, 1500, "000001 0799 000001 05", 2, 3, 3, H26X_NO_ROOM, 2, 15, "");
    makes_into(t, as_it_is, &p, 1500, "65000001", 1, 64, 3, H26X_OK, 1, 5, "ee65000001");
    makes_into(t, as_it_is, &p, 4, frame, 0, 7, 3, H26X_NO_ROOM, 2, 8, "");
    makes_into(t, as_it_is, &p, 2, frame, 0, 0, 0, H26X_OK, 0, 0, "");
    makes_into(t, payload, &p, 1500, "050405", 1, 64, 3, H26X_OK, 2, 16, "ee7800030700010003080203|ee050405");

    /* The packets of the handle stay. */
    sends(t, &p, 4, frame, "7c850102|7c450304");
    makes_into(t, payload, &p, 1500, "05", 1, 64, 3, H26X_OK, 1, 2, "ee05");
    expect(t, h26x_packet_count(&p) == 2 && h26x_packet_len(&p, 1) == 4);
    h26x_packetizer_free(p);

    /* A number is taken by a call that is carried out, and by no other. */
    p = made(t, H26X_H265, true);
    makes_into(t, as_it_is, &p, 100, "4201aa", 0, 4, 3, H26X_NO_ROOM, 1, 5, "");
    makes_into(t, as_it_is, &p, 100, "4201aa", 0, 5, 3, H26X_OK, 1, 5, "42010000aa");
    makes_into(t, payload, &p, 100, "0201bb", 0, 4, 3, H26X_NO_ROOM, 1, 5, "");
    makes_into(t, payload, &p, 100, "0201bb", 0, 5, 3, H26X_OK, 1, 5, "02010001bb");
    h26x_packetizer_free(p);
    p = made(t, H26X_H266, false);
    makes_into(t, payload, &p, 4, "0039aabbcc", 1, 64, 3, H26X_OK, 3, 15, "ee00e987aa|ee00e907bb|ee00e947cc");
    h26x_packetizer_free(p);
}

/* Tells how much memory a payload takes, and makes its packets there. */
static void places(struct tally *t, h26x_packetizer *p, size_t mtu, const char *payload, size_t headroom, size_t room,
                   size_t ends_room, uint32_t code, size_t count, size_t size, const char *memory)
{
    takes_memory(t, p, mtu, payload, headroom, H26X_OK, count, size);
    makes_into(t, h26x_packetize_into, p, mtu, payload, headroom, room, ends_room, code, count, size, memory);
}

/* Rows of one packetizer each, told and placed in turn. */
static void check_placed(struct tally *t)
{
    static const char frame[] = "6501020304";
    into_call *as_it_is = h26x_packetize_unit_into;
    h26x_packetizer p = made(t, H26X_H264, false);
    places(t, &p, 4, frame, 2, 14, 3, H26X_OK, 2, 12, "eeee7c850102|eeee7c450304");
    places(t, &p, 4, frame, 0, 8, 2, H26X_OK, 2, 8, "7c850102|7c450304");
    places(t, &p, 4, frame, 2, 11, 2, H26X_NO_ROOM, 2, 12, "");
    places(t, &p, 4, frame, 2, 12, 1, H26X_NO_ROOM, 2, 12, "");
    places(t, &p, 4, frame, SIZE_MAX, 1, 2, H26X_NO_ROOM, 2, SIZE_MAX, "");
    /* Sets wait where nothing is placed. */
    places(t, &p, 9, "000001 0705 000001 0809 000001 06", 0, 9, 2, H26X_NO_ROOM, 2, 10, "");
    places(t, &p, 9, "000001 0705 000001 0809 000001 0906", 1, 1, 1, H26X_OK, 0, 0, "");
    places(t, &p, 9, "000001 0706", 1, 0, 0, H26X_OK, 0, 0, "");
    makes_into(t, as_it_is, &p, 9, "6500000165", 1, 6, 1, H26X_OK, 1, 6, "ee6500000165");
    makes_into(t, as_it_is, &p, 4, frame, 0, 1, 2, H26X_NO_ROOM, 2, 8, "");
    places(t, &p, 9, "05", 1, 12, 2, H26X_OK, 2, 12, "ee78 00020706 00020809|ee05");
    h26x_packetizer_free(p);

    /* Numbers are taken by calls that are carried out. */
    p = made(t, H26X_H265, true);
    makes_into(t, as_it_is, &p, 100, "4201aa", 0, 4, 1, H26X_NO_ROOM, 1, 5, "");
    makes_into(t, as_it_is, &p, 100, "4201aa", 0, 5, 1, H26X_OK, 1, 5, "42010000aa");
    places(t, &p, 100, "0201bb", 0, 4, 1, H26X_NO_ROOM, 1, 5, "");
    places(t, &p, 6, "2601aabbccdd", 1, 14, 2, H26X_OK, 2, 14, "ee6201930001aa|ee620153bbccdd");
    h26x_packetizer_free(p);
    p = made(t, H26X_H266, false);
    places(t, &p, 17, "000001 007101 000001 007902 000001 008103 000001 0039dd", 1, 22, 2, H26X_OK, 2, 22,
           "ee00e1 0003007101 0003007902 0003008103|ee0039dd");
    places(t, &p, 4, "0039aabbcc", 1, 15, 3, H26X_OK, 3, 15, "ee00e987aa|ee00e907bb|ee00e947cc");
    h26x_packetizer_free(p);
}

/* Sets of layer 0 and temporal id 1 before a slice of layer 1 and temporal id 3, by RFC 7798, 4.4.2. */
static void check_lowest_header(struct tally *t)
{
    const char *units = "000001 4001 000001 4201 000001 4401 000001 020baa";
    const char *sent = "600b 0002 4001 0002 4201 0002 4401|020baa";
    const char *wanted = "6001 0002 4001 0002 4201 0002 4401|020baa";
    const char *numbered = "000001 4201 000001 4401 000001 0203aa";
    h26x_packetizer p = made(t, H26X_H265, false), q;
    sends(t, &p, 1200, units, sent);
    expect(t, h26x_packetizer_set_lowest_header(&p, true) == H26X_OK);
    holds_at(t, &p, 2, sent, __FILE__, __LINE__);
    expect(t, h26x_packetizer_clone(&p, &q) == H26X_OK);
    sends(t, &q, 1200, units, wanted);
    h26x_packetizer_free(q);
    sends(t, &p, 1200, units, wanted);
    makes_into(t, h26x_packetize_into, &p, 1200, units, 2, 21, 2, H26X_OK, 2, 21,
               "eeee 6001 0002 4001 0002 4201 0002 4401|eeee 020baa");
    makes_into(t, h26x_packetize_into, &p, 1200, units, 2, 20, 2, H26X_NO_ROOM, 2, 21, "");
    sends(t, &p, 1200, "000001 0201bb 000001 4001 000001 4201 000001 4401 000001 020baa",
          "0201bb|6001 0002 4001 0002 4201 0002 4401|020baa");

    /* F of a set is the packet's. A unit as it is stays. */
    sends(t, &p, 1200, "000001 c001 000001 4201 000001 4401 000001 020baa",
          "e001 0002 c001 0002 4201 0002 4401|020baa");
    sends_unit(t, &p, 1200, "600b 0002 4001 0002 4201", "600b 0002 4001 0002 4201");
    makes_into(t, h26x_packetize_unit_into, &p, 1200, "600b 0002 4001 0002 4201", 0, 64, 3, H26X_OK, 1, 10,
               "600b 0002 4001 0002 4201");
    expect(t, h26x_packetizer_set_numbers(&p, true) == H26X_OK);
    sends(t, &p, 1200, numbered, "6001 0000 0002 4201 00 0002 4401|02030002aa");
    makes_into(t, h26x_packetize_into, &p, 1200, numbered, 0, 64, 3, H26X_OK, 2, 18,
               "6001 0003 0002 4201 00 0002 4401|02030005aa");
    expect(t, h26x_packetizer_set_lowest_header(&p, false) == H26X_OK);
    sends(t, &p, 1200, numbered, "6003 0006 0002 4201 00 0002 4401|02030008aa");
    h26x_packetizer_free(p);

    /* Those of H.266 have it (RFC 9328, 4.3.2). */
    p = made(t, H26X_H266, false);
    expect(t, h26x_packetizer_set_lowest_header(&p, true) == H26X_OK);
    sends(t, &p, 1200, "000001 027abb 000001 0183cc 000001 0039dd", "01e2 0003 027abb 0003 0183cc|0039dd");
    makes_into(t, h26x_packetize_into, &p, 1200, "600b 0002 4001 0002 4201", 0, 64, 3, H26X_OK, 1, 10,
               "600b 0002 4001 0002 4201");
    h26x_packetizer_free(p);
}

/* Makes the packets of an access unit, and compares them. */
static void sends_all(struct tally *t, h26x_packetizer *p, size_t mtu, const char *access_unit, const char *packets)
{
    struct bytes b = bytes_of(access_unit);
    size_t count = 99;
    expect(t, h26x_packetize_units(p, mtu, b.at, b.len, &count, NULL) == H26X_OK);
    holds_at(t, p, count, packets, __FILE__, __LINE__);
}

/* Every unit of an access unit; the rows of streams/sent_units.txt have more. */
static void check_every_unit(struct tally *t)
{
    static const char sets[] = "000001 6742 000001 68ce";
    h26x_packetizer p = made(t, H26X_H264, false);
    struct bytes b = bytes_of("00000001 6588 000001 0605 0000 000001 e588");
    h26x_refusal why = {7, 8};
    uint8_t to[64] = {0xee};
    size_t count = 9, size = 9, ends[2] = {9, 9};
    /* Sets that wait stay, and the zeros before a start code are its own. */
    sends(t, &p, 1500, sets, "");
    sends_all(t, &p, 1500, "000001 6799 000000 00000001 6588", "78 0002 6799 0002 6588");
    sends(t, &p, 1500, "6588", "78 0002 6742 0002 68ce|6588");
    sends_all(t, &p, 1500, "6588", "6588");
    sends_all(t, &p, 1500, "", "");

    /* Where they don't fit nothing is done but that it is told; the packets of the handle stay. */
    sends_all(t, &p, 4, "000001 6501020304", "7c850102|7c450304");
    expect(t, h26x_packetize_units_into(&p, 4, b.at, 6, 2, to, 3, ends, 2, &count, &size, &why) == H26X_NO_ROOM);
    expect(t, count == 1 && size == 4 && to[0] == 0xee && ends[0] == 9 && why.first == 7);
    expect(t, h26x_packetize_units_into(&p, 4, b.at, 6, 2, to, 4, ends, 0, &count, &size, &why) == H26X_NO_ROOM);
    expect(t, h26x_packetize_units_into(&p, 4, b.at, 6, 2, to, 4, ends, 1, &count, &size, &why) == H26X_OK);
    expect(t, to[0] == 0xee && is_same(to + 2, 2, "6588") && ends[0] == 4 && ends[1] == 9);
    expect(t, h26x_units_size(&p, 4, b.at, 6, SIZE_MAX, &count, &size, &why) == H26X_OK && size == SIZE_MAX);
    expect(t, h26x_packet_count(&p) == 2 && h26x_packet_len(&p, 1) == 4);

    /* The unit with F set is the third, of two bytes. */
    expect(t, h26x_packetize_units(&p, 9, b.at, b.len, &count, &why) == H26X_UNIT_FORBIDDEN && count == 2);
    expect(t, why.first == 2 && why.second == 2 && h26x_packet_count(&p) == 2);
    expect(t, h26x_units_size(&p, 9, b.at, b.len, 0, NULL, NULL, NULL) == H26X_UNIT_FORBIDDEN);
    h26x_packetizer_free(p);
}

/* The packing is copied, and a number that none has changes nothing. */
static void check_packings(struct tally *t)
{
    static const char sets[] = "000001 6742 000001 68ce";
    h26x_packetizer p = made(t, H26X_H264, false), q;
    expect(t, h26x_packetizer_set_packing(&p, H26X_APART) == H26X_OK);
    expect(t, h26x_packetizer_set_packing(&p, H26X_SINGLE + 1) == H26X_OUT_OF_RANGE);
    expect(t, h26x_packetizer_set_packing(&p, UINT32_MAX) == H26X_OUT_OF_RANGE);
    expect(t, h26x_packetizer_clone(&p, &q) == H26X_OK);
    sends_all(t, &p, 1500, sets, "6742|68ce");
    sends_all(t, &q, 1500, sets, "6742|68ce");
    expect(t, h26x_packetizer_set_packing(&q, H26X_TOGETHER) == H26X_OK);
    sends_all(t, &q, 1500, sets, "78 0002 6742 0002 68ce");
    sends_all(t, &p, 1500, sets, "6742|68ce");
    h26x_packetizer_free(p);
    h26x_packetizer_free(q);
}

/* Delimiters are left out where that is set, which is copied too; a unit that can't go is told by its place among all. */
static void check_delimiters(struct tally *t)
{
    h26x_packetizer p, q = made(t, H26X_H264, false);
    h26x_refusal why = {7, 8};
    size_t count = 9;
    sends_all(t, &q, 1500, "000001 0910 000001 6588", "78 0002 0910 0002 6588");
    expect(t, h26x_packetizer_set_delimiters(&q, false) == H26X_OK);
    sends_all(t, &q, 1500, "000001 0910 000001 6588 000001 0cff80", "6588");
    sends_all(t, &q, 1500, "0910", "");
    struct bytes b = bytes_of("000001 0910 000001 6588 000001 0cff80 000001 e588");
    expect(t, h26x_packetize_units(&q, 1500, b.at, b.len, &count, &why) == H26X_UNIT_FORBIDDEN && count == 0);
    expect(t, why.first == 3 && why.second == 2);
    expect(t, h26x_units_size(&q, 1500, b.at, b.len, 0, NULL, NULL, &why) == H26X_UNIT_FORBIDDEN && why.first == 3);
    expect(t, h26x_packetizer_clone(&q, &p) == H26X_OK);
    sends_all(t, &p, 1500, "000001 0910 000001 6588", "6588");
    expect(t, h26x_packetizer_set_delimiters(&p, true) == H26X_OK);
    sends_all(t, &p, 1500, "000001 0910 000001 6588", "78 0002 0910 0002 6588");
    h26x_packetizer_free(p);
    h26x_packetizer_free(q);
}

/* Each unit takes a number, of calls that are carried out. */
static void check_every_unit_with_numbers(struct tally *t)
{
    h26x_refusal why = {7, 8};
    uint8_t to[64];
    size_t count = 9, size = 9, ends[2] = {9, 9};
    h26x_packetizer p = made(t, H26X_H265, true);
    sends_all(t, &p, 100, "000001 4201 000001 4401 000001 0203aa", "6001 0000 0002 4201 00 0002 4401 00 0003 0203aa");
    struct bytes b = bytes_of("000001 0203aa 000001 44");
    expect(t, h26x_packetize_units(&p, 100, b.at, b.len, NULL, &why) == H26X_UNIT_WITHOUT_HEADER && why.first == 1);
    expect(t, h26x_packetize_units_into(&p, 100, b.at, 6, 0, NULL, 0, NULL, 0, NULL, NULL, NULL) == H26X_NO_ROOM);
    expect(t, h26x_packetize_units_into(&p, 100, b.at, 6, 0, to, 64, ends, 2, &count, &size, NULL) == H26X_OK);
    expect(t, is_same(to, size, "0203 0003 aa"));
    sends(t, &p, 100, "0203aa", "0203 0004 aa");
    h26x_packetizer_free(p);
}

static void check_refusals(struct tally *t)
{
    h26x_packetizer p = {NULL}, depacketizer;
    h26x_depacketizer d;
    uint8_t unit[] = {0x65}, to[8] = {7};
    size_t count = 9;
    expect(t, h26x_packetizer_new(0, false, &p) == H26X_UNKNOWN_CODEC && p.at == NULL);
    expect(t, h26x_packetizer_new(267, true, &p) == H26X_UNKNOWN_CODEC && p.at == NULL);
    expect(t, h26x_packetizer_new(H26X_H264, true, &p) == H26X_NOT_OF_THIS_CODEC);

    /* A depacketizer where a packetizer is wanted. */
    expect(t, h26x_depacketizer_new(H26X_H265, false, &d) == H26X_OK);
    depacketizer.at = d.at;
    expect(t, h26x_packetize(&depacketizer, 9, unit, 1, &count) == H26X_WRONG_END && count == 0);
    count = 9;
    expect(t, h26x_packetize_unit(&depacketizer, 9, unit, 1, &count) == H26X_WRONG_END && count == 0);
    takes_memory(t, &depacketizer, 9, "65", 1, H26X_WRONG_END, 0, 0);
    makes_into(t, h26x_packetize_into, &depacketizer, 9, "65", 1, 64, 3, H26X_WRONG_END, 0, 0, "");
    makes_into(t, h26x_packetize_unit_into, &depacketizer, 9, "65", 1, 64, 3, H26X_WRONG_END, 0, 0, "");
    expect(t, h26x_packetizer_clone(&depacketizer, &p) == H26X_WRONG_END && p.at == NULL);
    expect(t, h26x_packetizer_set_numbers(&depacketizer, true) == H26X_WRONG_END);
    expect(t, h26x_packetizer_set_max_size(&depacketizer, 9) == H26X_WRONG_END);
    expect(t, h26x_packetizer_set_lowest_header(&depacketizer, true) == H26X_WRONG_END);
    expect(t, h26x_packetizer_set_packing(&depacketizer, H26X_APART) == H26X_WRONG_END);
    expect(t, h26x_packetizer_set_packing(&depacketizer, 4) == H26X_WRONG_END);
    expect(t, h26x_packetizer_set_delimiters(&depacketizer, false) == H26X_WRONG_END);
    count = 9;
    expect(t, h26x_packetize_units(&depacketizer, 9, unit, 1, &count, NULL) == H26X_WRONG_END && count == 0);
    count = 9;
    expect(t, h26x_units_size(&depacketizer, 9, unit, 1, 0, &count, NULL, NULL) == H26X_WRONG_END && count == 0);
    count = 9;
    expect(t,
           h26x_packetize_units_into(&depacketizer, 9, unit, 1, 0, to, 8, NULL, 0, &count, NULL, NULL) == H26X_WRONG_END
               && count == 0);
    expect(t, h26x_packet_count(&depacketizer) == 0 && h26x_packet_len(&depacketizer, 0) == 0);
    expect(t, h26x_packet_copy(&depacketizer, 0, to, 8) == 0 && to[0] == 7);
    expect(t, h26x_packets_copy(&depacketizer, 0, to, 8, &count, 1) == 0 && to[0] == 7);
    h26x_depacketizer_free(d);
}

void check_sending(struct tally *t)
{
    check_h264(t);
    check_h265(t);
    check_h266(t);
    check_units(t);
    check_held(t);
    check_max_size(t, H26X_H265, 0x26, 0x01);
    check_max_size(t, H26X_H266, 0x00, 0x39);
    check_copies(t);
    check_joined(t);
    check_into(t);
    check_placed(t);
    check_lowest_header(t);
    check_every_unit(t);
    check_packings(t);
    check_delimiters(t);
    check_every_unit_with_numbers(t);
    check_refusals(t);
}
