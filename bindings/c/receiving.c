/* The calls of depacketizers. */
#include "calls.h"
#include <string.h>

static h26x_depacketizer made(struct tally *t, uint32_t codec, bool numbers)
{
    h26x_depacketizer d;
    expect(t, h26x_depacketizer_new(codec, numbers, &d) == H26X_OK);
    return d;
}

/* Gives a packet that is refused, and compares the code and its numbers. */
static void refuses(struct tally *t, h26x_depacketizer *d, const char *packet, uint32_t code, size_t first,
                    size_t second)
{
    struct bytes in = bytes_of(packet);
    uint8_t to[8] = {7}, extra = 1, before[ROOM], after[ROOM];
    size_t len = 99, held = h26x_written_copy(d, before, sizeof before);
    h26x_refusal why = {0, 0};
    expect(t, h26x_depacketize(d, false, in.at, in.len, to, 8, &len, &extra, &why) == code);
    expect(t, len == 0 && extra == 1 && to[0] == 7);
    expect(t, why.first == first && why.second == second);
    expect(t, h26x_written_copy(d, after, sizeof after) == held);
    expect(t, memcmp(before, after, held) == 0);
}

static void check_h264(struct tally *t)
{
    h26x_depacketizer d = made(t, H26X_H264, false);
    takes(t, &d, "909090", "00000001 909090", 1);
    takes(t, &d, "85", "00000001 85", 2);
    takes(t, &d, "78 0003 070001 0003 080203", "00000001 070001 00000001 080203", 1);
    takes(t, &d, "78 0000 0002 65aa", "00000001 65aa", 2);
    takes(t, &d, "180000", "", 0);
    takes(t, &d, "7c4503", "", 0);
    takes(t, &d, "7c8501", "", 0);
    takes(t, &d, "61ff", "00000001 61ff", 1);
    refuses(t, &d, "", H26X_SHORT_PACKET, 0, 0);
    refuses(t, &d, "7c", H26X_SHORT_PACKET, 0, 0);
    refuses(t, &d, "ff0000", H26X_NALU_TYPE_NOT_HANDLED, 31, 0);
    refuses(t, &d, "78 0002 67aa 0005 681a", H26X_STAP_A_TOO_LONG, 5, 2);
    takes(t, &d, "7c4502", "00000001 650102", 2);
    expect(t, h26x_depacketizer_set_numbers(&d, true) == H26X_NOT_OF_THIS_CODEC);
    h26x_depacketizer_free(d);
}

static void check_h265(struct tally *t)
{
    h26x_depacketizer d = made(t, H26X_H265, false);
    takes(t, &d, "6001 0003 0201aa 0002 0201 0009 02", "00000001 0201aa 00000001 0201", 1);
    takes(t, &d, "6401 2638 112233 aa", "00000001 2601aa", 2);
    takes(t, &d, "6001 0000 0000", "00000001 00000001", 0);
    takes(t, &d, "620193aa", "", 0);
    refuses(t, &d, "620193", H26X_SHORT_PACKET, 0, 0);
    refuses(t, &d, "e20193aa", H26X_H265_CORRUPTED, 0, 0);
    takes(t, &d, "620153bb", "00000001 2601aabb", 2);
    expect(t, h26x_depacketizer_set_numbers(&d, true) == H26X_OK);
    refuses(t, &d, "02010005", H26X_SHORT_PACKET, 0, 0);
    takes(t, &d, "02010005aa", "00000001 0201aa", 1);
    takes(t, &d, "6201930007aa", "", 0);
    expect(t, h26x_depacketizer_set_numbers(&d, false) == H26X_OK);
    takes(t, &d, "620153bb", "00000001 2601aabb", 2);
    h26x_depacketizer_free(d);
}

static void check_h266(struct tally *t)
{
    h26x_depacketizer d = made(t, H26X_H266, true);
    takes(t, &d, "00390002dd", "00000001 0039dd", 2);
    takes(t, &d, "00e1 0000 0003 0079bb 0003 0081cc", "00000001 0079bb 00000001 0081cc", 1);
    expect(t, h26x_depacketizer_set_numbers(&d, false) == H26X_OK);
    takes(t, &d, "00e987aa", "", 0);
    refuses(t, &d, "00e1 0003 0001aa", H26X_SHORT_PACKET, 0, 0);
    refuses(t, &d, "800193afaf", H26X_H266_CORRUPTED, 0, 0);
    refuses(t, &d, "00e1 0003 0009aa 0002 00e1", H26X_H266_CORRUPTED, 0, 0);
    takes(t, &d, "00e947bb", "00000001 0039aabb", 2);
    h26x_depacketizer_free(d);
}

/* Lengths in place of start codes, and room that is too little. */
static void check_avc_and_room(struct tally *t)
{
    h26x_depacketizer d = made(t, H26X_H264, false);
    struct bytes start = bytes_of("7c850102"), end = bytes_of("7c4503");
    uint8_t to[16] = {7}, extra = 0;
    size_t len;
    h26x_refusal why;
    expect(t, h26x_depacketize(&d, true, start.at, start.len, to, 0, &len, &extra, &why) == H26X_OK);
    expect(t, len == 0 && extra == 0);
    expect(t, h26x_depacketize(&d, true, end.at, end.len, to, 7, &len, &extra, &why) == H26X_OK);
    expect(t, len == 8 && extra == 2 && to[0] == 7);
    expect(t, h26x_written_copy(&d, to, 7) == 8 && to[0] == 7);
    expect(t, h26x_written_copy(&d, to, 16) == 8);
    expect(t, is_same(to, 8, "00000004 65010203"));
    h26x_depacketizer_free(d);
}

/* Gives a packet without room for what it completes, and compares what is kept then. */
static void keeps(struct tally *t, h26x_depacketizer *d, bool avc, const char *packet, uint32_t code, const char *kept)
{
    struct bytes in = bytes_of(packet);
    uint8_t to[ROOM], extra = 0;
    size_t len = 99;
    h26x_refusal why = {0, 0};
    expect(t, h26x_depacketize(d, avc, in.at, in.len, NULL, 0, &len, &extra, &why) == code);
    expect(t, why.first == (code == H26X_NALU_TYPE_NOT_HANDLED ? 31 : 0) && why.second == 0);
    expect(t, is_same(to, h26x_written_copy(d, to, sizeof to), kept));
}

/* Gives a packet of six bytes' text memory of so many bytes of 77, and compares that memory and what is kept. */
static void fills(struct tally *t, size_t room, const char *memory, const char *kept)
{
    h26x_depacketizer d = made(t, H26X_H264, false);
    struct bytes in = bytes_of("6501");
    uint8_t to[ROOM], extra = 0;
    size_t len = 99;
    h26x_refusal why;
    keeps(t, &d, false, "6701", H26X_OK, "00000001 6701");
    memset(to, 0x77, sizeof to);
    expect(t, h26x_depacketize(&d, false, in.at, in.len, to, room, &len, &extra, &why) == H26X_OK);
    expect(t, len == 6 && is_same(to, room, memory) && to[room] == 0x77);
    expect(t, is_same(to, h26x_written_copy(&d, to, sizeof to), kept));
    h26x_depacketizer_free(d);
}

/* What a packet completes is kept where there is no room for it: by its own form, and behind a refusal. */
static void check_kept(struct tally *t)
{
    h26x_depacketizer d = made(t, H26X_H264, false), e;
    keeps(t, &d, false, "6501", H26X_OK, "00000001 6501");
    keeps(t, &d, false, "7f01", H26X_NALU_TYPE_NOT_HANDLED, "00000001 6501");
    h26x_depacketizer_free(d);
    d = made(t, H26X_H264, false);
    keeps(t, &d, true, "6501", H26X_OK, "00000002 6501");
    keeps(t, &d, false, "6501", H26X_OK, "00000001 6501");
    h26x_depacketizer_free(d);

    /* A copy goes on with the open unit, also when that is given up in the other. */
    d = made(t, H26X_H266, false);
    keeps(t, &d, false, "00e98701", H26X_OK, "");
    expect(t, h26x_depacketizer_clone(&d, &e) == H26X_OK && h26x_depacketizer_same(&d, &e));
    expect(t, h26x_give_up_run(&d) == H26X_OK && !h26x_depacketizer_same(&d, &e));
    keeps(t, &e, false, "00e94702", H26X_OK, "00000001 00390102");
    keeps(t, &d, false, "00e94702", H26X_OK, "");
    h26x_depacketizer_free(e);
    h26x_depacketizer_free(d);

    fills(t, 7, "00000001 6501 77", "");
    fills(t, 6, "00000001 6501", "");
    fills(t, 5, "7777777777", "00000001 6501");
}

/* Lengths for one packet, start codes for the next; the handle is the same after each. */
static void check_lengths(struct tally *t, uint32_t codec, const char *packet, const char *lengths, const char *codes)
{
    h26x_depacketizer d = made(t, codec, false), e = made(t, codec, false);
    struct bytes one = bytes_of(packet);
    uint8_t to[32], extra = 0;
    size_t len;
    h26x_refusal why;
    expect(t, h26x_depacketize(&d, true, one.at, one.len, to, 32, &len, &extra, &why) == H26X_OK);
    expect(t, is_same(to, len, lengths));
    takes(t, &e, packet, codes, extra);
    expect(t, h26x_depacketizer_same(&d, &e));
    takes(t, &d, packet, codes, extra);
    h26x_depacketizer_free(d);
    h26x_depacketizer_free(e);
}

/* What was told before stays, and a keyframe told before stays one. */
static void check_extra(struct tally *t)
{
    h26x_depacketizer d = made(t, H26X_H264, false);
    struct bytes slice = bytes_of("61ff"), start = bytes_of("7c8501");
    uint8_t to[16], extra;
    size_t len;
    h26x_refusal why;
    for (uint8_t told = 0; told <= 2; told++) {
        extra = told;
        expect(t, h26x_depacketize(&d, false, start.at, start.len, to, 16, &len, &extra, &why) == H26X_OK);
        expect(t, extra == told);
        expect(t, h26x_depacketize(&d, false, slice.at, slice.len, to, 16, &len, &extra, &why) == H26X_OK);
        expect(t, extra == (told == 2 ? 2 : 1));
    }
    h26x_depacketizer_free(d);
}

/* Copies, equality, and units that are given up; the packets are three fragments of one unit. */
static void check_copies(struct tally *t, uint32_t codec, const char *packets[3], const char *unit)
{
    h26x_depacketizer d = made(t, codec, false), e = made(t, codec, false), copy;
    expect(t, h26x_depacketizer_same(&d, &e));
    takes(t, &d, packets[0], "", 0);
    expect(t, !h26x_depacketizer_same(&d, &e) && !h26x_depacketizer_same(&e, &d));
    takes(t, &d, packets[1], "", 0);
    expect(t, h26x_depacketizer_clone(&d, &copy) == H26X_OK);
    expect(t, h26x_depacketizer_same(&d, &copy) && h26x_depacketizer_same(&copy, &d));
    takes(t, &copy, packets[2], unit, 2);
    expect(t, !h26x_depacketizer_same(&d, &copy));
    h26x_depacketizer_free(copy);

    expect(t, h26x_depacketizer_clone(&d, &copy) == H26X_OK);
    expect(t, h26x_give_up_run(&copy) == H26X_OK);
    expect(t, !h26x_depacketizer_same(&d, &copy));
    takes(t, &copy, packets[2], "", 0);
    takes(t, &d, packets[2], unit, 2);
    expect(t, h26x_depacketizer_same(&d, &copy));
    /* What the last packet completed is not copied. */
    h26x_depacketizer_free(copy);
    expect(t, h26x_depacketizer_clone(&d, &copy) == H26X_OK);
    expect(t, h26x_written_copy(&copy, (uint8_t[1]){0}, 1) == 0);
    h26x_depacketizer_free(copy);
    h26x_depacketizer_free(d);
    h26x_depacketizer_free(e);
}

static void check_same(struct tally *t)
{
    h26x_depacketizer d = made(t, H26X_H265, false), e = made(t, H26X_H265, true);
    expect(t, !h26x_depacketizer_same(&d, &e));
    expect(t, h26x_depacketizer_set_numbers(&e, false) == H26X_OK);
    expect(t, h26x_depacketizer_same(&d, &e));
    takes(t, &e, "0201aa", "00000001 0201aa", 1);
    expect(t, !h26x_depacketizer_same(&d, &e)); /* H.265: the packet accepted last counts */
    h26x_depacketizer_free(e);
    e = made(t, H26X_H266, false);
    expect(t, !h26x_depacketizer_same(&d, &e));
    h26x_depacketizer_free(d);
    h26x_depacketizer_free(e);
}

static void check_refusals(struct tally *t)
{
    h26x_depacketizer d = {NULL}, packetizer, other;
    h26x_packetizer p, q;
    uint8_t packet[] = {0x65}, to[8] = {7}, extra = 1;
    size_t len = 9;
    h26x_refusal why = {7, 8};
    expect(t, h26x_depacketizer_new(263, false, &d) == H26X_UNKNOWN_CODEC && d.at == NULL);
    expect(t, h26x_depacketizer_new(H26X_H264, true, &d) == H26X_NOT_OF_THIS_CODEC);

    /* A packetizer where a depacketizer is wanted. */
    expect(t, h26x_packetizer_new(H26X_H264, false, &p) == H26X_OK);
    packetizer.at = p.at;
    expect(t, h26x_depacketizer_new(H26X_H264, false, &d) == H26X_OK);
    expect(t, !h26x_depacketizer_same(&packetizer, &d) && !h26x_depacketizer_same(&d, &packetizer));
    expect(t, h26x_packetizer_new(H26X_H264, false, &q) == H26X_OK);
    other.at = q.at;
    expect(t, !h26x_depacketizer_same(&packetizer, &other));
    h26x_packetizer_free(q);
    h26x_depacketizer_free(d);
    d.at = NULL;
    expect(t, h26x_depacketize(&packetizer, false, packet, 1, to, 8, &len, &extra, &why) == H26X_WRONG_END);
    expect(t, len == 0 && extra == 1 && to[0] == 7 && why.first == 7 && why.second == 8);
    expect(t, h26x_depacketizer_clone(&packetizer, &d) == H26X_WRONG_END && d.at == NULL);
    expect(t, h26x_depacketizer_set_numbers(&packetizer, true) == H26X_WRONG_END);
    expect(t, h26x_give_up_run(&packetizer) == H26X_WRONG_END);
    expect(t, h26x_written_copy(&packetizer, to, 8) == 0 && to[0] == 7);
    h26x_packetizer_free(p);
}

void check_receiving(struct tally *t)
{
    const char *h264[3] = {"7c8501", "7c0502", "7c4503"};
    const char *h265[3] = {"620193aa", "620113bb", "620153cc"};
    const char *h266[3] = {"00e987aa", "00e907bb", "00e947cc"};
    check_h264(t);
    check_h265(t);
    check_h266(t);
    check_avc_and_room(t);
    check_kept(t);
    check_lengths(t, H26X_H264, "78 0002 6742 0001 68", "00000002 6742 00000001 68", "00000001 6742 00000001 68");
    check_lengths(t, H26X_H265, "6001 0003 0201aa 0002 0201", "00000003 0201aa 00000002 0201",
                  "00000001 0201aa 00000001 0201");
    check_lengths(t, H26X_H266, "00e1 0003 0001aa 0003 0001bb", "00000003 0001aa 00000003 0001bb",
                  "00000001 0001aa 00000001 0001bb");
    check_extra(t);
    check_copies(t, H26X_H264, h264, "00000001 65010203");
    check_copies(t, H26X_H265, h265, "00000001 2601aabbcc");
    check_copies(t, H26X_H266, h266, "00000001 0039aabbcc");
    check_same(t);
    check_refusals(t);
}
