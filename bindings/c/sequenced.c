/* Packets with their sequence numbers: what is missing, late or too long, and what is written then
 * (RFC 3550, 5.1). */
#include "calls.h"
#include <string.h>

/* What the packets of a test are given to, and what is told so far. */
struct receiving {
    struct tally *tally;
    h26x_receiver r;
    uint8_t told;
};

static struct receiving receiver_of(struct tally *t, uint32_t codec, bool numbers, bool avc,
                                    size_t run_limit)
{
    struct receiving it = {.tally = t};
    expect(t, h26x_receiver_new(codec, numbers, avc, run_limit, &it.r) == H26X_OK);
    return it;
}

/* Gives a packet that is not refused, and compares what became of it, what is written, what is told
 * and how much stays open. */
static void receives_at(struct receiving *it, uint16_t sequence, const char *packet,
                        uint32_t received, uint16_t count, const char *written, uint8_t told,
                        size_t run_len, int line)
{
    struct bytes in = bytes_of(packet);
    uint8_t to[ROOM];
    size_t len = 99;
    uint32_t became = 99;
    uint16_t counted = 99;
    h26x_refusal why = {7, 8};
    uint32_t code = h26x_receive(&it->r, sequence, in.at, in.len, to, sizeof to, &len, &it->told,
                                 &became, &counted, &why);
    expect_at(it->tally, code == H26X_OK && why.first == 7 && why.second == 8, packet, __FILE__, line);
    expect_at(it->tally, became == received && counted == count, packet, __FILE__, line);
    expect_at(it->tally, is_same(to, len, written), packet, __FILE__, line);
    expect_at(it->tally, it->told == told, packet, __FILE__, line);
    expect_at(it->tally, h26x_receiver_run_len(&it->r) == run_len, packet, __FILE__, line);
}
#define receives(it, sequence, packet, received, count, written, told, run_len) \
    receives_at(it, sequence, packet, received, count, written, told, run_len, __LINE__)

/* Gives a packet that is refused, which leaves everything. */
static void refuses_at(struct receiving *it, uint16_t sequence, const char *packet, uint32_t wanted,
                       size_t first, int line)
{
    struct bytes in = bytes_of(packet);
    uint8_t to[8] = {7}, extra = it->told;
    size_t len = 99, run_len = h26x_receiver_run_len(&it->r);
    uint32_t became = 99;
    uint16_t counted = 98;
    h26x_refusal why = {99, 99};
    uint32_t code = h26x_receive(&it->r, sequence, in.at, in.len, to, sizeof to, &len, &extra,
                                 &became, &counted, &why);
    expect_at(it->tally, code == wanted && why.first == first, packet, __FILE__, line);
    expect_at(it->tally, len == 0 && extra == it->told && to[0] == 7, packet, __FILE__, line);
    expect_at(it->tally, became == 99 && counted == 98, packet, __FILE__, line);
    expect_at(it->tally, h26x_receiver_run_len(&it->r) == run_len, packet, __FILE__, line);
}
#define refuses(it, sequence, packet, wanted, first) \
    refuses_at(it, sequence, packet, wanted, first, __LINE__)

/* The bytes of data of a fragment. The open unit holds these alone: its header is that of its last
 * fragment. */
enum { DATA = 2 };

/* A codec's unit in three fragments, and the unit behind a start code and behind its length. */
struct fragments {
    uint32_t codec;
    const char *start, *middle, *end, *codes, *lengths;
};

static const struct fragments fragments[] = {
    {H26X_H264, "7c850102", "7c050304", "7c450506", "00000001 65010203040506",
     "00000007 65010203040506"},
    {H26X_H265, "6201930102", "6201130304", "6201530506", "00000001 2601010203040506",
     "00000008 2601010203040506"},
    {H26X_H266, "00e9870102", "00e9070304", "00e9470506", "00000001 0039010203040506",
     "00000008 0039010203040506"},
};

/* No unit of which a packet is missing is written; the others are, whole. */
static void check_losses(struct tally *t, const struct fragments *f)
{
    struct receiving it = receiver_of(t, f->codec, false, false, 100);
    receives(&it, 65534, f->start, H26X_IN_ORDER, 0, "", 0, DATA);
    receives(&it, 65535, f->middle, H26X_IN_ORDER, 0, "", 0, 2 * DATA);
    receives(&it, 0, f->end, H26X_IN_ORDER, 0, f->codes, 2, 0);
    /* The middle is missing, and then the start. */
    receives(&it, 1, f->start, H26X_IN_ORDER, 0, "", 2, DATA);
    receives(&it, 3, f->end, H26X_GAP, 1, "", 2, 0);
    receives(&it, 5, f->middle, H26X_GAP, 1, "", 2, 0);
    receives(&it, 6, f->end, H26X_IN_ORDER, 0, "", 2, 0);
    /* Late, twice and refused packets leave the open unit. */
    receives(&it, 7, f->start, H26X_IN_ORDER, 0, "", 2, DATA);
    receives(&it, 7, f->start, H26X_LATE, 1, "", 2, DATA);
    receives(&it, 2, f->middle, H26X_LATE, 6, "", 2, DATA);
    receives(&it, 32776, f->middle, H26X_LATE, 32768, "", 2, DATA);
    refuses(&it, 9, "", H26X_SHORT_PACKET, 0);
    receives(&it, 8, f->middle, H26X_IN_ORDER, 0, "", 2, 2 * DATA);
    receives(&it, 9, f->end, H26X_IN_ORDER, 0, f->codes, 2, 0);
    receives(&it, 32777, f->start, H26X_GAP, 32767, "", 2, DATA);
    h26x_receiver_free(it.r);
}

/* The open unit holds no more than the limit. */
static void check_limit(struct tally *t, const struct fragments *f)
{
    struct receiving it = receiver_of(t, f->codec, false, false, 2 * DATA);
    receives(&it, 1, f->start, H26X_IN_ORDER, 0, "", 0, DATA);
    receives(&it, 2, f->middle, H26X_IN_ORDER, 0, "", 0, 2 * DATA);
    receives(&it, 3, f->middle, H26X_TOO_LONG, 0, "", 0, 0);
    receives(&it, 4, f->end, H26X_IN_ORDER, 0, "", 0, 0);
    h26x_receiver_free(it.r);
    it = receiver_of(t, f->codec, false, false, 0);
    receives(&it, 1, f->start, H26X_TOO_LONG, 0, "", 0, 0);
    receives(&it, 4, f->start, H26X_TOO_LONG, 2, "", 0, 0);
    h26x_receiver_free(it.r);
}

/* Lengths and start codes, a restart, and copies. */
static void check_settings(struct tally *t, const struct fragments *f)
{
    struct receiving it = receiver_of(t, f->codec, false, true, 100), copy = {.tally = t};
    receives(&it, 1, f->start, H26X_IN_ORDER, 0, "", 0, DATA);
    receives(&it, 2, f->end, H26X_IN_ORDER, 0,
             f->codec == H26X_H264 ? "00000005 6501020506"
             : f->codec == H26X_H265 ? "00000006 260101020506" : "00000006 003901020506", 2, 0);
    receives(&it, 3, f->start, H26X_IN_ORDER, 0, "", 2, DATA);
    receives(&it, 4, f->middle, H26X_IN_ORDER, 0, "", 2, 2 * DATA);
    expect(t, h26x_receiver_clone(&it.r, &copy.r) == H26X_OK);
    expect(t, h26x_written_copy(&copy.r.at, (uint8_t[1]){0}, 1) == 0);
    receives(&copy, 5, f->end, H26X_IN_ORDER, 0, f->lengths, 2, 0);
    receives(&copy, 5, f->end, H26X_LATE, 1, "", 2, 0);
    expect(t, h26x_receiver_set_avc(&it.r, false) == H26X_OK);
    receives(&it, 5, f->end, H26X_IN_ORDER, 0, f->codes, 2, 0);
    receives(&it, 6, f->start, H26X_IN_ORDER, 0, "", 2, DATA);
    expect(t, h26x_receiver_restart(&it.r) == H26X_OK && h26x_receiver_run_len(&it.r) == 0);
    receives(&it, 40000, f->end, H26X_IN_ORDER, 0, "", 2, 0);
    h26x_receiver_free(copy.r);
    h26x_receiver_free(it.r);
}

/* Numbers that bear nothing of the stream: in order the open unit stays, behind a gap it is given up. */
static void check_skipped(struct tally *t, const struct fragments *f)
{
    struct receiving it = receiver_of(t, f->codec, false, false, 100);
    uint32_t received = 9;
    uint16_t count = 9;
    receives(&it, 65534, f->start, H26X_IN_ORDER, 0, "", 0, DATA);
    expect(t, h26x_receiver_skip(&it.r, 65535, &received, &count) == H26X_OK);
    expect(t, received == H26X_IN_ORDER && count == 0 && h26x_receiver_run_len(&it.r) == DATA);
    receives(&it, 0, f->end, H26X_IN_ORDER, 0,
             f->codec == H26X_H264 ? "00000001 6501020506"
             : f->codec == H26X_H265 ? "00000001 260101020506" : "00000001 003901020506", 2, 0);
    receives(&it, 1, f->start, H26X_IN_ORDER, 0, "", 2, DATA);
    expect(t, h26x_receiver_skip(&it.r, 1, &received, &count) == H26X_OK);
    expect(t, received == H26X_LATE && count == 1 && h26x_receiver_run_len(&it.r) == DATA);
    expect(t, h26x_receiver_skip(&it.r, 4, &received, &count) == H26X_OK);
    expect(t, received == H26X_GAP && count == 2 && h26x_receiver_run_len(&it.r) == 0);
    receives(&it, 5, f->end, H26X_IN_ORDER, 0, "", 2, 0);
    expect(t, h26x_receiver_skip(&it.r, 6, NULL, NULL) == H26X_OK);
    receives(&it, 7, f->start, H26X_IN_ORDER, 0, "", 2, DATA);
    h26x_receiver_free(it.r);
}

/* What was completed where there was no room, and a late packet, which leaves it. */
static void check_room(struct tally *t)
{
    struct receiving it = receiver_of(t, H26X_H264, false, false, 100);
    struct bytes unit = bytes_of("650102");
    uint8_t to[16] = {7}, extra = 0;
    size_t len;
    uint32_t received;
    uint16_t count;
    h26x_refusal why;
    expect(t, h26x_receive(&it.r, 9, unit.at, unit.len, to, 6, &len, &extra, &received, &count, &why)
                  == H26X_OK);
    expect(t, len == 7 && extra == 2 && to[0] == 7 && received == H26X_IN_ORDER);
    expect(t, h26x_receive(&it.r, 9, unit.at, unit.len, to, 16, &len, &extra, &received, &count, &why)
                  == H26X_OK);
    expect(t, len == 0 && to[0] == 7 && received == H26X_LATE && count == 1);
    refuses(&it, 10, "7f01", H26X_NALU_TYPE_NOT_HANDLED, 31);
    expect(t, h26x_written_copy(&it.r.at, to, 6) == 7 && to[0] == 7);
    expect(t, h26x_receiver_restart(&it.r) == H26X_OK);
    expect(t, h26x_written_copy(&it.r.at, to, 16) == 7 && is_same(to, 7, "00000001 650102"));
    h26x_receiver_free(it.r);
}

/* Gives a packet memory of so many bytes of 77, and compares its answer, what became of it, how many bytes it
 * completed, that memory, what is kept, what was told by then and how much stays open. */
static void keeps_at(struct receiving *it, uint16_t sequence, const char *packet, size_t room, uint32_t code,
                     uint32_t received, uint16_t count, size_t completed, const char *memory, const char *kept,
                     uint8_t told, size_t run_len, int line)
{
    struct bytes in = bytes_of(packet);
    uint8_t to[ROOM];
    size_t len = 99;
    uint32_t became = 99;
    uint16_t counted = 99;
    h26x_refusal why = {0, 0};
    memset(to, 0x77, sizeof to);
    expect_at(it->tally, h26x_receive(&it->r, sequence, in.at, in.len, to, room, &len, &it->told, &became, &counted,
                                      &why) == code, packet, __FILE__, line);
    expect_at(it->tally, code != H26X_OK || (became == received && counted == count), packet, __FILE__, line);
    expect_at(it->tally, why.first == (code == H26X_NALU_TYPE_NOT_HANDLED ? 31 : 0), packet, __FILE__, line);
    expect_at(it->tally, len == completed && is_same(to, room, memory) && to[room] == 0x77, packet, __FILE__, line);
    expect_at(it->tally, is_same(to, h26x_written_copy(&it->r.at, to, sizeof to), kept), packet, __FILE__, line);
    expect_at(it->tally, it->told == told && h26x_receiver_run_len(&it->r) == run_len, packet, __FILE__, line);
}
/* Without memory. */
#define keeps(it, sequence, packet, received, count, completed, kept, told, run_len) \
    keeps_at(it, sequence, packet, 0, H26X_OK, received, count, completed, "", kept, told, run_len, __LINE__)

/* What is completed is kept where there is no room for it. */
static void check_kept(struct tally *t)
{
    const char *unit = "00000001 6501";
    struct receiving it = receiver_of(t, H26X_H264, false, false, 1000), copy = {.tally = t};
    h26x_h265_packet shown;
    /* A unit of which a packet is missing, one that is whole, and packets that are late or refused. */
    keeps(&it, 65534, "7c8501", H26X_IN_ORDER, 0, 0, "", 0, 1);
    keeps(&it, 0, "7c4503", H26X_GAP, 1, 0, "", 0, 0);
    keeps(&it, 1, "7c8501", H26X_IN_ORDER, 0, 0, "", 0, 1);
    keeps(&it, 2, "7c4502", H26X_IN_ORDER, 0, 7, "00000001 650102", 2, 0);
    keeps(&it, 2, "7c8501", H26X_LATE, 1, 0, "00000001 650102", 2, 0);
    keeps(&it, 3, "7c8505", H26X_IN_ORDER, 0, 0, "", 2, 1);
    keeps(&it, 4, "6501", H26X_IN_ORDER, 0, 6, unit, 2, 1);
    keeps_at(&it, 5, "7f01", 0, H26X_NALU_TYPE_NOT_HANDLED, 0, 0, 0, "", unit, 2, 1, __LINE__);
    h26x_receiver_free(it.r);

    /* Runs at a limit of two bytes, behind lengths. */
    it = receiver_of(t, H26X_H266, false, true, 2);
    keeps(&it, 1, "00e9870102", H26X_IN_ORDER, 0, 0, "", 0, 2);
    keeps(&it, 2, "00e9470304", H26X_IN_ORDER, 0, 10, "00000006 003901020304", 2, 0);
    keeps(&it, 4, "00e987010203", H26X_TOO_LONG, 1, 0, "", 2, 0);
    keeps(&it, 5, "00e9470304", H26X_IN_ORDER, 0, 0, "", 2, 0);
    h26x_receiver_free(it.r);

    /* A copy goes on with the open unit, and not with what was completed. */
    it = receiver_of(t, H26X_H265, true, false, 1000);
    keeps(&it, 8, "6201930005aa", H26X_IN_ORDER, 0, 0, "", 0, 1);
    expect(t, h26x_receiver_clone(&it.r, &copy.r) == H26X_OK);
    keeps(&copy, 9, "620153bb", H26X_IN_ORDER, 0, 8, "00000001 2601aabb", 2, 0);
    h26x_receiver_free(copy.r);
    keeps(&it, 9, "620153bb", H26X_IN_ORDER, 0, 8, "00000001 2601aabb", 2, 0);
    expect(t, h26x_receiver_clone(&it.r, &copy.r) == H26X_OK);
    expect(t, h26x_written_copy(&copy.r.at, (uint8_t[1]){0}, 1) == 0);
    copy.told = 2;
    keeps(&copy, 9, "620153bb", H26X_LATE, 1, 0, "", 2, 0);
    h26x_receiver_free(copy.r);
    h26x_receiver_free(it.r);

    /* A restart gives the unit up and takes any number; then a unit without a number, behind its length. */
    it = receiver_of(t, H26X_H265, true, false, 1000);
    keeps(&it, 8, "6201930005aa", H26X_IN_ORDER, 0, 0, "", 0, 1);
    expect(t, h26x_receiver_restart(&it.r) == H26X_OK && h26x_receiver_set_numbers(&it.r, false) == H26X_OK);
    expect(t, h26x_receiver_set_avc(&it.r, true) == H26X_OK && h26x_receiver_run_len(&it.r) == 0);
    expect(t, h26x_h265_shown(&it.r.at, &shown) == H26X_OK);
    keeps(&it, 40000, "620153bb", H26X_IN_ORDER, 0, 0, "", 0, 0);
    keeps(&it, 40001, "0201cc", H26X_IN_ORDER, 0, 7, "00000003 0201cc", 1, 0);
    h26x_receiver_free(it.r);

    /* A late packet leaves what is told, and units go where they have room. */
    it = receiver_of(t, H26X_H264, false, false, 1000);
    keeps(&it, 1, "6501", H26X_IN_ORDER, 0, 6, unit, 2, 0);
    keeps(&it, 1, "6101", H26X_LATE, 1, 0, unit, 2, 0);
    keeps_at(&it, 2, "6501", 5, H26X_OK, H26X_IN_ORDER, 0, 6, "7777777777", unit, 2, 0, __LINE__);
    keeps(&it, 3, "6701", H26X_IN_ORDER, 0, 6, "00000001 6701", 2, 0);
    keeps_at(&it, 4, "6501", 6, H26X_OK, H26X_IN_ORDER, 0, 6, unit, "", 2, 0, __LINE__);
    keeps(&it, 5, "6701", H26X_IN_ORDER, 0, 6, "00000001 6701", 2, 0);
    keeps_at(&it, 6, "6501", 5, H26X_OK, H26X_IN_ORDER, 0, 6, "7777777777", unit, 2, 0, __LINE__);
    h26x_receiver_free(it.r);
}

/* Decoding order numbers, and what a receiver of H.265 shows. */
static void check_shown(struct tally *t)
{
    struct receiving it = receiver_of(t, H26X_H265, true, false, 100);
    h26x_h265_packet shown;
    uint8_t part[8];
    uint32_t number;
    receives(&it, 1, "02010005aa", H26X_IN_ORDER, 0, "00000001 0201aa", 1, 0);
    expect(t, h26x_h265_shown(&it.r.at, &shown) == H26X_OK);
    expect(t, shown.kind == H26X_H265_SINGLE && shown.header == 0x0201 && shown.parts == 1);
    expect(t, h26x_h265_part_copy(&it.r.at, 0, part, 8, &number) == 1);
    expect(t, number == 5 && part[0] == 0xaa);
    expect(t, h26x_receiver_set_numbers(&it.r, false) == H26X_OK);
    receives(&it, 2, "0201bbcc", H26X_IN_ORDER, 0, "00000001 0201bbcc", 1, 0);
    receives(&it, 1, "0201dd", H26X_LATE, 2, "", 1, 0);
    expect(t, h26x_h265_part_copy(&it.r.at, 0, part, 8, &number) == 2);
    expect(t, number == H26X_NO_NUMBER && part[0] == 0xbb);
    h26x_receiver_free(it.r);

    it = receiver_of(t, H26X_H266, true, false, 100);
    receives(&it, 1, "00390002dd", H26X_IN_ORDER, 0, "00000001 0039dd", 2, 0);
    expect(t, h26x_h265_shown(&it.r.at, &shown) == H26X_NOT_OF_THIS_CODEC);
    expect(t, h26x_h265_part_copy(&it.r.at, 0, part, 8, &number) == 0);
    h26x_receiver_free(it.r);
}

/* A handle of another end, each way. */
static void check_ends(struct tally *t)
{
    h26x_receiver r = {{NULL}}, as_receiver;
    h26x_packetizer p, as_packetizer;
    h26x_depacketizer d, made = {NULL};
    uint8_t packet[] = {0x65}, to[8] = {7}, extra = 1;
    size_t len = 9, count = 9, size = 9, ends[1];
    uint32_t received = 9;
    uint16_t counted = 9;
    h26x_refusal why = {7, 8};
    h26x_packetizer room = {NULL};

    expect(t, h26x_receiver_new(263, false, false, 9, &r) == H26X_UNKNOWN_CODEC && !r.at.at);
    expect(t, h26x_receiver_new(H26X_H264, true, false, 9, &r) == H26X_NOT_OF_THIS_CODEC);
    expect(t, h26x_packetizer_new(H26X_H264, false, &p) == H26X_OK);
    expect(t, h26x_depacketizer_new(H26X_H264, false, &d) == H26X_OK);
    for (int i = 0; i < 2; i++) {
        as_receiver.at.at = i == 0 ? p.at : d.at;
        expect(t, h26x_receive(&as_receiver, 1, packet, 1, to, 8, &len, &extra, &received, &counted,
                               &why) == H26X_WRONG_END);
        expect(t, len == 0 && extra == 1 && to[0] == 7 && received == 9 && counted == 9);
        expect(t, why.first == 7 && why.second == 8);
        expect(t, h26x_receiver_clone(&as_receiver, &r) == H26X_WRONG_END && r.at.at == NULL);
        expect(t, h26x_receiver_set_numbers(&as_receiver, true) == H26X_WRONG_END);
        expect(t, h26x_receiver_set_avc(&as_receiver, true) == H26X_WRONG_END);
        expect(t, h26x_receiver_restart(&as_receiver) == H26X_WRONG_END);
        expect(t, h26x_receiver_skip(&as_receiver, 1, &received, &counted) == H26X_WRONG_END);
        expect(t, received == 9 && counted == 9);
        expect(t, h26x_receiver_run_len(&as_receiver) == 0);
    }
    expect(t, h26x_receiver_new(H26X_H264, false, false, 9, &r) == H26X_OK);
    expect(t, h26x_receiver_set_numbers(&r, false) == H26X_NOT_OF_THIS_CODEC);
    as_packetizer.at = r.at.at;
    len = 9;
    expect(t, h26x_depacketize(&r.at, false, packet, 1, to, 8, &len, &extra, &why) == H26X_WRONG_END);
    expect(t, len == 0 && extra == 1 && to[0] == 7 && why.first == 7 && why.second == 8);
    expect(t, h26x_depacketizer_clone(&r.at, &made) == H26X_WRONG_END && made.at == NULL);
    expect(t, h26x_depacketizer_set_numbers(&r.at, true) == H26X_WRONG_END);
    expect(t, h26x_give_up_run(&r.at) == H26X_WRONG_END);
    expect(t, !h26x_depacketizer_same(&r.at, &d) && !h26x_depacketizer_same(&d, &r.at));
    expect(t, h26x_packetize(&as_packetizer, 9, packet, 1, &count) == H26X_WRONG_END && count == 0);
    count = 9;
    expect(t, h26x_packetize_unit(&as_packetizer, 9, packet, 1, &count) == H26X_WRONG_END);
    expect(t, count == 0);
    expect(t, h26x_packetize_into(&as_packetizer, 9, packet, 1, 0, to, 8, ends, 1, &count, &size)
                  == H26X_WRONG_END);
    expect(t, h26x_packetize_unit_into(&as_packetizer, 9, packet, 1, 0, to, 8, ends, 1, &count, &size)
                  == H26X_WRONG_END);
    expect(t, h26x_packets_size(&as_packetizer, 9, packet, 1, 0, &count, &size) == H26X_WRONG_END);
    expect(t, count == 0 && size == 0 && to[0] == 7);
    expect(t, h26x_packetizer_clone(&as_packetizer, &room) == H26X_WRONG_END && room.at == NULL);
    expect(t, h26x_packetizer_set_numbers(&as_packetizer, true) == H26X_WRONG_END);
    expect(t, h26x_packetizer_set_max_size(&as_packetizer, 9) == H26X_WRONG_END);
    expect(t, h26x_packetizer_set_lowest_header(&as_packetizer, true) == H26X_WRONG_END);
    expect(t, h26x_packet_count(&as_packetizer) == 0 && h26x_packet_len(&as_packetizer, 0) == 0);
    expect(t, h26x_packet_copy(&as_packetizer, 0, to, 8) == 0 && to[0] == 7);
    expect(t, h26x_packets_copy(&as_packetizer, 0, to, 8, ends, 1) == 0 && to[0] == 7);
    h26x_receiver_free(r);
    h26x_packetizer_free(p);
    h26x_depacketizer_free(d);
}

void check_sequenced(struct tally *t)
{
    for (size_t i = 0; i < sizeof fragments / sizeof fragments[0]; i++) {
        check_losses(t, &fragments[i]);
        check_limit(t, &fragments[i]);
        check_settings(t, &fragments[i]);
        check_skipped(t, &fragments[i]);
    }
    check_room(t);
    check_kept(t);
    check_shown(t);
    check_ends(t);
}
