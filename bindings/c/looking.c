/* The calls on packets, and the hint. */
#include "calls.h"

static bool is_head(uint32_t codec, const char *packet)
{
    struct bytes in = bytes_of(packet);
    return h26x_is_partition_head(codec, in.at, in.len);
}

static bool is_tail(uint32_t codec, bool marker, const char *packet)
{
    struct bytes in = bytes_of(packet);
    return h26x_is_partition_tail(codec, marker, in.at, in.len);
}

static bool is_key(uint32_t codec, const char *packet)
{
    struct bytes in = bytes_of(packet);
    return h26x_detect_keyframe(codec, in.at, in.len);
}

static bool begins_key(uint32_t codec, bool numbers, const char *packet)
{
    struct bytes in = bytes_of(packet);
    return h26x_begins_keyframe(codec, numbers, in.at, in.len);
}

static bool has_nalu(const char *packet, uint8_t type)
{
    struct bytes in = bytes_of(packet);
    return h26x_detect_h264_nalu(in.at, in.len, type);
}

static void check_heads_and_tails(struct tally *t)
{
    expect(t, is_head(H26X_H264, "0100") && is_head(H26X_H264, "7c85"));
    expect(t, !is_head(H26X_H264, "65") && !is_head(H26X_H264, "1c40"));
    expect(t, is_head(H26X_H265, "8001") && is_head(H26X_H265, "620193"));
    expect(t, !is_head(H26X_H265, "6201") && !is_head(H26X_H265, "620113"));
    expect(t, is_head(H26X_H266, "0009") && is_head(H26X_H266, "00e987"));
    expect(t, !is_head(H26X_H266, "00") && !is_head(H26X_H266, "00e947"));
    expect(t, !is_head(0, "0100") && !is_tail(0, true, "0100"));

    expect(t, is_tail(H26X_H264, true, "7c05") && !is_tail(H26X_H264, false, "7c45"));
    expect(t, is_tail(H26X_H265, true, "0201") && !is_tail(H26X_H265, true, "620113aa"));
    expect(t, is_tail(H26X_H265, false, "620153") && !is_tail(H26X_H265, false, "0201"));
    expect(t, is_tail(H26X_H266, true, "0009") && !is_tail(H26X_H266, true, "00e907aa"));
    expect(t, is_tail(H26X_H266, false, "00e947") && !is_tail(H26X_H266, true, ""));
}

static void check_detection(struct tally *t)
{
    expect(t, is_key(H26X_H264, "7c850000") && is_key(H26X_H264, "18 0002 67aa 0002 65bb"));
    expect(t, !is_key(H26X_H264, "7c050000") && !is_key(H26X_H264, "") && !is_key(H26X_H264, "7c"));
    expect(t, is_key(H26X_H265, "620193aa") && is_key(H26X_H265, "6001 0003 0201aa 0003 2601af"));
    expect(t, !is_key(H26X_H265, "620113aa") && !is_key(H26X_H265, "2c01aa"));
    expect(t, is_key(H26X_H266, "00e987aa") && is_key(H26X_H266, "0049aa"));
    expect(t, !is_key(H26X_H266, "00e907aa") && !is_key(H26X_H266, "0051aa"));
    expect(t, !is_key(1, "65"));
    expect(t, has_nalu("18 0002 67aa 0002 68bb", 7) && !has_nalu("18 0002 67aa 0002 68bb", 5));
    expect(t, has_nalu("6742", 7) && !has_nalu("", 0));
}

/* Key units are found in aggregates with numbers too: of H.265 behind DONL and each DOND (RFC 7798, 4.4.2), of H.266
 * behind DONL (RFC 9328, 4.3.2). */
static void check_beginnings(struct tally *t)
{
    expect(t, begins_key(H26X_H264, false, "6588") && begins_key(H26X_H264, true, "18 0002 67aa 0002 65bb"));
    expect(t, begins_key(H26X_H264, false, "7c8500") && !begins_key(H26X_H264, false, "7c4500"));
    expect(t, !begins_key(H26X_H264, false, "18 0002 67aa 0002 41bb") && !begins_key(H26X_H264, false, "1d85 0000"));
    expect(t, begins_key(H26X_H265, false, "6001 0003 0201aa 0003 2601af"));
    expect(t, begins_key(H26X_H265, true, "6001 0007 0003 0201aa 00 0003 2601af"));
    expect(t, begins_key(H26X_H265, true, "6001 0007 0003 2601aa 00 0003 0201af"));
    expect(t, !begins_key(H26X_H265, true, "6001 0007 0003 0201aa 26 0003 0201af"));
    expect(t, !begins_key(H26X_H265, false, "6001 0007 0003 0201aa 00 0003 2601af"));
    expect(t, begins_key(H26X_H265, true, "2601 0007 af") && begins_key(H26X_H265, true, "6201 93 0007 aa"));
    expect(t, !begins_key(H26X_H265, true, "6201 13 aa") && !begins_key(H26X_H265, false, "2601"));
    expect(t, begins_key(H26X_H265, false, "6401 2600 aa") && !begins_key(H26X_H265, false, "6401 0200 aa"));
    expect(t, begins_key(H26X_H266, false, "00e1 0003 0079aa 0003 0041af"));
    expect(t, begins_key(H26X_H266, true, "00e1 0007 0003 0079aa 0003 0041af"));
    expect(t, !begins_key(H26X_H266, true, "00e1 0007 0003 0079aa 0003 0001af"));
    expect(t, !begins_key(H26X_H266, false, "00e1 0007 0003 0079aa 0003 0041af"));
    expect(t, begins_key(H26X_H266, true, "00e9 87 0007 aa") && !begins_key(H26X_H266, true, "00e9 07 aa"));
    expect(t, !begins_key(1, false, "65") && !begins_key(H26X_H264, false, ""));
}

/* Whether a packet becomes another one. */
static bool has_lowest_header(uint32_t codec, bool numbers, const char *packet, const char *with)
{
    struct bytes in = bytes_of(packet);
    h26x_set_lowest_header(codec, numbers, in.at, in.len);
    return is_same(in.at, in.len, with);
}

/* RFC 7798, 4.4.2: LayerId and TID are the lowest of the units, and F is set where one has it. */
static void check_lowest_headers(struct tally *t)
{
    const char *sets = "600b 0002 4001 0002 4201 0002 4401", *numbered = "6000 0009 0002 430b 00 0002 c512";
    expect(t, has_lowest_header(H26X_H265, false, sets, "6001 0002 4001 0002 4201 0002 4401"));
    expect(t, has_lowest_header(H26X_H265, true, numbered, "e10a 0009 0002 430b 00 0002 c512"));
    expect(t, has_lowest_header(H26X_H265, true, sets, sets));
    expect(t, has_lowest_header(H26X_H265, false, "600b 0002 4001 00", "600b 0002 4001 00"));
    expect(t, has_lowest_header(H26X_H265, false, "020b 0002 4001 0002 4201", "020b 0002 4001 0002 4201"));
    expect(t, has_lowest_header(H26X_H264, false, sets, sets) && has_lowest_header(H26X_H266, false, sets, sets));
    expect(t, has_lowest_header(7, false, sets, sets));
}

/* Expects that of these units, with '|' between two, each is plain, or none. */
static void plain_at(struct tally *t, uint32_t codec, const char *units, bool wanted, int line)
{
    for (; *units != '\0'; units = behind_bar(units)) {
        struct bytes in = bytes_of(units);
        expect_at(t, h26x_unit_is_plain(codec, in.at, in.len) == wanted, units, __FILE__, line);
    }
}
#define plain(t, codec, units) plain_at(t, codec, units, true, __LINE__)
#define others(t, codec, units) plain_at(t, codec, units, false, __LINE__)

static void check_plain_units(struct tally *t)
{
    plain(t, H26X_H264, "01|77|6588|41 0000 02|41 0000 03 01|0900aa");
    /* F; types 0, 24, 28 and 31; a start code, three zeros, a zero at the end. */
    others(t, H26X_H264, "81|6088|78 0001 65|7c85aa|1f");
    others(t, H26X_H264, "41aa 000001 6588|41aa 00000001 6588|41 000001|41 000000 02|4100|41aa 0000");
    plain(t, H26X_H265, "0001|5fff|4201aa|2801 0000 03");
    others(t, H26X_H265, "26|8001aa|6001aa|620193aa|6401aa|7e01");
    others(t, H26X_H265, "2601 000001 26|2601 000000 02|260100");
    plain(t, H26X_H266, "0001|3fdf|0079aa|0009 0000 02");
    /* Z too. */
    others(t, H26X_H266, "00|8001aa|4001aa|00e1aa|00e987aa|00f9");
    others(t, H26X_H266, "0041 000001 41|0041 000000 02|004100");
    expect(t, !h26x_unit_is_plain(H26X_H264, (const uint8_t *)"a", 0));
    expect(t, h26x_unit_is_plain(H26X_H264, (const uint8_t *)"a", 1));
    expect(t, !h26x_unit_is_plain(0, (const uint8_t *)"a", 1));
}

/* How many units behind lengths there are, if each is plain; else 0. */
static size_t plain_units_in(uint32_t codec, const uint8_t *text, size_t len)
{
    size_t count = 0, begin, end = 0;
    for (; h26x_next_avc_unit(text, len, end, &begin, &end); count++)
        if (!h26x_unit_is_plain(codec, text + begin, end - begin))
            return 0;
    return end == len ? count : 0;
}

/* Packets whose units hide others: of H.264 in the text, of H.265 as a fragment in an aggregate. */
static void check_hidden_units(struct tally *t)
{
    static const struct {
        uint32_t codec;
        const char *packet;
        size_t plain;
    } rows[] = {
        {H26X_H264, "41aa 00000001 6588", 0},
        {H26X_H264, "18 0002 67aa 0002 68bb", 2},
        {H26X_H265, "6001 0003 4201aa 0003 620193", 0},
        {H26X_H265, "6001 0003 4201aa 0003 4401bb", 2},
    };
    for (size_t i = 0; i < sizeof rows / sizeof rows[0]; i++) {
        struct bytes in = bytes_of(rows[i].packet);
        h26x_depacketizer d;
        uint8_t to[64], extra = 0;
        size_t len = 0;
        expect(t, h26x_depacketizer_new(rows[i].codec, false, &d) == H26X_OK);
        expect(t, h26x_depacketize(&d, true, in.at, in.len, to, 64, &len, &extra, NULL) == H26X_OK);
        expect(t, extra == 1 && plain_units_in(rows[i].codec, to, len) == rows[i].plain);
        h26x_depacketizer_free(d);
    }
}

static void check_hints(struct tally *t)
{
    expect(t, h26x_out_size_hint(0) == 4);
    expect(t, h26x_out_size_hint(1199) == 1203);
    expect(t, h26x_out_size_hint(1200) == 1208);
    expect(t, h26x_out_size_hint(SIZE_MAX) == SIZE_MAX);
}

void check_looking(struct tally *t)
{
    check_heads_and_tails(t);
    check_detection(t);
    check_beginnings(t);
    check_lowest_headers(t);
    check_plain_units(t);
    check_hidden_units(t);
    check_hints(t);
}
