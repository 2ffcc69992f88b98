/* The calls on profiles and levels. */
#include "calls.h"

/* Whether a `profile-level-id` names this profile at this level. */
static bool is_named(uint32_t id, uint8_t profile, uint8_t level)
{
    uint8_t p = 77, l = 77;
    return h26x_h264_profile_level(id, &p, &l) && p == profile && l == level;
}

/* Whether it names none, and what stood there stays. */
static bool is_refused(uint32_t id)
{
    uint8_t p = 77, l = 78;
    return !h26x_h264_profile_level(id, &p, &l) && p == 77 && l == 78;
}

static void check_h264_profiles(struct tally *t)
{
    expect(t, is_named(0x42001f, H26X_H264_BASELINE, H26X_H264_LEVEL_3_1));
    expect(t, is_named(0x42e01f, H26X_H264_CONSTRAINED_BASELINE, H26X_H264_LEVEL_3_1));
    expect(t, is_named(0x4d0028, H26X_H264_MAIN, H26X_H264_LEVEL_4));
    expect(t, is_named(0x58001e, H26X_H264_EXTENDED, H26X_H264_LEVEL_3));
    expect(t, is_named(0x64001f, H26X_H264_HIGH, H26X_H264_LEVEL_3_1));
    expect(t, is_named(0xff64001f, H26X_H264_HIGH, H26X_H264_LEVEL_3_1));
    expect(t, is_named(0x640c34, H26X_H264_CONSTRAINED_HIGH, H26X_H264_LEVEL_5_2));
    expect(t, is_named(0x6e0032, H26X_H264_HIGH_10, H26X_H264_LEVEL_5));
    expect(t, is_named(0x7a0033, H26X_H264_HIGH_422, H26X_H264_LEVEL_5_1));
    expect(t, is_named(0xf4002a, H26X_H264_HIGH_444_PREDICTIVE, H26X_H264_LEVEL_4_2));
    expect(t, is_named(0x6e1029, H26X_H264_HIGH_10_INTRA, H26X_H264_LEVEL_4_1));
    expect(t, is_named(0x7a1020, H26X_H264_HIGH_422_INTRA, H26X_H264_LEVEL_3_2));
    expect(t, is_named(0xf41016, H26X_H264_HIGH_444_INTRA, H26X_H264_LEVEL_2_2));
    expect(t, is_named(0x2c1015, H26X_H264_CAVLC_444_INTRA, H26X_H264_LEVEL_2_1));
    expect(t, is_refused(0x64101f) && is_refused(0x640063) && is_refused(0x63001f));
    expect(t, is_refused(0x2c001f) && is_refused(0x42011f) && is_refused(0));
}

static void check_h264_levels(struct tally *t)
{
    expect(t, is_named(0x42000a, H26X_H264_BASELINE, H26X_H264_LEVEL_1));
    expect(t, is_named(0x42100a, H26X_H264_BASELINE, H26X_H264_LEVEL_1));
    expect(t, is_named(0x42100b, H26X_H264_BASELINE, H26X_H264_LEVEL_1B));
    expect(t, is_named(0x42000b, H26X_H264_BASELINE, H26X_H264_LEVEL_1_1));
    expect(t, is_named(0x42000c, H26X_H264_BASELINE, H26X_H264_LEVEL_1_2));
    expect(t, is_named(0x42000d, H26X_H264_BASELINE, H26X_H264_LEVEL_1_3));
    expect(t, is_named(0x420014, H26X_H264_BASELINE, H26X_H264_LEVEL_2));
}

/* How many numbers a call knows in the place of the profile, the tier and the level. */
static void knows(struct tally *t, bool (*is_known)(uint8_t, uint8_t, uint8_t), uint8_t level, int profiles, int levels)
{
    int found[3] = {0};
    for (int n = 0; n < 256; n++) {
        found[0] += is_known((uint8_t)n, 0, level);
        found[1] += is_known(1, (uint8_t)n, level);
        found[2] += is_known(1, 0, (uint8_t)n);
    }
    expect(t, found[0] == profiles && found[1] == 2 && found[2] == levels);
}

static void check_h265_profiles(struct tally *t)
{
    expect(t, h26x_h265_is_known(H26X_H265_MAIN, 0, H26X_H265_LEVEL_3_1));
    expect(t, h26x_h265_is_known(H26X_H265_HIGH_THROUGHPUT_SCREEN_CONTENT_CODING, 1, 186));
    expect(t, !h26x_h265_is_known(1, 0, 255) && !h26x_h265_is_known(99, 0, 93));
    expect(t, !h26x_h265_is_known(1, 5, 93) && !h26x_h265_is_known(1, 0, H26X_H266_LEVEL_3_1));
    for (uint8_t id = H26X_H265_MAIN; id <= 11; id++)
        expect(t, h26x_h265_is_known(id, 0, H26X_H265_LEVEL_1));
    knows(t, h26x_h265_is_known, H26X_H265_LEVEL_6_2, 11, 13);
}

static void check_h266_profiles(struct tally *t)
{
    expect(t, h26x_h266_is_known(H26X_H266_MAIN_10, 0, H26X_H266_LEVEL_3_1));
    expect(t, h26x_h266_is_known(H26X_H266_MULTILAYER_MAIN_10_444_STILL_PICTURE, 1, 255));
    expect(t, !h26x_h266_is_known(1, 0, H26X_H265_LEVEL_3_1) && !h26x_h266_is_known(2, 0, 51));
    expect(t, !h26x_h266_is_known(1, 2, 51) && !h26x_h266_is_known(0, 0, 51));
    for (uint8_t id = H26X_H266_MAIN_10; id <= 113; id += 16)
        expect(t, h26x_h266_is_known(id, 0, H26X_H266_LEVEL_1));
    knows(t, h26x_h266_is_known, H26X_H266_LEVEL_15_5, 8, 15);
}

/* The numbers themselves, whatever the header calls them. */
static void check_numbers(struct tally *t)
{
    const uint32_t ids[] = {0x42001f, 0x42e01f, 0x4d001f, 0x58001f, 0x64001f, 0x640c1f, 0x6e001f,
                            0x7a001f, 0xf4001f, 0x6e101f, 0x7a101f, 0xf4101f, 0x2c101f};
    for (uint8_t profile = 0; profile < sizeof ids / sizeof ids[0]; profile++)
        expect(t, is_named(ids[profile], profile, 9));
    expect(t, is_named(0xff64001f, 4, 9) && is_named(0x640c34, 5, 16));
    expect(t, is_named(0x42000a, 0, 0) && is_named(0x42100a, 0, 0));
    expect(t, is_named(0x42100b, 0, 1) && is_named(0x42000b, 0, 2));
    expect(t, is_named(0x42001f, 0, 9) && is_named(0x420034, 0, 16));

    expect(t, h26x_h265_is_known(1, 0, 93) && h26x_h265_is_known(11, 1, 186));
    expect(t, h26x_h266_is_known(1, 0, 51) && h26x_h266_is_known(113, 1, 255));
    expect(t, !h26x_h266_is_known(1, 0, 93));
}

void check_profiles(struct tally *t)
{
    check_numbers(t);
    check_h264_profiles(t);
    check_h264_levels(t);
    check_h265_profiles(t);
    check_h266_profiles(t);
}
