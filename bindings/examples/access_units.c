/* Which units of an Annex B stream are of one picture. */
#include "access_units.h"
#include "h26x.h"

struct unit {
    const uint8_t *at;
    size_t len;
};

unsigned unit_type(uint32_t codec, const uint8_t *unit, size_t len)
{
    if (len < (codec == H26X_H264 ? 1 : 2))
        return 64;
    switch (codec) {
    case H26X_H264:
        return unit[0] & 0x1f;
    case H26X_H265:
        return unit[0] >> 1 & 0x3f;
    default:
        return unit[1] >> 3;
    }
}

static bool is_slice(uint32_t codec, struct unit u)
{
    const unsigned type = unit_type(codec, u.at, u.len);
    switch (codec) {
    case H26X_H264:
        return 1 <= type && type <= 5;
    case H26X_H265:
        return type < 32;
    default:
        return type < 12;
    }
}

/* Whether the first bit behind a unit's header is set. Of H.264 that says that first_mb_in_slice is
 * 0; of H.265 it is first_slice_segment_in_pic_flag; of H.266 it says that the slice holds its
 * picture's header, which otherwise is a unit before it. */
static bool has_first_bit(uint32_t codec, struct unit u)
{
    const size_t header = codec == H26X_H264 ? 1 : 2;
    return u.len > header && u.at[header] >> 7;
}

static bool is_in(unsigned type, unsigned first, unsigned last)
{
    return first <= type && type <= last;
}

/* Whether a unit that follows a slice is the first of a new access unit: the first slice of a
 * picture, a delimiter, a parameter set, SEI or another unit that stands before slices (H.264,
 * 7.4.1.2.3; H.265, 7.4.2.4.4; H.266, 7.4.2.4.3). */
static bool begins(uint32_t codec, struct unit u)
{
    const unsigned type = unit_type(codec, u.at, u.len);
    if (is_slice(codec, u))
        return has_first_bit(codec, u) && !(codec == H26X_H264 && is_in(type, 3, 4));
    switch (codec) {
    case H26X_H264:
        return is_in(type, 6, 9) || is_in(type, 14, 18);
    case H26X_H265:
        return is_in(type, 32, 35) || type == 39 || is_in(type, 41, 44) || is_in(type, 48, 55);
    default:
        return is_in(type, 12, 17) || is_in(type, 19, 20) || type == 23 || type == 26
            || is_in(type, 28, 29);
    }
}

bool next_access_unit(uint32_t codec, const uint8_t *stream, size_t len, size_t from, size_t *begin,
                      size_t *end)
{
    size_t first, behind;
    bool has_slice = false;
    if (!h26x_next_unit(codec, stream, len, from, &first, &behind))
        return false;
    /* A start code's last three bytes; there are none where the stream is one unit without one. */
    *begin = first < 3 ? 0 : first - 3;
    do {
        const struct unit u = {stream + first, behind - first};
        if (has_slice && begins(codec, u))
            return true;
        has_slice = has_slice || is_slice(codec, u);
        *end = behind;
    } while (h26x_next_unit(codec, stream, len, *end, &first, &behind));
    return true;
}
