/* The search for start codes: units by their places, and beside what a plain scan finds. */
#include "calls.h"

#include <stdlib.h>
#include <string.h>

/* Goes through the units of a payload by their places, and compares them with those that `units`
 * names with '|' between two. */
static void cuts_at(struct tally *t, uint32_t codec, const char *payload, const char *units, const char *file, int line)
{
    struct bytes in = bytes_of(payload);
    size_t begin, end = 0, from;
    for (; *units != '\0'; units = behind_bar(units)) {
        from = end;
        expect_at(t, h26x_next_unit(codec, in.at, in.len, from, &begin, &end), payload, file, line);
        expect_at(t, from <= begin && begin < end && end <= in.len, payload, file, line);
        expect_at(t, is_same(in.at + begin, end - begin, units), payload, file, line);
    }
    from = end;
    begin = 99;
    expect_at(t, !h26x_next_unit(codec, in.at, in.len, from, &begin, &end), payload, file, line);
    expect_at(t, begin == 99 && end == from, payload, file, line);
}
#define cuts(t, codec, payload, units) cuts_at(t, codec, payload, units, __FILE__, __LINE__)

static void check_units(struct tally *t)
{
    const char *payload = "bb 000001 aa 00000000 01 000001 bb00";
    size_t begin = 5, end = 6;
    cuts(t, H26X_H264, payload, "aa|bb00");
    cuts(t, H26X_H265, payload, "aa|bb00");
    /* H.266: zeros before the nearest three stay with the unit. */
    cuts(t, H26X_H266, payload, "aa00|bb00");
    cuts(t, H26X_H264, "bb00", "bb00");
    cuts(t, H26X_H265, "", "");
    cuts(t, H26X_H266, "000001", "");
    cuts(t, H26X_H264, "000001 aa 000001 aa 000001 aa", "aa|aa|aa");
    for (uint32_t codec = H26X_H264; codec <= H26X_H266; codec++) {
        cuts(t, codec, "", "");
        cuts(t, codec, "000001", "");
        cuts(t, codec, "000000", "000000");
        cuts(t, codec, "bb 000001 aa", "aa");
        cuts(t, codec, "000001 01aa", "01aa");
        cuts(t, codec, "000001 000001 aa", "aa");
        cuts(t, codec, "00000000 01 aa", "aa");
        cuts(t, codec, "000001 aa 00000000 01 bb00", codec == H26X_H266 ? "aa00|bb00" : "aa|bb00");
        cuts(t, codec, "909090", "909090");
    }
    expect(t, !h26x_next_unit(0, (const uint8_t *)"a", 1, 0, &begin, &end));
    expect(t, !h26x_next_unit(H26X_H264, (const uint8_t *)"a", 1, SIZE_MAX, &begin, &end));
    expect(t, begin == 5 && end == 6);
}

/* Whether the next unit from a place on stands there. */
static bool is_next(uint32_t codec, const char *payload, size_t from, size_t begin, size_t end)
{
    struct bytes in = bytes_of(payload);
    size_t first = 99, last = 99;
    return h26x_next_unit(codec, in.at, in.len, from, &first, &last) && first == begin && last == end;
}

/* Whether there is none, and what stood there stays. */
static bool is_last(uint32_t codec, const char *payload, size_t from)
{
    struct bytes in = bytes_of(payload);
    size_t first = 99, last = 99;
    return !h26x_next_unit(codec, in.at, in.len, from, &first, &last) && first == 99 && last == 99;
}

static void check_places(struct tally *t)
{
    const char *payload = "000001 aa 00000000 01 bb";
    expect(t, is_next(264, payload, 0, 3, 4) && is_next(264, payload, 4, 9, 10));
    expect(t, is_next(265, payload, 0, 3, 4));
    expect(t, is_next(266, payload, 0, 3, 5) && is_next(266, payload, 5, 9, 10));
    expect(t, is_last(264, "000001 aa", 4) && is_last(265, "000001", 0));
    expect(t, is_last(266, "aa", 2) && is_last(263, "aa", 0));
    /* Two start codes in a row, and zeros. */
    payload = "bb 000001 aa 00000000 01 000001 cc00";
    expect(t, is_next(264, payload, 0, 4, 5) && is_next(264, payload, 5, 13, 15));
    expect(t, is_next(266, payload, 0, 4, 6) && is_next(266, payload, 6, 13, 15));
    expect(t, is_last(264, payload, 15) && is_last(264, payload, 16));
    expect(t, is_last(266, payload, 15) && is_last(266, payload, 16));
    expect(t, is_next(264, "6500", 0, 0, 2) && is_last(264, "6500", 2) && is_last(266, "", 0));
}

/* Where the first start code from a place on begins, and the length where there is none. */
static size_t code_from(const uint8_t *payload, size_t len, size_t from)
{
    for (size_t at = from; at + 3 <= len; at++)
        if (payload[at] == 0 && payload[at + 1] == 0 && payload[at + 2] == 1)
            return at;
    return len;
}

/* Where a unit ends that begins at a place, before the zeros of the start code behind it: of H.266
 * that takes three, of which two are its own in any case. */
static size_t end_of(uint32_t codec, const uint8_t *payload, size_t begin, size_t code)
{
    size_t most = codec == H26X_H266 ? 1 : code;
    for (; most > 0 && code > begin && payload[code - 1] == 0; most--)
        code--;
    return code;
}

/* Whether the next unit from a place on, which goes on to its end, stands there. */
static bool is_next_at(uint32_t codec, const uint8_t *payload, size_t len, size_t *from, size_t begin, size_t end)
{
    size_t first, last;
    if (!h26x_next_unit(codec, payload, len, *from, &first, &last))
        return false;
    *from = last;
    return first == begin && last == end;
}

/* Whether a payload has the units that a plain forward scan finds. */
static bool is_as_scanned(uint32_t codec, const uint8_t *payload, size_t len)
{
    size_t end = 0, at = 0, code = code_from(payload, len, 0), begin;
    while (code < len) {
        at = code + 3;
        code = code_from(payload, len, at);
        size_t stop = code < len ? end_of(codec, payload, at, code) : len;
        if (at < stop && !is_next_at(codec, payload, len, &end, at, stop))
            return false;
    }
    if (at == 0 && len > 0 && !is_next_at(codec, payload, len, &end, 0, len))
        return false;
    return !h26x_next_unit(codec, payload, len, end, &begin, &end);
}

/* So for each codec. */
static bool are_as_scanned(const uint8_t *payload, size_t len)
{
    return is_as_scanned(H26X_H264, payload, len) && is_as_scanned(H26X_H265, payload, len)
        && is_as_scanned(H26X_H266, payload, len);
}

/* Every payload of at most seven bytes of 0, 1 and 2, as it is and behind a start code. */
static void check_short_payloads(struct tally *t)
{
    size_t count = 0, same = 0;
    for (size_t len = 0, all = 1; len < 8; len++, all *= 3) {
        for (size_t number = 0; number < all; number++, count++) {
            uint8_t payload[10] = {0, 0, 1};
            size_t rest = number;
            for (size_t at = 0; at < len; at++, rest /= 3)
                payload[3 + at] = (uint8_t)(rest % 3);
            same += are_as_scanned(payload + 3, len) && are_as_scanned(payload, 3 + len);
        }
    }
    expect(t, count == 3280 && same == count);
}

/* A byte 01 in so many, and a start code, or as much of it as there is room for, at each place. */
static bool are_as_scanned_with_a_code(size_t len, size_t apart)
{
    static const uint8_t code[3] = {0, 0, 1};
    for (size_t place = 0; place < len; place++) {
        uint8_t payload[330];
        for (size_t at = 0; at < len; at++)
            payload[at] = at % apart == 0 ? 1 : 0x41;
        memcpy(payload + place, code, len - place < 3 ? len - place : 3);
        if (!are_as_scanned(payload, len))
            return false;
    }
    return true;
}

/* Lengths on both sides of those at which the search goes on in another way. */
static void check_a_code_at_each_place(struct tally *t)
{
    static const size_t lens[] = {17, 65, 66, 67, 68, 128, 129, 130, 131, 193, 194, 330};
    for (size_t i = 0; i < sizeof lens / sizeof lens[0]; i++) {
        expect(t, are_as_scanned_with_a_code(lens[i], 1));
        expect(t, are_as_scanned_with_a_code(lens[i], 16));
    }
}

/* Whether a payload of this front so many times, and of this end, has one unit, its last two bytes. */
static bool has_last_unit(const char *front, size_t times, const char *end)
{
    struct bytes part = bytes_of(front), last = bytes_of(end);
    size_t len = part.len * times + last.len, stop = 0;
    uint8_t *payload = malloc(len);
    if (payload == NULL)
        return false;
    for (size_t i = 0; i < times; i++)
        memcpy(payload + i * part.len, part.at, part.len);
    memcpy(payload + part.len * times, last.at, last.len);
    bool is_so = is_next_at(H26X_H264, payload, len, &stop, len - 2, len) && are_as_scanned(payload, len);
    free(payload);
    return is_so;
}

/* Whether a text behind lengths has the units that a plain walk finds. */
static bool is_as_walked(const uint8_t *text, size_t len)
{
    size_t begin, end = 0;
    for (size_t at = 0, unit; len - at >= 4; at += unit) {
        unit = (size_t)text[at] << 24 | text[at + 1] << 16 | text[at + 2] << 8 | text[at + 3];
        at += 4;
        if (unit > len - at)
            break;
        if (unit > 0 && !(h26x_next_avc_unit(text, len, end, &begin, &end) && begin == at && end == at + unit))
            return false;
    }
    return !h26x_next_avc_unit(text, len, end, &begin, &end);
}

/* Every text of at most nine bytes of 0, 1 and 2, as it is and behind a length that begins with zeros. */
static void check_short_texts(struct tally *t)
{
    size_t count = 0, same = 0;
    for (size_t len = 0, all = 1; len < 10; len++, all *= 3) {
        for (size_t number = 0; number < all; number++, count++) {
            uint8_t text[12] = {0, 0, 0};
            size_t rest = number;
            for (size_t at = 0; at < len; at++, rest /= 3)
                text[3 + at] = (uint8_t)(rest % 3);
            same += is_as_walked(text + 3, len) && is_as_walked(text, 3 + len);
        }
    }
    expect(t, count == 29524 && same == count);
}

void check_cutting(struct tally *t)
{
    check_units(t);
    check_places(t);
    check_short_payloads(t);
    check_a_code_at_each_place(t);
    check_short_texts(t);
    /* A code behind many zeros that are of none, and behind a long run of zeros. */
    expect(t, has_last_unit("00000201", 1000, "000001 65aa"));
    expect(t, has_last_unit("00", 100000, "01 65aa"));
}
