/* The calls on the packets that a depacketizer of H.265 shows, and the packing of PACI packets. */
#include "calls.h"

/* Compares what is shown of the packet that was accepted last. `parts` names its parts with '|'
 * between two, and `numbers` the number of each. */
static void shows_at(struct tally *t, h26x_depacketizer *d, uint32_t kind, uint16_t header, uint16_t word,
                     const char *parts, const uint32_t *numbers, size_t count, const char *file, int line)
{
    h26x_h265_packet shown;
    uint8_t part[ROOM];
    uint32_t number = 99;
    expect_at(t, h26x_h265_shown(d, &shown) == H26X_OK, parts, file, line);
    expect_at(t, shown.kind == kind && shown.header == header, parts, file, line);
    expect_at(t, shown.word == word && shown.parts == count, parts, file, line);
    for (size_t i = 0; i < count; i++, parts = behind_bar(parts)) {
        size_t len = h26x_h265_part_copy(d, i, part, sizeof part, &number);
        expect_at(t, is_same(part, len, parts), parts, file, line);
        expect_at(t, number == numbers[i], parts, file, line);
    }
    expect_at(t, h26x_h265_part_copy(d, count, part, sizeof part, &number) == 0, parts, file, line);
    expect_at(t, number == H26X_NO_NUMBER, "no number past the last part", file, line);
}
#define shows(t, d, kind, header, word, parts, ...)                            \
    shows_at(t, d, kind, header, word, parts, (const uint32_t[]){__VA_ARGS__}, \
             sizeof(const uint32_t[]){__VA_ARGS__} / sizeof(uint32_t), __FILE__, __LINE__)

static const char *const aggregate = "6001 0003 0201aa 0004 2601afaf 0003 0201bb";
static const char *const numbered_aggregate = "6001 0005 0003 0201aa 00 0004 2601afaf ff 0003 0201bb";

static void check_kinds(struct tally *t, h26x_depacketizer *d)
{
    const uint32_t none = H26X_NO_NUMBER;
    shows(t, d, H26X_H265_SINGLE, 0, 0, "", none);
    takes(t, d, "2601af", "00000001 2601af", 2);
    shows(t, d, H26X_H265_SINGLE, 0x2601, 0, "af", none);
    takes(t, d, "620193aabb", "", 0);
    shows(t, d, H26X_H265_FRAGMENT, 0x6201, 0x93, "aabb", none);
    takes(t, d, aggregate, "00000001 0201aa 00000001 2601afaf 00000001 0201bb", 2);
    shows(t, d, H26X_H265_AGGREGATE, 0, 0, "0201aa|2601afaf|0201bb", none, none, none);
    takes(t, d, "6401 0238 112233 aabb", "00000001 0201aabb", 1);
    shows(t, d, H26X_H265_PACI, 0x6401, 0x0238, "112233|aabb", none, none);
    takes(t, d, "6409 a600 cc", "00000001 a609cc", 2);
    shows(t, d, H26X_H265_PACI, 0x6409, 0xa600, "|cc", none, none);
}

static void check_kinds_with_numbers(struct tally *t, h26x_depacketizer *d)
{
    const uint32_t none = H26X_NO_NUMBER;
    expect(t, h26x_depacketizer_set_numbers(d, true) == H26X_OK);
    takes(t, d, "0201 ffff aa", "00000001 0201aa", 1);
    shows(t, d, H26X_H265_SINGLE, 0x0201, 0, "aa", 0xffff);
    takes(t, d, "620193 0102 aa", "", 0);
    shows(t, d, H26X_H265_FRAGMENT, 0x6201, 0x93, "aa", 0x0102);
    takes(t, d, "620153 0304", "00000001 2601aa0304", 2);
    shows(t, d, H26X_H265_FRAGMENT, 0x6201, 0x53, "0304", none);
    takes(t, d, numbered_aggregate, "00000001 0201aa 00000001 2601afaf 00000001 0201bb", 2);
    shows(t, d, H26X_H265_AGGREGATE, 0, 0, "0201aa|2601afaf|0201bb", 5, 0, 255);
}

/* Gives a packet of H.265, and compares a part of it that takes one byte, for which there is just
 * room, and its number. */
static void has_byte_at(struct tally *t, bool numbers, const char *packet, const char *written, uint8_t told, size_t i,
                        uint8_t byte, uint32_t number, const char *file, int line)
{
    h26x_depacketizer d;
    uint8_t to = 0;
    uint32_t found = 77;
    expect_at(t, h26x_depacketizer_new(H26X_H265, numbers, &d) == H26X_OK, packet, file, line);
    takes_at(t, &d, packet, written, told, file, line);
    expect_at(t, h26x_h265_part_copy(&d, i, &to, 1, &found) == 1, packet, file, line);
    expect_at(t, to == byte && found == number, packet, file, line);
    h26x_depacketizer_free(d);
}
#define has_byte(t, numbers, packet, written, told, i, byte, number) \
    has_byte_at(t, numbers, packet, written, told, i, byte, number, __FILE__, __LINE__)

static void check_numbers_of_parts(struct tally *t)
{
    has_byte(t, false, "2601aa", "00000001 2601aa", 2, 0, 0xaa, 65536);
    /* A PACI packet bears no number. */
    has_byte(t, true, "6401 2638 112233 aa", "00000001 2601aa", 2, 1, 0xaa, 65536);
    has_byte(t, true, "2601 ffff aa", "00000001 2601aa", 2, 0, 0xaa, 65535);
}

/* A refused packet leaves what is shown, and so does a part for which there is no room. */
static void check_what_stays(struct tally *t, h26x_depacketizer *d)
{
    uint8_t to[3] = {9, 9, 9}, extra = 0;
    size_t written;
    uint32_t number = 0;
    h26x_refusal why;
    uint32_t code = h26x_depacketize(d, false, (const uint8_t *)"a", 1, to, sizeof to, &written, &extra, &why);
    expect(t, code == H26X_SHORT_PACKET);
    shows(t, d, H26X_H265_AGGREGATE, 0, 0, "0201aa|2601afaf|0201bb", 5, 0, 255);
    expect(t, h26x_h265_part_copy(d, 1, to, sizeof to, &number) == 4 && number == 0);
    expect(t, is_same(to, 3, "090909"));
    expect(t, h26x_h265_part_copy(d, 2, to, 2, &number) == 3 && number == 255);
    expect(t, is_same(to, 3, "090909"));
    expect(t, h26x_h265_part_copy(d, 2, to, 3, &number) == 3 && is_same(to, 3, "0201bb"));
}

/* What shows no packets: the other codecs, and a packetizer. */
static void check_what_shows_nothing(struct tally *t)
{
    const uint32_t codecs[] = {H26X_H264, H26X_H266};
    h26x_h265_packet shown = {7, 8, 9, 10};
    uint8_t to[3] = {9, 9, 9};
    uint32_t number = 0;
    h26x_depacketizer d;
    h26x_packetizer p;
    for (int i = 0; i < 2; i++) {
        expect(t, h26x_depacketizer_new(codecs[i], false, &d) == H26X_OK);
        expect(t, h26x_h265_shown(&d, &shown) == H26X_NOT_OF_THIS_CODEC);
        expect(t, h26x_h265_part_copy(&d, 0, to, sizeof to, &number) == 0);
        expect(t, number == H26X_NO_NUMBER && is_same(to, 3, "090909"));
        h26x_depacketizer_free(d);
    }
    expect(t, h26x_packetizer_new(H26X_H265, false, &p) == H26X_OK);
    d.at = p.at;
    number = 0;
    expect(t, h26x_h265_shown(&d, &shown) == H26X_WRONG_END);
    expect(t, h26x_h265_part_copy(&d, 0, to, sizeof to, &number) == 0);
    expect(t, number == H26X_NO_NUMBER && is_same(to, 3, "090909"));
    expect(t, shown.kind == 7 && shown.header == 8 && shown.word == 9 && shown.parts == 10);
    h26x_packetizer_free(p);
}

/* Packs a unit with an extension, and compares the packet. */
static void packs_at(struct tally *t, const char *unit, const char *extension, const char *packet, const char *file,
                     int line)
{
    struct bytes in = bytes_of(unit), more = bytes_of(extension);
    uint8_t to[ROOM];
    size_t len = 99;
    uint32_t code = h26x_h265_paci_packet(in.at, in.len, more.at, more.len, to, sizeof to, &len);
    expect_at(t, code == H26X_OK, unit, file, line);
    expect_at(t, is_same(to, len, packet), packet, file, line);
}
#define packs(t, unit, extension, packet) packs_at(t, unit, extension, packet, __FILE__, __LINE__)

static void check_packing(struct tally *t)
{
    struct bytes unit = bytes_of("0201aabb"), more = {.len = 32};
    uint8_t to[40] = {9};
    size_t len = 99;
    packs(t, "0201aabb", "112233", "6401 0238 112233 aabb");
    packs(t, "0201aabb", "1122", "6401 0220 1122 aabb");
    packs(t, "a609cc", "", "6409 a600 cc");
    packs(t, "2601", "", "6401 2600");

    expect(t, h26x_h265_paci_packet(unit.at, 1, more.at, 32, to, sizeof to, &len) == H26X_SHORT_PACKET);
    expect(t, h26x_h265_paci_packet(unit.at, 2, more.at, 32, to, sizeof to, &len) == H26X_H265_PACI_PHES_TOO_LONG);
    expect(t, to[0] == 9 && len == 99);
    expect(t, h26x_h265_paci_packet(unit.at, 4, more.at, 31, to, 36, &len) == H26X_OK);
    expect(t, to[0] == 9 && len == 37);
    expect(t, h26x_h265_paci_packet(unit.at, 4, more.at, 31, to, 37, &len) == H26X_OK && len == 37);
    expect(t, is_same(to, 4, "6401 03f8") && is_same(to + 35, 2, "aabb"));
}

void check_showing(struct tally *t)
{
    h26x_depacketizer d;
    expect(t, h26x_depacketizer_new(H26X_H265, false, &d) == H26X_OK);
    check_kinds(t, &d);
    check_kinds_with_numbers(t, &d);
    check_what_stays(t, &d);
    h26x_depacketizer_free(d);
    check_what_shows_nothing(t);
    check_numbers_of_parts(t);
    check_packing(t);
}
