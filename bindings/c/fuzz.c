/* What the fuzz targets of C share. */
#define _DEFAULT_SOURCE
#include "fuzz.h"
#include <stdio.h>
#include <stdlib.h>
#include <string.h>
#include <sys/mman.h>
#include <unistd.h>

void expect_at(bool holds, const char *what, const char *file, int line)
{
    if (!holds) {
        fprintf(stderr, "%s:%d: does not hold: %s\n", file, line, what);
        abort();
    }
}

static struct input front_of(struct input *in, size_t len)
{
    struct input front = {in->at, len < in->len ? len : in->len};
    in->at += front.len;
    in->len -= front.len;
    return front;
}

uint8_t take_byte(struct input *in)
{
    struct input one = front_of(in, 1);
    return one.len == 1 ? one.at[0] : 0;
}

uint16_t take_word(struct input *in)
{
    uint8_t high = take_byte(in);
    return (uint16_t)(high << 8 | take_byte(in));
}

struct input take_bytes(struct input *in)
{
    uint16_t len = take_word(in);
    return front_of(in, len);
}

struct settings take_settings(struct input *in)
{
    static const uint32_t codecs[] = {H26X_H264, H26X_H265, H26X_H266, H26X_H264};
    uint8_t byte = take_byte(in);
    struct settings it = {.codec = codecs[byte & 3], .avc = byte & 8, .more = byte >> 4};
    it.numbers = it.codec != H26X_H264 && (byte & 4) != 0;
    return it;
}

/* libFuzzer looks at what is in this section after each input, and clears it. AFL++ has a map of its own, and where
 * that is used this file must not be compiled by AFL++. */
#ifdef BY_AFL
extern uint8_t *__afl_area_ptr;
enum { SEEN = 1 << 16 };
#define seen __afl_area_ptr
#else
enum { SEEN = 1 << 14 };
__attribute__((section("__libfuzzer_extra_counters"))) static uint8_t seen[SEEN];
#endif

void saw(uint32_t what, uint32_t a, uint32_t b, uint32_t c)
{
    const uint32_t numbers[] = {what, a, b, c};
    uint32_t sum = 2166136261u;
    for (size_t i = 0; i < 4; i++)
        sum = (sum ^ numbers[i]) * 16777619u;
    sum ^= sum >> 15;
    if (seen[sum % SEEN] < 255)
        seen[sum % SEEN]++;
}

uint32_t about(size_t n)
{
    uint32_t bits = 0;
    for (; n > 0; n >>= 1)
        bits++;
    return bits;
}

enum { PATTERN = 0xa5 };

uint8_t *room_for(enum place place, size_t len)
{
    static uint8_t *ends[PLACES];
    const size_t page = (size_t)sysconf(_SC_PAGESIZE);
    if (ends[place] == NULL) {
        uint8_t *at = mmap(NULL, MOST + page, PROT_READ | PROT_WRITE, MAP_PRIVATE | MAP_ANONYMOUS, -1, 0);
        expect(at != MAP_FAILED && mprotect(at + MOST, page, PROT_NONE) == 0);
        ends[place] = at + MOST;
    }
    expect(len <= MOST);
    return memset(ends[place] - len, PATTERN, len);
}

bool is_untouched(const uint8_t *at, size_t len)
{
    return len == 0 || (at[0] == PATTERN && memcmp(at, at + 1, len - 1) == 0);
}

const uint8_t *copied(enum place place, struct input bytes)
{
    uint8_t *at = room_for(place, bytes.len);
    if (bytes.len > 0)
        memcpy(at, bytes.at, bytes.len);
    return at;
}

size_t header_len(uint32_t codec)
{
    return codec == H26X_H264 ? 1 : 2;
}

unsigned type_of(uint32_t codec, const uint8_t *unit, size_t len)
{
    if (len < header_len(codec))
        return 255;
    return codec == H26X_H264 ? unit[0] & 0x1f : codec == H26X_H265 ? unit[0] >> 1 & 0x3f : unit[1] >> 3;
}

bool is_carried(uint32_t codec, const uint8_t *unit, size_t len)
{
    unsigned type = type_of(codec, unit, len);
    if (type == 255 || (unit[0] & 0x80) != 0)
        return false;
    if (codec == H26X_H264)
        return type >= 1 && type <= 23;
    return len > 2 && (codec == H26X_H265 ? type < 48 || type > 50 : type != 28 && type != 29);
}
