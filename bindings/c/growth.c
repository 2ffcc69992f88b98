/* Calls over inputs of a size that a stranger may pick, for a program that counts instructions: tools/growth.
 *
 *     growth              prints the jobs, each with the size that tools/growth begins with
 *     growth JOB SIZE
 */
#include "h26x.h"
#include <stdio.h>
#include <stdlib.h>
#include <string.h>

enum { ROOM = 16 * 1024 * 1024, LONG_RUN = 50000, FRAGMENTS = 100, NO_LIMIT = 1 << 30 };

static uint8_t *room;

static void *memory(size_t size)
{
    void *block = calloc(1, size);
    if (block == NULL)
        abort();
    return block;
}

/* Ends the program where a call that has to be taken is refused. */
static void taken(uint32_t code)
{
    if (code != H26X_OK)
        abort();
}

/* A receiver of access units, of which one waits for so many packets, and for so long. */
static h26x_access_units receiver(uint32_t codec, uint16_t window, uint32_t wait)
{
    h26x_access_units_config config = {0};
    config.codec = codec;
    config.window = window;
    config.max_wait = wait;
    config.run_limit = config.unit_limit = config.held_limit = NO_LIMIT;
    h26x_access_units units;
    taken(h26x_access_units_new(&config, &units));
    return units;
}

static void push(h26x_access_units *units, uint32_t now, uint16_t number, const uint8_t *packet, size_t len)
{
    uint32_t what;
    uint16_t behind;
    taken(h26x_access_units_push(units, now, number, 1, false, packet, len, &what, &behind));
}

static void drain(h26x_access_units *units, uint32_t now)
{
    h26x_access_unit unit;
    while (h26x_access_units_next(units, now, room, ROOM, &unit) == H26X_OK)
        ;
}

/* A unit that grows to the size, and then by fragments of a byte. */
static void open_run(uint32_t codec, size_t size)
{
    static uint8_t packet[LONG_RUN];
    const uint8_t headers[3][3] = {{0x7c, 0x81, 7}, {0x62, 0x01, 0x81}, {0x00, 0xe9, 0x80}};
    const size_t header = codec == H26X_H264 ? 2 : 3;
    h26x_access_units units = receiver(codec, 32, UINT32_MAX);
    uint16_t number = 0;
    memset(packet, 7, sizeof packet);
    memcpy(packet, headers[codec - H26X_H264], 3);
    for (size_t got = 0; got < size; got += LONG_RUN) {
        push(&units, 0, number++, packet, LONG_RUN);
        drain(&units, 0);
        packet[header - 1] &= 0x3f;
    }
    for (int i = 0; i < FRAGMENTS; i++) {
        push(&units, 0, number++, packet, header + 1);
        drain(&units, 0);
    }
    h26x_access_units_free(units);
}

static const uint8_t small[] = {0x41, 1};

/* Packets in a window of so many, the last first; the first of all is missing. */
static void descending(uint32_t wait, size_t size)
{
    h26x_access_units units = receiver(H26X_H264, (uint16_t)size, wait);
    push(&units, 0, 0, small, sizeof small);
    for (size_t i = size - 1; i > 1; i--) {
        const uint32_t now = (uint32_t)(size - i) / 64;
        push(&units, now, (uint16_t)i, small, sizeof small);
        drain(&units, now);
        uint32_t at;
        h26x_access_units_deadline(&units, &at);
    }
    h26x_access_units_free(units);
}

/* Packets in a window of so many, from its two ends by turns; the first of all is missing. */
static void both_ends(uint32_t codec, size_t size)
{
    h26x_access_units units = receiver(codec, (uint16_t)size, UINT32_MAX);
    push(&units, 0, 0, small, sizeof small);
    for (size_t low = 2, high = size - 1; low < high; low++, high--) {
        push(&units, 0, (uint16_t)low, small, sizeof small);
        push(&units, 0, (uint16_t)high, small, sizeof small);
    }
    h26x_access_units_free(units);
}

/* Every second packet of a window, and which are missing. */
static void missing(uint32_t codec, size_t size)
{
    static uint16_t numbers[65536];
    h26x_access_units units = receiver(codec, (uint16_t)size, UINT32_MAX);
    for (size_t i = 0; i < size; i += 2)
        push(&units, 0, (uint16_t)i, small, sizeof small);
    size_t count;
    for (int i = 0; i < 10; i++)
        taken(h26x_access_units_missing(&units, numbers, 65536, &count));
    h26x_access_units_free(units);
}

/* An aggregate of units of so many bytes, and each of its parts, as H.265 shows them. */
static void aggregate(uint32_t codec, size_t unit, size_t size)
{
    uint8_t *packet = memory(size + 8);
    size_t n = codec == H26X_H264 ? 1 : 2;
    packet[0] = codec == H26X_H264 ? 0x78 : codec == H26X_H265 ? 0x60 : 0x00;
    if (codec != H26X_H264)
        packet[1] = codec == H26X_H265 ? 0x01 : 0xe1;
    for (; n + 2 + unit <= size; n += 2 + unit) {
        packet[n + 1] = (uint8_t)unit;
        memset(packet + n + 2, codec == H26X_H264 ? 0x41 : 0x02, unit);
    }
    h26x_depacketizer depacketizer;
    taken(h26x_depacketizer_new(codec, false, &depacketizer));
    size_t written;
    uint8_t extra = 0;
    h26x_refusal why;
    const uint32_t code = h26x_depacketize(&depacketizer, false, packet, n, room, ROOM, &written, &extra, &why);
    h26x_h265_packet shown = {0};
    if (codec == H26X_H265 && code == H26X_OK)
        taken(h26x_h265_shown(&depacketizer, &shown));
    for (size_t i = 0; i < shown.parts; i++) {
        uint32_t number;
        h26x_h265_part_copy(&depacketizer, i, room, ROOM, &number);
    }
    h26x_depacketizer_free(depacketizer);
    free(packet);
}

static void empty_units(uint32_t codec, size_t size) { aggregate(codec, 0, size); }
static void units_of_2(uint32_t codec, size_t size) { aggregate(codec, 2, size); }

/* A payload that is a text over and over, packetized into packets that are copied one by one. */
static void packetize(uint32_t codec, uint16_t mtu, const uint8_t *text, size_t len, size_t size)
{
    uint8_t *payload = memory(size + len);
    for (size_t i = 0; i < size; i += len)
        memcpy(payload + i, text, len);
    h26x_packetizer packetizer;
    taken(h26x_packetizer_new(codec, false, &packetizer));
    size_t count;
    taken(h26x_packetize(&packetizer, mtu, payload, size, &count));
    for (size_t i = 0; i < count; i++)
        h26x_packet_copy(&packetizer, i, room, ROOM);
    h26x_packetizer_free(packetizer);
    size_t begin, end, from = 0;
    for (; h26x_next_unit(codec, payload, size, from, &begin, &end); from = end)
        ;
    free(payload);
}

static void codes(uint32_t codec, size_t size)
{
    packetize(codec, 1200, (const uint8_t[]){0, 0, 1}, 3, size);
}

static void zeros(uint32_t codec, size_t size)
{
    packetize(codec, 1200, (const uint8_t[]){0}, 1, size);
}

static void short_units(uint32_t codec, size_t size)
{
    packetize(codec, 1200, (const uint8_t[]){0, 0, 1, 2, 1}, 5, size);
}

static void sets(uint32_t codec, size_t size)
{
    packetize(codec, 1200, (const uint8_t[]){0, 0, 1, codec == H26X_H264 ? 0x67 : 0x42, 0x79, 1}, 6, size);
}

static void short_packets(uint32_t codec, size_t size)
{
    packetize(codec, 20, (const uint8_t[]){7}, 1, size);
}

/* Reads parameters of SDP, asks for what they have, writes them, and answers them by themselves. */
static void format(uint32_t codec, const char *text, size_t len)
{
    const char *name = codec == H26X_H264 ? "sprop-parameter-sets" : "sprop-sps";
    h26x_sdp it = {0}, answer = {0};
    h26x_refusal why;
    if (h26x_sdp_read(codec, (const uint8_t *)text, len, &it, &why) != H26X_OK)
        return;
    size_t written, other;
    for (size_t i = 0; h26x_sdp_other(&it, i, room, 100, &written, room + 100, 100, &other) == H26X_OK; i++)
        ;
    for (size_t i = 0; h26x_sdp_unit(&it, (const uint8_t *)name, strlen(name), i, room, ROOM, &written, &why) == H26X_OK;
         i++)
        ;
    taken(h26x_sdp_write(&it, room, ROOM, &written));
    if (h26x_sdp_answer(&it, &it, &answer) == H26X_OK)
        h26x_sdp_free(answer);
    h26x_sdp_free(it);
}

/* Parameters that are a front and then a text over and over, in which # stands for a number. */
static void formats(uint32_t codec, const char *front, const char *over, size_t size)
{
    char *text = memory(size + strlen(front) + 64);
    size_t n = (size_t)sprintf(text, "%s", front);
    for (size_t i = 0; n < size; i++)
        for (const char *at = over; *at; at++)
            n += (size_t)(*at == '#' ? sprintf(text + n, "%zu", i) : sprintf(text + n, "%c", *at));
    format(codec, text, n);
    free(text);
}

static void fmtp_names(uint32_t codec, size_t size) { formats(codec, "", "x#=1;", size); }
static void fmtp_semicolons(uint32_t codec, size_t size) { formats(codec, "", " ; ", size); }
static void fmtp_braces(uint32_t codec, size_t size) { formats(codec, "", "{};=", size); }
static void fmtp_open(uint32_t codec, size_t size) { formats(codec, "", "{", size); }
static void fmtp_spaces(uint32_t codec, size_t size) { formats(codec, "a=", " ", size); }

static void fmtp_sets(uint32_t codec, size_t size)
{
    if (codec == H26X_H264)
        formats(codec, "sprop-parameter-sets=Z0I=", ",Z0I=", size);
    else
        formats(codec, "sprop-sps=QgE=", ",QgE=", size);
}

static void fmtp_points(uint32_t codec, size_t size)
{
    formats(codec, "dec-parallel-cap={w:8;max-lsr=5", ",w:8;max-lsr=5", size);
}

static void in_order(uint32_t codec, size_t size)
{
    (void)codec;
    descending(UINT32_MAX, size);
}

static void with_deadlines(uint32_t codec, size_t size)
{
    (void)codec;
    descending(1000, size);
}

/* A job, of which codecs it is, and the size to begin with: bytes, or of windows packets. */
static const struct job {
    const char *name;
    bool is_of_all;
    size_t size;
    void (*run)(uint32_t codec, size_t size);
} jobs[] = {
    {"open-run", true, 500000, open_run},
    {"empty-units", true, 1 << 13, empty_units},
    {"units-of-2", true, 1 << 13, units_of_2},
    {"codes", false, 1 << 14, codes},
    {"zeros", false, 1 << 16, zeros},
    {"short-units", true, 1 << 13, short_units},
    {"sets", true, 1 << 13, sets},
    {"short-packets", true, 1 << 13, short_packets},
    {"descending", false, 1 << 11, in_order},
    {"deadlines", false, 1 << 11, with_deadlines},
    {"both-ends", false, 1 << 12, both_ends},
    {"missing", false, 1 << 11, missing},
    {"fmtp-names", true, 1 << 12, fmtp_names},
    {"fmtp-semicolons", false, 1 << 13, fmtp_semicolons},
    {"fmtp-braces", false, 1 << 13, fmtp_braces},
    {"fmtp-open", false, 1 << 13, fmtp_open},
    {"fmtp-spaces", false, 1 << 13, fmtp_spaces},
    {"fmtp-sets", true, 1 << 12, fmtp_sets},
    {"fmtp-points", true, 1 << 12, fmtp_points},
};
static const size_t count = sizeof jobs / sizeof jobs[0];
static const uint32_t codecs[] = {H26X_H264, H26X_H265, H26X_H266};

static void list(void)
{
    for (size_t i = 0; i < count; i++)
        for (size_t of = 0; of < (jobs[i].is_of_all ? 3 : 1); of++)
            printf("%s-%u %zu\n", jobs[i].name, (unsigned)codecs[of], jobs[i].size);
}

int main(int argc, char **argv)
{
    if (argc != 3) {
        list();
        return 0;
    }
    room = memory(ROOM);
    const char *end = strrchr(argv[1], '-');
    for (size_t i = 0; end != NULL && i < count; i++) {
        if (strncmp(jobs[i].name, argv[1], (size_t)(end - argv[1])) == 0
            && strlen(jobs[i].name) == (size_t)(end - argv[1])) {
            jobs[i].run((uint32_t)strtoul(end + 1, NULL, 10), strtoul(argv[2], NULL, 10));
            return 0;
        }
    }
    return 4;
}
