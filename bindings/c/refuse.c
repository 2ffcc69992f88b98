/* Has each request for memory of each call refused: the request alone, and it and all later ones.
 * The call then answers H26X_OUT_OF_MEMORY and leaves its handle, and the same call made again
 * answers as if it had never been refused. Calls that take no memory are made with all refused.
 * Link with refusing.c and -Wl,--wrap=malloc,--wrap=realloc. */
#include "h26x.h"
#include "refusing.h"
#include <stdio.h>
#include <stdlib.h>
#include <string.h>

/* How many requests were refused. */
static unsigned long refused;

/* Grants all again. How many were refused since some were to be. */
static unsigned long grant_all(void)
{
    const unsigned long since = refuse_requests(-1, false);
    refused += since;
    return since;
}

static void expect_at(bool holds, const char *what, int line)
{
    if (!holds) {
        fprintf(stderr, "refuse.c:%d: does not hold: %s\n", line, what);
        exit(1);
    }
}
#define expect(what) expect_at(what, #what, __LINE__)

/* Makes a call with its request 0, 1, .. refused, until none is. `kept` holds after each refusal. */
#define refuse_each(call, kept)                                               \
    do {                                                                      \
        bool was_refused = true;                                              \
        for (long n = 0; was_refused; n++) {                                  \
            refuse_requests(n / 2, n % 2 == 0);                               \
            const uint32_t code = (call);                                     \
            was_refused = grant_all() > 0;                                    \
            expect(code == (was_refused ? H26X_OUT_OF_MEMORY : H26X_OK));     \
            expect(!was_refused || (kept));                                   \
        }                                                                     \
    } while (0)

/* Evaluates `what` with every request refused; there must be none. */
#define without_memory(what)                    \
    do {                                        \
        refuse_requests(0, false);              \
        expect(what);                           \
        expect(grant_all() == 0);               \
    } while (0)

/* A codec, two sets that wait, a unit of a keyframe, and how the packets of it begin: that of the
 * sets, the first fragment, one between, and the last. */
struct codec {
    uint32_t number;
    const char *sets, *unit, *begins[4];
    size_t sets_len, unit_header, fragment_header;
};

static const struct codec codecs[] = {
    {H26X_H264, "\0\0\1\x67\1\0\0\1\x68\2", "\x65", {"\x78", "\x7c\x85", "\x7c\x05", "\x7c\x45"},
     10, 1, 2},
    {H26X_H265, "\0\0\1\x42\1\3\0\0\1\x44\1\4", "\x26\1",
     {"\x60\1", "\x62\1\x93", "\x62\1\x13", "\x62\1\x53"}, 12, 2, 3},
    {H26X_H266, "\0\0\1\0\x79\3\0\0\1\0\x81\4", "\0\x39",
     {"\0\xe1", "\0\xe9\x87", "\0\xe9\x07", "\0\xe9\x47"}, 12, 2, 3},
};

enum { DATA = 250, LIMIT = 100, ROOM = 4096 };

static uint8_t unit[ROOM], packet[ROOM], to[ROOM];

/* Whether the packetizer holds the packets of the unit: the sets, and three fragments. */
static bool holds_packets(h26x_packetizer *p, const struct codec *c)
{
    size_t data = 0;
    for (size_t i = 0; i < 4; i++) {
        size_t header = i == 0 ? c->fragment_header - 1 : c->fragment_header;
        size_t len = h26x_packet_copy(p, i, packet, sizeof packet);
        if (len < header || memcmp(packet, c->begins[i], header) != 0)
            return false;
        data += i == 0 ? 0 : len - header;
    }
    return h26x_packet_count(p) == 4 && data == DATA;
}

/* Whether the packets stand behind each other in a copy of all, of which the second has the limit's
 * length. */
static bool copies_joined(h26x_packetizer *p)
{
    size_t ends[4];
    return h26x_packets_copy(p, 0, to, sizeof to, ends, 4) == 4 && ends[1] == ends[0] + LIMIT;
}

/* Whether the two sets are the units of a payload, each behind three bytes there. */
static bool cuts_sets(const struct codec *c)
{
    const uint8_t *sets = (const uint8_t *)c->sets;
    const size_t half = c->sets_len / 2;
    size_t begin, end = 0;
    for (size_t i = 0; i < 2; i++)
        if (!h26x_next_unit(c->number, sets, c->sets_len, end, &begin, &end)
            || begin != i * half + 3 || end != (i + 1) * half)
            return false;
    return !h26x_next_unit(c->number, sets, c->sets_len, end, &begin, &end);
}

static void refuse_sending(const struct codec *c)
{
    h26x_packetizer p = {NULL}, copy = {NULL};
    size_t count = 99;
    size_t unit_len = c->unit_header + DATA;
    refuse_each(h26x_packetizer_new(c->number, false, &p), p.at == NULL);
    refuse_each(h26x_packetize(&p, LIMIT, (const uint8_t *)c->sets, c->sets_len, &count),
                h26x_packet_count(&p) == 0);
    expect(count == 0);
    refuse_each(h26x_packetizer_clone(&p, &copy), copy.at == NULL);

    /* The sets still wait after each refusal, and the packets of the call before stay. */
    refuse_each(h26x_packetize(&p, LIMIT, unit, unit_len, &count), h26x_packet_count(&p) == 0);
    expect(count == 4 && holds_packets(&p, c));
    refuse_each(h26x_packetize(&p, LIMIT, unit, unit_len, &count), holds_packets(&p, c));
    expect(count == 3);
    refuse_each(h26x_packetize_unit(&p, LIMIT, unit, unit_len, &count),
                h26x_packet_count(&p) == 3);
    expect(count == 3);

    /* The packetizer keeps the memory of its packets: calls like those before take none. */
    without_memory(h26x_packetize(&p, LIMIT, unit, unit_len, &count) == H26X_OK && count == 3);
    without_memory(h26x_packetize_unit(&p, LIMIT, unit, unit_len, &count) == H26X_OK && count == 3);
    refuse_each(h26x_packetize(&copy, LIMIT, unit, unit_len, &count),
                h26x_packet_count(&copy) == 0);
    expect(count == 4 && holds_packets(&copy, c));

    without_memory(h26x_packet_len(&copy, 1) == LIMIT && h26x_packet_count(&copy) == 4);
    without_memory(holds_packets(&copy, c) && copies_joined(&copy));
    without_memory(cuts_sets(c));
    without_memory(h26x_packetizer_set_numbers(&copy, false)
                   == (c->number == H26X_H264 ? H26X_NOT_OF_THIS_CODEC : H26X_OK));
    without_memory(h26x_packetizer_set_max_size(&copy, 4)
                   == (c->number == H26X_H264 ? H26X_NOT_OF_THIS_CODEC : H26X_OK));
    without_memory(h26x_packetizer_set_lowest_header(&copy, true)
                   == (c->number == H26X_H264 ? H26X_NOT_OF_THIS_CODEC : H26X_OK));

    h26x_packetizer_free(p);
    h26x_packetizer_free(copy);
}

/* Packets straight in the caller's memory: a refusal leaves that, and the sets wait after each. */
static void refuse_placing(const struct codec *c)
{
    h26x_packetizer p;
    size_t count = 99, size = 99, ends[4] = {0};
    size_t unit_len = c->unit_header + DATA;
    expect(h26x_packetizer_new(c->number, false, &p) == H26X_OK);
    memset(to, 0xee, sizeof to);
    refuse_each(h26x_packetize_into(&p, LIMIT, (const uint8_t *)c->sets, c->sets_len, 2, to, sizeof to, ends, 4,
                                    &count, &size), count == 0 && size == 0);
    refuse_each(h26x_packets_size(&p, LIMIT, unit, unit_len, 2, &count, &size), count == 0 && size == 0);
    expect(count == 4);
    const size_t told = size;
    refuse_each(h26x_packetize_into(&p, LIMIT, unit, unit_len, 2, to, sizeof to, ends, 4, &count, &size),
                count == 0 && size == 0 && to[2] == 0xee && ends[0] == 0);
    expect(count == 4 && size == told && ends[3] == size && to[0] == 0xee && to[size] == 0xee);
    expect(memcmp(to + 2, c->begins[0], c->fragment_header - 1) == 0);
    memset(to, 0xee, sizeof to);
    refuse_each(h26x_packetize_unit_into(&p, LIMIT, unit, unit_len, 0, to, sizeof to, ends, 4, &count, &size),
                count == 0 && size == 0 && to[0] == 0xee);
    expect(count == 3 && memcmp(to, c->begins[1], c->fragment_header) == 0);
    h26x_packetizer_free(p);
}

/* Packets of all units: the list of units takes memory too, and a unit that can't go is named once there is some. */
static void refuse_every_unit(const struct codec *c)
{
    h26x_packetizer p;
    h26x_refusal why = {7, 7};
    size_t count = 99, size = 99, ends[4] = {0};
    const uint8_t *sets = (const uint8_t *)c->sets;
    expect(h26x_packetizer_new(c->number, false, &p) == H26X_OK);
    memset(to, 0xee, sizeof to);
#define none_told() (why.first == 0 && why.second == 0 && (why.first = why.second = 7))
    refuse_each(h26x_units_size(&p, LIMIT, sets, c->sets_len, 2, &count, &size, &why),
                count == 0 && size == 0 && none_told());
    expect(count == 1 && why.first == 7);
    const size_t told = size;
    refuse_each(h26x_packetize_units(&p, LIMIT, sets, c->sets_len, &count, &why),
                count == 0 && h26x_packet_count(&p) == 0 && none_told());
    expect(count == 1 && why.first == 7);
    refuse_each(h26x_packetize_units(&p, LIMIT, sets, c->sets_len, &count, &why), count == 1 && none_told());
    refuse_each(h26x_packetize_units_into(&p, LIMIT, sets, c->sets_len, 2, to, sizeof to, ends, 4, &count, &size, &why),
                count == 0 && size == 0 && to[2] == 0xee && ends[0] == 0 && none_told());
#undef none_told
    expect(count == 1 && size == told && ends[0] == size && to[0] == 0xee && to[size] == 0xee);
    expect(memcmp(to + 2, c->begins[0], c->fragment_header - 1) == 0);

    refuse_requests(0, false);
    const uint32_t code = h26x_packetize_units(&p, LIMIT, (const uint8_t *)"\xff\xff", 2, &count, &why);
    expect(grant_all() > 0 && code == H26X_OUT_OF_MEMORY && count == 1);
    expect(h26x_packetize_units(&p, LIMIT, (const uint8_t *)"\xff\xff", 2, &count, &why) == H26X_UNIT_FORBIDDEN);
    expect(count == 1 && why.first == 0 && why.second == 2);
    without_memory(h26x_packetizer_set_packing(&p, H26X_APART) == H26X_OK);
    without_memory(h26x_packetizer_set_delimiters(&p, false) == H26X_OK);

    /* Where delimiters are left out, a unit that can't go takes memory for its place among all. */
    uint32_t refused_code;
    long granted = 0;
    do {
        refuse_requests(granted++, false);
        refused_code = h26x_packetize_units(&p, LIMIT, (const uint8_t *)"\xff\xff", 2, &count, &why);
        expect((grant_all() > 0) == (refused_code == H26X_OUT_OF_MEMORY) && count == 1);
    } while (refused_code == H26X_OUT_OF_MEMORY);
    expect(granted >= 2 && refused_code == H26X_UNIT_FORBIDDEN && why.first == 0 && why.second == 2);

    /* Over 16 units stand in a list. */
    static const uint8_t unit[6] = {0, 0, 1, 2, 1, 0x9a};
    uint8_t units[17 * sizeof unit];
    for (size_t i = 0; i < sizeof units; i++)
        units[i] = unit[i % sizeof unit];
    refuse_each(h26x_packetize_units(&p, LIMIT, units, sizeof units, &count, &why), count == 1 && why.first == 0);
    expect(count == 17);
    expect(h26x_packetize_units(&p, LIMIT, sets, c->sets_len, &count, NULL) == H26X_OK && count == 2);
    h26x_packetizer_free(p);
}

/* Bytes of a text that may have zeros. */
struct text {
    const void *at;
    size_t len;
};
#define BYTES(text) {text, sizeof text - 1}

/* Bytes that are sent as a payload or as a unit as it is, within a limit. */
struct sent {
    bool as_it_is;
    size_t limit;
    struct text bytes;
};

/* Calls, and the packets of all of them. */
static const struct placing {
    uint32_t codec;
    bool numbers;
    struct sent sent[6];
    struct text packets[8];
} placings[] = {
    /* A PPS and a unit in fragments, an SPS as it is and one that waits, and the sets before a unit. */
    {H26X_H264, false,
     {{false, 5, BYTES("\0\0\1\10\11\0\0\1\x65\1\2\3\4\5\6")}, {true, 9, BYTES("\7\5")},
      {false, 9, BYTES("\7\6")}, {true, 5, BYTES("\x65\1\2\3\4\5\6")}, {false, 9, BYTES("\5")}},
     {BYTES("\x7c\x85\1\2\3"), BYTES("\x7c\x45\4\5\6"), BYTES("\7\5"), BYTES("\x7c\x85\1\2\3"),
      BYTES("\x7c\x45\4\5\6"), BYTES("\x78\0\2\7\6\0\2\10\11"), BYTES("\5")}},
    /* Sets that wait, a unit as it is, and the sets before a unit. */
    {H26X_H265, false,
     {{false, 17, BYTES("\0\0\1\x40\1\x0c\0\0\1\x42\1\1\0\0\1\x44\1\xc1")},
      {true, 4, BYTES("\x26\1\xaa\xbb\xcc")}, {false, 17, BYTES("\x26\1\xaf")}},
     {BYTES("\x62\1\x93\xaa"), BYTES("\x62\1\x13\xbb"), BYTES("\x62\1\x53\xcc"),
      BYTES("\x60\1\0\3\x40\1\x0c\0\3\x42\1\1\0\3\x44\1\xc1"), BYTES("\x26\1\xaf")}},
    /* Units with numbers. */
    {H26X_H265, true,
     {{false, 5, BYTES("\2\1\xaa")}, {true, 6, BYTES("\2\1\xaa\xbb\xcc")}, {false, 5, BYTES("\2\1\xaa")}},
     {BYTES("\2\1\0\0\xaa"), BYTES("\x62\1\x81\0\1\xaa"), BYTES("\x62\1\x41\xbb\xcc"),
      BYTES("\2\1\0\2\xaa")}},
    {H26X_H266, false,
     {{false, 1200, BYTES("\0\0\1\0\x79\xbb\0\0\1\x80\x81\xcc")}, {true, 4, BYTES("\0\11\xaa\xaa\xaa")},
      {false, 1200, BYTES("\0\x39\xdd")}},
     {BYTES("\0\xe9\x81\xaa"), BYTES("\0\xe9\1\xaa"), BYTES("\0\xe9\x41\xaa"),
      BYTES("\x80\xe1\0\3\0\x79\xbb\0\3\x80\x81\xcc"), BYTES("\0\x39\xdd")}},
    {H26X_H266, true,
     {{false, 5, BYTES("\0\11\xaa")}, {true, 6, BYTES("\0\11\xaa\xbb\xcc")}, {false, 5, BYTES("\0\11\xaa")}},
     {BYTES("\0\11\0\0\xaa"), BYTES("\0\xe9\x81\0\1\xaa"), BYTES("\0\xe9\x41\xbb\xcc"),
      BYTES("\0\11\0\2\xaa")}},
};

/* Places what is sent, each packet behind one byte. */
static uint32_t place(h26x_packetizer *p, const struct sent *sent, size_t ends[4], size_t *count, size_t *size)
{
    const struct text *it = &sent->bytes;
    if (sent->as_it_is)
        return h26x_packetize_unit_into(p, sent->limit, it->at, it->len, 1, to, 32, ends, 4, count, size);
    return h26x_packetize_into(p, sent->limit, it->at, it->len, 1, to, 32, ends, 4, count, size);
}

/* Whether the memory and the ends are as they were. */
static bool is_as_before(const size_t ends[4])
{
    for (size_t i = 0; i < 32; i++)
        if (to[i] != 0xee)
            return false;
    return ends[0] == 99 && ends[1] == 99 && ends[2] == 99 && ends[3] == 99;
}

/* Each call's packets in the caller's memory, to the byte; a refusal leaves that, and what they come from. */
static void refuse_each_placing(const struct placing *it)
{
    const struct text *packet_at = it->packets;
    const unsigned long before = refused;
    h26x_packetizer p = {NULL};
    expect(h26x_packetizer_new(it->codec, it->numbers, &p) == H26X_OK);
    for (const struct sent *sent = it->sent; sent->limit != 0; sent++) {
        size_t count = 99, size = 98, start = 0, ends[4] = {99, 99, 99, 99};
        memset(to, 0xee, sizeof to);
        refuse_each(place(&p, sent, ends, &count, &size), count == 0 && size == 0 && is_as_before(ends));
        for (size_t i = 0; i < count; i++, packet_at++) {
            expect(packet_at->len == ends[i] - start - 1 && to[start] == 0xee);
            expect(memcmp(to + start + 1, packet_at->at, packet_at->len) == 0);
            start = ends[i];
        }
        expect(start == size && to[size] == 0xee && (count == 4 || ends[count] == 99));
    }
    expect(packet_at->at == NULL && refused > before);
    h26x_packetizer_free(p);
}

/* The size of two fragments, each behind one byte. */
static void refuse_size(void)
{
    const unsigned long before = refused;
    h26x_packetizer p = {NULL};
    size_t count = 99, size = 98;
    expect(h26x_packetizer_new(H26X_H264, false, &p) == H26X_OK);
    refuse_each(h26x_packets_size(&p, 5, (const uint8_t *)"\x65\1\2\3\4\5\6", 7, 1, &count, &size),
                count == 0 && size == 0);
    expect(count == 2 && size == 12 && refused > before);
    h26x_packetizer_free(p);
}

/* Units without a whole header, and one for whose fragments there is no room, aren't placed. */
static void place_nothing(uint32_t codec, bool numbers)
{
    static const struct sent of_h264[] = {{true, 1500, BYTES("")}, {true, 0, BYTES("\x65")},
                                          {true, 2, BYTES("\x65\1\2")}};
    static const struct sent of_others[] = {{true, 1500, BYTES("")}, {true, 1500, BYTES("\2")},
                                            {true, 3, BYTES("\2\1\xaa")}, {true, 3, BYTES("\2\1\xaa\xbb")}};
    const bool is_h264 = codec == H26X_H264;
    h26x_packetizer p = {NULL};
    expect(h26x_packetizer_new(codec, numbers, &p) == H26X_OK);
    for (size_t i = 0; i < (is_h264 ? 3 : 4); i++) {
        const struct sent *sent = is_h264 ? &of_h264[i] : &of_others[i];
        size_t count = 99, size = 98;
        without_memory(h26x_packetize_unit_into(&p, sent->limit, sent->bytes.at, sent->bytes.len, 1, NULL, 0, NULL, 0,
                                                &count, &size) == H26X_OK);
        expect(count == 0 && size == 0);
    }
    h26x_packetizer_free(p);
}

static void refuse_receiving(const struct codec *c)
{
    h26x_packetizer p;
    h26x_depacketizer d = {NULL}, before = {NULL};
    size_t count, written = 0, total = 0;
    uint8_t extra = 0;
    h26x_refusal why;
    h26x_h265_packet shown;
    uint32_t number;
    expect(h26x_packetizer_new(c->number, false, &p) == H26X_OK);
    expect(h26x_packetize(&p, LIMIT, (const uint8_t *)c->sets, c->sets_len, &count) == H26X_OK);
    expect(h26x_packetize(&p, LIMIT, unit, c->unit_header + DATA, &count) == H26X_OK && count == 4);
    refuse_each(h26x_depacketizer_new(c->number, false, &d), d.at == NULL);
    for (size_t i = 0; i < count; i++) {
        size_t len = h26x_packet_copy(&p, i, packet, sizeof packet);
        uint8_t told = extra;
        refuse_each(h26x_depacketizer_clone(&d, &before), before.at == NULL);
        refuse_each(h26x_depacketize(&d, false, packet, len, to + total, ROOM - total, &written,
                                     &extra, &why),
                    written == 0 && extra == told && h26x_depacketizer_same(&d, &before));
        without_memory(h26x_written_copy(&d, packet, sizeof packet) == 0);
        h26x_depacketizer_free(before);
        before.at = NULL;
        total += written;
    }
    /* The two sets behind start codes of four bytes, then the unit. */
    expect(memcmp(to, "\0\0\0\1", 4) == 0 && extra == 2);
    expect(total == c->sets_len + 2 + 4 + c->unit_header + DATA);
    expect(memcmp(to + total - c->unit_header - DATA, unit, c->unit_header + DATA) == 0);

    without_memory(h26x_h265_shown(&d, &shown)
                   == (c->number == H26X_H265 ? H26X_OK : H26X_NOT_OF_THIS_CODEC));
    without_memory((h26x_h265_part_copy(&d, 0, packet, sizeof packet, &number) > 0)
                   == (c->number == H26X_H265));
    without_memory(h26x_give_up_run(&d) == H26X_OK);
    without_memory(h26x_depacketizer_set_numbers(&d, false)
                   == (c->number == H26X_H264 ? H26X_NOT_OF_THIS_CODEC : H26X_OK));
    h26x_packetizer_free(p);
    h26x_depacketizer_free(d);
}

/* Packets with their numbers: one that is refused can be given again, behind a gap too, where the
 * open unit stays until it is taken. */
static void refuse_receiving_sequenced(const struct codec *c)
{
    h26x_packetizer p;
    h26x_receiver r = {{NULL}}, copy = {{NULL}};
    size_t count, written = 0, total = 0, run_len = 0;
    uint8_t extra = 0;
    uint32_t received = 9;
    uint16_t missing = 9;
    h26x_refusal why;
    h26x_h265_packet shown;
    expect(h26x_packetizer_new(c->number, false, &p) == H26X_OK);
    expect(h26x_packetize(&p, LIMIT, (const uint8_t *)c->sets, c->sets_len, &count) == H26X_OK);
    expect(h26x_packetize(&p, LIMIT, unit, c->unit_header + DATA, &count) == H26X_OK && count == 4);
    refuse_each(h26x_receiver_new(c->number, false, false, 1000, &r), r.at.at == NULL);

    /* An open unit of which the end is missing. */
    for (size_t i = 1; i < 3; i++) {
        size_t len = h26x_packet_copy(&p, i, packet, sizeof packet);
        refuse_each(h26x_receive(&r, 65532 + i, packet, len, to, ROOM, &written, &extra, &received,
                                 &missing, &why),
                    written == 0 && extra == 0 && received == (i == 1 ? 9 : H26X_IN_ORDER)
                        && h26x_receiver_run_len(&r) == run_len);
        expect(received == H26X_IN_ORDER && missing == 0);
        run_len = h26x_receiver_run_len(&r);
    }
    expect(run_len > LIMIT);
    refuse_each(h26x_receiver_clone(&r, &copy), copy.at.at == NULL);
    h26x_receiver_free(copy);

    for (size_t i = 0; i < count; i++) {
        size_t len = h26x_packet_copy(&p, i, packet, sizeof packet);
        uint8_t told = extra;
        refuse_each(h26x_receive(&r, i, packet, len, to + total, ROOM - total, &written, &extra,
                                 &received, &missing, &why),
                    written == 0 && extra == told && h26x_receiver_run_len(&r) == run_len);
        expect(i == 0 ? received == H26X_GAP && missing == 1 : received == H26X_IN_ORDER);
        run_len = h26x_receiver_run_len(&r);
        without_memory(h26x_written_copy(&r.at, packet, sizeof packet) == 0);
        total += written;
    }
    expect(total == c->sets_len + 2 + 4 + c->unit_header + DATA && extra == 2);
    expect(memcmp(to + total - c->unit_header - DATA, unit, c->unit_header + DATA) == 0);

    without_memory(h26x_receive(&r, 3, packet, 4, to, ROOM, &written, &extra, &received, &missing, &why)
                       == H26X_OK
                   && received == H26X_LATE && missing == 1);
    without_memory(h26x_h265_shown(&r.at, &shown)
                   == (c->number == H26X_H265 ? H26X_OK : H26X_NOT_OF_THIS_CODEC));
    without_memory(h26x_receiver_set_avc(&r, true) == H26X_OK);
    without_memory(h26x_receiver_set_numbers(&r, false)
                   == (c->number == H26X_H264 ? H26X_NOT_OF_THIS_CODEC : H26X_OK));
    without_memory(h26x_receiver_skip(&r, 4, &received, &missing) == H26X_OK);
    without_memory(h26x_receiver_restart(&r) == H26X_OK && h26x_receiver_run_len(&r) == 0);
    h26x_packetizer_free(p);
    h26x_receiver_free(r);
}

/* A fragment of a codec: which one, of so many bytes. */
static size_t fragment(const struct codec *c, size_t which, size_t data, uint8_t byte)
{
    memset(packet, byte, sizeof packet);
    memcpy(packet, c->begins[which], c->fragment_header);
    return c->fragment_header + data;
}

/* Gives the fragment in `packet` to a receiver without room: a refusal leaves what the one before completed. */
static void give(h26x_receiver *r, uint16_t sequence, size_t len)
{
    const size_t kept = h26x_written_copy(&r->at, NULL, 0), run_len = h26x_receiver_run_len(r);
    const unsigned long before = refused;
    size_t written = 9;
    uint8_t told = 0;
    uint32_t received = 9;
    uint16_t missing = 9;
    h26x_refusal why;
    refuse_each(h26x_receive(r, sequence, packet, len, NULL, 0, &written, &told, &received, &missing, &why),
                written == 0 && told == 0 && received == 9 && h26x_receiver_run_len(r) == run_len
                    && h26x_written_copy(&r->at, NULL, 0) == kept);
    expect(received == H26X_IN_ORDER && missing == 0 && refused > before);
}

/* Gives the last fragment of the unit, which is kept whole. */
static void give_end(const struct codec *c, h26x_receiver *r)
{
    static const uint8_t bytes[3] = {0xaa, 0xbb, 0xcc}, lens[3] = {40, 100, 40};
    give(r, 1, fragment(c, 3, 40, 0xcc));
    memcpy(to, "\0\0\0\1", 4);
    memcpy(to + 4, c->unit, c->unit_header);
    size_t len = 4 + c->unit_header;
    for (size_t i = 0; i < 3; len += lens[i], i++)
        memset(to + len, bytes[i], lens[i]);
    expect(h26x_written_copy(&r->at, packet, sizeof packet) == len && memcmp(packet, to, len) == 0);
}

/* What is completed without room is kept, of a copy too. */
static void refuse_keeping(const struct codec *c)
{
    const unsigned long before = refused;
    h26x_receiver r = {{NULL}}, copy = {{NULL}};
    expect(h26x_receiver_new(c->number, false, false, 1000, &r) == H26X_OK);
    give(&r, 65535, fragment(c, 1, 40, 0xaa));
    give(&r, 0, fragment(c, 2, 100, 0xbb));
    refuse_each(h26x_receiver_clone(&r, &copy), copy.at.at == NULL);
    expect(refused > before);
    give_end(c, &r);
    give_end(c, &copy);
    h26x_receiver_free(copy);
    h26x_receiver_free(r);
}

/* Units that are packets, for which there is room, or is kept; and a start with room for all that it could
 * complete: memory for its unit is all that can lack. */
static void receive_with_room(void)
{
    h26x_depacketizer d = {NULL};
    h26x_receiver r = {{NULL}};
    size_t written = 0;
    uint8_t told = 0;
    uint32_t received;
    memset(packet, 0x61, sizeof packet);
    expect(h26x_depacketizer_new(H26X_H264, false, &d) == H26X_OK);
    without_memory(h26x_depacketize(&d, false, packet, 60, to, 64, &written, &told, NULL) == H26X_OK);
    expect(written == 64 && to[4] == 0x61);
    for (int i = 0; i < 2; i++)
        expect(h26x_depacketize(&d, false, packet, 60, NULL, 0, &written, &told, NULL) == H26X_OK && written == 64);
    without_memory(h26x_depacketize(&d, false, packet, 60, NULL, 0, &written, &told, NULL) == H26X_OK);
    h26x_depacketizer_free(d);

    const size_t len = fragment(&codecs[0], 1, 41, 9);
    unsigned long before = refused;
    expect(h26x_depacketizer_new(H26X_H264, false, &d) == H26X_OK);
    refuse_each(h26x_depacketize(&d, false, packet, len, to, 64, &written, &told, NULL), written == 0);
    expect(refused > before);
    before = refused;
    expect(h26x_receiver_new(H26X_H264, false, false, 1000, &r) == H26X_OK);
    refuse_each(h26x_receive(&r, 7, packet, len, to, 64, &written, &told, &received, NULL, NULL),
                h26x_receiver_run_len(&r) == 0);
    expect(refused > before);
    h26x_depacketizer_free(d);
    h26x_receiver_free(r);
}

/* Fragments without a start, one that is late and one that is refused, a unit that has room, settings and a
 * restart take no memory. */
static void receive_without_memory(void)
{
    static const uint8_t middle[] = {0, 0xe9, 7, 1}, one[] = {0, 0x39, 0xff, 0xff, 0xcc, 0xdd};
    h26x_receiver r = {{NULL}};
    size_t written = 0;
    uint8_t told = 0;
    uint32_t received = 9;
    uint16_t count = 9;
    expect(h26x_receiver_new(H26X_H266, false, false, 1000, &r) == H26X_OK);
    without_memory(h26x_receiver_set_avc(&r, true) == H26X_OK && h26x_receiver_set_numbers(&r, true) == H26X_OK);
    without_memory(h26x_receive(&r, 9, middle, 4, to, 8, &written, &told, &received, &count, NULL) == H26X_OK);
    expect(received == H26X_IN_ORDER && count == 0);
    without_memory(h26x_receive(&r, 9, middle, 4, to, 8, &written, &told, &received, &count, NULL) == H26X_OK);
    expect(received == H26X_LATE && count == 1);
    without_memory(h26x_receive(&r, 20, middle, 0, to, 8, &written, &told, &received, &count, NULL)
                   == H26X_SHORT_PACKET);
    without_memory(h26x_receive(&r, 10, one, 6, to, 8, &written, &told, &received, &count, NULL) == H26X_OK);
    expect(received == H26X_IN_ORDER && count == 0 && written == 8 && memcmp(to, "\0\0\0\4\0\x39\xcc\xdd", 8) == 0);
    without_memory(h26x_receiver_restart(&r) == H26X_OK && h26x_receiver_run_len(&r) == 0);
    expect(h26x_written_copy(&r.at, packet, sizeof packet) == 0);
    h26x_receiver_free(r);
}

/* Packets as a network brings them: one that is refused can be given again, and an access unit for which
 * memory lacks is given out by a later call; one that had no room, without memory. */
static void refuse_receiving_units(const struct codec *c)
{
    const h26x_access_units_config config = {
        .codec = c->number, .max_wait = 50, .begin_wait = UINT32_MAX, .window = 16, .held_limit = ROOM,
        .run_limit = ROOM, .unit_limit = ROOM};
    h26x_packetizer p;
    h26x_access_units u = {NULL};
    h26x_access_unit told = {.len = 9};
    h26x_access_units_counts counts;
    size_t count, missing = 9, wanted = c->sets_len + 2 + 4 + c->unit_header + DATA;
    uint32_t pushed = 9, at = 9;
    uint16_t behind = 9, numbers[8] = {9};
    const h26x_nack_times times = {0, 60, 2};
    expect(h26x_packetizer_new(c->number, false, &p) == H26X_OK);
    expect(h26x_packetize(&p, LIMIT, (const uint8_t *)c->sets, c->sets_len, &count) == H26X_OK);
    expect(h26x_packetize(&p, LIMIT, unit, c->unit_header + DATA, &count) == H26X_OK && count == 4);
    refuse_each(h26x_access_units_new(&config, &u), u.at == NULL);
    without_memory(h26x_access_units_next(&u, 0, to, ROOM, &told) == H26X_NOTHING_YET);
    without_memory(h26x_access_units_begin_at(&u, 9, &at) == H26X_OK && at == 1);
    without_memory(h26x_access_units_restart(&u) == H26X_OK);
    for (size_t i = count; i-- > 0;) {
        const size_t len = h26x_packet_copy(&p, i, packet, sizeof packet);
        pushed = behind = 9;
        refuse_each(h26x_access_units_push(&u, 7, 10 + i, 3000, i == 3, packet, len, &pushed, &behind),
                    pushed == 9 && behind == 9);
        expect(pushed == H26X_HELD && behind == 0);
    }
    pushed = 9;
    refuse_each(h26x_access_units_skip(&u, 7, 20, &pushed, &behind), pushed == 9);
    refuse_each(h26x_access_units_missing(&u, numbers, 8, &missing), missing == 0 && numbers[0] == 9);
    expect(missing == 6 && numbers[0] == 14 && numbers[5] == 19);
    numbers[0] = 9;
    refuse_each(h26x_access_units_nacks(&u, 7, &times, numbers, 2, &missing), missing == 0 && numbers[0] == 9);
    expect(missing == 2 && numbers[0] == 14 && numbers[1] == 15);
    refuse_each(h26x_access_units_nacks(&u, 7, &times, numbers, 8, &missing), missing == 0 && numbers[0] == 14);
    expect(missing == 4 && numbers[0] == 16 && numbers[3] == 19);
    without_memory(!h26x_access_units_so_far(&u, 0, to, ROOM, NULL));
    without_memory(h26x_access_units_deadline(&u, &at) && at == 57);
    without_memory(h26x_access_units_begin_at(&u, 9, &at) == H26X_OK && at == 0);
    refuse_each(h26x_access_units_next(&u, 57, to, ROOM, &told), told.len == 9);
    expect(told.len == wanted && memcmp(to + wanted - c->unit_header - DATA, unit, c->unit_header + DATA) == 0);

    /* One that has no room. */
    refuse_each(h26x_access_units_push(&u, 60, 17, 6000, true, unit, 9, NULL, NULL), true);
    expect(h26x_access_units_next(&u, 60, to, 12, &told) == H26X_NO_ROOM && told.len == 13);
    without_memory(h26x_access_units_next(&u, 60, to, 12, &told) == H26X_NO_ROOM);
    without_memory(h26x_access_units_restart(&u) == H26X_OK);
    without_memory(h26x_access_units_next(&u, 60, to, 13, &told) == H26X_OK && told.first == 17);
    without_memory(h26x_access_units_finish(&u) == H26X_OK);
    without_memory(h26x_access_units_count(&u, &counts) == H26X_OK && counts.taken == 5 && counts.units == 2);
    h26x_packetizer_free(p);
    h26x_access_units_free(u);
}

/* Datagrams: one that is refused can be given again, and an access unit for which memory lacks is given out by a later
 * call; one that had no room, without memory. */
static void refuse_receiving_datagrams(const struct codec *c)
{
    const h26x_access_units_config config = {
        .codec = c->number, .max_wait = 50, .window = 16, .held_limit = ROOM, .run_limit = ROOM, .unit_limit = ROOM};
    const h26x_rtp_payload_types types = {.media = 96, .rtx = 97, .has_rtx = true};
    const h26x_nack_times times = {0, 60, 2};
    h26x_rtp_header header = {.payload_type = 96, .ssrc = 1, .sequence = 10};
    h26x_rtp_receiver r = {NULL};
    h26x_rtp_told told = {.became = 9};
    h26x_rtp_sources sources = {.media = 9};
    h26x_rtp_statistics counted;
    h26x_so_far so_far;
    h26x_access_unit unit_told = {.first = 9};
    h26x_access_units_counts counts;
    h26x_report report;
    uint16_t numbers[8] = {9};
    size_t len = 0, count = 9;
    uint32_t at = 9;
    refuse_each(h26x_rtp_receiver_new(&config, &types, &r), r.at == NULL);
    for (header.sequence = 10; header.sequence < 14; header.sequence += 2, header.timestamp += 3000) {
        header.marker = header.sequence == 12;
        expect(h26x_rtp_write(&header, NULL, 0, NULL, 0, unit, 9, NULL, 0, packet, ROOM, &len) == H26X_OK);
        told.became = 9;
        refuse_each(h26x_rtp_receiver_push(&r, 0, 0, packet, len, &told), told.became == 9);
        expect(told.became == H26X_RTP_TAKEN && told.sequence == header.sequence && told.pushed == H26X_HELD);
        expect(h26x_rtp_receiver_next(&r, 0, to, ROOM, &unit_told) == H26X_NOTHING_YET);
    }
    without_memory(h26x_rtp_receiver_push(&r, 0, 0, packet, len, &told) == H26X_OK && told.pushed == H26X_TWICE);
    without_memory(h26x_rtp_receiver_push(&r, 0, 0, packet, 11, &told) == H26X_RTP_TOO_SHORT);
    refuse_each(h26x_rtp_receiver_nacks(&r, 0, &times, numbers, 8, &count), count == 0 && numbers[0] == 9);
    expect(count == 1 && numbers[0] == 11);
    without_memory(h26x_rtp_receiver_so_far(&r, 4, to, ROOM, &so_far) && so_far.len == 9);
    without_memory(h26x_rtp_receiver_deadline(&r, &at) && at == 50);
    without_memory(h26x_rtp_receiver_sources(&r, &sources) == H26X_OK && sources.media == 1 && sources.has_media);

    /* A retransmission of which the SSRC doesn't tell what it is of. */
    packet[0] = 0x80;
    packet[1] = 97;
    packet[11] = 2;
    packet[12] = 0;
    packet[13] = 11;
    told.became = 9;
    refuse_each(h26x_rtp_receiver_push(&r, 1, 0, packet, 14, &told), told.became == 9);
    expect(told.is_recovered && told.sequence == 11 && told.no_media == H26X_RTP_PADDING_ALONE);
    refuse_each(h26x_rtp_receiver_next(&r, 50, to, ROOM, &unit_told), unit_told.first == 9);
    expect(unit_told.first == 10 && unit_told.len == 13 && unit_told.missing == 0);
    expect(h26x_rtp_receiver_next(&r, 50, to, 12, &unit_told) == H26X_NO_ROOM && unit_told.first == 12);
    without_memory(h26x_rtp_receiver_follow(&r, &sources) == H26X_OK);
    without_memory(h26x_rtp_receiver_next(&r, 50, to, 13, &unit_told) == H26X_OK && unit_told.len == 13);
    without_memory(h26x_rtp_receiver_statistics(&r, &counted) == H26X_OK && counted.received == 0);
    without_memory(h26x_rtp_receiver_report(&r, 0, 0, &report) && report.ssrc == 1);
    without_memory(!h26x_rtp_receiver_keyframe_wanted(&r, 0, 0) && h26x_rtp_receiver_finish(&r) == H26X_OK);
    without_memory(h26x_rtp_receiver_set_config(&r, &config) == H26X_OK);
    without_memory(h26x_rtp_receiver_count(&r, &counts) == H26X_OK && counts.taken == 2 && counts.units == 2);
    h26x_rtp_receiver_free(r);
}

/* Packets that are sent: for what is held of them memory may lack, and then nothing is sent. */
static void refuse_sending_datagrams(void)
{
    const h26x_rtp_streams streams = {1, 2, 10, 20, 96, 97, true};
    const size_t ends[2] = {40, 90};
    h26x_rtp_sender s = {NULL};
    h26x_rtp_streams told;
    h26x_rtp_sent sent;
    size_t len = 9;
    refuse_each(h26x_rtp_sender_new(&streams, 100, &s), s.at == NULL);
    for (uint16_t i = 0; i < 4; i++) {
        memset(packet, 7, 90);
        len = 9;
        refuse_each(h26x_rtp_sender_send(&s, i, 0xbede, unit, i % 2 == 0 ? 0 : 4, 20, packet, 90, ends, 2, &len),
                    len == 9 && packet[19] == 7 && packet[59] == 7);
        expect(len == (i % 2 == 0 ? 12U : 20U) && packet[19] != 7 && packet[59] != 7);
    }
    without_memory(h26x_rtp_sender_send(&s, 0, 0, NULL, 0, 11, packet, 90, ends, 2, &len) == H26X_NO_ROOM && len == 12);
    without_memory(h26x_rtp_sender_send(&s, 0, 0, NULL, 0, 20, packet, 89, ends, 2, &len) == H26X_OUT_OF_RANGE);
    without_memory(h26x_rtp_sender_resend(&s, 17, to, ROOM, &len) == H26X_OK && len == 20 + 2 + 30);
    without_memory(h26x_rtp_sender_resend(&s, 10, to, ROOM, &len) == H26X_OK && len == 0);
    without_memory(h26x_rtp_sender_streams(&s, &told) == H26X_OK && told.sequence == 18 && told.rtx_sequence == 21);
    without_memory(h26x_rtp_sender_count(&s, &sent) == H26X_OK && sent.packets == 8 && sent.bytes == 200);
    h26x_rtp_sender_free(s);
}

/* An access unit that ends behind a missing number, and the one that begins there. */
static void refuse_ending_behind_missing(const struct codec *c)
{
    const h26x_access_units_config config = {
        .codec = c->number, .max_wait = 50, .window = 8, .held_limit = ROOM, .run_limit = ROOM, .unit_limit = ROOM};
    h26x_access_units u = {NULL};
    h26x_access_unit told = {.first = 9};
    h26x_access_units_counts counts;
    expect(h26x_access_units_new(&config, &u) == H26X_OK);
    refuse_each(h26x_access_units_push(&u, 0, 10, 3000, false, unit, 9, NULL, NULL), true);
    expect(h26x_access_units_next(&u, 0, to, ROOM, &told) == H26X_NOTHING_YET);
    refuse_each(h26x_access_units_push(&u, 0, 12, 6000, true, unit, 9, NULL, NULL), true);
    refuse_each(h26x_access_units_next(&u, 50, to, ROOM, &told), told.first == 9);
    expect(told.first == 10 && told.len == 13 && told.missing == 0);
    refuse_each(h26x_access_units_next(&u, 50, to, ROOM, &told), told.first == 10);
    expect(told.first == 12 && told.len == 13 && told.missing == 1);
    expect(h26x_access_units_count(&u, &counts) == H26X_OK && counts.taken == 2 && counts.lost == 1);
    h26x_access_units_free(u);
}

/* Calls at which a text's open run goes: a skip and a packet behind a gap, one that is refused, and a restart. */
static uint32_t give_up_run(h26x_access_units *u, const struct codec *c, unsigned way)
{
    const uint8_t *begin = (const uint8_t *)c->begins[1];
    uint8_t later[9];
    h26x_access_unit told;
    memcpy(later, unit, sizeof later);
    later[c->unit_header] = 0x2a; /* no picture's first slice */
    switch (way) {
    case 0:
        expect(h26x_access_units_skip(u, 0, 14, NULL, NULL) == H26X_OK);
        return h26x_access_units_next(u, 0, to, ROOM, &told) == H26X_NOTHING_YET ? H26X_OK : H26X_NO_ROOM;
    case 1:
        return h26x_access_units_push(u, 0, 14, 5, false, later, sizeof later, NULL, NULL);
    case 2:
        return h26x_access_units_push(u, 0, 12, 5, false, begin, c->fragment_header - 1, NULL, NULL);
    default:
        return h26x_access_units_restart(u);
    }
}

/* A run that is longer than the text before it: its memory is given back for less, where there is memory for that.
 * Where there is none, not even for a smaller block, the call does the same. */
static void refuse_giving_back(const struct codec *c)
{
    const h26x_access_units_config config = {
        .codec = c->number, .max_wait = 50, .window = 1, .held_limit = ROOM, .run_limit = ROOM, .unit_limit = ROOM};
    memset(packet, 0x2a, sizeof packet);
    memcpy(packet, c->begins[1], c->fragment_header);
    for (unsigned way = 0; way < 4; way++) {
        h26x_access_units u = {NULL};
        h26x_access_unit told;
        expect(h26x_access_units_new(&config, &u) == H26X_OK);
        expect(h26x_access_units_push(&u, 0, 10, 5, false, unit, 9, NULL, NULL) == H26X_OK);
        expect(h26x_access_units_next(&u, 0, to, ROOM, &told) == H26X_NOTHING_YET);
        expect(h26x_access_units_push(&u, 0, 11, 5, false, packet, DATA, NULL, NULL) == H26X_OK);
        refuse_requests(0, false);
        const uint32_t code = give_up_run(&u, c, way);
        grant_all();
        expect(code == H26X_OK);
        expect(h26x_access_units_finish(&u) == H26X_OK);
        const uint32_t wanted = way == 3 ? H26X_NOTHING_YET : H26X_OK;
        expect(h26x_access_units_next(&u, 0, to, ROOM, &told) == wanted);
        expect(way == 3 || told.len == (way == 1 ? 26 : 13));
        h26x_access_units_free(u);
    }
}

static void refuse_packing(void)
{
    size_t len = 0;
    refuse_each(h26x_h265_paci_packet(unit, 9, unit, 3, packet, sizeof packet, &len), len == 0);
    expect(len == 14);
    without_memory(h26x_h265_paci_packet(unit, 1, unit, 3, packet, sizeof packet, &len)
                   == H26X_SHORT_PACKET);
    without_memory(h26x_h265_paci_packet(unit, 9, unit, 32, packet, sizeof packet, &len)
                   == H26X_H265_PACI_PHES_TOO_LONG);
}

static void look_without_memory(const struct codec *c)
{
    const uint8_t *sets = (const uint8_t *)c->sets;
    without_memory(h26x_is_partition_head(c->number, unit, 9));
    without_memory(h26x_is_partition_tail(c->number, true, unit, 9));
    without_memory(h26x_detect_keyframe(c->number, unit, 9));
    without_memory(h26x_begins_keyframe(c->number, false, unit, 9));
    without_memory(h26x_detect_h264_nalu(sets + 3, 2, 7) == (c->number == H26X_H264));
    without_memory((h26x_set_lowest_header(c->number, false, unit, 9), true));
    without_memory(h26x_out_size_hint(1200) == 1208);
}

/* What stands round payloads takes no memory. */
static void wrap_without_memory(void)
{
    const h26x_rtp_header header = {.sequence = 7, .payload_type = 96};
    const h26x_report report = {.ssrc = 2};
    uint16_t numbers[] = {5, 22};
    h26x_rtp_statistics statistics = {0};
    size_t len = 0, resent = 0, end = 0, count = 0;
    without_memory(h26x_rtp_write(&header, NULL, 0, NULL, 0, unit, 9, NULL, 0, packet, ROOM, &len) == H26X_OK);
    without_memory(h26x_rtp_read(packet, len, NULL) == H26X_OK && !h26x_is_rtcp(packet, len));
    without_memory(h26x_rtx_write(packet, len, 97, 8, 9, to, ROOM, &resent) == H26X_OK);
    without_memory(h26x_rtp_original(to, resent, 96, 7, NULL) == H26X_OK && resent == len + 2);
    without_memory(h26x_rtp_write_before(&header, NULL, 0, NULL, 0, false, 12, packet, ROOM, &len) == H26X_OK);
    without_memory(h26x_red_primary((const uint8_t *)"\x60", 1, NULL, NULL) == H26X_OK);
    without_memory(h26x_red_blocks((const uint8_t *)"\x60", 1, NULL, 0, &count) == H26X_OK && count == 0);
    without_memory(h26x_rtp_element_next(0xbede, (const uint8_t *)"\x10", 2, 0, NULL) == H26X_OK);
    without_memory(h26x_pli_write(1, 2, to, ROOM, &len) == H26X_OK && h26x_pli_read(to, len, NULL, NULL));
    without_memory(h26x_fir_write(1, 2, 3, to, ROOM, &len) == H26X_OK && h26x_fir_read(to, len, NULL, NULL, NULL));
    without_memory(h26x_receiver_report_write(1, &report, to, ROOM, &len) == H26X_OK
                   && h26x_receiver_report_read(to, len, NULL, NULL));
    without_memory(h26x_nack_write(1, 2, numbers, 2, to, ROOM, &len, &count) == H26X_OK && count == 2);
    without_memory(h26x_nack_read(to, len, NULL, NULL, numbers, 2, &count) && count == 2);
    without_memory(h26x_rtcp_next(to, len, 0, &end) && end == len);
    without_memory(h26x_rtp_statistics_receive(&statistics, 0, 7, 0, 9));
    without_memory((h26x_rtp_statistics_recover(&statistics), statistics.recovered == 1));
    without_memory((h26x_rtp_statistics_report(&statistics, 7, 0, 0, NULL), statistics.expected_before == 1));
}

#define TEXT(text) (const uint8_t *)(text), strlen(text)

/* A format's line with a parameter that is units and one that no RFC has, and the name of the former. */
static const struct format {
    uint32_t codec;
    const char *line, *units;
} formats[] = {
    {H26X_H264, "profile-level-id=42e01f;sprop-parameter-sets=Z0IACpZTBYmI,aMljiA==;x=1", "sprop-parameter-sets"},
    {H26X_H265, "level-id=93;sprop-pps=RAHBcrRiQA==;x=1", "sprop-pps"},
    {H26X_H266, "level-id=83;sprop-dci=AGk=;x=1", "sprop-dci"},
};

/* Whether this is what is written of parameters. */
static bool is_text(const h26x_sdp *it, const char *text)
{
    uint8_t written[200];
    size_t len = 0;
    return h26x_sdp_write(it, written, sizeof written, &len) == H26X_OK && len == strlen(text)
           && memcmp(written, text, len) == 0;
}

static void refuse_formats(const struct format *f)
{
    h26x_sdp it = {NULL}, answer = {NULL};
    size_t len = 0, count = 0;
    h26x_refusal why;
    uint64_t value;
    uint32_t number;
    h26x_sdp_stream sends, receives;
    refuse_each(h26x_sdp_read(f->codec, TEXT(f->line), &it, &why), it.at == NULL && why.first == 0);
    refuse_each(h26x_sdp_answer(&it, &it, &answer), answer.at == NULL);
    h26x_sdp_close(&answer);
    refuse_each(h26x_sdp_answer_with(&it, &it, H26X_SDP_ANY_ORDER | H26X_SDP_WEBRTC, &answer), answer.at == NULL);
    without_memory(h26x_sdp_broken_rule(&it, 0, &why) == H26X_OK);
    without_memory(h26x_sdp_name(&it, 0, to, sizeof to, &len) == H26X_OK && len > 9);
    without_memory(h26x_sdp_agreed(&it, &it, 0, &sends, &receives) == H26X_OK && sends.is_there && receives.is_there);
    without_memory(h26x_sdp_accepts_declared(&it, &it, 0) == H26X_OK);
    len = 0;
    memset(to, 0xee, sizeof to);
    refuse_each(h26x_sdp_write(&it, to, sizeof to, &len), len == 0 && to[0] == 0xee);
    expect(len == strlen(f->line) && memcmp(to, f->line, len) == 0);

    without_memory(h26x_sdp_units(&it, TEXT(f->units), &count, &why) == H26X_OK);
    without_memory(h26x_sdp_unit(&it, TEXT(f->units), 0, to, sizeof to, &len, &why) == H26X_OK);
    expect(count > 0 && len > 1);
    without_memory(h26x_sdp_value(&it, TEXT(f->units), false, to, sizeof to, &len) == H26X_OK);
    without_memory(h26x_sdp_number(&it, TEXT("SPROP-MAX-DON-DIFF"), true, &value)
                   == (f->codec == H26X_H264 ? H26X_SDP_ABSENT : H26X_OK));
    without_memory(h26x_sdp_other(&it, 0, to, 1, &len, packet, 1, &count) == H26X_OK);
    without_memory(h26x_sdp_max_don_diff(&it, &number)
                   == (f->codec == H26X_H264 ? H26X_NOT_OF_THIS_CODEC : H26X_OK));
    without_memory(h26x_sdp_codec(&it) == f->codec);
    without_memory(h26x_sdp_set(&it, TEXT("x"), TEXT("2")) == H26X_SDP_UNKNOWN_NAME);
    without_memory(h26x_sdp_set(&it, TEXT("SPROP-MAX-DON-DIFF"), TEXT("x")) == H26X_SDP_NOT_A_NUMBER);
    without_memory(h26x_sdp_unset(&it, TEXT("x")) == H26X_SDP_UNKNOWN_NAME);
    refuse_each(h26x_sdp_set(&it, TEXT("SPROP-MAX-DON-DIFF"), TEXT("2")), is_text(&it, f->line));
    refuse_each(h26x_sdp_unset(&it, TEXT("sprop-max-don-diff")),
                h26x_sdp_number(&it, TEXT("sprop-max-don-diff"), false, &value) == H26X_OK && value == 2);
    expect(is_text(&it, f->line));
    without_memory(h26x_sdp_read(f->codec, TEXT("x={"), &answer, &why) == H26X_SDP_OPEN_BRACE);
    h26x_sdp_free(it);
    h26x_sdp_free(answer);
}

/* Parameter sets of levels, which are read at each call. */
static void refuse_levels(void)
{
    const char *line = "sprop-level-parameter-sets=42e01e:Z0LgHoxo,aM48gA==:42e00d:Z0LgDYxo";
    h26x_sdp it = {NULL};
    size_t len = 0;
    h26x_refusal why;
    expect(h26x_sdp_read(H26X_H264, TEXT(line), &it, &why) == H26X_OK);
    memset(to, 0xee, sizeof to);
    refuse_each(h26x_sdp_level_unit(&it, 60, 1, to, sizeof to, &len, &why), len == 0 && to[0] == 0xee);
    expect(len == 4 && to[0] == 0x68);
    h26x_sdp_free(it);
}

/* Constraints and capability points, which are read at each call. */
static void refuse_values(void)
{
    h26x_sdp it = {NULL};
    h26x_constraints said = {.flags = 9};
    h26x_capability_point points[2] = {{.max_br = 9}};
    size_t count = 9;
    h26x_refusal why = {9, 9};
    expect(h26x_sdp_read(H26X_H266, TEXT("interop-constraints=QA=="), &it, NULL) == H26X_OK);
    memset(to, 0xee, sizeof to);
    refuse_each(h26x_sdp_constraints(&it, to, 1, &said), said.flags == 9 && to[0] == 0xee);
    expect(to[0] == 0x40 && to[1] == 0xee && said.flags == 0 && said.len == 1 && said.multilayer);
    without_memory(h26x_sdp_capability_points(&it, true, points, 2, &count, &why) == H26X_NOT_OF_THIS_CODEC);
    h26x_sdp_close(&it);

    expect(h26x_sdp_read(H26X_H265, TEXT("dec-parallel-cap={w:8;max-br=1,t:2;max-lsr=3}"), &it, NULL) == H26X_OK);
    without_memory(h26x_sdp_constraints(&it, to, 1, &said) == H26X_OK && to[0] == 0xb0);
    refuse_each(h26x_sdp_capability_points(&it, true, points, 2, &count, &why),
                count == 9 && points[0].max_br == 9 && points[1].max_lsr == 0 && why.first == 0 && why.second == 0);
    expect(count == 2 && points[0].max_br == 1 && points[1].max_lsr == 3 && points[1].level_id == 93);
    h26x_sdp_free(it);
}

/* Of the first sets of a stream, and payload types. */
static void refuse_offers(void)
{
    static const uint8_t sets[] = {0, 0, 1, 0x67, 0x42, 0xc0, 0x0a, 0, 0, 1, 0x68, 0xcb};
    h26x_sdp it = {NULL};
    size_t len = 0;
    uint8_t payload_type;
    uint32_t codec;
    refuse_each(h26x_sdp_of_payload(H26X_H264, sets, sizeof sets, &it), it.at == NULL);
    h26x_sdp_free(it);
    memset(to, 0xee, sizeof to);
    refuse_each(h26x_rtpmap_write(96, H26X_H265, to, sizeof to, &len), len == 0 && to[0] == 0xee);
    expect(len == 13 && memcmp(to, "96 H265/90000", 13) == 0);
    without_memory(h26x_rtpmap_read(to, len, &payload_type, &codec) == H26X_OK && codec == H26X_H265);
    without_memory(h26x_fits_single_units(sets, sizeof sets, 4));

    uint32_t repair;
    h26x_rtx_format rtx = {.rtx_time = 9};
    h26x_refusal why = {7, 8};
    memset(to, 0xee, sizeof to);
    len = 0;
    refuse_each(h26x_repairmap_write(97, H26X_REPAIR_RTX, to, sizeof to, &len), len == 0 && to[0] == 0xee);
    expect(len == 12 && memcmp(to, "97 rtx/90000", 12) == 0);
    without_memory(h26x_repairmap_read(to, len, &payload_type, &repair) == H26X_OK && repair == H26X_REPAIR_RTX);
    refuse_each(h26x_rtx_format_read(TEXT("apt=96;rtx-time=3000"), &rtx, &why), rtx.rtx_time == 9);
    expect(rtx.rtx_time == 3000 && rtx.payload_type == 96 && rtx.has_rtx_time);
    memset(to, 0xee, sizeof to);
    len = 0;
    refuse_each(h26x_rtx_format_write(&rtx, to, sizeof to, &len), len == 0 && to[0] == 0xee);
    expect(len == 20 && memcmp(to, "apt=96;rtx-time=3000", 20) == 0);
}

/* The packets of the unit in one buffer, and where each is there; how many they are. */
static size_t lay(const struct codec *c, uint8_t *bytes, size_t room, h26x_rtp_payload *payloads, size_t *len)
{
    h26x_packetizer p;
    size_t ends[8], count = 0;
    expect(h26x_packetizer_new(c->number, false, &p) == H26X_OK);
    expect(h26x_packetize(&p, LIMIT, (const uint8_t *)c->sets, c->sets_len, NULL) == H26X_OK);
    expect(h26x_packetize_into(&p, LIMIT, unit, c->unit_header + DATA, 0, bytes, room, ends, 8, &count, len) == H26X_OK);
    for (size_t i = 0; i < count; i++)
        payloads[i] = (h26x_rtp_payload){.begin = i == 0 ? 0 : ends[i - 1], .end = ends[i], .timestamp = 3000,
                                         .sequence = (uint16_t)(10 + i), .marker = i + 1 == count};
    h26x_packetizer_free(p);
    return count;
}

/* Many packets in one call: where memory lacks for one, those before it were taken, and it and the others are given
 * again. */
static void refuse_many(const struct codec *c)
{
    const h26x_access_units_config config = {
        .codec = c->number, .max_wait = 50, .window = 16, .has_sets = true, .held_limit = ROOM, .run_limit = ROOM,
        .unit_limit = ROOM};
    static uint8_t bytes[ROOM];
    h26x_rtp_payload payloads[8];
    size_t len, taken, written;
    const size_t count = lay(c, bytes, ROOM, payloads, &len), wanted = c->sets_len + 2 + 4 + c->unit_header + DATA;
    bool was_refused = true;
    for (long n = 0; was_refused; n++) {
        h26x_access_units u;
        h26x_access_unit told = {.len = 9};
        h26x_push_told pushed[8] = {{9, 9}, {9, 9}, {9, 9}, {9, 9}};
        expect(h26x_access_units_new(&config, &u) == H26X_OK);
        refuse_requests(n / 2, n % 2 == 0);
        const uint32_t code = h26x_access_units_push_all(&u, 7, bytes, len, payloads, count, pushed, 8, &taken);
        was_refused = grant_all() > 0;
        expect(code == (was_refused ? H26X_OUT_OF_MEMORY : H26X_OK) && (taken < count) == was_refused);
        expect(!was_refused || pushed[taken].pushed == 9);
        expect(h26x_access_units_push_all(&u, 7, bytes, len, payloads + taken, count - taken, NULL, 0, &taken) == H26X_OK);
        expect(h26x_access_units_next(&u, 57, to, ROOM, &told) == H26X_OK && told.len == wanted);
        h26x_access_units_free(u);
    }
    was_refused = true;
    for (long n = 0; was_refused; n++) {
        h26x_receiver r;
        h26x_receive_told received[8] = {{.code = 99}, {.code = 99}, {.code = 99}, {.code = 99}};
        expect(h26x_receiver_new(c->number, false, false, ROOM, &r) == H26X_OK);
        refuse_requests(n / 2, n % 2 == 0);
        const uint32_t code = h26x_receive_all(&r, bytes, len, payloads, count, to, ROOM, received, 8, &taken, &written);
        was_refused = grant_all() > 0;
        expect(code == (was_refused ? H26X_OUT_OF_MEMORY : H26X_OK) && (taken < count) == was_refused);
        expect(!was_refused || received[taken].code == 99);
        const size_t before = written;
        expect(h26x_receive_all(&r, bytes, len, payloads + taken, count - taken, to + before, ROOM - before, NULL, 0, &taken,
                                &written)
               == H26X_OK);
        expect(before + written == wanted
               && memcmp(to + wanted - c->unit_header - DATA, unit, c->unit_header + DATA) == 0);
        h26x_receiver_free(r);
    }
}

int main(void)
{
    for (size_t i = 0; i < sizeof codecs / sizeof codecs[0]; i++) {
        const struct codec *c = &codecs[i];
        memset(unit, 0xaa, sizeof unit);
        memcpy(unit, c->unit, c->unit_header);
        refuse_sending(c);
        refuse_placing(c);
        refuse_every_unit(c);
        refuse_receiving(c);
        refuse_receiving_sequenced(c);
        refuse_keeping(c);
        refuse_receiving_units(c);
        refuse_receiving_datagrams(c);
        refuse_ending_behind_missing(c);
        refuse_giving_back(c);
        refuse_many(c);
        look_without_memory(c);
    }
    for (size_t i = 0; i < sizeof placings / sizeof placings[0]; i++) {
        refuse_each_placing(&placings[i]);
        place_nothing(placings[i].codec, placings[i].numbers);
    }
    refuse_sending_datagrams();
    refuse_size();
    receive_with_room();
    receive_without_memory();
    refuse_packing();
    wrap_without_memory();
    for (size_t i = 0; i < sizeof formats / sizeof formats[0]; i++)
        refuse_formats(&formats[i]);
    refuse_levels();
    refuse_values();
    refuse_offers();
    printf("%lu requests refused, nothing lost\n", refused);
    return 0;
}
