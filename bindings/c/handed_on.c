/* What library/arguments.c hands on to the proved calls, in whose places stubs stand here: buffers that
 * are there for as many bytes as their lengths say, outputs that are there and don't overlap, and else
 * what the caller gave. NULL is handed on as a buffer of length 0, whatever length the caller says.
 *
 * As a program it goes through all combinations of NULL and of what is there, with lengths of 0 and of
 * as much as there can be. Under cbmc, a model checker, nondet_bool and nondet_size are any value. */
#include "h26x.h"
#include <stdio.h>
#include <stdlib.h>
#include <string.h>

bool nondet_bool(void);
size_t nondet_size(void);

#ifdef __CPROVER__
#define expect(what) __CPROVER_assert(what, #what)
#define in_each_case(check) check()
#else

/* Bits, each of which is one choice of the case that is tried. */
static unsigned long choices;
static size_t cases;

bool nondet_bool(void)
{
    bool chosen = choices & 1;
    choices >>= 1;
    return chosen;
}

size_t nondet_size(void)
{
    return nondet_bool() ? SIZE_MAX : 0;
}

static void expect_at(bool holds, const char *what, int line)
{
    if (!holds) {
        fprintf(stderr, "handed_on.c:%d: does not hold: %s\n", line, what);
        exit(1);
    }
}
#define expect(what) expect_at(what, #what, __LINE__)

/* Makes a check in case 0, 1, .. until there is one more than it has choices for. */
static void in_each_case(void (*check)(void))
{
    for (unsigned long i = 0; choices = i, check(), choices == 0; i++)
        cases++;
}
#endif

/* ---- What a caller gives ---- */

enum { ROOM = 3, TOLD = 2 };

struct bytes {
    uint8_t *at;
    size_t len;
};

static h26x_packetizer packetizer;
static h26x_depacketizer depacketizer;
static h26x_receiver receiver;
static h26x_access_units access_units;
static h26x_rtp_receiver rtp_receiver;
static h26x_rtp_sender rtp_sender;
static const h26x_nack_times nack_times = {10, 60, 5};
static h26x_sdp format, made_format;
static const h26x_rtp_header header = {.sequence = 1};
static const h26x_report report_given = {.ssrc = 1};
static h26x_rtp_statistics statistics;

/* Where there is something, what there is. */
static struct {
    uint8_t in[ROOM], extension[ROOM], payload[ROOM], padding[ROOM], to[ROOM], to_too[ROOM];
    size_t ends[ROOM], first, second;
    uint16_t numbers[ROOM];
    h26x_access_unit unit;
    h26x_so_far so_far;
    h26x_access_units_counts counts;
    uint8_t small, small_too;
    uint16_t missing;
    uint32_t number, number_too;
    uint64_t long_number;
    h26x_refusal why;
    h26x_constraints said;
    h26x_capability_point points[ROOM];
    h26x_rtp_packet packet;
    h26x_report report;
    h26x_rtp_told told;
    h26x_rtp_sources sources;
    h26x_rtp_statistics counted;
    h26x_rtp_streams streams;
    h26x_rtp_sent sent;
    h26x_rtp_payload payloads[ROOM];
    h26x_push_told pushed[ROOM];
    h26x_receive_told received[ROOM];
    h26x_rtx_format rtx;
    h26x_sdp_stream sends, receives;
    h26x_rtp_element element;
    h26x_red_block blocks[ROOM];
} there;

/* What a call is given, and what it is to answer. */
static struct {
    struct bytes in, extension, payload, padding, to, to_too;
    size_t *ends, ends_room;
    uint16_t *numbers;
    size_t numbers_room;
    h26x_access_unit *unit;
    h26x_so_far *so_far;
    h26x_access_units_counts *counts;
    size_t *first, *second;
    uint8_t *small, *small_too;
    uint16_t *missing;
    uint32_t *number, *number_too;
    uint64_t *long_number;
    h26x_refusal *why;
    h26x_constraints *said;
    h26x_capability_point *points;
    size_t points_room;
    h26x_rtp_packet *packet;
    h26x_report *report;
    h26x_rtp_told *told;
    h26x_rtp_sources *sources;
    h26x_rtp_statistics *counted;
    h26x_rtp_streams *streams;
    h26x_rtp_sent *sent;
    h26x_rtp_payload *payloads;
    h26x_push_told *pushed;
    h26x_receive_told *received;
    h26x_rtx_format *rtx;
    h26x_sdp_stream *sends, *receives;
    h26x_rtp_element *element;
    h26x_red_block *blocks;
    size_t blocks_room;
    size_t payloads_len, pushed_room, received_room;
    size_t value, other_value;
    uint32_t answer;
} given;

/* Which of these it may be given. */
enum {
    IN = 1,
    EXTENSION = 2,
    TO = 4,
    ENDS = 8,
    FIRST = 16,
    SECOND = 32,
    SMALL = 64,
    SMALL_TOO = 128,
    MISSING = 256,
    NUMBER = 512,
    WHY = 1024,
    NUMBERS = 2048,
    UNIT = 4096,
    COUNTS = 8192,
    LONG_NUMBER = 16384,
    TO_TOO = 32768,
    SAID = 65536,
    POINTS = 131072,
    PACKET = 262144,
    REPORT = 524288,
    NUMBER_TOO = 1048576,
    PAYLOAD = 2097152,
    PADDING = 4194304,
    DATAGRAM = 8388608,
    SOURCES = 16777216,
    STATISTICS = 33554432,
    PAYLOADS = 67108864,
    PUSHED = 134217728,
    RECEIVED = 268435456,
    RTX = 536870912,
    /* (one bit for what no call is given together) */
    SO_FAR = 1073741824,
    STREAMS = SO_FAR,
    SENDING = SO_FAR,
    ELEMENT = SO_FAR,
    BLOCKS = SO_FAR
};

static size_t handed_on;

/* A length of something that is there, or of NULL. */
static size_t any_len(const void *at)
{
    size_t len = nondet_size();
    return at != NULL && len > ROOM ? ROOM : len;
}

#define ANY(which, at) (which) != 0 && nondet_bool() ? (at) : NULL

/* Lengths of what is given so. */
static void give_lengths(unsigned which)
{
    if ((which & IN) != 0)
        given.in.len = any_len(given.in.at);
    if ((which & EXTENSION) != 0)
        given.extension.len = any_len(given.extension.at);
    if ((which & PAYLOAD) != 0)
        given.payload.len = any_len(given.payload.at);
    if ((which & PADDING) != 0)
        given.padding.len = any_len(given.padding.at);
    if ((which & TO) != 0)
        given.to.len = any_len(given.to.at);
    if ((which & TO_TOO) != 0)
        given.to_too.len = any_len(given.to_too.at);
    if ((which & ENDS) != 0)
        given.ends_room = any_len(given.ends);
    if ((which & NUMBERS) != 0)
        given.numbers_room = any_len(given.numbers);
    if ((which & POINTS) != 0)
        given.points_room = any_len(given.points);
    if ((which & BLOCKS) != 0)
        given.blocks_room = any_len(given.blocks);
    if ((which & PAYLOADS) != 0)
        given.payloads_len = any_len(given.payloads);
    if ((which & PUSHED) != 0)
        given.pushed_room = any_len(given.pushed);
    if ((which & RECEIVED) != 0)
        given.received_room = any_len(given.received);
}

static void give(unsigned which)
{
    given.in.at = ANY(which & IN, there.in);
    given.extension.at = ANY(which & EXTENSION, there.extension);
    given.to.at = ANY(which & TO, there.to);
    given.ends = ANY(which & ENDS, there.ends);
    given.first = ANY(which & FIRST, &there.first);
    given.second = ANY(which & SECOND, &there.second);
    given.small = ANY(which & SMALL, &there.small);
    given.small_too = ANY(which & SMALL_TOO, &there.small_too);
    given.missing = ANY(which & MISSING, &there.missing);
    given.number = ANY(which & NUMBER, &there.number);
    given.why = ANY(which & WHY, &there.why);
    given.numbers = ANY(which & NUMBERS, there.numbers);
    given.unit = ANY(which & UNIT, &there.unit);
    given.so_far = ANY(which & SO_FAR, &there.so_far);
    given.counts = ANY(which & COUNTS, &there.counts);
    given.long_number = ANY(which & LONG_NUMBER, &there.long_number);
    given.to_too.at = ANY(which & TO_TOO, there.to_too);
    given.said = ANY(which & SAID, &there.said);
    given.rtx = ANY(which & RTX, &there.rtx);
    given.sends = ANY(which & STREAMS, &there.sends);
    given.receives = ANY(which & STREAMS, &there.receives);
    given.points = ANY(which & POINTS, there.points);
    given.packet = ANY(which & PACKET, &there.packet);
    given.report = ANY(which & REPORT, &there.report);
    given.number_too = ANY(which & NUMBER_TOO, &there.number_too);
    given.told = ANY(which & DATAGRAM, &there.told);
    given.sources = ANY(which & SOURCES, &there.sources);
    given.counted = ANY(which & STATISTICS, &there.counted);
    given.streams = ANY(which & SENDING, &there.streams);
    given.sent = given.streams != NULL ? &there.sent : NULL;
    given.payload.at = ANY(which & PAYLOAD, there.payload);
    given.padding.at = ANY(which & PADDING, there.padding);
    given.element = ANY(which & ELEMENT, &there.element);
    given.blocks = ANY(which & BLOCKS, there.blocks);
    given.payloads = ANY(which & PAYLOADS, there.payloads);
    given.pushed = ANY(which & PUSHED, there.pushed);
    given.received = ANY(which & RECEIVED, there.received);
    give_lengths(which);
    given.value = nondet_size();
    given.other_value = given.value / 2;
    given.answer = (uint32_t)given.value;
    there.small = TOLD;
    handed_on = 0;
}

/* ---- What the stubs expect ---- */

/* The outputs of a call. Each byte of the n-th is set to n. */
static struct {
    uint8_t *at;
    size_t size;
} outputs[5];
static size_t outputs_len;

/* A buffer of this length, or one of length 0 in the place of NULL. */
static void is_buffer(const void *at, size_t len, const void *given_at, size_t given_len)
{
    expect(at != NULL);
    expect(given_at != NULL ? at == given_at && len == given_len : len == 0);
}

static void reads(const uint8_t *at, size_t len, struct bytes of)
{
    is_buffer(at, len, of.at, of.len);
    expect(len == 0 || at[0] + at[len - 1] == 0);
}

static void writes_to(uint8_t *at, size_t len)
{
    is_buffer(at, len, given.to.at, given.to.len);
    if (len != 0)
        at[0] = at[len - 1] = 1;
}

static void writes_to_too(uint8_t *at, size_t len)
{
    is_buffer(at, len, given.to_too.at, given.to_too.len);
    if (len != 0)
        at[0] = at[len - 1] = 1;
}

static void writes_ends(size_t *at, size_t len)
{
    is_buffer(at, len, given.ends, given.ends_room);
    if (len != 0)
        at[0] = at[len - 1] = 1;
}

/* (they are 0, or as writes_ends left them) */
static void reads_ends(const size_t *at, size_t len)
{
    is_buffer(at, len, given.ends, given.ends_room);
    expect(len == 0 || (at[0] <= 1 && at[len - 1] <= 1));
}

static void writes_numbers(uint16_t *at, size_t len)
{
    is_buffer(at, len, given.numbers, given.numbers_room);
    if (len != 0)
        at[0] = at[len - 1] = 1;
}

/* (they are 0, or as writes_numbers left them) */
static void reads_numbers(const uint16_t *at, size_t len)
{
    is_buffer(at, len, given.numbers, given.numbers_room);
    expect(len == 0 || (at[0] <= 1 && at[len - 1] <= 1));
}

static void writes_points(h26x_capability_point *at, size_t len)
{
    is_buffer(at, len, given.points, given.points_room);
    if (len != 0)
        at[0].tool = at[len - 1].tool = 1;
}

static void writes_blocks(h26x_red_block *at, size_t len)
{
    is_buffer(at, len, given.blocks, given.blocks_room);
    if (len != 0)
        at[0].payload_type = at[len - 1].payload_type = 1;
}

static void reads_payloads(const h26x_rtp_payload *at, size_t len)
{
    is_buffer(at, len, given.payloads, given.payloads_len);
    expect(len == 0 || at[0].begin + at[len - 1].end == 0);
}

static void writes_pushed(h26x_push_told *at, size_t len)
{
    is_buffer(at, len, given.pushed, given.pushed_room);
    if (len != 0)
        at[0].behind = at[len - 1].behind = 1;
}

static void writes_received(h26x_receive_told *at, size_t len)
{
    is_buffer(at, len, given.received, given.received_room);
    if (len != 0)
        at[0].count = at[len - 1].count = 1;
}

/* An output, or a place for it. */
static void output(void *at, size_t size, const void *given_at)
{
    expect(at != NULL && (given_at == NULL || at == given_at));
    outputs[outputs_len].at = at;
    outputs[outputs_len].size = size;
    outputs_len++;
    memset(at, (int)outputs_len, size);
}
#define is_output(at, given_at) output(at, sizeof *(at), given_at)

/* What a stub answers. The outputs are still as they were set, so no two overlap. */
static uint32_t answer(void)
{
    while (outputs_len > 0) {
        for (size_t i = 0; i < outputs[outputs_len - 1].size; i++)
            expect(outputs[outputs_len - 1].at[i] == outputs_len);
        outputs_len--;
    }
    handed_on++;
    return given.answer;
}

/* The call answers what the proved one does, which is made once. */
#define hands_on(call) expect((call) == given.answer && handed_on == 1)
#define hands_on_bool(call) expect((call) == (given.answer != 0) && handed_on == 1)

/* ---- Sending ---- */

#define STUB(name) __typeof__(h26x_##name) proved_##name

STUB(packetizer_free);
void proved_packetizer_free(h26x_packetizer p)
{
    expect(p.at == &there);
    handed_on++;
}

static void check_packetizer_free(void)
{
    h26x_packetizer p = {nondet_bool() ? &there : NULL};
    handed_on = 0;
    h26x_packetizer_free(p);
    expect(handed_on == (p.at != NULL));
}

STUB(packetize);
uint32_t proved_packetize(h26x_packetizer *p, size_t mtu, const uint8_t *payload, size_t payload_len,
                          size_t *count)
{
    expect(p == &packetizer && mtu == given.value);
    reads(payload, payload_len, given.in);
    is_output(count, given.first);
    return answer();
}

static void check_packetize(void)
{
    give(IN | FIRST);
    hands_on(h26x_packetize(&packetizer, given.value, given.in.at, given.in.len, given.first));
}

STUB(packetize_unit);
uint32_t proved_packetize_unit(h26x_packetizer *p, size_t mtu, const uint8_t *unit, size_t unit_len,
                               size_t *count)
{
    return proved_packetize(p, mtu, unit, unit_len, count);
}

static void check_packetize_unit(void)
{
    give(IN | FIRST);
    hands_on(h26x_packetize_unit(&packetizer, given.value, given.in.at, given.in.len, given.first));
}

STUB(packetize_into);
uint32_t proved_packetize_into(h26x_packetizer *p, size_t mtu, const uint8_t *payload,
                               size_t payload_len, size_t headroom, uint8_t *to, size_t room,
                               size_t *ends, size_t ends_room, size_t *count, size_t *size)
{
    expect(p == &packetizer && mtu == given.value && headroom == given.other_value);
    reads(payload, payload_len, given.in);
    writes_to(to, room);
    writes_ends(ends, ends_room);
    is_output(count, given.first);
    is_output(size, given.second);
    return answer();
}

static void check_packetize_into(void)
{
    give(IN | TO | ENDS | FIRST | SECOND);
    hands_on(h26x_packetize_into(&packetizer, given.value, given.in.at, given.in.len,
                                 given.other_value, given.to.at, given.to.len, given.ends,
                                 given.ends_room, given.first, given.second));
}

STUB(packetize_unit_into);
uint32_t proved_packetize_unit_into(h26x_packetizer *p, size_t mtu, const uint8_t *unit,
                                    size_t unit_len, size_t headroom, uint8_t *to, size_t room,
                                    size_t *ends, size_t ends_room, size_t *count, size_t *size)
{
    return proved_packetize_into(p, mtu, unit, unit_len, headroom, to, room, ends, ends_room, count,
                                 size);
}

static void check_packetize_unit_into(void)
{
    give(IN | TO | ENDS | FIRST | SECOND);
    hands_on(h26x_packetize_unit_into(&packetizer, given.value, given.in.at, given.in.len,
                                      given.other_value, given.to.at, given.to.len, given.ends,
                                      given.ends_room, given.first, given.second));
}

STUB(packets_size);
uint32_t proved_packets_size(const h26x_packetizer *p, size_t mtu, const uint8_t *payload,
                             size_t payload_len, size_t headroom, size_t *count, size_t *size)
{
    expect(p == &packetizer && mtu == given.value && headroom == given.other_value);
    reads(payload, payload_len, given.in);
    is_output(count, given.first);
    is_output(size, given.second);
    return answer();
}

static void check_packets_size(void)
{
    give(IN | FIRST | SECOND);
    hands_on(h26x_packets_size(&packetizer, given.value, given.in.at, given.in.len,
                               given.other_value, given.first, given.second));
}

STUB(packetize_units);
uint32_t proved_packetize_units(h26x_packetizer *p, size_t mtu, const uint8_t *access_unit,
                                size_t access_unit_len, size_t *count, h26x_refusal *why)
{
    is_output(why, given.why);
    return proved_packetize(p, mtu, access_unit, access_unit_len, count);
}

static void check_packetize_units(void)
{
    give(IN | FIRST | WHY);
    hands_on(h26x_packetize_units(&packetizer, given.value, given.in.at, given.in.len, given.first,
                                  given.why));
}

STUB(packetize_units_into);
uint32_t proved_packetize_units_into(h26x_packetizer *p, size_t mtu, const uint8_t *access_unit,
                                     size_t access_unit_len, size_t headroom, uint8_t *to,
                                     size_t room, size_t *ends, size_t ends_room, size_t *count,
                                     size_t *size, h26x_refusal *why)
{
    is_output(why, given.why);
    return proved_packetize_into(p, mtu, access_unit, access_unit_len, headroom, to, room, ends,
                                 ends_room, count, size);
}

static void check_packetize_units_into(void)
{
    give(IN | TO | ENDS | FIRST | SECOND | WHY);
    hands_on(h26x_packetize_units_into(&packetizer, given.value, given.in.at, given.in.len,
                                       given.other_value, given.to.at, given.to.len, given.ends,
                                       given.ends_room, given.first, given.second, given.why));
}

STUB(units_size);
uint32_t proved_units_size(const h26x_packetizer *p, size_t mtu, const uint8_t *access_unit,
                           size_t access_unit_len, size_t headroom, size_t *count, size_t *size,
                           h26x_refusal *why)
{
    is_output(why, given.why);
    return proved_packets_size(p, mtu, access_unit, access_unit_len, headroom, count, size);
}

static void check_units_size(void)
{
    give(IN | FIRST | SECOND | WHY);
    hands_on(h26x_units_size(&packetizer, given.value, given.in.at, given.in.len, given.other_value,
                             given.first, given.second, given.why));
}

STUB(packet_copy);
size_t proved_packet_copy(const h26x_packetizer *p, size_t i, uint8_t *to, size_t room)
{
    expect(p == &packetizer && i == given.value);
    writes_to(to, room);
    return answer();
}

static void check_packet_copy(void)
{
    give(TO);
    hands_on(h26x_packet_copy(&packetizer, given.value, given.to.at, given.to.len));
}

STUB(packets_copy);
size_t proved_packets_copy(const h26x_packetizer *p, size_t first, uint8_t *to, size_t room,
                           size_t *ends, size_t ends_room)
{
    expect(p == &packetizer && first == given.value);
    writes_to(to, room);
    writes_ends(ends, ends_room);
    return answer();
}

static void check_packets_copy(void)
{
    give(TO | ENDS);
    hands_on(h26x_packets_copy(&packetizer, given.value, given.to.at, given.to.len, given.ends,
                               given.ends_room));
}

/* ---- Receiving ---- */

STUB(depacketizer_free);
void proved_depacketizer_free(h26x_depacketizer d)
{
    expect(d.at == &there);
    handed_on++;
}

static void check_depacketizer_free(void)
{
    h26x_depacketizer d = {nondet_bool() ? &there : NULL};
    handed_on = 0;
    h26x_depacketizer_free(d);
    expect(handed_on == (d.at != NULL));
}

STUB(depacketize);
uint32_t proved_depacketize(h26x_depacketizer *d, bool avc, const uint8_t *packet, size_t packet_len,
                            uint8_t *to, size_t room, size_t *written, uint8_t *extra,
                            h26x_refusal *why)
{
    expect(d == &depacketizer && avc == (given.value != 0));
    reads(packet, packet_len, given.in);
    writes_to(to, room);
    expect(*extra == (given.small != NULL ? TOLD : 0));
    is_output(written, given.first);
    is_output(extra, given.small);
    is_output(why, given.why);
    return answer();
}

static void check_depacketize(void)
{
    give(IN | TO | FIRST | SMALL | WHY);
    hands_on(h26x_depacketize(&depacketizer, given.value != 0, given.in.at, given.in.len, given.to.at,
                              given.to.len, given.first, given.small, given.why));
}

STUB(written_copy);
size_t proved_written_copy(const h26x_depacketizer *d, uint8_t *to, size_t room)
{
    expect(d == &depacketizer);
    writes_to(to, room);
    return answer();
}

static void check_written_copy(void)
{
    give(TO);
    hands_on(h26x_written_copy(&depacketizer, given.to.at, given.to.len));
}

STUB(receiver_free);
void proved_receiver_free(h26x_receiver r)
{
    expect(r.at.at == &there);
    handed_on++;
}

static void check_receiver_free(void)
{
    h26x_receiver r = {{nondet_bool() ? &there : NULL}};
    handed_on = 0;
    h26x_receiver_free(r);
    expect(handed_on == (r.at.at != NULL));
}

STUB(receive);
uint32_t proved_receive(h26x_receiver *r, uint16_t sequence, const uint8_t *packet, size_t packet_len,
                        uint8_t *to, size_t room, size_t *written, uint8_t *extra, uint32_t *received,
                        uint16_t *count, h26x_refusal *why)
{
    expect(r == &receiver && sequence == (uint16_t)given.value);
    reads(packet, packet_len, given.in);
    writes_to(to, room);
    expect(*extra == (given.small != NULL ? TOLD : 0));
    is_output(written, given.first);
    is_output(extra, given.small);
    is_output(received, given.number);
    is_output(count, given.missing);
    is_output(why, given.why);
    return answer();
}

static void check_receive(void)
{
    give(IN | TO | FIRST | SMALL | NUMBER | MISSING | WHY);
    hands_on(h26x_receive(&receiver, (uint16_t)given.value, given.in.at, given.in.len, given.to.at,
                          given.to.len, given.first, given.small, given.number, given.missing,
                          given.why));
}

STUB(receive_all);
uint32_t proved_receive_all(h26x_receiver *r, const uint8_t *bytes, size_t bytes_len, const h26x_rtp_payload *payloads,
                            size_t payloads_len, uint8_t *to, size_t room, h26x_receive_told *told, size_t told_room,
                            size_t *taken, size_t *written)
{
    expect(r == &receiver);
    reads(bytes, bytes_len, given.in);
    reads_payloads(payloads, payloads_len);
    writes_to(to, room);
    writes_received(told, told_room);
    is_output(taken, given.first);
    is_output(written, given.second);
    return answer();
}

static void check_receive_all(void)
{
    give(IN | PAYLOADS | TO | RECEIVED | FIRST | SECOND);
    hands_on(h26x_receive_all(&receiver, given.in.at, given.in.len, given.payloads, given.payloads_len, given.to.at,
                              given.to.len, given.received, given.received_room, given.first, given.second));
}

STUB(receiver_skip);
uint32_t proved_receiver_skip(h26x_receiver *r, uint16_t sequence, uint32_t *received, uint16_t *count)
{
    expect(r == &receiver && sequence == (uint16_t)given.value);
    is_output(received, given.number);
    is_output(count, given.missing);
    return answer();
}

static void check_receiver_skip(void)
{
    give(NUMBER | MISSING);
    hands_on(h26x_receiver_skip(&receiver, (uint16_t)given.value, given.number, given.missing));
}

/* ---- Receiving access units ---- */

STUB(access_units_free);
void proved_access_units_free(h26x_access_units u)
{
    expect(u.at == &there);
    handed_on++;
}

static void check_access_units_free(void)
{
    h26x_access_units u = {nondet_bool() ? &there : NULL};
    handed_on = 0;
    h26x_access_units_free(u);
    expect(handed_on == (u.at != NULL));
}

STUB(access_units_push);
uint32_t proved_access_units_push(h26x_access_units *u, uint32_t now, uint16_t sequence,
                                  uint32_t timestamp, bool marker, const uint8_t *payload,
                                  size_t payload_len, uint32_t *pushed, uint16_t *behind)
{
    expect(u == &access_units && now == (uint32_t)given.value && sequence == (uint16_t)given.other_value);
    expect(timestamp == (uint32_t)given.other_value && marker == (given.value != 0));
    reads(payload, payload_len, given.in);
    is_output(pushed, given.number);
    is_output(behind, given.missing);
    return answer();
}

static void check_access_units_push(void)
{
    give(IN | NUMBER | MISSING);
    hands_on(h26x_access_units_push(&access_units, (uint32_t)given.value, (uint16_t)given.other_value,
                                    (uint32_t)given.other_value, given.value != 0, given.in.at,
                                    given.in.len, given.number, given.missing));
}

STUB(access_units_push_all);
uint32_t proved_access_units_push_all(h26x_access_units *u, uint32_t now, const uint8_t *bytes, size_t bytes_len,
                                      const h26x_rtp_payload *payloads, size_t payloads_len, h26x_push_told *told,
                                      size_t told_room, size_t *taken)
{
    expect(u == &access_units && now == (uint32_t)given.value);
    reads(bytes, bytes_len, given.in);
    reads_payloads(payloads, payloads_len);
    writes_pushed(told, told_room);
    is_output(taken, given.first);
    return answer();
}

static void check_access_units_push_all(void)
{
    give(IN | PAYLOADS | PUSHED | FIRST);
    hands_on(h26x_access_units_push_all(&access_units, (uint32_t)given.value, given.in.at, given.in.len, given.payloads,
                                        given.payloads_len, given.pushed, given.pushed_room, given.first));
}

STUB(access_units_skip);
uint32_t proved_access_units_skip(h26x_access_units *u, uint32_t now, uint16_t sequence, uint32_t *pushed,
                                  uint16_t *behind)
{
    expect(u == &access_units && now == (uint32_t)given.value && sequence == (uint16_t)given.other_value);
    is_output(pushed, given.number);
    is_output(behind, given.missing);
    return answer();
}

static void check_access_units_skip(void)
{
    give(NUMBER | MISSING);
    hands_on(h26x_access_units_skip(&access_units, (uint32_t)given.value, (uint16_t)given.other_value,
                                    given.number, given.missing));
}

STUB(access_units_next);
uint32_t proved_access_units_next(h26x_access_units *u, uint32_t now, uint8_t *to, size_t room,
                                  h26x_access_unit *unit)
{
    expect(u == &access_units && now == (uint32_t)given.value);
    writes_to(to, room);
    is_output(unit, given.unit);
    return answer();
}

static void check_access_units_next(void)
{
    give(TO | UNIT);
    hands_on(h26x_access_units_next(&access_units, (uint32_t)given.value, given.to.at, given.to.len,
                                    given.unit));
}

STUB(access_units_so_far);
bool proved_access_units_so_far(const h26x_access_units *u, size_t from, uint8_t *to, size_t room,
                                h26x_so_far *so_far)
{
    expect(u == &access_units && from == given.value);
    writes_to(to, room);
    is_output(so_far, given.so_far);
    return answer() != 0;
}

static void check_access_units_so_far(void)
{
    give(TO | SO_FAR);
    hands_on_bool(
        h26x_access_units_so_far(&access_units, given.value, given.to.at, given.to.len, given.so_far));
}

STUB(access_units_deadline);
bool proved_access_units_deadline(const h26x_access_units *u, uint32_t *at)
{
    expect(u == &access_units);
    is_output(at, given.number);
    return answer() != 0;
}

static void check_access_units_deadline(void)
{
    give(NUMBER);
    hands_on_bool(h26x_access_units_deadline(&access_units, given.number));
}

STUB(access_units_missing);
uint32_t proved_access_units_missing(const h26x_access_units *u, uint16_t *numbers, size_t numbers_room,
                                     size_t *count)
{
    expect(u == &access_units);
    writes_numbers(numbers, numbers_room);
    is_output(count, given.first);
    return answer();
}

static void check_access_units_missing(void)
{
    give(NUMBERS | FIRST);
    hands_on(h26x_access_units_missing(&access_units, given.numbers, given.numbers_room, given.first));
}

STUB(access_units_nacks);
uint32_t proved_access_units_nacks(h26x_access_units *u, uint32_t now, const h26x_nack_times *times,
                                   uint16_t *numbers, size_t numbers_room, size_t *count)
{
    expect(u == &access_units && now == (uint32_t)given.value && times == &nack_times);
    writes_numbers(numbers, numbers_room);
    is_output(count, given.first);
    return answer();
}

static void check_access_units_nacks(void)
{
    give(NUMBERS | FIRST);
    hands_on(h26x_access_units_nacks(&access_units, (uint32_t)given.value, &nack_times, given.numbers,
                                     given.numbers_room, given.first));
}

STUB(access_units_begin_at);
uint32_t proved_access_units_begin_at(h26x_access_units *u, uint16_t sequence, uint32_t *in_time)
{
    expect(u == &access_units && sequence == (uint16_t)given.value);
    is_output(in_time, given.number);
    return answer();
}

static void check_access_units_begin_at(void)
{
    give(NUMBER);
    hands_on(h26x_access_units_begin_at(&access_units, (uint16_t)given.value, given.number));
}

STUB(access_units_count);
uint32_t proved_access_units_count(const h26x_access_units *u, h26x_access_units_counts *counts)
{
    expect(u == &access_units);
    is_output(counts, given.counts);
    return answer();
}

static void check_access_units_count(void)
{
    give(COUNTS);
    hands_on(h26x_access_units_count(&access_units, given.counts));
}

/* ---- The packets that H.265 shows ---- */

STUB(h265_part_copy);
size_t proved_h265_part_copy(const h26x_depacketizer *d, size_t i, uint8_t *to, size_t room,
                             uint32_t *number)
{
    expect(d == &depacketizer && i == given.value);
    writes_to(to, room);
    is_output(number, given.number);
    return answer();
}

static void check_h265_part_copy(void)
{
    give(TO | NUMBER);
    hands_on(h26x_h265_part_copy(&depacketizer, given.value, given.to.at, given.to.len,
                                 given.number));
}

STUB(h265_paci_packet);
uint32_t proved_h265_paci_packet(const uint8_t *unit, size_t unit_len, const uint8_t *extension,
                                 size_t extension_len, uint8_t *to, size_t room, size_t *len)
{
    reads(unit, unit_len, given.in);
    reads(extension, extension_len, given.extension);
    writes_to(to, room);
    is_output(len, given.first);
    return answer();
}

static void check_h265_paci_packet(void)
{
    give(IN | EXTENSION | TO | FIRST);
    hands_on(h26x_h265_paci_packet(given.in.at, given.in.len, given.extension.at,
                                   given.extension.len, given.to.at, given.to.len, given.first));
}

/* ---- Packets and payloads ---- */

STUB(is_partition_head);
bool proved_is_partition_head(uint32_t codec, const uint8_t *packet, size_t packet_len)
{
    expect(codec == (uint32_t)given.value);
    reads(packet, packet_len, given.in);
    return answer() != 0;
}

static void check_is_partition_head(void)
{
    give(IN);
    hands_on_bool(h26x_is_partition_head((uint32_t)given.value, given.in.at, given.in.len));
}

STUB(is_partition_tail);
bool proved_is_partition_tail(uint32_t codec, bool marker, const uint8_t *packet, size_t packet_len)
{
    expect(marker == (given.other_value != 0));
    return proved_is_partition_head(codec, packet, packet_len);
}

static void check_is_partition_tail(void)
{
    give(IN);
    hands_on_bool(h26x_is_partition_tail((uint32_t)given.value, given.other_value != 0, given.in.at,
                                         given.in.len));
}

STUB(detect_keyframe);
bool proved_detect_keyframe(uint32_t codec, const uint8_t *packet, size_t packet_len)
{
    return proved_is_partition_head(codec, packet, packet_len);
}

static void check_detect_keyframe(void)
{
    give(IN);
    hands_on_bool(h26x_detect_keyframe((uint32_t)given.value, given.in.at, given.in.len));
}

STUB(begins_keyframe);
bool proved_begins_keyframe(uint32_t codec, bool numbers, const uint8_t *packet, size_t packet_len)
{
    expect(numbers == (given.other_value != 0));
    return proved_is_partition_head(codec, packet, packet_len);
}

static void check_begins_keyframe(void)
{
    give(IN);
    hands_on_bool(h26x_begins_keyframe((uint32_t)given.value, given.other_value != 0, given.in.at, given.in.len));
}

STUB(detect_h264_nalu);
bool proved_detect_h264_nalu(const uint8_t *packet, size_t packet_len, uint8_t type)
{
    expect(type == (uint8_t)given.value);
    reads(packet, packet_len, given.in);
    return answer() != 0;
}

static void check_detect_h264_nalu(void)
{
    give(IN);
    hands_on_bool(h26x_detect_h264_nalu(given.in.at, given.in.len, (uint8_t)given.value));
}

STUB(set_lowest_header);
void proved_set_lowest_header(uint32_t codec, bool numbers, uint8_t *packet, size_t packet_len)
{
    expect(codec == (uint32_t)given.value && numbers == (given.other_value != 0));
    writes_to(packet, packet_len);
    handed_on++;
}

static void check_set_lowest_header(void)
{
    give(TO);
    h26x_set_lowest_header((uint32_t)given.value, given.other_value != 0, given.to.at, given.to.len);
    expect(handed_on == 1);
}

STUB(next_unit);
bool proved_next_unit(uint32_t codec, const uint8_t *payload, size_t payload_len, size_t from,
                      size_t *begin, size_t *end)
{
    expect(codec == (uint32_t)given.value && from == given.other_value);
    reads(payload, payload_len, given.in);
    is_output(begin, given.first);
    is_output(end, given.second);
    return answer() != 0;
}

static void check_next_unit(void)
{
    give(IN | FIRST | SECOND);
    hands_on_bool(h26x_next_unit((uint32_t)given.value, given.in.at, given.in.len, given.other_value,
                                 given.first, given.second));
}

STUB(next_avc_unit);
bool proved_next_avc_unit(const uint8_t *text, size_t text_len, size_t from, size_t *begin, size_t *end)
{
    expect(from == given.other_value);
    reads(text, text_len, given.in);
    is_output(begin, given.first);
    is_output(end, given.second);
    return answer() != 0;
}

static void check_next_avc_unit(void)
{
    give(IN | FIRST | SECOND);
    hands_on_bool(h26x_next_avc_unit(given.in.at, given.in.len, given.other_value, given.first, given.second));
}

STUB(unit_is_plain);
bool proved_unit_is_plain(uint32_t codec, const uint8_t *unit, size_t unit_len)
{
    return proved_is_partition_head(codec, unit, unit_len);
}

static void check_unit_is_plain(void)
{
    give(IN);
    hands_on_bool(h26x_unit_is_plain((uint32_t)given.value, given.in.at, given.in.len));
}

STUB(h264_profile_level);
bool proved_h264_profile_level(uint32_t profile_level_id, uint8_t *profile, uint8_t *level)
{
    expect(profile_level_id == (uint32_t)given.value);
    is_output(profile, given.small);
    is_output(level, given.small_too);
    return answer() != 0;
}

static void check_h264_profile_level(void)
{
    give(SMALL | SMALL_TOO);
    hands_on_bool(h26x_h264_profile_level((uint32_t)given.value, given.small, given.small_too));
}

/* ---- What stands round payloads ---- */

STUB(is_rtcp);
bool proved_is_rtcp(const uint8_t *datagram, size_t datagram_len)
{
    reads(datagram, datagram_len, given.in);
    return answer() != 0;
}

static void check_is_rtcp(void)
{
    give(IN);
    hands_on_bool(h26x_is_rtcp(given.in.at, given.in.len));
}

STUB(rtp_read);
uint32_t proved_rtp_read(const uint8_t *datagram, size_t datagram_len, h26x_rtp_packet *packet)
{
    reads(datagram, datagram_len, given.in);
    is_output(packet, given.packet);
    return answer();
}

static void check_rtp_read(void)
{
    give(IN | PACKET);
    hands_on(h26x_rtp_read(given.in.at, given.in.len, given.packet));
}

STUB(rtp_element_next);
uint32_t proved_rtp_element_next(uint16_t profile, const uint8_t *extension, size_t extension_len, size_t from,
                                 h26x_rtp_element *element)
{
    expect(profile == (uint16_t)given.value && from == given.other_value);
    reads(extension, extension_len, given.extension);
    is_output(element, given.element);
    return answer();
}

static void check_rtp_element_next(void)
{
    give(EXTENSION | ELEMENT);
    hands_on(h26x_rtp_element_next((uint16_t)given.value, given.extension.at, given.extension.len, given.other_value,
                                   given.element));
}

STUB(rtp_original);
uint32_t proved_rtp_original(const uint8_t *datagram, size_t datagram_len, uint8_t payload_type, uint32_t ssrc,
                             h26x_rtp_packet *packet)
{
    expect(payload_type == (uint8_t)given.value && ssrc == (uint32_t)given.other_value);
    return proved_rtp_read(datagram, datagram_len, packet);
}

static void check_rtp_original(void)
{
    give(IN | PACKET);
    hands_on(h26x_rtp_original(given.in.at, given.in.len, (uint8_t)given.value, (uint32_t)given.other_value,
                               given.packet));
}

STUB(rtp_write);
uint32_t proved_rtp_write(const h26x_rtp_header *h, const uint8_t *csrcs, size_t csrcs_len, const uint8_t *extension,
                          size_t extension_len, const uint8_t *payload, size_t payload_len, const uint8_t *padding,
                          size_t padding_len, uint8_t *to, size_t room, size_t *len)
{
    expect(h == &header);
    reads(csrcs, csrcs_len, given.in);
    reads(extension, extension_len, given.extension);
    reads(payload, payload_len, given.payload);
    reads(padding, padding_len, given.padding);
    writes_to(to, room);
    is_output(len, given.first);
    return answer();
}

static void check_rtp_write(void)
{
    give(IN | EXTENSION | PAYLOAD | PADDING | TO | FIRST);
    hands_on(h26x_rtp_write(&header, given.in.at, given.in.len, given.extension.at, given.extension.len,
                            given.payload.at, given.payload.len, given.padding.at, given.padding.len, given.to.at,
                            given.to.len, given.first));
}

STUB(rtp_write_before);
uint32_t proved_rtp_write_before(const h26x_rtp_header *h, const uint8_t *csrcs, size_t csrcs_len,
                                 const uint8_t *extension, size_t extension_len, bool padded, size_t place, uint8_t *to,
                                 size_t room, size_t *len)
{
    expect(h == &header && padded == (given.other_value != 0) && place == given.value);
    reads(csrcs, csrcs_len, given.in);
    reads(extension, extension_len, given.extension);
    writes_to(to, room);
    is_output(len, given.first);
    return answer();
}

static void check_rtp_write_before(void)
{
    give(IN | EXTENSION | TO | FIRST);
    hands_on(h26x_rtp_write_before(&header, given.in.at, given.in.len, given.extension.at, given.extension.len,
                                   given.other_value != 0, given.value, given.to.at, given.to.len, given.first));
}

STUB(rtx_write);
uint32_t proved_rtx_write(const uint8_t *datagram, size_t datagram_len, uint8_t payload_type, uint16_t sequence,
                          uint32_t ssrc, uint8_t *to, size_t room, size_t *len)
{
    expect(payload_type == (uint8_t)given.value && sequence == (uint16_t)given.other_value
           && ssrc == (uint32_t)given.other_value);
    reads(datagram, datagram_len, given.in);
    writes_to(to, room);
    is_output(len, given.first);
    return answer();
}

static void check_rtx_write(void)
{
    give(IN | TO | FIRST);
    hands_on(h26x_rtx_write(given.in.at, given.in.len, (uint8_t)given.value, (uint16_t)given.other_value,
                            (uint32_t)given.other_value, given.to.at, given.to.len, given.first));
}

STUB(red_primary);
uint32_t proved_red_primary(const uint8_t *payload, size_t payload_len, uint8_t *payload_type, size_t *place)
{
    reads(payload, payload_len, given.in);
    is_output(payload_type, given.small);
    is_output(place, given.first);
    return answer();
}

static void check_red_primary(void)
{
    give(IN | SMALL | FIRST);
    hands_on(h26x_red_primary(given.in.at, given.in.len, given.small, given.first));
}

STUB(red_blocks);
uint32_t proved_red_blocks(const uint8_t *payload, size_t payload_len, h26x_red_block *blocks, size_t blocks_room,
                           size_t *count)
{
    reads(payload, payload_len, given.in);
    writes_blocks(blocks, blocks_room);
    is_output(count, given.first);
    return answer();
}

static void check_red_blocks(void)
{
    give(IN | BLOCKS | FIRST);
    hands_on(h26x_red_blocks(given.in.at, given.in.len, given.blocks, given.blocks_room, given.first));
}

STUB(pli_write);
uint32_t proved_pli_write(uint32_t sender, uint32_t media, uint8_t *to, size_t room, size_t *len)
{
    expect(sender == (uint32_t)given.value && media == (uint32_t)given.other_value);
    writes_to(to, room);
    is_output(len, given.first);
    return answer();
}

static void check_pli_write(void)
{
    give(TO | FIRST);
    hands_on(h26x_pli_write((uint32_t)given.value, (uint32_t)given.other_value, given.to.at, given.to.len, given.first));
}

STUB(pli_read);
bool proved_pli_read(const uint8_t *packet, size_t packet_len, uint32_t *sender, uint32_t *media)
{
    reads(packet, packet_len, given.in);
    is_output(sender, given.number);
    is_output(media, given.number_too);
    return answer() != 0;
}

static void check_pli_read(void)
{
    give(IN | NUMBER | NUMBER_TOO);
    hands_on_bool(h26x_pli_read(given.in.at, given.in.len, given.number, given.number_too));
}

STUB(fir_write);
uint32_t proved_fir_write(uint32_t sender, uint32_t media, uint8_t number, uint8_t *to, size_t room, size_t *len)
{
    expect(number == (uint8_t)given.other_value);
    return proved_pli_write(sender, media, to, room, len);
}

static void check_fir_write(void)
{
    give(TO | FIRST);
    hands_on(h26x_fir_write((uint32_t)given.value, (uint32_t)given.other_value, (uint8_t)given.other_value, given.to.at,
                            given.to.len, given.first));
}

STUB(fir_read);
bool proved_fir_read(const uint8_t *packet, size_t packet_len, uint32_t *sender, uint32_t *media, uint8_t *number)
{
    is_output(number, given.small);
    return proved_pli_read(packet, packet_len, sender, media);
}

static void check_fir_read(void)
{
    give(IN | NUMBER | NUMBER_TOO | SMALL);
    hands_on_bool(h26x_fir_read(given.in.at, given.in.len, given.number, given.number_too, given.small));
}

STUB(receiver_report_write);
uint32_t proved_receiver_report_write(uint32_t sender, const h26x_report *report, uint8_t *to, size_t room, size_t *len)
{
    expect(report == &report_given);
    return proved_pli_write(sender, (uint32_t)given.other_value, to, room, len);
}

static void check_receiver_report_write(void)
{
    give(TO | FIRST);
    hands_on(h26x_receiver_report_write((uint32_t)given.value, &report_given, given.to.at, given.to.len, given.first));
}

STUB(receiver_report_read);
bool proved_receiver_report_read(const uint8_t *packet, size_t packet_len, uint32_t *sender, h26x_report *report)
{
    reads(packet, packet_len, given.in);
    is_output(sender, given.number);
    is_output(report, given.report);
    return answer() != 0;
}

static void check_receiver_report_read(void)
{
    give(IN | NUMBER | REPORT);
    hands_on_bool(h26x_receiver_report_read(given.in.at, given.in.len, given.number, given.report));
}

STUB(nack_write);
uint32_t proved_nack_write(uint32_t sender, uint32_t media, const uint16_t *numbers, size_t numbers_len, uint8_t *to,
                           size_t room, size_t *len, size_t *count)
{
    reads_numbers(numbers, numbers_len);
    is_output(count, given.second);
    return proved_pli_write(sender, media, to, room, len);
}

static void check_nack_write(void)
{
    give(NUMBERS | TO | FIRST | SECOND);
    hands_on(h26x_nack_write((uint32_t)given.value, (uint32_t)given.other_value, given.numbers, given.numbers_room,
                             given.to.at, given.to.len, given.first, given.second));
}

STUB(nack_read);
bool proved_nack_read(const uint8_t *packet, size_t packet_len, uint32_t *sender, uint32_t *media, uint16_t *numbers,
                      size_t numbers_room, size_t *count)
{
    writes_numbers(numbers, numbers_room);
    is_output(count, given.first);
    return proved_pli_read(packet, packet_len, sender, media);
}

static void check_nack_read(void)
{
    give(IN | NUMBER | NUMBER_TOO | NUMBERS | FIRST);
    hands_on_bool(h26x_nack_read(given.in.at, given.in.len, given.number, given.number_too, given.numbers,
                                 given.numbers_room, given.first));
}

STUB(rtcp_next);
bool proved_rtcp_next(const uint8_t *datagram, size_t datagram_len, size_t from, size_t *end)
{
    expect(from == given.value);
    reads(datagram, datagram_len, given.in);
    is_output(end, given.first);
    return answer() != 0;
}

static void check_rtcp_next(void)
{
    give(IN | FIRST);
    hands_on_bool(h26x_rtcp_next(given.in.at, given.in.len, given.value, given.first));
}

STUB(rtp_statistics_report);
void proved_rtp_statistics_report(h26x_rtp_statistics *it, uint32_t ssrc, uint32_t last_sender_report, uint32_t delay,
                                  h26x_report *report)
{
    expect(it == &statistics && ssrc == (uint32_t)given.value && last_sender_report == (uint32_t)given.other_value
           && delay == 7);
    is_output(report, given.report);
    answer();
}

static void check_rtp_statistics_report(void)
{
    give(REPORT);
    h26x_rtp_statistics_report(&statistics, (uint32_t)given.value, (uint32_t)given.other_value, 7, given.report);
    expect(handed_on == 1);
}

/* ---- Receiving access units, of datagrams ---- */

STUB(rtp_receiver_free);
void proved_rtp_receiver_free(h26x_rtp_receiver r)
{
    expect(r.at == &there);
    handed_on++;
}

static void check_rtp_receiver_free(void)
{
    h26x_rtp_receiver r = {nondet_bool() ? &there : NULL};
    handed_on = 0;
    h26x_rtp_receiver_free(r);
    expect(handed_on == (r.at != NULL));
}

STUB(rtp_receiver_sources);
uint32_t proved_rtp_receiver_sources(const h26x_rtp_receiver *r, h26x_rtp_sources *sources)
{
    expect(r == &rtp_receiver);
    is_output(sources, given.sources);
    return answer();
}

static void check_rtp_receiver_sources(void)
{
    give(SOURCES);
    hands_on(h26x_rtp_receiver_sources(&rtp_receiver, given.sources));
}

STUB(rtp_receiver_push);
uint32_t proved_rtp_receiver_push(h26x_rtp_receiver *r, uint32_t now, uint32_t arrival, const uint8_t *datagram,
                                  size_t datagram_len, h26x_rtp_told *told)
{
    expect(r == &rtp_receiver && now == (uint32_t)given.value && arrival == (uint32_t)given.other_value);
    reads(datagram, datagram_len, given.in);
    is_output(told, given.told);
    return answer();
}

static void check_rtp_receiver_push(void)
{
    give(IN | DATAGRAM);
    hands_on(h26x_rtp_receiver_push(&rtp_receiver, (uint32_t)given.value, (uint32_t)given.other_value, given.in.at,
                                    given.in.len, given.told));
}

STUB(rtp_receiver_next);
uint32_t proved_rtp_receiver_next(h26x_rtp_receiver *r, uint32_t now, uint8_t *to, size_t room,
                                  h26x_access_unit *unit)
{
    expect(r == &rtp_receiver && now == (uint32_t)given.value);
    writes_to(to, room);
    is_output(unit, given.unit);
    return answer();
}

static void check_rtp_receiver_next(void)
{
    give(TO | UNIT);
    hands_on(h26x_rtp_receiver_next(&rtp_receiver, (uint32_t)given.value, given.to.at, given.to.len, given.unit));
}

STUB(rtp_receiver_so_far);
bool proved_rtp_receiver_so_far(const h26x_rtp_receiver *r, size_t from, uint8_t *to, size_t room,
                               h26x_so_far *so_far)
{
    expect(r == &rtp_receiver && from == given.value);
    writes_to(to, room);
    is_output(so_far, given.so_far);
    return answer() != 0;
}

static void check_rtp_receiver_so_far(void)
{
    give(TO | SO_FAR);
    hands_on_bool(
        h26x_rtp_receiver_so_far(&rtp_receiver, given.value, given.to.at, given.to.len, given.so_far));
}

STUB(rtp_receiver_deadline);
bool proved_rtp_receiver_deadline(const h26x_rtp_receiver *r, uint32_t *at)
{
    expect(r == &rtp_receiver);
    is_output(at, given.number);
    return answer() != 0;
}

static void check_rtp_receiver_deadline(void)
{
    give(NUMBER);
    hands_on_bool(h26x_rtp_receiver_deadline(&rtp_receiver, given.number));
}

STUB(rtp_receiver_nacks);
uint32_t proved_rtp_receiver_nacks(h26x_rtp_receiver *r, uint32_t now, const h26x_nack_times *times,
                                   uint16_t *numbers, size_t numbers_room, size_t *count)
{
    expect(r == &rtp_receiver && now == (uint32_t)given.value && times == &nack_times);
    writes_numbers(numbers, numbers_room);
    is_output(count, given.first);
    return answer();
}

static void check_rtp_receiver_nacks(void)
{
    give(NUMBERS | FIRST);
    hands_on(h26x_rtp_receiver_nacks(&rtp_receiver, (uint32_t)given.value, &nack_times, given.numbers,
                                     given.numbers_room, given.first));
}

STUB(rtp_receiver_statistics);
uint32_t proved_rtp_receiver_statistics(const h26x_rtp_receiver *r, h26x_rtp_statistics *counted)
{
    expect(r == &rtp_receiver);
    is_output(counted, given.counted);
    return answer();
}

static void check_rtp_receiver_statistics(void)
{
    give(STATISTICS);
    hands_on(h26x_rtp_receiver_statistics(&rtp_receiver, given.counted));
}

STUB(rtp_receiver_report);
bool proved_rtp_receiver_report(h26x_rtp_receiver *r, uint32_t last_sender_report, uint32_t delay,
                                h26x_report *report)
{
    expect(r == &rtp_receiver && last_sender_report == (uint32_t)given.value);
    expect(delay == (uint32_t)given.other_value);
    is_output(report, given.report);
    return answer() != 0;
}

static void check_rtp_receiver_report(void)
{
    give(REPORT);
    hands_on_bool(h26x_rtp_receiver_report(&rtp_receiver, (uint32_t)given.value, (uint32_t)given.other_value,
                                           given.report));
}

STUB(rtp_receiver_count);
uint32_t proved_rtp_receiver_count(const h26x_rtp_receiver *r, h26x_access_units_counts *counts)
{
    expect(r == &rtp_receiver);
    is_output(counts, given.counts);
    return answer();
}

static void check_rtp_receiver_count(void)
{
    give(COUNTS);
    hands_on(h26x_rtp_receiver_count(&rtp_receiver, given.counts));
}

/* ---- Sending access units, as datagrams ---- */

STUB(rtp_sender_free);
void proved_rtp_sender_free(h26x_rtp_sender s)
{
    expect(s.at == &there);
    handed_on++;
}

static void check_rtp_sender_free(void)
{
    h26x_rtp_sender s = {nondet_bool() ? &there : NULL};
    handed_on = 0;
    h26x_rtp_sender_free(s);
    expect(handed_on == (s.at != NULL));
}

STUB(rtp_sender_send);
uint32_t proved_rtp_sender_send(h26x_rtp_sender *s, uint32_t timestamp, uint16_t profile, const uint8_t *extension,
                                size_t extension_len, size_t headroom, uint8_t *packets, size_t packets_len,
                                const size_t *ends, size_t ends_len, size_t *len)
{
    expect(s == &rtp_sender && timestamp == (uint32_t)given.value && profile == (uint16_t)given.other_value
           && headroom == given.value);
    reads(extension, extension_len, given.extension);
    writes_to(packets, packets_len);
    reads_ends(ends, ends_len);
    is_output(len, given.first);
    return answer();
}

static void check_rtp_sender_send(void)
{
    give(EXTENSION | TO | ENDS | FIRST);
    hands_on(h26x_rtp_sender_send(&rtp_sender, (uint32_t)given.value, (uint16_t)given.other_value, given.extension.at,
                                  given.extension.len, given.value, given.to.at, given.to.len, given.ends,
                                  given.ends_room, given.first));
}

STUB(rtp_sender_resend);
uint32_t proved_rtp_sender_resend(h26x_rtp_sender *s, uint16_t number, uint8_t *to, size_t room, size_t *len)
{
    expect(s == &rtp_sender && number == (uint16_t)given.value);
    writes_to(to, room);
    is_output(len, given.first);
    return answer();
}

static void check_rtp_sender_resend(void)
{
    give(TO | FIRST);
    hands_on(h26x_rtp_sender_resend(&rtp_sender, (uint16_t)given.value, given.to.at, given.to.len, given.first));
}

STUB(rtp_sender_streams);
uint32_t proved_rtp_sender_streams(const h26x_rtp_sender *s, h26x_rtp_streams *streams)
{
    expect(s == &rtp_sender);
    is_output(streams, given.streams);
    return answer();
}

static void check_rtp_sender_streams(void)
{
    give(SENDING);
    hands_on(h26x_rtp_sender_streams(&rtp_sender, given.streams));
}

STUB(rtp_sender_count);
uint32_t proved_rtp_sender_count(const h26x_rtp_sender *s, h26x_rtp_sent *sent)
{
    expect(s == &rtp_sender);
    is_output(sent, given.sent);
    return answer();
}

static void check_rtp_sender_count(void)
{
    give(SENDING);
    hands_on(h26x_rtp_sender_count(&rtp_sender, given.sent));
}

/* ---- Format parameters of SDP ---- */

STUB(sdp_free);
void proved_sdp_free(h26x_sdp h)
{
    expect(h.at == &there);
    handed_on++;
}

static void check_sdp_free(void)
{
    h26x_sdp h = {nondet_bool() ? &there : NULL};
    handed_on = 0;
    h26x_sdp_free(h);
    expect(handed_on == (h.at != NULL));
}

STUB(sdp_read);
uint32_t proved_sdp_read(uint32_t codec, const uint8_t *text, size_t text_len, h26x_sdp *made,
                         h26x_refusal *why)
{
    expect(codec == (uint32_t)given.value && made == &made_format);
    reads(text, text_len, given.in);
    is_output(why, given.why);
    return answer();
}

static void check_sdp_read(void)
{
    give(IN | WHY);
    hands_on(h26x_sdp_read((uint32_t)given.value, given.in.at, given.in.len, &made_format, given.why));
}

STUB(sdp_of_payload);
uint32_t proved_sdp_of_payload(uint32_t codec, const uint8_t *payload, size_t payload_len,
                               h26x_sdp *made)
{
    expect(codec == (uint32_t)given.value && made == &made_format);
    reads(payload, payload_len, given.in);
    return answer();
}

static void check_sdp_of_payload(void)
{
    give(IN);
    hands_on(h26x_sdp_of_payload((uint32_t)given.value, given.in.at, given.in.len, &made_format));
}

STUB(sdp_agreed);
uint32_t proved_sdp_agreed(const h26x_sdp *own, const h26x_sdp *other, uint32_t options, h26x_sdp_stream *sends,
                           h26x_sdp_stream *receives)
{
    expect(own == &format && other == &made_format && options == (uint32_t)given.value);
    is_output(sends, given.sends);
    is_output(receives, given.receives);
    return answer();
}

static void check_sdp_agreed(void)
{
    give(STREAMS);
    hands_on(h26x_sdp_agreed(&format, &made_format, (uint32_t)given.value, given.sends, given.receives));
}

STUB(sdp_broken_rule);
uint32_t proved_sdp_broken_rule(const h26x_sdp *h, uint32_t options, h26x_refusal *why)
{
    expect(h == &format && options == (uint32_t)given.value);
    is_output(why, given.why);
    return answer();
}

static void check_sdp_broken_rule(void)
{
    give(WHY);
    hands_on(h26x_sdp_broken_rule(&format, (uint32_t)given.value, given.why));
}

STUB(sdp_name);
uint32_t proved_sdp_name(const h26x_sdp *h, size_t i, uint8_t *to, size_t room, size_t *len)
{
    expect(h == &format && i == given.value);
    writes_to(to, room);
    is_output(len, given.first);
    return answer();
}

static void check_sdp_name(void)
{
    give(TO | FIRST);
    hands_on(h26x_sdp_name(&format, given.value, given.to.at, given.to.len, given.first));
}

STUB(sdp_write);
uint32_t proved_sdp_write(const h26x_sdp *h, uint8_t *to, size_t room, size_t *len)
{
    expect(h == &format);
    writes_to(to, room);
    is_output(len, given.first);
    return answer();
}

static void check_sdp_write(void)
{
    give(TO | FIRST);
    hands_on(h26x_sdp_write(&format, given.to.at, given.to.len, given.first));
}

STUB(sdp_set);
uint32_t proved_sdp_set(h26x_sdp *h, const uint8_t *name, size_t name_len, const uint8_t *value, size_t value_len)
{
    expect(h == &format);
    reads(name, name_len, given.in);
    reads(value, value_len, given.extension);
    return answer();
}

static void check_sdp_set(void)
{
    give(IN | EXTENSION);
    hands_on(h26x_sdp_set(&format, given.in.at, given.in.len, given.extension.at, given.extension.len));
}

STUB(sdp_unset);
uint32_t proved_sdp_unset(h26x_sdp *h, const uint8_t *name, size_t name_len)
{
    expect(h == &format);
    reads(name, name_len, given.in);
    return answer();
}

static void check_sdp_unset(void)
{
    give(IN);
    hands_on(h26x_sdp_unset(&format, given.in.at, given.in.len));
}

STUB(sdp_value);
uint32_t proved_sdp_value(const h26x_sdp *h, const uint8_t *name, size_t name_len, bool or_default,
                          uint8_t *to, size_t room, size_t *len)
{
    expect(h == &format && or_default == (given.value != 0));
    reads(name, name_len, given.in);
    writes_to(to, room);
    is_output(len, given.first);
    return answer();
}

static void check_sdp_value(void)
{
    give(IN | TO | FIRST);
    hands_on(h26x_sdp_value(&format, given.in.at, given.in.len, given.value != 0, given.to.at, given.to.len,
                            given.first));
}

STUB(sdp_number);
uint32_t proved_sdp_number(const h26x_sdp *h, const uint8_t *name, size_t name_len, bool or_default,
                           uint64_t *value)
{
    expect(h == &format && or_default == (given.value != 0));
    reads(name, name_len, given.in);
    is_output(value, given.long_number);
    return answer();
}

static void check_sdp_number(void)
{
    give(IN | LONG_NUMBER);
    hands_on(h26x_sdp_number(&format, given.in.at, given.in.len, given.value != 0, given.long_number));
}

STUB(sdp_units);
uint32_t proved_sdp_units(const h26x_sdp *h, const uint8_t *name, size_t name_len, size_t *count,
                          h26x_refusal *why)
{
    expect(h == &format);
    reads(name, name_len, given.in);
    is_output(count, given.first);
    is_output(why, given.why);
    return answer();
}

static void check_sdp_units(void)
{
    give(IN | FIRST | WHY);
    hands_on(h26x_sdp_units(&format, given.in.at, given.in.len, given.first, given.why));
}

STUB(sdp_unit);
uint32_t proved_sdp_unit(const h26x_sdp *h, const uint8_t *name, size_t name_len, size_t i, uint8_t *to,
                         size_t room, size_t *len, h26x_refusal *why)
{
    expect(h == &format && i == given.value);
    reads(name, name_len, given.in);
    writes_to(to, room);
    is_output(len, given.first);
    is_output(why, given.why);
    return answer();
}

static void check_sdp_unit(void)
{
    give(IN | TO | FIRST | WHY);
    hands_on(h26x_sdp_unit(&format, given.in.at, given.in.len, given.value, given.to.at, given.to.len,
                           given.first, given.why));
}

STUB(sdp_level_unit);
uint32_t proved_sdp_level_unit(const h26x_sdp *h, uint64_t level, size_t i, uint8_t *to, size_t room, size_t *len,
                               h26x_refusal *why)
{
    expect(h == &format && level == given.other_value && i == given.value);
    writes_to(to, room);
    is_output(len, given.first);
    is_output(why, given.why);
    return answer();
}

static void check_sdp_level_unit(void)
{
    give(TO | FIRST | WHY);
    hands_on(h26x_sdp_level_unit(&format, given.other_value, given.value, given.to.at, given.to.len, given.first,
                                 given.why));
}

STUB(sdp_other);
uint32_t proved_sdp_other(const h26x_sdp *h, size_t i, uint8_t *name, size_t name_room, size_t *name_len,
                          uint8_t *value, size_t value_room, size_t *value_len)
{
    expect(h == &format && i == given.value);
    writes_to(name, name_room);
    writes_to_too(value, value_room);
    is_output(name_len, given.first);
    is_output(value_len, given.second);
    return answer();
}

static void check_sdp_other(void)
{
    give(TO | TO_TOO | FIRST | SECOND);
    hands_on(h26x_sdp_other(&format, given.value, given.to.at, given.to.len, given.first, given.to_too.at,
                            given.to_too.len, given.second));
}

STUB(sdp_max_don_diff);
uint32_t proved_sdp_max_don_diff(const h26x_sdp *h, uint32_t *value)
{
    expect(h == &format);
    is_output(value, given.number);
    return answer();
}

static void check_sdp_max_don_diff(void)
{
    give(NUMBER);
    hands_on(h26x_sdp_max_don_diff(&format, given.number));
}

STUB(sdp_constraints);
uint32_t proved_sdp_constraints(const h26x_sdp *h, uint8_t *to, size_t room, h26x_constraints *said)
{
    expect(h == &format);
    writes_to(to, room);
    is_output(said, given.said);
    return answer();
}

static void check_sdp_constraints(void)
{
    give(TO | SAID);
    hands_on(h26x_sdp_constraints(&format, given.to.at, given.to.len, given.said));
}

STUB(sdp_capability_points);
uint32_t proved_sdp_capability_points(const h26x_sdp *h, bool or_default, h26x_capability_point *points,
                                      size_t points_room, size_t *count, h26x_refusal *why)
{
    expect(h == &format && or_default == (given.value != 0));
    writes_points(points, points_room);
    is_output(count, given.first);
    is_output(why, given.why);
    return answer();
}

static void check_sdp_capability_points(void)
{
    give(POINTS | FIRST | WHY);
    hands_on(h26x_sdp_capability_points(&format, given.value != 0, given.points, given.points_room,
                                        given.first, given.why));
}

STUB(fits_single_units);
bool proved_fits_single_units(const uint8_t *payload, size_t payload_len, size_t limit)
{
    expect(limit == given.value);
    reads(payload, payload_len, given.in);
    return answer() != 0;
}

static void check_fits_single_units(void)
{
    give(IN);
    hands_on_bool(h26x_fits_single_units(given.in.at, given.in.len, given.value));
}

STUB(rtpmap_read);
uint32_t proved_rtpmap_read(const uint8_t *text, size_t text_len, uint8_t *payload_type, uint32_t *codec)
{
    reads(text, text_len, given.in);
    is_output(payload_type, given.small);
    is_output(codec, given.number);
    return answer();
}

static void check_rtpmap_read(void)
{
    give(IN | SMALL | NUMBER);
    hands_on(h26x_rtpmap_read(given.in.at, given.in.len, given.small, given.number));
}

STUB(rtpmap_write);
uint32_t proved_rtpmap_write(uint8_t payload_type, uint32_t codec, uint8_t *to, size_t room, size_t *len)
{
    expect(payload_type == (uint8_t)given.value && codec == (uint32_t)given.other_value);
    writes_to(to, room);
    is_output(len, given.first);
    return answer();
}

static void check_rtpmap_write(void)
{
    give(TO | FIRST);
    hands_on(h26x_rtpmap_write((uint8_t)given.value, (uint32_t)given.other_value, given.to.at, given.to.len,
                               given.first));
}

STUB(repairmap_read);
uint32_t proved_repairmap_read(const uint8_t *text, size_t text_len, uint8_t *payload_type, uint32_t *repair)
{
    reads(text, text_len, given.in);
    is_output(payload_type, given.small);
    is_output(repair, given.number);
    return answer();
}

static void check_repairmap_read(void)
{
    give(IN | SMALL | NUMBER);
    hands_on(h26x_repairmap_read(given.in.at, given.in.len, given.small, given.number));
}

STUB(repairmap_write);
uint32_t proved_repairmap_write(uint8_t payload_type, uint32_t repair, uint8_t *to, size_t room, size_t *len)
{
    expect(payload_type == (uint8_t)given.value && repair == (uint32_t)given.other_value);
    writes_to(to, room);
    is_output(len, given.first);
    return answer();
}

static void check_repairmap_write(void)
{
    give(TO | FIRST);
    hands_on(h26x_repairmap_write((uint8_t)given.value, (uint32_t)given.other_value, given.to.at, given.to.len,
                                  given.first));
}

STUB(rtx_format_read);
uint32_t proved_rtx_format_read(const uint8_t *text, size_t text_len, h26x_rtx_format *rtx, h26x_refusal *why)
{
    reads(text, text_len, given.in);
    is_output(rtx, given.rtx);
    is_output(why, given.why);
    return answer();
}

static void check_rtx_format_read(void)
{
    give(IN | RTX | WHY);
    hands_on(h26x_rtx_format_read(given.in.at, given.in.len, given.rtx, given.why));
}

STUB(rtx_format_write);
uint32_t proved_rtx_format_write(const h26x_rtx_format *rtx, uint8_t *to, size_t room, size_t *len)
{
    expect(rtx == &there.rtx);
    writes_to(to, room);
    is_output(len, given.first);
    return answer();
}

static void check_rtx_format_write(void)
{
    give(TO | FIRST);
    hands_on(h26x_rtx_format_write(&there.rtx, given.to.at, given.to.len, given.first));
}

static void check_sending(void)
{
    in_each_case(check_packetizer_free);
    in_each_case(check_packetize);
    in_each_case(check_packetize_unit);
    in_each_case(check_packetize_into);
    in_each_case(check_packetize_unit_into);
    in_each_case(check_packets_size);
    in_each_case(check_packetize_units);
    in_each_case(check_packetize_units_into);
    in_each_case(check_units_size);
    in_each_case(check_packet_copy);
    in_each_case(check_packets_copy);
}

static void check_receiving(void)
{
    in_each_case(check_depacketizer_free);
    in_each_case(check_depacketize);
    in_each_case(check_written_copy);
    in_each_case(check_receiver_free);
    in_each_case(check_receive);
    in_each_case(check_receive_all);
    in_each_case(check_receiver_skip);
}

static void check_access_units(void)
{
    in_each_case(check_access_units_free);
    in_each_case(check_access_units_push);
    in_each_case(check_access_units_push_all);
    in_each_case(check_access_units_skip);
    in_each_case(check_access_units_next);
    in_each_case(check_access_units_so_far);
    in_each_case(check_access_units_deadline);
    in_each_case(check_access_units_missing);
    in_each_case(check_access_units_nacks);
    in_each_case(check_access_units_begin_at);
    in_each_case(check_access_units_count);
}

static void check_looking(void)
{
    in_each_case(check_h265_part_copy);
    in_each_case(check_h265_paci_packet);
    in_each_case(check_is_partition_head);
    in_each_case(check_is_partition_tail);
    in_each_case(check_detect_keyframe);
    in_each_case(check_begins_keyframe);
    in_each_case(check_detect_h264_nalu);
    in_each_case(check_set_lowest_header);
    in_each_case(check_next_unit);
    in_each_case(check_next_avc_unit);
    in_each_case(check_unit_is_plain);
    in_each_case(check_h264_profile_level);
}

static void check_rtp(void)
{
    in_each_case(check_is_rtcp);
    in_each_case(check_rtp_read);
    in_each_case(check_rtp_element_next);
    in_each_case(check_rtp_original);
    in_each_case(check_rtp_write);
    in_each_case(check_rtp_write_before);
    in_each_case(check_rtx_write);
    in_each_case(check_red_primary);
    in_each_case(check_red_blocks);
    in_each_case(check_pli_write);
    in_each_case(check_pli_read);
    in_each_case(check_fir_write);
    in_each_case(check_fir_read);
    in_each_case(check_receiver_report_write);
    in_each_case(check_receiver_report_read);
    in_each_case(check_nack_write);
    in_each_case(check_nack_read);
    in_each_case(check_rtcp_next);
    in_each_case(check_rtp_statistics_report);
}

static void check_rtp_receivers(void)
{
    in_each_case(check_rtp_receiver_free);
    in_each_case(check_rtp_receiver_sources);
    in_each_case(check_rtp_receiver_push);
    in_each_case(check_rtp_receiver_next);
    in_each_case(check_rtp_receiver_so_far);
    in_each_case(check_rtp_receiver_deadline);
    in_each_case(check_rtp_receiver_nacks);
    in_each_case(check_rtp_receiver_statistics);
    in_each_case(check_rtp_receiver_report);
    in_each_case(check_rtp_receiver_count);
    in_each_case(check_rtp_sender_free);
    in_each_case(check_rtp_sender_send);
    in_each_case(check_rtp_sender_resend);
    in_each_case(check_rtp_sender_streams);
    in_each_case(check_rtp_sender_count);
}

static void check_sdp(void)
{
    in_each_case(check_sdp_free);
    in_each_case(check_sdp_read);
    in_each_case(check_sdp_of_payload);
    in_each_case(check_sdp_agreed);
    in_each_case(check_sdp_broken_rule);
    in_each_case(check_sdp_name);
    in_each_case(check_sdp_write);
    in_each_case(check_sdp_set);
    in_each_case(check_sdp_unset);
    in_each_case(check_sdp_value);
    in_each_case(check_sdp_number);
    in_each_case(check_sdp_units);
    in_each_case(check_sdp_unit);
    in_each_case(check_sdp_level_unit);
    in_each_case(check_sdp_other);
    in_each_case(check_sdp_max_don_diff);
    in_each_case(check_sdp_constraints);
    in_each_case(check_sdp_capability_points);
    in_each_case(check_fits_single_units);
    in_each_case(check_rtpmap_read);
    in_each_case(check_rtpmap_write);
    in_each_case(check_repairmap_read);
    in_each_case(check_repairmap_write);
    in_each_case(check_rtx_format_read);
    in_each_case(check_rtx_format_write);
}

int main(void)
{
    check_sending();
    check_receiving();
    check_access_units();
    check_looking();
    check_rtp();
    check_rtp_receivers();
    check_sdp();
#ifndef __CPROVER__
    printf("%zu cases\n", cases);
#endif
    return 0;
}
