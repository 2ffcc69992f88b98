/* Packets, any whatever, through a depacketizer and a receiver of packets with their sequence numbers.
 *
 * A byte of settings, whose further bits choose the limit on an open unit; a byte that nothing reads; and then, for
 * each packet, a byte of steps and the packet (rust/emupedestal/fuzz/src/packets.rs). */
#include "fuzz.h"
#include <string.h>

int LLVMFuzzerTestOneInput(const uint8_t *at, size_t len);

/* What a call was given room for, and what it answered. */
struct answer {
    uint32_t code, received;
    uint16_t count;
    uint8_t told;
    size_t room, written;
    h26x_refusal why;
    uint8_t *to;
};

/* The ends of a run, and what must be. */
struct run {
    struct settings set;
    h26x_depacketizer plain, beside;
    h26x_receiver receiver;
    uint8_t told, receiver_told;
    size_t run_limit;
    /* How long the packets were together: an open unit has no more data. */
    size_t sum;
    bool has_expected;
    uint16_t expected;
};

/* What no call says; and more than one packet of a run writes. */
enum { NOT_SAID = 99, MOST_WRITTEN = 3 * LONGEST };

static struct answer fresh_answer(enum place place, size_t room, uint8_t told)
{
    struct answer a = {.received = NOT_SAID, .count = NOT_SAID, .told = told, .room = room};
    a.written = NOT_SAID;
    a.why = (h26x_refusal){NOT_SAID, NOT_SAID};
    a.to = room_for(place, room);
    return a;
}

static struct answer taken(h26x_depacketizer *d, bool avc, struct input packet, enum place place, size_t room,
                           uint8_t told)
{
    struct answer a = fresh_answer(place, room, told);
    const uint8_t *read = copied(PACKET, packet);
    a.code = h26x_depacketize(d, avc, read, packet.len, a.to, room, &a.written, &a.told, &a.why);
    return a;
}

/* What stands behind what was written is left, and what had no room is had from the handle, also where that is given
 * too little once more. */
static void check_room(const struct answer *a, const h26x_depacketizer *d)
{
    if (a->written <= a->room) {
        expect(is_untouched(a->to + a->written, a->room - a->written));
        expect(h26x_written_copy(d, NULL, 0) == 0);
        return;
    }
    expect(is_untouched(a->to, a->room));
    uint8_t *to = room_for(OTHER, a->written - 1);
    expect(h26x_written_copy(d, to, a->written - 1) == a->written);
    expect(is_untouched(to, a->written - 1));
}

/* The same bytes from a call that had room and one that may have had too little. */
static void check_same_bytes(const struct answer *all, const struct answer *a, const h26x_depacketizer *d)
{
    const uint8_t *bytes = a->to;
    if (a->written > a->room) {
        uint8_t *to = room_for(OTHER, a->written);
        expect(h26x_written_copy(d, to, a->written) == a->written);
        bytes = to;
    }
    expect(memcmp(all->to, bytes, all->written) == 0);
}

/* Room as it is wanted, too little, and more. */
static size_t some_room(size_t written, uint8_t step, size_t packet_len)
{
    const size_t rooms[] = {written, written > 0 ? written - 1 : 0, written + 9, 0};
    return rooms[(step ^ packet_len) & 3];
}

static size_t length_at(const uint8_t *at)
{
    return (size_t)at[0] << 24 | (size_t)at[1] << 16 | (size_t)at[2] << 8 | at[3];
}

/* Room for all that a packet may complete. */
static size_t room_for_all(const struct run *it, struct input packet)
{
    return 2 * packet.len + it->sum + 6;
}

/* The text behind lengths is units up to its end, and the text behind start codes is the same units. */
static void check_forms(const uint8_t *lengths, const uint8_t *codes, size_t len)
{
    static const uint8_t code[] = {0, 0, 0, 1};
    for (size_t i = 0; i < len;) {
        expect(len - i >= 4 && memcmp(codes + i, code, 4) == 0);
        size_t unit_len = length_at(lengths + i);
        expect(unit_len <= len - i - 4);
        expect(memcmp(lengths + i + 4, codes + i + 4, unit_len) == 0);
        i += 4 + unit_len;
    }
}

static bool is_fragment(uint32_t codec, struct input packet)
{
    unsigned type = type_of(codec, packet.at, packet.len);
    return type == (codec == H26X_H264 ? 28 : codec == H26X_H265 ? 49 : 29);
}

/* What H.265 shows: parts that are of the packet, and none past the last. */
static void check_shown(const h26x_depacketizer *d, struct input packet)
{
    h26x_h265_packet shown;
    uint32_t number;
    size_t sum = 0;
    expect(h26x_h265_shown(d, &shown) == H26X_OK);
    expect(shown.kind >= H26X_H265_SINGLE && shown.kind <= H26X_H265_PACI);
    expect(shown.kind == H26X_H265_AGGREGATE || shown.header == (packet.at[0] << 8 | packet.at[1]));
    expect(shown.kind == H26X_H265_AGGREGATE ? shown.parts >= 2 : shown.parts >= 1);
    for (size_t i = 0; i < shown.parts; i++) {
        size_t len = h26x_h265_part_copy(d, i, NULL, 0, NULL);
        uint8_t *to = room_for(OTHER, len);
        number = 0;
        expect(h26x_h265_part_copy(d, i, to, len, &number) == len && number <= H26X_NO_NUMBER);
        if (len > 0)
            expect(h26x_h265_part_copy(d, i, room_for(ENDS, len - 1), len - 1, NULL) == len);
        sum += len;
    }
    expect(sum < packet.len);
    expect(h26x_h265_part_copy(d, shown.parts, room_for(OTHER, 1), 1, &number) == 0);
    expect(number == H26X_NO_NUMBER);
    saw(5, shown.kind, about(shown.parts), about(sum));
}

/* Gives a packet to a depacketizer, and to copies of it that have room for all, or write the other form. */
static void take_plain(struct run *it, uint8_t step, struct input packet)
{
    const uint32_t codec = it->set.codec;
    h26x_depacketizer before, all;
    expect(h26x_depacketizer_clone(&it->plain, &before) == H26X_OK);
    expect(h26x_depacketizer_clone(&it->plain, &all) == H26X_OK);
    expect(h26x_depacketizer_same(&it->plain, &all));
    static uint8_t wanted[MOST_WRITTEN];
    struct answer most = taken(&all, it->set.avc, packet, OUTPUT, room_for_all(it, packet), it->told);
    expect(most.written <= most.room);
    memcpy(wanted, most.to, most.written);
    check_room(&most, &all);
    most.to = wanted;
    const size_t held = h26x_written_copy(&it->plain, NULL, 0), room = some_room(most.written, step, packet.len);
    struct answer a = taken(&it->plain, it->set.avc, packet, OUTPUT, room, it->told);
    expect(a.code == most.code && a.written == most.written && a.told == most.told);
    saw(1, codec + a.code, type_of(codec, packet.at, packet.len), about(a.written) << 4 | about(packet.len));
    if (a.code != H26X_OK) {
        expect(a.code != H26X_OUT_OF_MEMORY && a.code != H26X_WRONG_END);
        expect(a.written == 0 && a.told == it->told && is_untouched(a.to, a.room));
        expect(h26x_depacketizer_same(&it->plain, &before));
        expect(h26x_written_copy(&it->plain, NULL, 0) == held);
    } else {
        expect(h26x_depacketizer_same(&it->plain, &all));
        expect(a.why.first == NOT_SAID && a.why.second == NOT_SAID);
        check_same_bytes(&most, &a, &it->plain);
        check_room(&a, &it->plain);
        struct answer other = taken(&before, !it->set.avc, packet, OUTPUT, most.room, it->told);
        expect(other.code == H26X_OK && other.written == a.written && other.told == a.told);
        check_forms(it->set.avc ? wanted : other.to, it->set.avc ? other.to : wanted, a.written);
        if (codec == H26X_H265)
            check_shown(&it->plain, packet);
    }
    it->told = a.told;
    h26x_depacketizer_free(before);
    h26x_depacketizer_free(all);
}

static struct answer received(struct run *it, uint16_t sequence, struct input packet, size_t room)
{
    struct answer a = fresh_answer(OUTPUT, room, it->receiver_told);
    const uint8_t *read = copied(PACKET, packet);
    a.code = h26x_receive(&it->receiver, sequence, read, packet.len, a.to, room, &a.written, &a.told, &a.received,
                          &a.count, &a.why);
    return a;
}

/* Gives a packet to a receiver, and beside it to a depacketizer whose open unit is given up where a packet is
 * missing; how many bytes that holds is told by the receiver. */
static void take_sequenced(struct run *it, uint16_t sequence, uint8_t step, struct input packet)
{
    static uint8_t wanted[MOST_WRITTEN];
    const uint16_t ahead = it->has_expected ? (uint16_t)(sequence - it->expected) : 0;
    const size_t before = h26x_receiver_run_len(&it->receiver);
    h26x_depacketizer beside;
    expect(h26x_depacketizer_clone(&it->beside, &beside) == H26X_OK);
    if (ahead > 0)
        expect(h26x_give_up_run(&beside) == H26X_OK);
    struct answer must = taken(&beside, it->set.avc, packet, OUTPUT, room_for_all(it, packet), it->receiver_told);
    expect(must.written <= must.room);
    memcpy(wanted, must.to, must.written);
    must.to = wanted;
    struct answer a = received(it, sequence, packet, some_room(must.written, step, packet.len));
    saw(2, it->set.codec + a.code, a.received << 8 | about(a.count), about(h26x_receiver_run_len(&it->receiver)));
    if (ahead >= 0x8000) {
        expect(a.code == H26X_OK && a.received == H26X_LATE && a.count == (uint16_t)-ahead);
        expect(a.written == 0 && a.told == it->receiver_told && is_untouched(a.to, a.room));
        expect(h26x_receiver_run_len(&it->receiver) == before);
        h26x_depacketizer_free(beside);
    } else if (a.code != H26X_OK) {
        expect(a.code == must.code && a.why.first == must.why.first && a.why.second == must.why.second);
        expect(a.written == 0 && a.told == it->receiver_told && is_untouched(a.to, a.room));
        expect(a.received == NOT_SAID && a.count == NOT_SAID);
        expect(h26x_receiver_run_len(&it->receiver) == before);
        h26x_depacketizer_free(beside);
    } else {
        expect(must.code == H26X_OK && a.written == must.written && a.told == must.told && a.count == ahead);
        check_same_bytes(&must, &a, &it->receiver.at);
        check_room(&a, &it->receiver.at);
        if (a.received == H26X_TOO_LONG) {
            expect(is_fragment(it->set.codec, packet) && h26x_receiver_run_len(&it->receiver) == 0);
            expect(h26x_give_up_run(&beside) == H26X_OK);
        } else {
            expect(a.received == (ahead > 0 ? H26X_GAP : H26X_IN_ORDER));
        }
        if (it->set.codec == H26X_H265)
            check_shown(&it->receiver.at, packet);
        it->has_expected = true;
        it->expected = (uint16_t)(sequence + 1);
        it->receiver_told = a.told;
        h26x_depacketizer_free(it->beside);
        it->beside = beside;
    }
    expect(h26x_receiver_run_len(&it->receiver) <= it->run_limit);
    expect(h26x_receiver_run_len(&it->receiver) <= before + packet.len);
}

/* What is asked of a packet alone. */
static void ask(uint32_t codec, struct input packet)
{
    const uint8_t *at = copied(PACKET, packet);
    bool begins = h26x_is_partition_head(codec, at, packet.len), key = h26x_detect_keyframe(codec, at, packet.len);
    bool ends = h26x_is_partition_tail(codec, true, at, packet.len);
    expect(!begins || packet.len >= 2);
    expect(codec != H26X_H264 || ends);
    expect(codec != H26X_H264 || !h26x_is_partition_tail(codec, false, at, packet.len));
    expect(codec != H26X_H264 || key == h26x_detect_h264_nalu(at, packet.len, 5));
    /* (the unit of a PACI packet isn't detected, nor one of a single byte in an aggregate) */
    expect(codec == H26X_H265 || key || !h26x_begins_keyframe(codec, false, at, packet.len));
    saw(3, codec, begins << 2 | ends << 1 | key, type_of(codec, packet.at, packet.len));
}

static void turn(struct run *it, uint8_t step)
{
    if ((step & 32) != 0) {
        it->set.avc = !it->set.avc;
        expect(h26x_receiver_set_avc(&it->receiver, it->set.avc) == H26X_OK);
    }
    if ((step & 128) != 0 && it->set.codec != H26X_H264) {
        bool numbers = it->set.numbers = !it->set.numbers;
        expect(h26x_depacketizer_set_numbers(&it->plain, numbers) == H26X_OK);
        expect(h26x_depacketizer_set_numbers(&it->beside, numbers) == H26X_OK);
        expect(h26x_receiver_set_numbers(&it->receiver, numbers) == H26X_OK);
    }
    if ((step & 64) != 0) {
        expect(h26x_give_up_run(&it->plain) == H26X_OK);
        expect(h26x_give_up_run(&it->beside) == H26X_OK);
        expect(h26x_receiver_restart(&it->receiver) == H26X_OK);
        expect(h26x_receiver_run_len(&it->receiver) == 0);
        it->has_expected = false;
    }
}

int LLVMFuzzerTestOneInput(const uint8_t *at, size_t len)
{
    static const size_t limits[] = {0, 1, 4, 16, 64, 1000, 4096, 1 << 20};
    static const uint16_t steps[] = {1, 1, 2, 0, 0xffff, 3, 0x8000, 0xffd8};
    struct input in = {at, len < LONGEST ? len : LONGEST};
    struct run it = {.set = take_settings(&in)};
    uint16_t sequence = 65530;
    take_byte(&in);
    it.run_limit = limits[it.set.more & 7];
    expect(h26x_depacketizer_new(it.set.codec, it.set.numbers, &it.plain) == H26X_OK);
    expect(h26x_depacketizer_clone(&it.plain, &it.beside) == H26X_OK);
    expect(h26x_receiver_new(it.set.codec, it.set.numbers, it.set.avc, it.run_limit, &it.receiver) == H26X_OK);
    while (in.len > 0) {
        uint8_t step = take_byte(&in);
        struct input packet = take_bytes(&in);
        turn(&it, step);
        sequence = (uint16_t)(sequence + steps[step & 7]);
        take_plain(&it, step, packet);
        take_sequenced(&it, sequence, step, packet);
        ask(it.set.codec, packet);
        it.sum += packet.len;
    }
    h26x_depacketizer_free(it.plain);
    h26x_depacketizer_free(it.beside);
    h26x_receiver_free(it.receiver);
    return 0;
}
