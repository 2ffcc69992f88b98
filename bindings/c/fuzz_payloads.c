/* Payloads, any whatever, through packetizers: copied out, and straight in the caller's memory; and units as they are
 * through a depacketizer and, with one packet lost, a receiver; and what is told of bytes without a handle.
 *
 * A byte of settings, whose further bits choose the packet that gets lost; the largest packet size in two bytes, which
 * stays as it is where that is under 4; the headroom in a byte; and then, for each call, a byte whose lowest bit says
 * that a unit is sent as it is, the limit in two bytes (65535 for none), and the payload
 * (rust/emupedestal/fuzz/src/payloads.rs). */
#include "fuzz.h"
#include <string.h>

int LLVMFuzzerTestOneInput(const uint8_t *at, size_t len);

/* The most packets that one call makes of an input: a byte each. */
enum { PACKETS_MOST = LONGEST, NOT_SAID = 99 };

/* How a run is set up. */
struct run {
    struct settings set;
    h26x_packetizer p;
    size_t max_size, headroom;
};

/* The packets of a call, one behind the other; where each ends. */
struct packets {
    size_t count, ends[PACKETS_MOST];
    uint8_t at[4 * LONGEST];
};

/* A call: what is sent. */
struct call {
    bool is_unit;
    size_t mtu, limit;
    struct input bytes;
};

static struct input packet_of(const struct packets *all, size_t i)
{
    size_t begin = i > 0 ? all->ends[i - 1] : 0;
    return (struct input){all->at + begin, all->ends[i] - begin};
}

/* Packets that the handle holds, each by itself, and all at once. */
static void copy_out(const h26x_packetizer *p, size_t count, struct packets *all)
{
    size_t len = h26x_packets_len(p);
    expect(count <= PACKETS_MOST && len <= sizeof all->at && h26x_packet_count(p) == count);
    expect(h26x_packet_len(p, count) == 0 && h26x_packet_copy(p, count, room_for(OTHER, 0), 0) == 0);
    uint8_t *to = room_for(OUTPUT, len);
    expect(h26x_packets_copy(p, 0, to, len, all->ends, count) == count);
    memcpy(all->at, to, len);
    all->count = count;
    expect(count == 0 ? len == 0 : all->ends[count - 1] == len);
    for (size_t i = 0; i < count; i++) {
        struct input packet = packet_of(all, i);
        uint8_t *one = room_for(OTHER, packet.len);
        expect(h26x_packet_len(p, i) == packet.len && h26x_packet_copy(p, i, one, packet.len) == packet.len);
        expect(memcmp(one, packet.at, packet.len) == 0);
        one = room_for(OTHER, packet.len - 1);
        expect(h26x_packet_copy(p, i, one, packet.len - 1) == packet.len);
        expect(is_untouched(one, packet.len - 1));
    }
    if (count > 0 && len > 0) {
        size_t ends[1] = {NOT_SAID};
        expect(h26x_packets_copy(p, count - 1, room_for(OTHER, 0), 0, ends, 1) == 0 && ends[0] == NOT_SAID);
    }
}

static uint32_t placed(h26x_packetizer *p, const struct call *c, size_t headroom, uint8_t *to, size_t room,
                       size_t *ends, size_t ends_room, size_t *count, size_t *size)
{
    const uint8_t *read = copied(PACKET, c->bytes);
    return (c->is_unit ? h26x_packetize_unit_into : h26x_packetize_into)(p, c->mtu, read, c->bytes.len, headroom, to,
                                                                         room, ends, ends_room, count, size);
}

/* The same packets straight in memory: without enough room nothing is written, and with it nothing else. */
static void place(h26x_packetizer *p, const struct call *c, size_t headroom, const struct packets *all)
{
    static size_t ends[PACKETS_MOST + 1];
    size_t count = NOT_SAID, size = NOT_SAID;
    const size_t wanted = (all->count > 0 ? all->ends[all->count - 1] : 0) + all->count * headroom;
    if (all->count > 0) {
        uint8_t *little = room_for(OUTPUT, wanted - 1);
        ends[0] = NOT_SAID;
        expect(placed(p, c, headroom, little, wanted - 1, ends, all->count, &count, &size) == H26X_NO_ROOM);
        expect(count == all->count && size == wanted && ends[0] == NOT_SAID);
        expect(is_untouched(little, wanted - 1));
        expect(placed(p, c, headroom, room_for(OUTPUT, wanted), wanted, ends, all->count - 1, &count, &size)
               == H26X_NO_ROOM);
        expect(count == all->count && size == wanted && ends[0] == NOT_SAID);
    }
    uint8_t *to = room_for(OUTPUT, wanted);
    ends[all->count] = NOT_SAID;
    expect(placed(p, c, headroom, to, wanted, ends, all->count, &count, &size) == H26X_OK);
    expect(count == all->count && size == wanted && ends[all->count] == NOT_SAID);
    for (size_t i = 0, begin = 0; i < count; begin = ends[i++]) {
        struct input packet = packet_of(all, i);
        expect(ends[i] - begin == headroom + packet.len && is_untouched(to + begin, headroom));
        expect(memcmp(to + begin + headroom, packet.at, packet.len) == 0);
    }
}

/* How many packets a unit as it is takes: none, one, or as few fragments as there can be. */
static size_t count_of(const struct run *it, const struct call *c)
{
    const size_t header = header_len(it->set.codec), number = it->set.numbers ? 2 : 0;
    const size_t front = header + 1 + number, len = c->bytes.len;
    if (c->limit == 0 || len < header)
        return 0;
    if (len + number <= c->limit)
        return 1;
    return c->limit <= front ? 0 : (number + len - header + c->limit - header - 2) / (c->limit - header - 1);
}

/* Gives the packets of a unit, but for one, to a receiver: it writes the unit where none is missing. */
static void receive(const struct run *it, const struct call *c, const struct packets *all, size_t lost)
{
    h26x_receiver r;
    uint8_t told = 0;
    size_t written = 0;
    expect(h26x_receiver_new(it->set.codec, it->set.numbers, it->set.avc, SIZE_MAX, &r) == H26X_OK);
    uint8_t *to = room_for(OUTPUT, c->bytes.len + 4);
    for (size_t i = 0; i < all->count; i++) {
        struct input packet = packet_of(all, i);
        const uint8_t *read = copied(PACKET, packet);
        expect(written == 0);
        if (i != lost)
            expect(h26x_receive(&r, (uint16_t)(i - 2), read, packet.len, to, c->bytes.len + 4, &written, &told, NULL,
                                NULL, NULL)
                   == H26X_OK);
    }
    if (lost < all->count) {
        expect(written == 0 && told == 0 && is_untouched(to, c->bytes.len + 4));
    } else {
        const size_t front = it->set.avc ? c->bytes.len : 1;
        const uint8_t before[] = {0, front >> 16 & 255, front >> 8 & 255, front & 255};
        expect(written == c->bytes.len + 4 && told != 0 && memcmp(to, before, 4) == 0);
        expect(memcmp(to + 4, c->bytes.at, c->bytes.len) == 0);
    }
    h26x_receiver_free(r);
}

static void send_call(struct run *it, const struct call *c)
{
    static struct packets all;
    const uint32_t codec = it->set.codec;
    h26x_packetizer placing;
    size_t count = NOT_SAID, told = NOT_SAID, size = NOT_SAID;
    expect(h26x_packetizer_clone(&it->p, &placing) == H26X_OK && h26x_packet_count(&placing) == 0);
    if (!c->is_unit)
        expect(h26x_packets_size(&it->p, c->mtu, copied(PACKET, c->bytes), c->bytes.len, it->headroom, &told, &size)
               == H26X_OK);
    const uint8_t *read = copied(PACKET, c->bytes);
    expect((c->is_unit ? h26x_packetize_unit : h26x_packetize)(&it->p, c->mtu, read, c->bytes.len, &count) == H26X_OK);
    copy_out(&it->p, count, &all);
    expect(c->is_unit || (told == count && size == h26x_packets_len(&it->p) + count * it->headroom));
    for (size_t i = 0; i < count; i++)
        expect(packet_of(&all, i).len <= c->limit && packet_of(&all, i).len > 0);
    place(&placing, c, it->headroom, &all);
    saw(4, codec + c->is_unit, about(c->limit) << 4 | about(count), type_of(codec, c->bytes.at, c->bytes.len));
    if (c->is_unit) {
        expect(count == count_of(it, c));
        if (count > 0 && is_carried(codec, c->bytes.at, c->bytes.len)) {
            receive(it, c, &all, SIZE_MAX);
            receive(it, c, &all, it->set.more % count);
        }
    }
    h26x_packetizer_free(it->p);
    it->p = placing;
}

/* The units of a payload stand in it one behind the other. */
static void cut(uint32_t codec, struct input payload)
{
    const uint8_t *at = copied(PACKET, payload);
    size_t begin = NOT_SAID, end = 0, from = 0, count = 0;
    while (h26x_next_unit(codec, at, payload.len, from, &begin, &end)) {
        expect(from <= begin && begin < end && end <= payload.len);
        from = end;
        count++;
    }
    expect(end == from);
    saw(6, codec, about(count), about(payload.len));
}

/* So do those of a text behind lengths, where a plain walk finds them. */
static void cut_by_lengths(struct input text)
{
    const uint8_t *at = copied(PACKET, text);
    size_t begin = NOT_SAID, end = 0;
    for (size_t place = 0, unit; text.len - place >= 4; place += unit) {
        unit = (size_t)at[place] << 24 | at[place + 1] << 16 | at[place + 2] << 8 | at[place + 3];
        place += 4;
        if (unit > text.len - place)
            break;
        if (unit > 0)
            expect(h26x_next_avc_unit(at, text.len, end, &begin, &end) && begin == place && end == place + unit);
    }
    expect(!h26x_next_avc_unit(at, text.len, end, &begin, &end));
}

/* What is plain, byte by byte: neither 00 00 00 nor 00 00 01 stands in a unit, no zero ends it, and its header is one
 * of the video itself (RFC 6184, 5.2, table 1; RFC 7798, 1.1.4 and 4.4; RFC 9328, 1.1.4 and 4.3). */
static bool is_plain(uint32_t codec, struct input unit)
{
    const unsigned type = type_of(codec, unit.at, unit.len);
    const unsigned last = codec == H26X_H264 ? 23 : codec == H26X_H265 ? 47 : 27;
    if (unit.len < header_len(codec) || unit.at[unit.len - 1] == 0)
        return false;
    for (size_t i = 2; i < unit.len; i++)
        if (unit.at[i - 2] == 0 && unit.at[i - 1] == 0 && unit.at[i] <= 1)
            return false;
    return unit.at[0] < (codec == H26X_H266 ? 64 : 128) && type <= last && (codec != H26X_H264 || type > 0);
}

/* A unit is plain where that says so; and then its Annex B text, twice, is cut into it and it again. */
static void look(uint32_t codec, struct input unit)
{
    const uint8_t *at = copied(PACKET, unit);
    const size_t len = 2 * (unit.len + 4), behind = unit.len + 4;
    size_t begin = NOT_SAID, end = 0;
    bool plain = h26x_unit_is_plain(codec, at, unit.len);
    saw(9, codec, plain, about(unit.len));
    expect(plain == is_plain(codec, unit));
    if (!plain)
        return;
    uint8_t *text = room_for(OUTPUT, len);
    for (size_t from = 0; from < len; from += behind) {
        memcpy(text + from, (const uint8_t[]){0, 0, 0, 1}, 4);
        memcpy(text + from + 4, unit.at, unit.len);
    }
    expect(h26x_next_unit(codec, text, len, 0, &begin, &end) && begin == 4 && end == behind);
    expect(h26x_next_unit(codec, text, len, end, &begin, &end) && begin == behind + 4 && end == len);
}

/* A unit with an extension in a PACI packet, which is read back as the unit (RFC 7798, 4.4.4). */
static void pack(struct input unit)
{
    const struct input extension = {unit.at, unit.len > 0 && unit.at[0] % 40u < unit.len ? unit.at[0] % 40u : 0};
    const size_t wanted = unit.len + 2 + extension.len;
    const uint8_t *read = copied(PACKET, unit), *more = copied(ENDS, extension);
    size_t len = NOT_SAID;
    uint8_t *to = room_for(OUTPUT, wanted), told = 0;
    uint32_t code = h26x_h265_paci_packet(read, unit.len, more, extension.len, to, wanted, &len);
    saw(7, code, about(unit.len), extension.len);
    if (code != H26X_OK) {
        expect(code == (unit.len < 2 ? H26X_SHORT_PACKET : H26X_H265_PACI_PHES_TOO_LONG));
        expect(is_untouched(to, wanted) && (unit.len < 2 || extension.len > 31));
        return;
    }
    expect(len == wanted && extension.len <= 31 && memcmp(to + 4, extension.at, extension.len) == 0);
    if (unit.len < 3)
        return;
    h26x_depacketizer d;
    h26x_h265_packet shown;
    uint8_t *written = room_for(OTHER, unit.len + 4);
    expect(h26x_depacketizer_new(H26X_H265, false, &d) == H26X_OK);
    expect(h26x_depacketize(&d, false, to, len, written, unit.len + 4, &len, &told, NULL) == H26X_OK);
    expect(len == unit.len + 4 && memcmp(written + 4, unit.at, unit.len) == 0);
    expect(h26x_h265_shown(&d, &shown) == H26X_OK && shown.kind == H26X_H265_PACI && shown.parts == 2);
    expect(h26x_h265_part_copy(&d, 0, NULL, 0, NULL) == extension.len);
    h26x_depacketizer_free(d);
    to = room_for(OUTPUT, wanted - 1);
    expect(h26x_h265_paci_packet(read, unit.len, more, extension.len, to, wanted - 1, &len) == H26X_OK);
    expect(len == wanted && is_untouched(to, wanted - 1));
}

/* What SDP names, by numbers (RFC 6184, 8.1; RFC 7798, 7.1; RFC 9328, 7.2). */
static void name(struct input numbers)
{
    const uint32_t id = (uint32_t)take_word(&numbers) << 16 | take_word(&numbers);
    uint8_t profile = NOT_SAID, level = NOT_SAID, same_profile = NOT_SAID, same_level = NOT_SAID;
    const bool is_known = h26x_h264_profile_level(id, &profile, &level);
    expect(is_known == h26x_h264_profile_level(id & 0xffffff, &same_profile, &same_level));
    expect(profile == same_profile && level == same_level);
    expect(is_known ? profile <= H26X_H264_CAVLC_444_INTRA && level <= H26X_H264_LEVEL_5_2
                    : profile == NOT_SAID && level == NOT_SAID);
    const uint8_t profile_id = id >> 16 & 255, tier = id >> 8 & 255, level_id = id & 255;
    const bool h265 = h26x_h265_is_known(profile_id, tier, level_id);
    const bool h266 = h26x_h266_is_known(profile_id, tier, level_id);
    expect((!h265 && !h266) || tier <= 1);
    expect(!(h265 && h266));
    saw(8, is_known << 2 | h265 << 1 | h266, profile, level);
}

int LLVMFuzzerTestOneInput(const uint8_t *at, size_t len)
{
    struct input in = {at, len < LONGEST ? len : LONGEST};
    struct run it = {.set = take_settings(&in), .max_size = 1200};
    const uint16_t max_size = take_word(&in);
    it.headroom = take_byte(&in);
    expect(h26x_packetizer_new(it.set.codec, it.set.numbers, &it.p) == H26X_OK);
    if (it.set.codec == H26X_H264) {
        expect(h26x_packetizer_set_max_size(&it.p, max_size) == H26X_NOT_OF_THIS_CODEC);
        it.max_size = SIZE_MAX;
    } else if (max_size >= 4) {
        expect(h26x_packetizer_set_max_size(&it.p, max_size) == H26X_OK);
        it.max_size = max_size;
    } else {
        expect(h26x_packetizer_set_max_size(&it.p, max_size) == H26X_OUT_OF_RANGE);
    }
    while (in.len > 0) {
        struct call c = {.is_unit = take_byte(&in) & 1, .mtu = take_word(&in)};
        if (c.mtu == 65535)
            c.mtu = SIZE_MAX;
        c.bytes = take_bytes(&in);
        if (c.mtu >= (it.set.codec == H26X_H264 ? 1 : 4))
            c.limit = c.mtu < it.max_size ? c.mtu : it.max_size;
        send_call(&it, &c);
        cut(it.set.codec, c.bytes);
        cut_by_lengths(c.bytes);
        look(it.set.codec, c.bytes);
        pack(c.bytes);
        name(c.bytes);
    }
    h26x_packetizer_free(it.p);
    return 0;
}
