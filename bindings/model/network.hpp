// Networks that are drawn: settings of a receiver, and the calls that are made of it as packets come.
#ifndef NETWORK_HPP
#define NETWORK_HPP

#include "model.hpp"
#include "random.hpp"
#include <cstdlib>

namespace network {

using model::Bytes;

// ---- Senders ----

// The packets of an access unit.
using Packets = std::vector<Bytes>;

inline Bytes drawn_bytes(Random &r, size_t len)
{
    Bytes bytes(len, 0);
    for (char &it : bytes)
        it = static_cast<char>(r.one_in(4) ? r.below(4) : r.below(256));
    return bytes;
}

// An SPS of H.264 of frames, with frame numbers of 4 bits; now and then of 16, with gaps, or of fields.
inline Bytes drawn_h264_sps(Random &r)
{
    const int kind = r.one_in(60) ? r.of({0xda71, 0x8d69, 0xdaf1, 0xda60}) : 0xda71;
    return {0x67, 0x42, static_cast<char>(0xc0), 0x1e, static_cast<char>(kind >> 8), static_cast<char>(kind & 255)};
}

inline Bytes drawn_unit(Random &r, uint32_t codec)
{
    Bytes unit = drawn_bytes(r, r.one_in(300) ? r.from(100, 2500) : r.one_in(3) ? r.from(3, 40) : r.from(3, 12));
    const auto type = [&](std::initializer_list<int> often, uint32_t types) {
        return r.one_in(8) ? static_cast<int>(r.below(types)) : r.of(often);
    };
    if (codec == H26X_H264) {
        unit[0] = static_cast<char>((r.below(4) << 5) | type({1, 1, 1, 2, 5, 5, 6, 7, 7, 8, 8, 9, 23}, 32));
        if ((unit[0] & 31) == 7 && !r.one_in(30))
            unit = drawn_h264_sps(r);
    } else if (codec == H26X_H265) {
        unit[0] = static_cast<char>(type({0, 1, 1, 2, 15, 16, 19, 21, 22, 32, 33, 34, 35, 39}, 64) << 1 | r.one_in(9));
        unit[1] = static_cast<char>(r.one_in(4) ? r.below(256) : 1 + r.one_in(4));
        if (unit[0] == 66)
            unit[2] = static_cast<char>(r.below(2) << 1 | 1); // one temporal layer or two
    } else {
        unit[0] = static_cast<char>(r.one_in(9) ? r.below(128) : 0);
        unit[1] = static_cast<char>(type({0, 1, 1, 6, 7, 8, 9, 10, 14, 15, 16, 19, 20, 23}, 32) << 3 | r.below(3));
    }
    return unit;
}

// The units of an access unit in the order of the video standards, as encoders send them: a delimiter, parameter sets, a
// picture header, and slices, the first of the picture first; of a keyframe or not.
inline std::vector<Bytes> drawn_access_unit(Random &r, uint32_t codec)
{
    const bool is_key = r.one_in(3), is_referred = r.one_in(2), has_upper = r.one_in(5);
    std::vector<Bytes> units;
    const auto add = [&](std::initializer_list<int> bytes) {
        units.emplace_back();
        for (const int it : bytes)
            units.back() += static_cast<char>(it);
        units.back() += drawn_bytes(r, r.one_in(9) ? 0 : r.from(1, 9));
    };
    const size_t slices = r.one_in(3) ? 2 : 1;
    const bool has_delimiter = r.one_in(4), has_vps = r.one_in(2), has_sets = is_key ? !r.one_in(6) : r.one_in(9);
    if (codec == H26X_H264) {
        if (has_delimiter)
            add({0x09, 0xf0});
        if (has_sets) {
            units.push_back(drawn_h264_sps(r));
            add({0x68, 0xce});
        }
        const int number = static_cast<int>(is_key ? 0 : r.below(r.one_in(8) ? 16 : 5));
        const int first = is_key ? 0x88 : 0x9a | number >> 3, behind = is_key ? 0x80 : (number & 7) << 5;
        for (size_t i = 0; i < slices; i++)
            add({is_key ? 0x65 : is_referred ? 0x41 : 0x01, i == 0 ? first : 0x40, behind});
    } else if (codec == H26X_H265) {
        if (has_delimiter)
            add({0x46, 1, 0x50});
        if (has_sets) {
            add({0x40, 1, 0x0c});
            add({0x42, 1, r.one_in(3) ? 3 : 1});
            add({0x44, 1, 0xc1});
        }
        for (size_t i = 0; i < slices; i++)
            add({is_key ? 0x26 : is_referred ? 0x02 : 0x00, !is_key && has_upper ? 2 : 1, i == 0 ? 0xac : 0x2c});
    } else {
        if (has_delimiter)
            add({0, 0xa1, 0x28});
        if (has_sets && has_vps)
            add({0, 0x71, 0x10});
        if (has_sets) {
            add({0, 0x79, 0});
            add({0, 0x81, 0});
        }
        const bool has_header = slices > 1;
        if (has_header)
            add({0, 0x99, is_key ? 0x80 : is_referred ? 0 : 0x40});
        for (size_t i = 0; i < slices; i++)
            add({0, is_key ? 0x41 : 1, has_header ? 0x40 : is_referred || is_key ? 0xc0 : 0xe0});
    }
    return units;
}

inline Bytes word_of(size_t n)
{
    return {static_cast<char>(n >> 8 & 255), static_cast<char>(n & 255)};
}

// A packetizer of a few lines, which sends units as the RFCs let senders: alone, in aggregates, in fragments of any
// lengths, and of H.265 behind PACI headers.
struct Sender {
    uint32_t codec;
    bool numbers;
    uint16_t don = 0;

    size_t header_len() const { return codec == H26X_H264 ? 1 : 2; }
    Bytes donl() { return numbers ? word_of(don++) : Bytes(); }

    // The header of a unit with another type.
    Bytes header(const Bytes &unit, unsigned type) const
    {
        Bytes it = unit.substr(0, header_len());
        if (codec == H26X_H266)
            it[1] = static_cast<char>(type << 3 | (model::byte(unit, 1) & 7));
        else if (codec == H26X_H265)
            it[0] = static_cast<char>((model::byte(unit, 0) & 0x81) | type << 1);
        else
            it[0] = static_cast<char>((model::byte(unit, 0) & 0xe0) | type);
        return it;
    }

    unsigned type(const Bytes &unit) const
    {
        return codec == H26X_H264 ? model::byte(unit, 0) & 31
            : codec == H26X_H265  ? model::byte(unit, 0) >> 1 & 63
                                  : model::byte(unit, 1) >> 3;
    }

    void fragments(Random &r, const Bytes &unit, Packets &packets)
    {
        const unsigned fragment = codec == H26X_H264 ? 28 : codec == H26X_H265 ? 49 : 29;
        const size_t count = r.one_in(20) ? 1 : r.from(2, 5);
        size_t from = header_len();
        for (size_t i = 0; i < count; i++) {
            const size_t left = unit.size() - from;
            const size_t len = i + 1 == count ? left : std::min<size_t>(left, r.below(uint32_t(unit.size())));
            const unsigned marks = (i == 0 ? 0x80u : 0u) | (i + 1 == count ? 0x40u : 0u);
            packets.push_back(header(unit, fragment) + static_cast<char>(marks | type(unit))
                              + (i == 0 ? donl() : Bytes()) + unit.substr(from, len));
            from += len;
        }
    }

    void aggregate(Random &r, Packets &packets)
    {
        const size_t count = r.one_in(8) ? 1 : r.from(2, 4);
        Bytes packet = header(drawn_unit(r, codec), codec == H26X_H264 ? 24 : codec == H26X_H265 ? 48 : 28) + donl();
        for (size_t i = 0; i < count; i++) {
            Bytes unit = drawn_unit(r, codec);
            if (r.one_in(30))
                unit.resize(r.below(3));
            packet += (codec == H26X_H265 && numbers && i > 0 ? Bytes(1, 0) : Bytes()) + word_of(unit.size()) + unit;
        }
        packets.push_back(packet + drawn_bytes(r, r.one_in(10) ? r.below(4) : 0));
    }

    void send(Random &r, Packets &packets)
    {
        if (r.one_in(7))
            aggregate(r, packets);
        else
            send_unit(r, drawn_unit(r, codec), packets);
    }

    void send_unit(Random &r, const Bytes &unit, Packets &packets)
    {
        if (r.one_in(3)) {
            fragments(r, unit, packets);
        } else if (codec == H26X_H265 && r.one_in(12)) {
            const size_t extension = r.below(6);
            packets.push_back(header(unit, 50) + word_of(type(unit) << 9 | extension << 4) + drawn_bytes(r, extension)
                              + unit.substr(2));
        } else {
            packets.push_back(unit.substr(0, header_len()) + donl() + unit.substr(header_len()));
        }
    }
};

// The packets that the library makes of units: of a text of them, or of each as it is.
inline Packets packetized(Random &r, h26x_packetizer *p, uint32_t codec)
{
    Packets packets;
    Bytes text;
    const bool alone = r.one_in(3);
    for (size_t left = r.from(1, 3); left > 0; left--) {
        const Bytes unit = drawn_unit(r, codec);
        text = alone ? unit : text + Bytes("\0\0\0\1", 4) + unit;
        if (!alone && left > 1)
            continue;
        const auto *at = reinterpret_cast<const uint8_t *>(text.data());
        size_t count = 0;
        const size_t mtu = r.from(7, 60);
        if ((alone ? h26x_packetize_unit : h26x_packetize)(p, mtu, at, text.size(), &count) != H26X_OK)
            std::abort();
        for (size_t i = 0; i < count; i++) {
            Bytes packet(h26x_packet_len(p, i), 0);
            h26x_packet_copy(p, i, reinterpret_cast<uint8_t *>(packet.data()), packet.size());
            packets.push_back(packet);
        }
    }
    return packets;
}

// Packets that bear no unit of a stream, as senders send them: of H.264 a STAP-B, an FU-B and a PACSI, else an end of
// sequence and one of the bitstream, with DONL where packets bear it.
inline Packets without_units(uint32_t codec, bool numbers)
{
    const Bytes behind(numbers ? 2 : 0, 7);
    if (codec == H26X_H264)
        return {Bytes("\x79\0\1\0\2\x65\x88", 7), Bytes("\x7d\x85\0\1\x88", 5), Bytes("\x7e\x86\x10\x2c", 4)};
    if (codec == H26X_H265)
        return {Bytes("\x48\1", 2) + behind, Bytes("\x4a\1", 2) + behind};
    return {Bytes("\0\xa9", 2) + behind, Bytes("\0\xb1", 2) + behind};
}

// Pictures of H.264 by their frame numbers of 4 bits, as packets: one that others refer to, or none does.
inline Packets picture_of(uint32_t number, bool is_referred)
{
    const Bytes slice{static_cast<char>(is_referred ? 0x41 : 0x01), static_cast<char>(0x9a | (number >> 3 & 1)),
                      static_cast<char>((number & 7) << 5 | 0x10)};
    return {slice};
}

// What streams of a codec are drawn from: access units of both packetizers, packets that bear no unit, and those that
// nobody should send.
struct Pool {
    uint32_t codec;
    bool numbers;
    std::vector<Packets> units;
    Packets hostile, without;
    std::vector<Packets> pictures; // of H.264: keyframes of several packets and of one, then pictures by their numbers,
                                   // 16 to which others refer and 16 to which none does

    void draw_pictures()
    {
        const Bytes sps("\x67\x42\xc0\x1e\xda\x71", 6), pps("\x68\xce", 2), idr("\x65\x88\x84", 3);
        pictures = {{sps, pps, idr}, {"\x78" + word_of(6) + sps + word_of(2) + pps + word_of(3) + idr}};
        for (uint32_t i = 0; i < 32; i++)
            pictures.push_back(picture_of(i % 16, i < 16));
    }

    void renew(Random &r, h26x_packetizer *p, size_t place)
    {
        Sender sender{codec, numbers, static_cast<uint16_t>(r.below(65536))};
        Packets own;
        if (r.one_in(2)) {
            for (const Bytes &unit : drawn_access_unit(r, codec))
                sender.send_unit(r, unit, own);
        } else {
            for (size_t count = r.from(1, 3); count > 0; count--)
                sender.send(r, own);
        }
        Packets made = packetized(r, p, codec);
        Bytes changed = own.front();
        if (r.one_in(2))
            changed.resize(r.below(uint32_t(changed.size())) + 1);
        if (r.one_in(2))
            changed[r.below(uint32_t(changed.size()))] = static_cast<char>(r.below(256));
        hostile[place] = r.one_in(3) ? drawn_bytes(r, r.from(1, 12)) : changed;
        units[2 * place] = std::move(own);
        if (!made.empty())
            units[2 * place + 1] = std::move(made);
    }
};

enum { IN_POOL = 500 };

struct Pools {
    std::vector<Pool> all;
    std::vector<h26x_packetizer> packetizers;

    explicit Pools(Random &r)
    {
        for (uint32_t i = 0; i < 5; i++) {
            Pool pool{H26X_H264 + (i + 1) / 2, i == 2 || i == 4, {}, {}, {}, {}};
            if (pool.codec == H26X_H264)
                pool.draw_pictures();
            pool.without = without_units(pool.codec, pool.numbers);
            pool.units.assign(2 * IN_POOL, Packets{Bytes("\x01\x02\x03", 3)});
            pool.hostile.resize(IN_POOL);
            packetizers.emplace_back();
            if (h26x_packetizer_new(pool.codec, pool.numbers, &packetizers.back()) != H26X_OK)
                std::abort();
            for (size_t place = 0; place < IN_POOL; place++)
                pool.renew(r, &packetizers.back(), place);
            all.push_back(std::move(pool));
        }
    }
    Pools(const Pools &) = delete;
    Pools &operator=(const Pools &) = delete;
    ~Pools()
    {
        for (h26x_packetizer &it : packetizers)
            h26x_packetizer_close(&it);
    }

    void renew_one(Random &r)
    {
        const uint32_t i = r.below(5);
        all[i].renew(r, &packetizers[i], r.below(IN_POOL));
    }
};

// ---- Calls ----

enum class Kind : uint8_t { push, skip, next, next_all, finish, restart, begin_at, set_config };

struct Call {
    Kind kind;
    bool marker;
    uint16_t number;
    uint32_t now, timestamp;
    const Bytes *payload; // of a packet
    uint32_t room;        // of Kind::next; of Kind::set_config the place of the settings
};

struct Network {
    h26x_access_units_config config;
    std::vector<Call> calls;
    std::vector<h26x_access_units_config> settings; // later ones
};

inline h26x_access_units_config drawn_config(Random &r, const Pool &pool)
{
    const auto limit = [&] {
        return r.one_in(3) ? size_t{r.below(60)} : r.one_in(4) ? size_t{r.below(1500)} : SIZE_MAX - r.below(2);
    };
    h26x_access_units_config c{};
    c.codec = pool.codec;
    c.numbers = pool.numbers;
    c.avc = r.one_in(2);
    c.window = static_cast<uint16_t>(r.one_in(80)      ? r.of({100u, 1000u, 16383u, 16384u})
                                         : r.one_in(3) ? r.of({8u, 16u, 32u, 64u})
                                                       : r.from(1, 6));
    c.far_away = static_cast<uint16_t>(r.one_in(3)       ? 0
                                           : r.one_in(3) ? r.from(1, 40)
                                           : r.one_in(4) ? r.below(65536)
                                                         : r.of({100u, 3000u}));
    c.far_behind = static_cast<uint16_t>(r.one_in(3) ? 0 : r.one_in(2) ? r.from(1, 60) : r.of({100u, 65535u}));
    c.max_wait = r.one_in(3) ? UINT32_MAX : r.one_in(8) ? static_cast<uint32_t>(r.draw()) : r.below(60);
    c.begin_wait = r.one_in(2) ? 0 : r.one_in(3) ? UINT32_MAX : r.below(60);
    c.has_sets = r.one_in(3);
    c.held_limit = r.one_in(2) ? SIZE_MAX : limit();
    c.run_limit = limit();
    c.unit_limit = limit();
    return c;
}

// Draws what a sender sends and what a network makes of it.
class Drawing {
public:
    Drawing(Random &random, const Pool &from) : r(random), pool(from), slots(SLOTS)
    {
        it.config = drawn_config(r, pool);
        number = static_cast<uint16_t>(r.one_in(2) ? 65536 - r.below(100) : r.below(65536));
        timestamp = r.one_in(4) ? UINT32_MAX - r.below(9000) : static_cast<uint32_t>(r.draw());
        now = r.one_in(2) ? UINT32_MAX - r.below(200) : static_cast<uint32_t>(r.draw());
    }

    Network drawn()
    {
        const uint32_t count = r.one_in(40) ? 2000 : r.from(20, 300);
        begin_at_times();
        if (r.one_in(2500))
            refuse_for_long();
        if (r.one_in(2500))
            wait_for_long();
        while (sent < count) {
            send_unit();
            if (r.one_in(rare))
                surprise();
        }
        for (size_t i = 0; i < SLOTS; i++)
            pass();
        if (!r.one_in(3))
            call(Kind::finish);
        call(Kind::next_all);
        return std::move(it);
    }

private:
    enum { SLOTS = 256 };
    Random &r;
    const Pool &pool;
    Network it{};
    std::vector<std::vector<Call>> slots; // what comes, by when it does
    size_t slot = 0;
    uint32_t sent = 0, burst = 0, now = 0, timestamp = 0;
    uint16_t number = 0;
    // how this sender sends, what the network does, and how its receiver calls
    const uint32_t markers = r.below(6), steps = r.below(4), rare = r.of({30u, 200u, 2000u});
    const uint32_t padding = r.of({0u, 0u, 4u, 30u}), hostile = r.of({0u, 0u, 6u, 40u}), without = r.of({0u, 0u, 5u});
    const uint32_t loss = r.of({0u, 3u, 10u, 100u}), bursts = r.of({0u, 0u, 50u});
    const uint32_t twice = r.of({0u, 0u, 5u, 50u}), swaps = r.of({0u, 2u, 10u}), depth = r.of({3u, 6u, 20u, 200u});
    const uint32_t again = r.of({0u, 2u}), lateness = r.of({3u, 20u, 250u});
    const bool is_in_order = !pool.pictures.empty() && r.one_in(3);
    uint32_t picture = 0; // the number of the next one
    const uint32_t ticks = r.of({0u, 1u, 3u, 20u}), takes = r.of({1u, 1u, 1u, 3u, 50u}), rooms = r.of({0u, 0u, 2u});

    Call &call(Kind kind)
    {
        it.calls.push_back({kind, false, 0, now, 0, nullptr, 0});
        return it.calls.back();
    }

    // A packet comes, or several at the same time.
    void come(Call packet)
    {
        now += r.one_in(300) ? r.below(200) : ticks == 0 ? 0 : r.below(ticks + 1);
        packet.now = now;
        it.calls.push_back(packet);
        if (r.one_in(rooms))
            call(Kind::next).room = r.below(r.one_in(2) ? 12 : 100);
        if (r.one_in(takes))
            call(r.one_in(8) ? Kind::next : Kind::next_all).room = 1 << 20;
    }

    // The number of the first packet is told at times, or one near it.
    void begin_at_times()
    {
        if (r.one_in(4))
            call(Kind::begin_at).number = static_cast<uint16_t>(number - (r.one_in(2) ? 0 : r.below(12) - 4));
    }

    // All comes that is to come in this slot.
    void pass()
    {
        slot = (slot + 1) % SLOTS;
        for (size_t i = 0; i < slots[slot].size(); i++)
            come(slots[slot][i]);
        slots[slot].clear();
    }

    void lay(const Call &packet, uint32_t delay) { slots[(slot + 1 + delay % (SLOTS - 1)) % SLOTS].push_back(packet); }

    // A packet is sent with the next number: it is lost, or comes, perhaps later, and perhaps twice.
    void send(const Bytes *payload, uint32_t at, bool marker)
    {
        Call packet{payload == nullptr ? Kind::skip : Kind::push, marker, number++, 0, at, payload, 0};
        sent++;
        if (burst == 0 && r.one_in(bursts))
            burst = r.from(2, 40);
        if (burst > 0 || r.one_in(loss)) {
            burst -= burst > 0;
            if (r.one_in(again))
                lay(packet, r.below(lateness));
        } else {
            lay(packet, r.one_in(swaps) ? r.below(depth) : 0);
        }
        if (r.one_in(twice))
            lay(packet, r.below(lateness));
        pass();
    }

    void send_between()
    {
        static const Bytes nothing;
        if (r.one_in(padding))
            send(r.one_in(2) ? nullptr : &nothing, r.one_in(2) ? timestamp : r.below(9), r.one_in(4));
        if (r.one_in(hostile))
            send(&r.in(pool.hostile), timestamp, r.one_in(6));
        if (r.one_in(without))
            send(&r.in(pool.without), timestamp, r.one_in(6));
    }

    // Whether no fragment of its unit follows.
    bool ends_unit(const Bytes &packet) const
    {
        const model::Read reading = model::read(it.config, packet);
        return !reading || !reading->is_fragment || reading->is_end;
    }

    bool marks(const Bytes &packet, bool is_last)
    {
        switch (markers) {
        case 3: // parameter sets and slices each
            return ends_unit(packet);
        case 0:
            return false;
        case 1:
            return r.one_in(3);
        case 2:
            return is_last && !r.one_in(5);
        default:
            return is_last;
        }
    }

    // A sender of pictures in their order takes the next one, a keyframe now and then.
    const Packets &next_picture()
    {
        if (picture == 0 || r.one_in(30)) {
            picture = 1;
            return pool.pictures[r.below(2)];
        }
        if (r.one_in(6))
            return pool.pictures[18 + picture % 16];
        return pool.pictures[2 + picture++ % 16];
    }

    void send_unit()
    {
        const Packets &packets = is_in_order ? next_picture() : r.in(pool.units);
        const bool ends = r.one_in(without); // the marker stands on what follows the last one
        for (size_t i = 0; i < packets.size(); i++) {
            send_between();
            send(&packets[i], timestamp, !ends && marks(packets[i], i + 1 == packets.size()));
        }
        if (ends)
            send(&r.in(pool.without), timestamp, marks(pool.without.front(), true));
        if (steps == 0 ? r.one_in(40) : steps == 1 ? r.one_in(2) : true)
            timestamp += steps == 3 ? r.below(3) : 3000;
    }

    // What follows is of other numbers.
    void surprise()
    {
        const uint32_t far = it.config.far_away;
        const uint16_t jump = static_cast<uint16_t>(r.one_in(4)       ? r.below(65536)
                                                        : r.one_in(3) ? far + r.below(5) - 2
                                                        : r.one_in(2) ? 0 - far - r.below(5) + 2
                                                                      : r.of({10000u, 45536u, 32768u, 32767u}));
        Call stray{Kind::push, r.one_in(3), static_cast<uint16_t>(number + jump), 0, timestamp, nullptr, 0};
        switch (r.below(11)) {
        case 9: // other settings, mostly of the jitter buffer alone
            it.settings.push_back(drawn_config(r, pool));
            if (r.one_in(2))
                it.settings.back().has_sets = it.config.has_sets;
            call(Kind::set_config).room = static_cast<uint32_t>(it.settings.size() - 1);
            break;
        case 10: // numbers that are lost, so many that what follows waits alone first
            number = static_cast<uint16_t>(number + (r.one_in(2) ? 100 : it.config.window) + r.below(8));
            break;
        case 0: // the sender begins anew
            number = static_cast<uint16_t>(number + jump);
            break;
        case 1:
            number = static_cast<uint16_t>(number - 20000);
            timestamp = static_cast<uint32_t>(r.draw());
            break;
        case 2:
        case 3: // some packets astray, perhaps of numbers that follow each other
            for (uint32_t count = r.from(1, 3); count > 0; count--) {
                stray.payload = &r.in(r.in(pool.units));
                lay(stray, r.below(3));
                stray.number = static_cast<uint16_t>(stray.number + (r.one_in(4) ? r.below(3) : 1));
            }
            break;
        case 4:
            now += r.one_in(2) ? static_cast<uint32_t>(r.draw()) : r.below(100);
            break;
        case 5:
            call(Kind::finish);
            break;
        case 6:
            call(Kind::restart);
            begin_at_times();
            break;
        case 7:
            begin_at_times();
            break;
        default: // nobody takes for a while
            for (uint32_t count = r.from(1, 20); count > 0; count--)
                send(&r.in(r.in(pool.units)), timestamp, false);
        }
    }

    // A packet waits that is almost half of the circle ahead, while those before it come.
    void wait_for_long()
    {
        it.config.far_away = 0;
        send_unit();
        const uint16_t ahead = static_cast<uint16_t>(number + 32768 - r.below(80));
        for (uint16_t k = 0; k < 2; k++) // the first alone would wait apart
            come({Kind::push, false, static_cast<uint16_t>(ahead + k), 0, timestamp, &r.in(pool.hostile), 0});
        for (sent = 0; sent < 34000;)
            send_unit();
    }

    // About half of the circle of packets that are refused, between others.
    void refuse_for_long()
    {
        static const Bytes refused("\0", 1);
        send_unit();
        const uint32_t count = r.one_in(2) ? 32767 + r.below(3) : 32748 + r.below(60);
        for (uint32_t i = 0; i < count; i++)
            come({Kind::push, false, number++, 0, timestamp, &refused, 0});
    }
};

} // namespace network

#endif
