// A model of the receiver of access units of h26x.h, written from its definitions alone: docs/DEFINITIONS.md, the pages
// beside h26x_receiver, h26x_assembler and h26x_access_units, and the RFCs named below. Packets wait at places that don't
// go round, fragments stay in a list, and an access unit is made of all its packets once it has ended. It is slow, and
// has no limit on what it holds beside those of the settings.
#ifndef MODEL_HPP
#define MODEL_HPP

#include "h26x.h"
#include <algorithm>
#include <deque>
#include <list>
#include <map>
#include <optional>
#include <set>
#include <string>
#include <utility>
#include <vector>

namespace model {

using Bytes = std::string;

inline unsigned byte(const Bytes &bytes, size_t place)
{
    return static_cast<unsigned char>(bytes[place]);
}

inline size_t word(const Bytes &bytes, size_t place)
{
    return byte(bytes, place) << 8 | byte(bytes, place + 1);
}

// ---- How a packet is read ----

// The units that a packet holds, or a fragment with the header that its unit would have.
struct Reading {
    std::vector<Bytes> units;
    bool is_fragment = false, is_start = false, is_end = false;
    Bytes header, data;
};

using Read = std::optional<Reading>; // none: the packet is refused

inline Read fragment(unsigned marks, Bytes header, Bytes data)
{
    return Reading{{}, true, (marks & 0x80) != 0, (marks & 0x40) != 0, std::move(header), std::move(data)};
}

inline Read units_of(std::vector<Bytes> units)
{
    return Reading{std::move(units), false, false, false, {}, {}};
}

// Takes the whole pieces, each behind a length of two bytes, from the front of bytes.
inline std::vector<Bytes> take_pieces(Bytes &bytes)
{
    std::vector<Bytes> pieces;
    while (bytes.size() >= 2 && word(bytes, 0) <= bytes.size() - 2) {
        pieces.push_back(bytes.substr(2, word(bytes, 0)));
        bytes.erase(0, 2 + pieces.back().size());
    }
    return pieces;
}

// RFC 6184, 5.2 and 5.6 to 5.8
inline Read read_h264(const Bytes &packet)
{
    if (packet.empty())
        return std::nullopt;
    const unsigned type = byte(packet, 0) & 31;
    if (type >= 1 && type <= 23)
        return units_of({packet});
    if (type == 24) { // STAP-A
        Bytes left = packet.substr(1);
        std::vector<Bytes> units;
        for (Bytes &piece : take_pieces(left))
            if (!piece.empty())
                units.push_back(std::move(piece));
        return left.size() >= 2 ? std::nullopt : units_of(std::move(units));
    }
    if (type == 28 && packet.size() >= 2) { // FU-A
        const unsigned header = (byte(packet, 0) & 0x60) | (byte(packet, 1) & 31);
        return fragment(byte(packet, 1), Bytes(1, static_cast<char>(header)), packet.substr(2));
    }
    return std::nullopt;
}

// A single NAL unit packet of H.265 or H.266: with numbers DONL stands behind the header (RFC 7798, 4.4.1; RFC 9328,
// 4.3.1).
inline Read read_single(const Bytes &packet, bool numbers)
{
    if (!numbers)
        return units_of({packet});
    return packet.size() < 5 ? std::nullopt : units_of({packet.substr(0, 2) + packet.substr(4)});
}

// RFC 7798, 4.4
inline Read read_h265(const Bytes &packet, bool numbers)
{
    if (packet.size() < 3 || byte(packet, 0) >= 0x80)
        return std::nullopt;
    const unsigned type = byte(packet, 0) >> 1, layer = byte(packet, 0) & 1;
    if (type == 48 && !numbers) { // AP
        Bytes left = packet.substr(2);
        std::vector<Bytes> units = take_pieces(left);
        return units.size() < 2 ? std::nullopt : units_of(std::move(units));
    }
    if (type == 48) { // DONL before the first length, DOND before each later one
        std::vector<Bytes> units;
        size_t at = 4;
        while (at + 2 <= packet.size() && at + 2 + word(packet, at) <= packet.size()) {
            units.push_back(packet.substr(at + 2, word(packet, at)));
            at += 2 + units.back().size() + 1;
        }
        return units.size() < 2 ? std::nullopt : units_of(std::move(units));
    }
    if (type == 49) { // FU
        const size_t headers = numbers && byte(packet, 2) >= 0x80 ? 5 : 3;
        if (packet.size() <= headers)
            return std::nullopt;
        const Bytes header{static_cast<char>((byte(packet, 2) & 63) << 1 | layer), packet[1]};
        return fragment(byte(packet, 2), header, packet.substr(headers));
    }
    if (type == 50) { // PACI: A, cType, PHSsize
        const size_t behind = packet.size() < 4 ? packet.size() : 4 + (word(packet, 2) >> 4 & 31);
        if (packet.size() <= behind)
            return std::nullopt;
        const unsigned first = byte(packet, 2) & 0x80, kind = byte(packet, 2) >> 1 & 63;
        const Bytes header{static_cast<char>(first | kind << 1 | layer), packet[1]};
        return units_of({header + packet.substr(behind)});
    }
    return read_single(packet, numbers);
}

// RFC 9328, 4.3
inline Read read_h266(const Bytes &packet, bool numbers)
{
    if (packet.size() < 3 || byte(packet, 0) >= 0x80)
        return std::nullopt;
    const unsigned type = byte(packet, 1) >> 3;
    if (type == 28) { // AP
        if (numbers && packet.size() < 4)
            return std::nullopt;
        Bytes left = packet.substr(numbers ? 4 : 2);
        std::vector<Bytes> units = take_pieces(left);
        for (const Bytes &unit : units)
            if (unit.size() < 2 || byte(unit, 1) >> 3 == 28 || byte(unit, 1) >> 3 == 29)
                return std::nullopt;
        return !left.empty() || units.size() < 2 ? std::nullopt : units_of(std::move(units));
    }
    if (type == 29) { // FU
        const size_t headers = numbers && byte(packet, 2) >= 0x80 ? 5 : 3;
        if (packet.size() < headers)
            return std::nullopt;
        const Bytes header{packet[0], static_cast<char>((byte(packet, 2) & 31) << 3 | (byte(packet, 1) & 7))};
        return fragment(byte(packet, 2), header, packet.substr(headers));
    }
    return read_single(packet, numbers);
}

// Whether a packet that is refused bears nothing that is to be written: its type carries no unit of this stream (RFC 6184,
// 5.2: a STAP-B, an MTAP, an FU-B, and those that are reserved, as a PACSI of RFC 6190 is there), or it is an end of
// sequence or of the bitstream, which is a header and nothing behind it (H.265, table 7-1; H.266, table 5), or DONL.
inline bool bears_no_unit(const h26x_access_units_config &config, const Bytes &packet)
{
    const unsigned first = byte(packet, 0), second = packet.size() < 2 ? 0 : byte(packet, 1);
    if (config.codec == H26X_H264) {
        const unsigned type = first & 31;
        return type == 0 || (type > 23 && type != 24 && type != 28);
    }
    if (packet.size() > 2 && (first >= 0x80 || !config.numbers || packet.size() > 4))
        return false;
    const unsigned type = config.codec == H26X_H265 ? first >> 1 & 63 : second >> 3;
    return config.codec == H26X_H265 ? type == 36 || type == 37 : type == 21 || type == 22;
}

inline Read read(const h26x_access_units_config &config, const Bytes &packet)
{
    return config.codec == H26X_H264 ? read_h264(packet)
        : config.codec == H26X_H265  ? read_h265(packet, config.numbers)
                                     : read_h266(packet, config.numbers);
}

// What is told of units: nothing of none with a whole header, else 1, or 2 where one is of a keyframe.
inline uint8_t extra_of(uint32_t codec, const std::vector<Bytes> &units)
{
    uint8_t extra = 0;
    for (const Bytes &unit : units) {
        if (unit.size() < (codec == H26X_H264 ? 1 : 2))
            continue;
        const unsigned type = codec == H26X_H264 ? byte(unit, 0) & 31
            : codec == H26X_H265                 ? byte(unit, 0) >> 1 & 63
                                                 : byte(unit, 1) >> 3;
        const bool is_key = codec == H26X_H264 ? type == 5
            : codec == H26X_H265               ? type >= 16 && type <= 21
                                               : type >= 7 && type <= 9;
        extra = std::max<uint8_t>(extra, is_key ? 2 : 1);
    }
    return extra;
}

// Units as they are written: each behind a start code, or its length in four bytes.
inline Bytes text_of(bool avc, const std::vector<Bytes> &units)
{
    Bytes text;
    for (const Bytes &unit : units) {
        const size_t before = avc ? unit.size() : 1;
        for (int bits = 24; bits >= 0; bits -= 8)
            text += static_cast<char>(before >> bits & 255);
        text += unit;
    }
    return text;
}

// ---- Frame numbers of H.264 ----

// The bits of a text from the first byte of a unit on, 0 behind the end: without each 3 behind two zeros, and up to what
// ends a unit there (H.264 7.2, 7.3.1, 7.4.1, 9.1).
struct Bits {
    std::vector<bool> bits;
    size_t place = 0;

    explicit Bits(const Bytes &text)
    {
        for (size_t i = 0; i < text.size(); i++) {
            const bool is_behind_zeros = i > 1 && byte(text, i - 1) == 0 && byte(text, i - 2) == 0;
            if (is_behind_zeros && byte(text, i) < 3)
                break;
            for (int bit = is_behind_zeros && byte(text, i) == 3 ? -1 : 7; bit >= 0; bit--)
                bits.push_back(byte(text, i) >> bit & 1);
        }
    }

    bool u1() { return place++ < bits.size() && bits[place - 1]; }

    uint64_t u(unsigned count)
    {
        uint64_t value = 0;
        for (unsigned i = 0; i < count; i++)
            value = value << 1 | u1();
        return value;
    }

    // 32 zeros begin no number.
    uint64_t ue()
    {
        for (unsigned zeros = 0; zeros < 32; zeros++)
            if (u1())
                return (uint64_t{1} << zeros) - 1 + u(zeros);
        return UINT32_MAX;
    }

    int64_t se()
    {
        const auto k = static_cast<int64_t>(ue());
        return k % 2 == 1 ? k / 2 + 1 : -(k / 2);
    }
};

// How frame numbers are written, by an SPS: only those of a sender of frames alone that leaves out none tell of losses.
struct FrameNumbers {
    bool are_usable = false;
    unsigned bits = 0;
    bool has_plane = false;

    bool operator==(const FrameNumbers &it) const
    {
        return are_usable == it.are_usable && bits == it.bits && has_plane == it.has_plane;
    }

    // That of a slice by eight bytes behind its header (H.264 7.3.3).
    uint64_t of(const Bytes &behind) const
    {
        Bits it(behind);
        it.ue();
        it.ue();
        it.ue();
        it.u(has_plane ? 2 : 0);
        return it.u(bits);
    }
};

// H.264 7.3.2.1.1.1; a scale below 0, as no encoder has it, is 0.
inline void pass_scaling_list(Bits &sps, unsigned size)
{
    int64_t last = 8, next = 8;
    for (unsigned j = 0; j < size; j++) {
        if (next != 0)
            next = std::max<int64_t>(last + sps.se() + 256, 0) % 256;
        last = next == 0 ? last : next;
    }
}

// H.264 7.3.2.1.1, of what stands from an SPS on.
inline FrameNumbers frame_numbers_of(const Bytes &text)
{
    static const std::set<unsigned> with_chroma{44, 83, 86, 100, 110, 118, 122, 128, 134, 135, 138, 139, 244};
    FrameNumbers it;
    Bits sps(text.substr(0, 16384));
    sps.u(8);
    const auto profile = static_cast<unsigned>(sps.u(8));
    sps.u(16);
    sps.ue();
    if (with_chroma.count(profile) != 0) {
        const uint64_t format = sps.ue();
        if (format == 3)
            it.has_plane = sps.u1();
        sps.ue();
        sps.ue();
        sps.u1();
        if (sps.u1())
            for (unsigned i = 0; i < (format == 3 ? 12 : 8); i++)
                if (sps.u1())
                    pass_scaling_list(sps, i < 6 ? 16 : 64);
    }
    const uint64_t width = sps.ue(), order = sps.ue();
    if (order == 0)
        sps.ue();
    if (order == 1) {
        sps.u1();
        sps.se();
        sps.se();
        const uint64_t cycle = sps.ue();
        for (uint64_t i = 0; i < std::min<uint64_t>(cycle, 255); i++)
            sps.se();
    }
    sps.ue();
    const bool has_gaps = sps.u1();
    sps.ue();
    sps.ue();
    const bool is_of_frames = sps.u1();
    if (width > 12 || has_gaps || !is_of_frames)
        return {};
    it.bits = static_cast<unsigned>(width) + 4;
    it.are_usable = true;
    return it;
}

// ---- What a unit is ----

// What a unit tells of its access unit, by the tables and headers of the video standards: H.264 7.3.1 to 7.3.3, H.265
// 7.3.1.2, 7.3.2.2 and 7.3.6.1, H.266 7.3.1.2, 7.3.2.8 and 7.3.7. A unit of another layer, or without a whole header,
// tells nothing. What stands before slices: H.264 7.4.1.2.3, H.265 7.4.2.4.4, H.266 7.4.2.4.3.
struct Told {
    bool is_delimiter = false, is_vps = false, is_sps = false, is_pps = false;
    bool is_prefix = false;               // another that stands before the slices of an access unit, as SEI does
    unsigned layers = 0;                  // temporal ones, as an SPS of H.265 has them
    std::optional<bool> is_non_reference; // as a picture header of H.266 has it
    bool is_slice = false, is_first = false, is_key = false;
    bool is_unreferenced = false;       // no picture refers to it, or of H.265 none of its temporal layer
    unsigned layer = 0;                 // its temporal layer, the lowest 1, in H.265
    std::optional<FrameNumbers> frames; // of an SPS of H.264
    std::optional<Bytes> behind;        // eight bytes behind the header of a slice of H.264
};

inline Told told_h264(const Bytes &unit)
{
    Told it;
    const unsigned type = byte(unit, 0) & 31;
    it.is_sps = type == 7;
    it.is_pps = type == 8;
    it.is_delimiter = type == 9;
    it.is_prefix = type == 6 || (type >= 14 && type <= 18);
    it.is_key = type == 5;
    it.is_slice = it.is_key || type == 1 || type == 2;
    it.is_first = unit.size() > 1 && byte(unit, 1) >= 0x80; // first_mb_in_slice 0 is the bit 1
    it.is_unreferenced = (byte(unit, 0) & 0x60) == 0;
    return it;
}

inline Told told_h265(const Bytes &unit)
{
    Told it;
    const unsigned type = byte(unit, 0) >> 1 & 63, behind = unit.size() > 2 ? byte(unit, 2) : 0;
    if ((byte(unit, 0) & 1) != 0 || byte(unit, 1) >= 8)
        return it;
    it.is_vps = type == 32;
    it.is_sps = type == 33;
    it.is_pps = type == 34;
    it.is_delimiter = type == 35;
    it.is_prefix = type == 39 || (type >= 41 && type <= 44);
    it.layers = it.is_sps ? (behind >> 1 & 7) + 1 : 0;
    it.is_key = type >= 16 && type <= 21;
    it.is_slice = it.is_key || type <= 9;
    it.is_first = behind >= 0x80;
    it.is_unreferenced = type < 10 && type % 2 == 0;
    it.layer = byte(unit, 1) & 7;
    return it;
}

inline Told told_h266(const Bytes &unit)
{
    Told it;
    const unsigned type = byte(unit, 1) >> 3, behind = unit.size() > 2 ? byte(unit, 2) : 0;
    if ((byte(unit, 0) & 63) != 0)
        return it;
    it.is_vps = type == 14;
    it.is_sps = type == 15;
    it.is_pps = type == 16;
    it.is_delimiter = type == 20;
    it.is_prefix = type == 12 || type == 13 || type == 17 || type == 23 || type == 26;
    if (type == 19)
        it.is_non_reference = (behind & 0x40) != 0;
    it.is_key = type >= 7 && type <= 9;
    it.is_slice = it.is_key || type == 10 || type <= 3;
    it.is_first = behind >= 0x80; // it has the picture header
    it.is_unreferenced = it.is_first && (behind & 0x20) != 0;
    return it;
}

inline Told told_of(uint32_t codec, const Bytes &unit)
{
    if (codec == H26X_H264 ? unit.empty() : unit.size() < 2 || (unit[1] & 7) == 0)
        return {};
    return codec == H26X_H264 ? told_h264(unit) : codec == H26X_H265 ? told_h265(unit) : told_h266(unit);
}

// Whether a unit behind a slice begins an access unit.
inline bool begins_behind_slice(const Told &unit)
{
    return unit.is_delimiter || unit.is_vps || unit.is_sps || unit.is_pps || unit.is_prefix || unit.is_non_reference
        || (unit.is_slice && unit.is_first);
}

// What a packet shows: whether it bears something of a slice, and the first unit that it begins.
struct Shown {
    bool has_slice = false;
    std::optional<Told> first;
};

inline Shown shown_by(uint32_t codec, const Reading &reading)
{
    Shown it;
    for (const Bytes &unit : reading.units)
        it.has_slice = it.has_slice || told_of(codec, unit).is_slice;
    if (reading.is_fragment)
        it.has_slice = told_of(codec, reading.header).is_slice;
    if (reading.is_fragment && reading.is_start)
        it.first = told_of(codec, reading.header + reading.data);
    else if (!reading.units.empty())
        it.first = told_of(codec, reading.units.front());
    return it;
}

// The units of a text, as its reader finds them, 64 at most, and where each begins.
inline std::vector<Bytes> units_in(bool avc, const Bytes &text, std::vector<size_t> &places)
{
    static const Bytes code("\0\0\1", 3);
    std::vector<Bytes> units;
    size_t at = avc ? 0 : text.find(code);
    while (units.size() < 64 && at < text.size()) {
        size_t end;
        if (avc) {
            const size_t len = word(text, at) << 16 | word(text, at + 2);
            places.push_back(at + 4);
            units.push_back(text.substr(at + 4, len));
            end = at + 4 + len;
        } else {
            end = text.find(code, at + 3);
            places.push_back(at + 3);
            units.push_back(text.substr(at + 3, end - at - 3));
            // (the zero before the three bytes of a start code is of that)
            if (end != Bytes::npos && !units.back().empty() && units.back().back() == 0)
                units.back().pop_back();
        }
        at = end;
    }
    return units;
}

// What is told by the units of the text of an access unit up to its first slice.
inline std::vector<Told> told_up_to_slice(const h26x_access_units_config &config, const Bytes &text)
{
    std::vector<Told> all;
    std::vector<size_t> places;
    for (const Bytes &unit : units_in(config.avc, text, places)) {
        all.push_back(told_of(config.codec, unit));
        const size_t place = places[all.size() - 1];
        if (config.codec == H26X_H264 && all.back().is_sps)
            all.back().frames = frame_numbers_of(text.substr(place));
        if (config.codec == H26X_H264 && all.back().is_slice)
            all.back().behind = text.substr(place + 1, 8);
        if (all.back().is_slice)
            break;
    }
    return all;
}

// ---- Runs of fragments ----

using Fragments = std::vector<Reading>;

// The place of the latest start before another place, where no end is behind it; else that other place.
inline size_t start_before(const Fragments &fragments, size_t place)
{
    for (size_t i = place; i > 0 && !(fragments[i - 1].is_end); i--)
        if (fragments[i - 1].is_start)
            return i - 1;
    return place;
}

inline Bytes joined(const Fragments &fragments, size_t from)
{
    Bytes data;
    for (size_t i = from; i < fragments.size(); i++)
        data += fragments[i].data;
    return data;
}

// How many bytes the run has that is open behind fragments.
inline size_t open_len(const Fragments &fragments)
{
    size_t len = 0;
    for (size_t i = start_before(fragments, fragments.size()); i < fragments.size(); i++)
        len += fragments[i].data.size();
    return len;
}

// Whether a run is open behind fragments: its end has yet to come.
inline bool is_run_open(const Fragments &fragments)
{
    return start_before(fragments, fragments.size()) < fragments.size();
}

// The unit that the last of fragments ends, if it is an end and a run leads to it.
inline std::vector<Bytes> units_ended(const Fragments &fragments)
{
    const Reading &last = fragments.back();
    if (!last.is_end)
        return {};
    const size_t place = fragments.size() - 1;
    const size_t from = last.is_start ? place : start_before(fragments, place);
    if (from == place && !last.is_start)
        return {};
    return {last.header + joined(fragments, from)};
}

// ---- Access units ----

struct Packet {
    uint16_t number = 0;
    uint32_t timestamp = 0;
    bool marker = false;
    Bytes payload; // empty: it came and bears nothing
};

// A packet that was taken, as its access unit knows it.
struct Taken {
    uint16_t number;
    uint32_t missing;           // numbers, since the packet that was taken before it
    bool is_sound;              // nothing is missing between it and the one before in its access unit, bytes of it
                                // stand, and no run is given up or too long
    bool is_text_given_up;      // the text with it was longer than the limit
    std::vector<Bytes> brought; // units
};

struct AccessUnit {
    uint32_t timestamp = 0;
    bool continues = false;
    bool is_first = false;   // no packet was taken before, and the number of the first isn't told
    bool is_broken = false;  // numbers are missing in it or right behind it, or a run is open at its end
    bool has_slice = false;  // something of one came
    bool is_counted = false; // a packet was taken before
    bool is_still = false;   // it began, by its units, at the timestamp of the one that ended right before it
    uint32_t carried = 0;    // numbers missing of those before it that have no bytes
    std::vector<Taken> packets;
};

struct Given {
    h26x_access_unit told;
    Bytes bytes;
    bool is_unbroken; // from its first packet that came on
    bool follows;     // nothing is missing between that and a packet taken before
    bool is_counted;  // one was taken before
    std::vector<Told> units;
};

// How many bytes an open access unit holds: of units brought since its text was given up last.
inline size_t text_len(const AccessUnit &unit)
{
    size_t len = 0;
    for (size_t i = unit.packets.size(); i > 0 && !unit.packets[i - 1].is_text_given_up; i--)
        for (const Bytes &brought : unit.packets[i - 1].brought)
            len += 4 + brought.size();
    return len;
}

// An access unit that has ended. Whether it is whole, clean and disposable is known once it is given out.
inline Given ended_unit(const h26x_access_units_config &config, const AccessUnit &unit)
{
    Given it{};
    it.told.timestamp = unit.timestamp;
    it.told.first = unit.packets.front().number;
    it.told.last = unit.packets.back().number;
    it.told.continues = unit.continues;
    it.follows = !unit.is_first && unit.packets.front().missing == 0;
    it.is_counted = unit.is_counted;
    it.is_unbroken = !unit.is_broken;
    it.told.missing = unit.carried;
    std::vector<Bytes> units;
    for (const Taken &packet : unit.packets) {
        it.told.missing += packet.missing;
        it.is_unbroken = it.is_unbroken && packet.is_sound && !packet.is_text_given_up;
        units.insert(units.end(), packet.brought.begin(), packet.brought.end());
        if (packet.is_text_given_up)
            units.clear();
    }
    it.bytes = text_of(config.avc, units);
    it.told.len = it.bytes.size();
    it.told.extra = extra_of(config.codec, units);
    it.units = told_up_to_slice(config, it.bytes);
    return it;
}

// ---- What a decoder makes of them ----

// The access units that were given out, since the receiver was made or begun for another sender, from one that follows
// none on. Each question is asked of one by its place, and answered by those before it.
struct History {
    uint32_t codec;
    bool has_sets; // the decoder has them
    std::vector<Given> all;
    bool has_begun = false; // one ended before

    // What is known behind the latest one, whatever is missing behind it: whether a decoder can go on, what all SPS tell
    // of frame numbers, the last reference picture, by its first slice, and whether the last keyframe took more packets
    // than one.
    bool could_go_on = false;
    std::optional<FrameNumbers> frames = std::nullopt;
    std::optional<Bytes> last_reference = std::nullopt;
    bool is_key_long = false;

    // The first slice, if there is one, as its picture's header has it, which may stand before it.
    std::optional<Told> slice(size_t place) const
    {
        std::optional<bool> is_non_reference;
        for (Told unit : all[place].units) {
            if (unit.is_non_reference)
                is_non_reference = unit.is_non_reference;
            if (unit.is_slice && is_non_reference) {
                unit.is_first = true;
                unit.is_unreferenced = *is_non_reference;
            }
            if (unit.is_slice)
                return unit;
        }
        return std::nullopt;
    }

    bool has(size_t place, bool Told::*kind) const
    {
        const std::vector<Told> &units = all[place].units;
        return std::any_of(units.begin(), units.end(), [&](const Told &unit) { return unit.*kind; });
    }

    // Whether a parameter set of a kind is in it, or before it with nothing missing since.
    bool came(size_t place, bool Told::*kind) const
    {
        for (;; place--) {
            if (!all[place].is_unbroken)
                return false;
            if (has(place, kind))
                return true;
            if (!all[place].follows || place == 0)
                return false;
        }
    }

    bool came_all(size_t place) const
    {
        return came(place, &Told::is_sps) && came(place, &Told::is_pps)
            && (codec != H26X_H265 || came(place, &Told::is_vps));
    }

    // How many temporal layers there are, by the SPS of the latest access unit that has some, with no number missing
    // since; 0: it isn't known.
    unsigned layers(size_t place) const
    {
        for (;; place--) {
            unsigned most = 0;
            for (const Told &unit : all[place].units)
                most = std::max(most, unit.layers);
            if (most != 0 || !all[place].follows || place == 0)
                return most;
        }
    }

    // Whether no picture refers to its own.
    bool is_disposable(size_t place) const
    {
        const std::optional<Told> it = slice(place);
        if (!it || it->is_key || !it->is_unreferenced)
            return false;
        return codec != H26X_H265 || (it->layer != 0 && it->layer == layers(place));
    }

    // Whether a decoder can begin with it.
    bool can_begin(size_t place) const
    {
        const std::optional<Told> it = slice(place);
        return all[place].is_unbroken && !all[place].told.continues && it && it->is_key && it->is_first
            && (has_sets || came_all(place));
    }

    // Whether its frame number tells that no reference picture is among what is missing before it (H.264 7.4.3): that
    // would take it further, unless numbers went round, or began anew with a keyframe, as many packets at least.
    bool is_behind_no_loss(size_t place) const
    {
        const Given &unit = all[place];
        const std::optional<Told> it = slice(place);
        if (has_sets || !unit.is_counted || unit.told.continues || !it || it->is_key || !it->is_first)
            return false;
        if (!last_reference || !frames || !frames->are_usable)
            return false;
        const uint64_t last = frames->of(*last_reference), round = uint64_t{1} << frames->bits;
        return frames->of(*it->behind) == (last + 1) % round && unit.told.missing < round
            && unit.told.missing < last + (is_key_long ? 2 : 1);
    }

    // Whether one that was given those up to it can go on: since one with which it could begin nothing is missing, but
    // pictures to which no other refers.
    bool can_go_on_behind(size_t place) const
    {
        if (can_begin(place))
            return true;
        return could_go_on && (all[place].follows || is_behind_no_loss(place))
            && (all[place].is_unbroken || is_disposable(place));
    }

    // What its first slice tells of the last reference picture: it is its own, or the one before, or one of which not
    // all is known.
    std::optional<Bytes> reference_behind(size_t place) const
    {
        const std::optional<Told> it = slice(place);
        if (!it)
            return std::nullopt;
        if (it->is_unreferenced && !it->is_key)
            return all[place].is_counted ? last_reference : std::nullopt;
        return all[place].is_unbroken && it->is_first ? it->behind : std::nullopt;
    }

    // Whether its first unit is one that stands first in an access unit: a delimiter, or in the first one a parameter set.
    bool is_front(size_t place) const
    {
        if (all[place].units.empty())
            return false;
        const Told &first = all[place].units.front();
        return first.is_delimiter || (!has_begun && (first.is_vps || (first.is_sps && codec != H26X_H265)));
    }

    bool is_whole(size_t place) const
    {
        return all[place].is_unbroken && !all[place].told.continues && (all[place].follows || is_front(place));
    }

    // The latest one is told of.
    void append(Given &it)
    {
        if (!it.follows)
            all.clear();
        all.push_back(it);
        all.back().bytes.clear();
        const size_t place = all.size() - 1;
        for (const Told &unit : it.units)
            if (unit.frames)
                frames = !frames || *frames == *unit.frames ? *unit.frames : FrameNumbers{};
        could_go_on = can_go_on_behind(place);
        last_reference = reference_behind(place);
        if (const std::optional<Told> first = slice(place); first && first->is_key)
            is_key_long = it.told.first != it.told.last;
        it.told.is_whole = is_whole(place);
        it.told.is_clean = all.back().is_unbroken && could_go_on;
        it.told.is_disposable = is_disposable(place);
        has_begun = true;
    }
};

// ---- The receiver ----

// What waits: packets at their places, and when they came, in that order. The number of a place is its lowest 16 bits.
struct Waiting {
    std::optional<int64_t> due;
    std::map<int64_t, Packet> packets;
    std::list<std::pair<int64_t, uint32_t>> arrivals;
    size_t bytes = 0;       // of their payloads
    bool has_begun = false; // the first packet of the stream went, or its number is told
    bool is_over = false;

    int64_t newest() const { return packets.empty() ? *due : packets.rbegin()->first; }

    // The place of a number: the first one from the place that is due on.
    int64_t place_of(uint16_t number) const { return *due + static_cast<uint16_t>(number - *due); }

    uint32_t put(uint32_t window, uint32_t now, const Packet &packet, uint16_t &behind)
    {
        if (!due)
            due = int64_t{packet.number} + 1 - window;
        const int64_t place = place_of(packet.number);
        if (place - *due >= 1 << 15) {
            behind = static_cast<uint16_t>(*due - place);
            return H26X_PUSHED_LATE;
        }
        if (!packets.emplace(place, packet).second)
            return H26X_TWICE;
        arrivals.emplace_back(place, now);
        bytes += packet.payload.size();
        return H26X_HELD;
    }

    Packet take_first()
    {
        const auto first = packets.begin();
        const int64_t place = first->first;
        Packet packet = std::move(first->second);
        packets.erase(first);
        arrivals.erase(std::find_if(arrivals.begin(), arrivals.end(), [&](auto &it) { return it.first == place; }));
        due = place + 1;
        has_begun = true;
        bytes -= packet.payload.size();
        return packet;
    }
};

// Which of the last 1024 numbers that a stream passed were taken.
struct Passed {
    int64_t count = 0;                          // so many behind the one that is due are known
    std::vector<std::optional<uint16_t>> taken; // of those that share a rest modulo 1024, the last one; or of none any

    bool has(const std::optional<int64_t> &due, uint16_t number) const
    {
        const uint16_t behind = due ? static_cast<uint16_t>(*due - number) : 0;
        return behind != 0 && behind <= count;
    }

    bool has_taken(const std::optional<int64_t> &due, uint16_t number) const
    {
        return has(due, number) && !taken.empty() && taken[number % 1024] == number;
    }

    void take(int64_t due, uint16_t number)
    {
        count = std::min<int64_t>(1024, count + static_cast<uint16_t>(number - due) + 1);
        taken.resize(1024);
        taken[number % 1024] = number;
    }
};

// What is known of the packets that were taken of a stream.
struct Stream {
    std::optional<uint16_t> expected; // the number behind the last one that was taken or skipped, or the first, if told
    bool has_begun = false;           // a packet was taken, or the number of the first is told
    bool has_taken = false;           // a packet was taken
    bool is_gap = false;              // numbers are missing before those that were skipped since the last packet
    uint32_t skipped_gap = 0;         // so many
    std::optional<uint32_t> marked;   // the timestamp of the access unit that ended by itself right before
    bool is_marked = false;           // a marker was believed
    bool marks_slices = false;        // the sender marks each slice, so that no marker is believed
    uint32_t carried = 0;             // numbers missing of access units without bytes, before the next one begins
    Fragments fragments;              // those taken since a run was given up
    std::optional<AccessUnit> open;
    std::deque<Given> ended;
};

class Receiver {
public:
    explicit Receiver(const h26x_access_units_config &settings)
        : config(settings), history{settings.codec, settings.has_sets, {}}
    {
    }

    // What h26x_access_units_new answers.
    static uint32_t code_of(const h26x_access_units_config &c)
    {
        if (c.codec != H26X_H264 && c.codec != H26X_H265 && c.codec != H26X_H266)
            return H26X_UNKNOWN_CODEC;
        if (c.codec == H26X_H264 && c.numbers)
            return H26X_NOT_OF_THIS_CODEC;
        return c.window == 0 || c.window > 16384 ? H26X_OUT_OF_RANGE : H26X_OK;
    }

    uint32_t push(uint32_t now, const Packet &packet, uint16_t &behind)
    {
        behind = 0;
        if (passed.has_taken(waiting.due, packet.number)) {
            counts.twice++;
            return H26X_TWICE;
        }
        if (is_far(packet.number))
            return push_far(now, packet);
        if (is_taken_at_once(packet)) {
            passed.take(*waiting.due, packet.number);
            waiting.due = *waiting.due + 1;
            waiting.has_begun = true;
            take(packet);
            return H26X_HELD;
        }
        if (is_ahead(packet.number))
            return push_ahead(now, packet);
        if (waiting.bytes > config.held_limit)
            return H26X_FULL;
        const uint32_t answer = waiting.put(config.window, now, packet, behind);
        counts.late += answer == H26X_PUSHED_LATE;
        counts.twice += answer == H26X_TWICE;
        return answer;
    }

    // Bytes are written where the answer is H26X_OK alone.
    uint32_t next(uint32_t now, size_t room, h26x_access_unit &told, Bytes &bytes)
    {
        if (!left)
            left = given(now);
        if (!left)
            return H26X_NOTHING_YET;
        told = left->told;
        if (left->bytes.size() > room)
            return H26X_NO_ROOM;
        bytes = std::move(left->bytes);
        left.reset();
        return H26X_OK;
    }

    std::optional<uint32_t> deadline() const
    {
        if (longest_wait() == UINT32_MAX || waiting.arrivals.empty())
            return std::nullopt;
        return waiting.arrivals.front().second + longest_wait();
    }

    std::vector<uint16_t> missing() const
    {
        std::vector<uint16_t> numbers;
        if (waiting.packets.empty())
            return numbers;
        int64_t place = waiting.has_begun ? *waiting.due : waiting.packets.begin()->first;
        for (const auto &it : waiting.packets) {
            for (; place < it.first; place++)
                numbers.push_back(static_cast<uint16_t>(place));
            place = it.first + 1;
        }
        return numbers;
    }

    // Whether it is said in time.
    bool begin_at(uint16_t number)
    {
        if (waiting.due || waiting.is_over)
            return false;
        waiting.due = number;
        waiting.has_begun = true;
        stream.expected = number;
        stream.has_begun = true;
        return true;
    }

    void finish() { waiting.is_over = true; }

    // What h26x_access_units_set_config answers.
    uint32_t set_config(const h26x_access_units_config &c)
    {
        if (c.window == 0 || c.window > 16384)
            return H26X_OUT_OF_RANGE;
        const h26x_access_units_config old = config;
        config = c;
        config.codec = old.codec;
        config.numbers = old.numbers;
        config.avc = old.avc;
        history.has_sets = c.has_sets;
        return H26X_OK;
    }

    void restart()
    {
        passed = {};
        waiting = {};
        stray.reset();
        is_anew = false;
        stream = {};
        history = {config.codec, config.has_sets, {}};
    }

    h26x_access_units_counts counts{};
    uint64_t bare = 0; // access units that ended and have no bytes

private:
    h26x_access_units_config config;
    Waiting waiting;
    std::optional<Packet> stray; // the packet that waits alone
    bool is_anew = false;        // the stream has begun anew, so the access unit that is open ends
    Passed passed;
    Stream stream;
    std::optional<Given> left; // it had no room
    History history;

    // RFC 3550, A.1: on the circle from the place that is due to itself, a number is behind the newest that waits, and
    // far from both ends, and not known
    bool is_far(uint16_t number) const
    {
        if (config.far_away == 0 || !waiting.due || passed.has(waiting.due, number))
            return false;
        const int64_t place = waiting.place_of(number);
        const int64_t back = config.far_behind == 0 ? config.far_away : config.far_behind;
        return place > waiting.newest() && place - waiting.newest() >= config.far_away
            && *waiting.due + 65536 - place >= back;
    }

    int reach() const { return std::max<int>(config.window, 100); }

    // A place in the half of the circle that is ahead, behind those that wait.
    bool is_beyond(int64_t place) const { return place > waiting.newest() && place - *waiting.due < 1 << 15; }

    bool is_ahead(uint16_t number) const
    {
        if (!waiting.due)
            return false;
        const int64_t place = waiting.place_of(number);
        return is_beyond(place) && place - waiting.newest() > reach();
    }

    // More than a window ahead: it waits alone, or both wait where it is near the one that does.
    uint32_t push_ahead(uint32_t now, const Packet &packet)
    {
        const auto distance = [](uint16_t from, uint16_t to) { return static_cast<uint16_t>(to - from); };
        if (!stray
            || std::min(distance(stray->number, packet.number), distance(packet.number, stray->number)) > reach()) {
            stray = packet;
            counts.stray++;
            return H26X_STRAY;
        }
        if (waiting.bytes > config.held_limit)
            return H26X_FULL;
        const bool has_room = waiting.packets.empty() || waiting.bytes + stray->payload.size() <= config.held_limit;
        const bool is_joined = has_room && is_beyond(waiting.place_of(stray->number)) && stray->number != packet.number;
        const bool is_behind = is_joined && waiting.place_of(stray->number) > waiting.place_of(packet.number);
        uint16_t behind;
        if (is_joined && !is_behind)
            waiting.put(config.window, now, *stray, behind);
        waiting.put(config.window, now, packet, behind);
        if (is_behind)
            waiting.put(config.window, now, *stray, behind);
        stray.reset();
        return H26X_JUMPED;
    }

    // For how long a packet waits at most.
    uint32_t longest_wait() const
    {
        return waiting.has_begun ? config.max_wait : std::min(config.begin_wait, config.max_wait);
    }

    // Numbers are missing right before this one, or before those that were skipped right before it.
    bool is_behind_missing(uint16_t number) const
    {
        return stream.expected && (stream.is_gap || number != *stream.expected);
    }

    // It is the next one, and nothing is before it: neither a packet that waits or is missing, nor an access unit that
    // ended or is to.
    bool is_taken_at_once(const Packet &packet) const
    {
        return waiting.packets.empty() && waiting.due && waiting.place_of(packet.number) == *waiting.due
            && !is_behind_missing(packet.number) && !ends_by_units(packet) && stream.ended.empty() && !is_anew;
    }

    uint32_t push_far(uint32_t now, const Packet &packet)
    {
        if (!stray || packet.number != static_cast<uint16_t>(stray->number + 1)) {
            stray = packet;
            counts.stray++;
            return H26X_STRAY;
        }
        counts.anew++;
        counts.lost += waiting.packets.size();
        uint16_t behind;
        passed = {};
        waiting = {};
        waiting.put(config.window, now, *stray, behind);
        waiting.put(config.window, now, packet, behind);
        stray.reset();
        is_anew = true;
        return H26X_ANEW;
    }

    bool is_due(uint32_t now) const
    {
        if (waiting.packets.empty())
            return false;
        const int64_t first = waiting.packets.begin()->first;
        const bool has_waited = longest_wait() != UINT32_MAX && now - waiting.arrivals.front().second >= longest_wait();
        return first == *waiting.due || waiting.newest() - first >= config.window - 1 || has_waited || waiting.is_over
            || waiting.bytes > config.held_limit;
    }

    // The next access unit that has ended, if one has at this tick.
    std::optional<Given> given(uint32_t now)
    {
        drop_bare();
        if (stream.ended.empty() && is_anew) {
            is_anew = false;
            end_stream();
        }
        for (drop_bare(); stream.ended.empty() && is_due(now); drop_bare())
            step();
        if (stream.ended.empty() && waiting.is_over) {
            passed = {};
            waiting = {};
            stray.reset();
            end_stream();
            drop_bare();
        }
        if (stream.ended.empty())
            return std::nullopt;
        Given it = std::move(stream.ended.front());
        stream.ended.pop_front();
        history.append(it);
        counts.units++;
        counts.whole += it.told.is_whole;
        return it;
    }

    // The access unit that is open ends before the packet that is due, or that packet is taken.
    void step()
    {
        const Packet &packet = waiting.packets.begin()->second;
        const bool ends = ends_by_units(packet);
        if (begins_behind_missing(packet) || (ends && is_behind_missing(packet.number)))
            end_behind_missing(packet.number);
        else if (ends)
            end_by_itself(true);
        else {
            passed.take(waiting.has_begun ? *waiting.due : packet.number, packet.number);
            take(waiting.take_first());
        }
    }

    // Access units without bytes aren't given out: what is missing of them is told with the next one.
    void drop_bare()
    {
        while (!stream.ended.empty() && stream.ended.front().bytes.empty()) {
            Given it = std::move(stream.ended.front());
            stream.ended.pop_front();
            history.append(it);
            bare++;
            (!stream.ended.empty() ? stream.ended.front().told.missing
                 : stream.open     ? stream.open->carried
                                   : stream.carried) += it.told.missing;
        }
    }

    void end_unit(bool is_known)
    {
        stream.open->is_broken = stream.open->is_broken || !is_known || open_len(stream.fragments) > 0;
        stream.ended.push_back(ended_unit(config, *stream.open));
        stream.open.reset();
        stream.fragments.clear();
    }

    // It is the first of its access unit, and numbers are missing right before it.
    bool begins_behind_missing(const Packet &packet) const
    {
        const bool is_of_open = stream.open && stream.open->timestamp == packet.timestamp;
        return !packet.payload.empty() && !is_of_open && is_behind_missing(packet.number);
    }

    // It has the timestamp of the access unit that is open, of which a slice came, and begins with what stands before the
    // slices of another. It isn't asked where a marker was believed, no longer stands for a slice, and that access unit
    // has another timestamp than the one before.
    bool ends_by_units(const Packet &packet) const
    {
        if (packet.payload.empty() || !stream.open || stream.open->timestamp != packet.timestamp)
            return false;
        if (!stream.open->has_slice || (stream.is_marked && !stream.marks_slices && !stream.open->is_still))
            return false;
        const Read reading = read(config, packet.payload);
        const std::optional<Told> first = reading ? shown_by(config.codec, *reading).first : std::nullopt;
        return first && begins_behind_slice(*first);
    }

    // What is open ends by a marker, or by what its units are.
    void end_by_itself(bool is_known)
    {
        stream.marked = stream.open->timestamp;
        end_unit(is_known);
    }

    // What is open ends, not known to be whole. What comes then is judged from its first packet on.
    void end_behind_missing(uint16_t number)
    {
        const uint16_t missing = static_cast<uint16_t>(number - *stream.expected);
        counts.lost += missing;
        stream.skipped_gap += missing;
        if (stream.open)
            end_unit(false);
        stream.expected.reset();
        stream.has_begun = stream.is_gap = false;
        stream.marked.reset();
        stream.fragments.clear();
    }

    // What is open ends, not known to be whole, and any number is the next.
    void end_stream()
    {
        if (stream.open)
            end_unit(false);
        std::deque<Given> ended = std::move(stream.ended);
        stream = {};
        stream.ended = std::move(ended);
    }

    // A packet that was due: it bears nothing, is refused, and then missing itself unless it bears no unit, or is taken.
    void take(const Packet &packet)
    {
        if (!stream.expected && !packet.payload.empty())
            stream.expected = packet.number;
        const uint16_t missing =
            stream.expected ? static_cast<uint16_t>(packet.number - *stream.expected) : uint16_t{0};
        const bool is_expected = stream.expected && missing == 0;
        if (packet.payload.empty()) {
            counts.skipped++;
            pass_over(packet.number, missing, !is_expected);
        } else if (Read reading = read(config, packet.payload); reading) {
            counts.taken++;
            counts.lost += missing;
            take_reading(packet, std::move(*reading), is_expected && !stream.is_gap, missing);
        } else if (bears_no_unit(config, packet.payload)) {
            counts.no_unit++;
            const bool is_of_open = stream.open && stream.open->timestamp == packet.timestamp;
            if (is_of_open && is_expected && believes(packet.marker, stream.open->has_slice))
                end_by_itself(!stream.is_gap);
            pass_over(packet.number, missing, !is_expected);
        } else {
            counts.refused++;
            pass_over(packet.number, missing + 1u, true);
        }
    }

    // Whether a marker ends an access unit of which a slice came or not.
    bool believes(bool marker, bool has_slice) const { return marker && has_slice && !stream.marks_slices; }

    // A number that bears nothing, and up to which so many are missing.
    void pass_over(uint16_t number, uint32_t missing, bool is_gap)
    {
        counts.lost += missing;
        stream.skipped_gap += missing;
        stream.expected = static_cast<uint16_t>(number + 1);
        if (!is_gap)
            return;
        stream.is_gap = true;
        stream.fragments.clear();
        if (stream.open)
            stream.open->is_broken = true;
    }

    void take_reading(const Packet &packet, Reading reading, bool follows, uint16_t missing)
    {
        if (stream.open && stream.open->timestamp != packet.timestamp)
            end_unit(follows);
        if (!follows)
            stream.fragments.clear();
        const Shown shown = shown_by(config.codec, reading);
        const bool is_behind_its_own = stream.marked == packet.timestamp;
        if (is_behind_its_own && shown.first && shown.first->is_slice && !shown.first->is_first)
            stream.marks_slices = true;
        if (!stream.open) {
            stream.fragments.clear();
            stream.open.emplace();
            stream.open->timestamp = packet.timestamp;
            stream.open->is_still = is_behind_its_own && shown.first && begins_behind_slice(*shown.first);
            stream.open->continues = is_behind_its_own && !stream.open->is_still;
            stream.open->is_first = !stream.has_begun;
            stream.open->is_counted = stream.has_taken;
            stream.open->carried = std::exchange(stream.carried, 0);
            counts.still += stream.open->is_still;
        }
        stream.open->has_slice = stream.open->has_slice || shown.has_slice;
        const bool ends = believes(packet.marker, stream.open->has_slice);
        counts.unbelieved += packet.marker && !ends;
        Taken taken{packet.number, stream.skipped_gap + missing, follows, false, std::move(reading.units)};
        if (reading.is_fragment) {
            if (reading.is_start && is_run_open(stream.fragments))
                taken.is_sound = false;
            stream.fragments.push_back(std::move(reading));
            taken.brought = units_ended(stream.fragments);
        }
        const size_t run = open_len(stream.fragments);
        if (taken.brought.empty() && run == 0)
            taken.is_sound = false;
        if (run > config.run_limit) {
            taken.is_sound = false;
            counts.units_given_up++;
            stream.fragments.clear();
        }
        stream.open->packets.push_back(std::move(taken));
        stream.expected = static_cast<uint16_t>(packet.number + 1);
        stream.has_begun = stream.has_taken = true;
        stream.is_gap = false;
        stream.skipped_gap = 0;
        stream.marked.reset();
        if (ends) {
            stream.is_marked = true;
            end_by_itself(true);
        } else if (text_len(*stream.open) > config.unit_limit) {
            stream.open->packets.back().is_text_given_up = true;
            counts.texts_given_up++;
        }
    }
};

} // namespace model

#endif
