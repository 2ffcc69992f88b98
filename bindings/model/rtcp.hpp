// RTCP packets and what receivers count, written from RFC 3550, 6.4 and A.1 to A.8, RFC 4585, 6.1 to 6.3, and RFC 5104,
// 4.3.1, alone.
#ifndef RTCP_HPP
#define RTCP_HPP

#include "rtp.hpp"
#include <algorithm>

namespace rtcp {

using rtp::Bytes;
using rtp::field;
using Text = std::vector<uint8_t>;

inline void lay(Text &text, uint64_t value, size_t bytes)
{
    for (size_t i = bytes; i > 0; i--)
        text.push_back(static_cast<uint8_t>(value >> 8 * (i - 1)));
}

// RFC 3550, 6.4.1: V of 2, no P, five bits, the packet type, and the length in words less one, which is told at the end
inline Text begun(uint32_t five_bits, uint32_t packet_type)
{
    Text text;
    lay(text, 2 << 6 | five_bits, 1);
    lay(text, packet_type, 1);
    lay(text, 0, 2);
    return text;
}

inline Text ended(Text text)
{
    const size_t words = text.size() / 4 - 1;
    text[2] = static_cast<uint8_t>(words >> 8);
    text[3] = static_cast<uint8_t>(words);
    return text;
}

// RFC 3550, 6.1 and A.2: whether a packet is at the front, and how many bytes it has
inline bool is_front(Bytes bytes, size_t &len)
{
    if (bytes.len < 4 || field(bytes.at, 0, 2) != 2)
        return false;
    len = size_t{4} * (1 + field(bytes.at, 16, 16));
    return len <= bytes.len;
}

// Whether bytes are a packet of this sort alone, without padding.
inline bool is_packet(Bytes bytes, uint32_t five_bits, uint32_t packet_type)
{
    size_t len;
    return is_front(bytes, len) && len == bytes.len && field(bytes.at, 2, 1) == 0 && field(bytes.at, 3, 5) == five_bits
        && field(bytes.at, 8, 8) == packet_type;
}

// RFC 4585, 6.1 and 6.3.1
inline Text pli(uint32_t sender, uint32_t media)
{
    Text text = begun(1, 206);
    lay(text, sender, 4);
    lay(text, media, 4);
    return ended(text);
}

inline bool read_pli(Bytes packet, uint32_t &sender, uint32_t &media)
{
    if (!is_packet(packet, 1, 206) || packet.len != 12)
        return false;
    sender = field(packet.at, 32, 32);
    media = field(packet.at, 64, 32);
    return true;
}

// RFC 5104, 4.3.1.1: the source of the header is 0, that of the entry tells it, and the reserved bits are 0, which a
// reader doesn't look at
inline Text fir(uint32_t sender, uint32_t media, uint8_t number)
{
    Text text = begun(4, 206);
    lay(text, sender, 4);
    lay(text, 0, 4);
    lay(text, media, 4);
    lay(text, number, 1);
    lay(text, 0, 3);
    return ended(text);
}

inline bool read_fir(Bytes packet, uint32_t &sender, uint32_t &media, uint8_t &number)
{
    if (!is_packet(packet, 4, 206) || packet.len != 20)
        return false;
    sender = field(packet.at, 32, 32);
    media = field(packet.at, 96, 32);
    number = static_cast<uint8_t>(field(packet.at, 128, 8));
    return true;
}

// RFC 3550, 6.4.1 and 6.4.2: a number in 24 bits by two's complement, as near as they come
inline Text report(uint32_t sender, const h26x_report &it)
{
    const int64_t lost = std::clamp<int64_t>(it.lost, -(1 << 23), (1 << 23) - 1);
    Text text = begun(1, 201);
    lay(text, sender, 4);
    lay(text, it.ssrc, 4);
    lay(text, it.fraction_lost, 1);
    lay(text, static_cast<uint64_t>(lost), 3);
    lay(text, it.highest, 4);
    lay(text, it.jitter, 4);
    lay(text, it.last_sender_report, 4);
    lay(text, it.delay, 4);
    return ended(text);
}

inline bool read_report(Bytes packet, uint32_t &sender, h26x_report &it)
{
    if (!is_packet(packet, 1, 201) || packet.len != 32)
        return false;
    const auto lost = static_cast<int32_t>(field(packet.at, 104, 24));
    sender = field(packet.at, 32, 32);
    it.ssrc = field(packet.at, 64, 32);
    it.fraction_lost = static_cast<uint8_t>(field(packet.at, 96, 8));
    it.lost = lost >= 1 << 23 ? lost - (1 << 24) : lost;
    it.highest = field(packet.at, 128, 32);
    it.jitter = field(packet.at, 160, 32);
    it.last_sender_report = field(packet.at, 192, 32);
    it.delay = field(packet.at, 224, 32);
    return true;
}

// RFC 4585, 6.2.1: PID, and BLP, whose bit i, of which the lowest is bit 1, asks for PID + i. A number that isn't one of
// the sixteen behind PID, or doesn't go on behind the last of them, has a pair of its own, as far as there is room in the
// bytes and in the length.
inline Text nack(uint32_t sender, uint32_t media, const std::vector<uint16_t> &numbers, size_t room, size_t &count)
{
    Text text = begun(1, 205);
    lay(text, sender, 4);
    lay(text, media, 4);
    count = 0;
    while (count < numbers.size() && text.size() + 4 <= room && text.size() / 4 < 65536) {
        const uint16_t first = numbers[count++];
        uint32_t following = 0, last = 0;
        while (count < numbers.size()) {
            const uint32_t behind = static_cast<uint16_t>(numbers[count] - first);
            if (behind <= last || behind > 16)
                break;
            following |= 1u << (behind - 1);
            last = behind;
            count++;
        }
        lay(text, first, 2);
        lay(text, following, 2);
    }
    return ended(text);
}

inline bool read_nack(Bytes packet, uint32_t &sender, uint32_t &media, std::vector<uint16_t> &numbers)
{
    if (!is_packet(packet, 1, 205) || packet.len < 16)
        return false;
    sender = field(packet.at, 32, 32);
    media = field(packet.at, 64, 32);
    numbers.clear();
    for (const uint8_t *pair = packet.at + 12; pair < packet.at + packet.len; pair += 4) {
        numbers.push_back(static_cast<uint16_t>(field(pair, 0, 16)));
        for (size_t i = 1; i <= 16; i++)
            if (field(pair, 32 - i, 1) == 1)
                numbers.push_back(static_cast<uint16_t>(field(pair, 0, 16) + i));
    }
    return true;
}

// ---- What is counted of a source (RFC 3550, A.1, A.3 and A.8), which begins with its first packet ----

struct Source {
    uint64_t base = 0, highest = 0; // extended by how often numbers went round
    uint64_t received = 0, expected_before = 0, received_before = 0, bytes = 0, recovered = 0, jitter = 0;
    int64_t bad = -1;     // the number behind one that jumped; -1: none has
    int64_t transit = -1; // of the last packet; -1: none came

    uint64_t expected() const { return received == 0 ? 0 : highest - base + 1; }
};

inline void begin(Source &it, uint16_t number)
{
    it.base = it.highest = number;
    it.received = it.expected_before = it.received_before = 0;
    it.bad = it.transit = -1;
}

// A.1: whether the packet counts
inline bool is_counted(Source &it, uint16_t number)
{
    const auto ahead = static_cast<uint16_t>(number - it.highest);
    if (it.received == 0) {
        begin(it, number);
    } else if (ahead < 3000) {
        it.highest += ahead;
    } else if (ahead <= 65536 - 100) {
        if (it.bad != number) {
            it.bad = static_cast<uint16_t>(number + 1);
            return false;
        }
        begin(it, number);
    }
    it.received++;
    return true;
}

// A.8
inline void count_transit(Source &it, uint32_t transit)
{
    if (it.transit >= 0) {
        const auto d = static_cast<int32_t>(transit - static_cast<uint32_t>(it.transit));
        const int64_t distance = d < 0 ? -static_cast<int64_t>(d) : d;
        it.jitter += static_cast<uint64_t>(distance) - ((it.jitter + 8) >> 4);
    }
    it.transit = transit;
}

inline bool receive(Source &it, uint32_t arrival, uint16_t number, uint32_t timestamp, size_t size)
{
    if (!is_counted(it, number))
        return false;
    it.bytes += std::min<uint64_t>(size, UINT64_MAX - it.bytes);
    count_transit(it, arrival - timestamp);
    return true;
}

inline void recover(Source &it)
{
    it.recovered += std::min<uint64_t>(1, UINT64_MAX - it.recovered);
}

// A.3, in whole numbers. The part of packets that were lost is below all of them.
inline h26x_report reported(Source &it, uint32_t ssrc, uint32_t last_sender_report, uint32_t delay)
{
    const auto expected = static_cast<int64_t>(it.expected() - it.expected_before);
    const auto received = static_cast<int64_t>(it.received - it.received_before);
    const int64_t lost = expected - received;
    const int64_t fraction = expected == 0 || lost <= 0 ? 0 : std::min<int64_t>(256 * lost / expected, 255);
    it.expected_before = it.expected();
    it.received_before = it.received;
    const auto all_lost = static_cast<int64_t>(it.expected() - it.received);
    const auto told = static_cast<int32_t>(std::clamp<int64_t>(all_lost, -(1 << 23), (1 << 23) - 1));
    const auto highest = static_cast<uint32_t>(it.received == 0 ? 0 : it.highest);
    const auto jitter = static_cast<uint32_t>(std::min<uint64_t>(it.jitter >> 4, UINT32_MAX));
    return {ssrc, told, highest, jitter, last_sender_report, delay, static_cast<uint8_t>(fraction)};
}

} // namespace rtcp

#endif
