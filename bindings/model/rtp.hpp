// RTP's header, the elements of its extension, retransmissions and redundant payloads, written from RFC 3550, 5.1 and
// 5.3.1, RFC 5761, 4, RFC 8285, 4, RFC 4588, 4, and RFC 2198, 3, alone.
#ifndef RTP_HPP
#define RTP_HPP

#include "h26x.h"
#include <cstring>
#include <vector>

namespace rtp {

struct Bytes {
    const uint8_t *at;
    size_t len;
};

// The number in so many bits of a figure of an RFC, where each row has 32.
inline uint32_t field(const uint8_t *figure, size_t bit, size_t bits)
{
    const size_t last = bit + bits - 1;
    uint64_t value = 0;
    for (size_t i = bit / 8; i <= last / 8; i++)
        value = value << 8 | figure[i];
    return static_cast<uint32_t>(value >> (7 - last % 8) & ((uint64_t{1} << bits) - 1));
}

// RFC 5761, 4
inline bool is_rtcp(Bytes datagram)
{
    return datagram.len >= 2 && field(datagram.at, 8, 8) >= 192 && field(datagram.at, 8, 8) <= 223;
}

// RFC 3550, 5.1 and 5.3.1. Each part takes what it has of what is left, from the front, and padding from the end.
inline uint32_t read(Bytes datagram, h26x_rtp_packet &it)
{
    const uint8_t *const at = datagram.at;
    if (datagram.len < 12)
        return H26X_RTP_TOO_SHORT;
    if (field(at, 0, 2) != 2)
        return H26X_RTP_OTHER_VERSION;
    it = {};
    it.header.has_extension = field(at, 3, 1) == 1;
    it.header.marker = field(at, 8, 1) == 1;
    it.header.payload_type = static_cast<uint8_t>(field(at, 9, 7));
    it.header.sequence = static_cast<uint16_t>(field(at, 16, 16));
    it.header.timestamp = field(at, 32, 32);
    it.header.ssrc = field(at, 64, 32);
    it.csrcs_len = size_t{4} * field(at, 4, 4);
    size_t left = datagram.len - 12;
    if (it.csrcs_len > left)
        return H26X_RTP_CSRCS_PAST_THE_END;
    left -= it.csrcs_len;
    if (it.header.has_extension) {
        const uint8_t *const extension = at + 12 + it.csrcs_len;
        if (left < 4 || left - 4 < size_t{4} * field(extension, 16, 16))
            return H26X_RTP_EXTENSION_PAST_THE_END;
        it.header.profile = static_cast<uint16_t>(field(extension, 0, 16));
        it.extension_len = size_t{4} * field(extension, 16, 16);
        left -= 4 + it.extension_len;
    }
    it.payload = datagram.len - left;
    if (field(at, 2, 1) == 1) {
        it.padding_len = at[datagram.len - 1];
        if (left != 0 && it.padding_len == 0)
            return H26X_RTP_PADDING_OF_ZERO;
        if (left == 0 || it.padding_len > left)
            return H26X_RTP_PADDING_TOO_LONG;
    }
    it.payload_len = left - it.padding_len;
    return H26X_OK;
}

// What a packet is to have.
struct Parts {
    h26x_rtp_header header;
    Bytes csrcs, extension, payload, padding;
};

// Why a header isn't written, or H26X_OK.
inline uint32_t header_fault(const Parts &it)
{
    if (it.header.payload_type > 127)
        return H26X_RTP_PAYLOAD_TYPE;
    if (it.csrcs.len % 4 != 0 || it.csrcs.len / 4 > 15)
        return H26X_RTP_CSRCS;
    if (it.header.has_extension && (it.extension.len % 4 != 0 || it.extension.len / 4 > 65535))
        return H26X_RTP_EXTENSION;
    return H26X_OK;
}

inline bool is_padding(Bytes it)
{
    return it.len == 0 || it.at[it.len - 1] == it.len;
}

// Why a packet isn't written, or H26X_OK.
inline uint32_t fault_of(const Parts &it)
{
    const uint32_t fault = header_fault(it);
    return fault == H26X_OK && !is_padding(it.padding) ? uint32_t{H26X_RTP_PADDING} : fault;
}

// What is written is laid here, a part behind the other.
struct Text {
    uint8_t at[12 + 60 + 4 + 262140 + 4096];
    size_t len = 0;

    void number(uint32_t value, size_t bytes)
    {
        for (size_t i = bytes; i > 0; i--)
            at[len++] = static_cast<uint8_t>(value >> 8 * (i - 1));
    }
    void bytes(Bytes it)
    {
        if (it.len != 0)
            memcpy(at + len, it.at, it.len);
        len += it.len;
    }
};

// RFC 3550, 5.1 and 5.3.1
inline void lay_header(Text &text, const Parts &it, bool is_padded)
{
    const uint32_t extension = it.header.has_extension, marker = it.header.marker;
    text.len = 0;
    text.number(2u << 6 | (is_padded ? 1u : 0u) << 5 | extension << 4 | static_cast<uint32_t>(it.csrcs.len / 4), 1);
    text.number(marker << 7 | it.header.payload_type, 1);
    text.number(it.header.sequence, 2);
    text.number(it.header.timestamp, 4);
    text.number(it.header.ssrc, 4);
    text.bytes(it.csrcs);
    if (it.header.has_extension) {
        text.number(it.header.profile, 2);
        text.number(static_cast<uint32_t>(it.extension.len / 4), 2);
        text.bytes(it.extension);
    }
}

inline void lay(Text &text, const Parts &it)
{
    lay_header(text, it, it.padding.len != 0);
    text.bytes(it.payload);
    text.bytes(it.padding);
}

// The parts of a datagram, by where they are.
inline Parts parts_of(const uint8_t *datagram, const h26x_rtp_packet &it)
{
    return {it.header,
            {datagram + 12, it.csrcs_len},
            {datagram + 16 + it.csrcs_len, it.extension_len},
            {datagram + it.payload, it.payload_len},
            {datagram + it.payload + it.payload_len, it.padding_len}};
}

// RFC 4588, 4: the payload begins with the number that the original had.
inline uint32_t original(Bytes datagram, uint8_t payload_type, uint32_t ssrc, h26x_rtp_packet &it)
{
    if (const uint32_t code = read(datagram, it); code != H26X_OK)
        return code;
    if (it.payload_len < 2)
        return H26X_RTX_NO_ORIGINAL;
    it.header.sequence = static_cast<uint16_t>(field(datagram.at + it.payload, 0, 16));
    it.header.payload_type = payload_type;
    it.header.ssrc = ssrc;
    it.payload += 2;
    it.payload_len -= 2;
    it.padding_len = 0;
    return H26X_OK;
}

// RFC 2198, 3: a header of 32 bits of each block, of which F is set, and then one of 8 of the primary one. A block's bytes
// begin where those of the one before end.
struct Redundant {
    std::vector<h26x_red_block> blocks;
    uint8_t payload_type;
    size_t place;
};

inline uint32_t redundant(Bytes payload, Redundant &it)
{
    size_t headers = 0;
    while (headers < payload.len && field(payload.at + headers, 0, 1) == 1)
        headers += 4;
    if (headers >= payload.len)
        return H26X_RED_HEADERS_PAST_THE_END;
    it.blocks.clear();
    it.payload_type = static_cast<uint8_t>(field(payload.at + headers, 1, 7));
    it.place = headers + 1;
    for (const uint8_t *header = payload.at; header < payload.at + headers; header += 4) {
        const size_t len = field(header, 22, 10);
        const auto offset = static_cast<uint16_t>(field(header, 8, 14));
        it.blocks.push_back({it.place, len, offset, static_cast<uint8_t>(field(header, 1, 7))});
        it.place += len;
    }
    return it.place <= payload.len ? uint32_t{H26X_OK} : uint32_t{H26X_RED_BLOCKS_PAST_THE_END};
}

// RFC 8285, 4.2: a header of four bits each, the id and the length less one; an id of 15, and one of 0 that has a length,
// end them all.
inline uint32_t element_by_one(Bytes extension, size_t place, h26x_rtp_element &it)
{
    const uint32_t id = field(extension.at + place, 0, 4), length = field(extension.at + place, 4, 4);
    if (id == 0 || id == 15)
        return H26X_RTP_NO_ELEMENT;
    it = {place + 1, size_t{1} + length, static_cast<uint8_t>(id)};
    return H26X_OK;
}

// RFC 8285, 4.3: a header of a byte each
inline uint32_t element_by_two(Bytes extension, size_t place, h26x_rtp_element &it)
{
    if (extension.len - place < 2)
        return H26X_RTP_ELEMENT_PAST_THE_END;
    it = {place + 2, field(extension.at + place, 8, 8), extension.at[place]};
    return H26X_OK;
}

// RFC 8285, 4.1: the first behind bytes of padding, which are 0, by the extension's profile
inline uint32_t element(uint16_t profile, Bytes extension, size_t from, h26x_rtp_element &it)
{
    const bool by_one = profile == 0xbede, by_two = profile >> 4 == 0x100;
    size_t place = from;
    while (place < extension.len && extension.at[place] == 0)
        place++;
    if (place >= extension.len || !(by_one || by_two))
        return H26X_RTP_NO_ELEMENT;
    const uint32_t code = by_one ? element_by_one(extension, place, it) : element_by_two(extension, place, it);
    if (code == H26X_OK && it.begin + it.len > extension.len)
        return H26X_RTP_ELEMENT_PAST_THE_END;
    return code;
}

} // namespace rtp

#endif
