// Gives the calls of a library that read and write RTP's header, elements of its extension, retransmissions, redundant
// payloads and RTCP drawn datagrams, and compares all that they answer and write with models of them (rtp.hpp, rtcp.hpp):
//
//     datagrams SEED COUNT
//
// with as many, and as many RTCP packets. At the first difference the datagram is printed, and the status is 1; so it is
// where no datagram had one of the answers, which a million are enough for.
#include "comparison.hpp"
#include "control.hpp"
#include "drawing.hpp"
#include <cinttypes>
#include <cstdlib>

using namespace rtp;

namespace {

class Beside : public Comparison {
public:
    explicit Beside(uint64_t seed) : Comparison(seed), drawing(r)
    {
        for (uint8_t &it : pool)
            it = static_cast<uint8_t>(r.draw());
    }

    // What differs, or nullptr.
    const char *next()
    {
        datagram = drawing.drawn();
        h26x_rtp_packet packet;
        const bool rtcp = h26x_is_rtcp(datagram.at, datagram.len);
        is_same(rtcp == is_rtcp(datagram), "h26x_is_rtcp");
        control += rtcp;
        if (read_both(packet) == H26X_OK) {
            const Parts parts = parts_of(datagram.at, packet);
            write_back(parts);
            resend(packet);
            redundant(parts.payload);
            walk(packet.header.profile, parts.extension);
        } else {
            refuse_to_resend();
        }
        redundant(datagram);
        retransmitted(datagram);
        if (datagram.len > 12)
            walk(drawing.profile(), {datagram.at + 12, datagram.len - 12});
        if (r.one_in(2))
            write_drawn();
        return difference;
    }

    Bytes drawn() const { return datagram; }

    // An answer that nothing had, or 0.
    uint32_t never() const
    {
        for (uint32_t code : {0u, 13u, 50u, 51u, 52u, 53u, 54u, 55u, 56u, 57u, 58u, 59u, 60u, 61u, 62u, 75u, 76u})
            if (answers[code] == 0)
                return code + 1;
        return control == 0 ? 1000 : 0;
    }

    uint64_t packets = 0, control = 0, elements = 0;

private:
    Drawing drawing;
    Bytes datagram{};
    Text text, of_rtx;
    uint8_t pool[263000];
    Redundant red;

    void is_same_packet(const h26x_rtp_packet &it, const h26x_rtp_packet &wanted, const char *what)
    {
        const h26x_rtp_header &a = it.header, &b = wanted.header;
        is_same(a.timestamp == b.timestamp && a.ssrc == b.ssrc && a.sequence == b.sequence && a.profile == b.profile
                    && a.payload_type == b.payload_type && byte_of(a.marker) == byte_of(b.marker)
                    && byte_of(a.has_extension) == byte_of(b.has_extension) && it.csrcs_len == wanted.csrcs_len
                    && it.extension_len == wanted.extension_len && it.payload == wanted.payload
                    && it.payload_len == wanted.payload_len && it.padding_len == wanted.padding_len,
                what);
    }

    // The code of a call that tells of a packet, and what it told, or that it left.
    void told(uint32_t code, const h26x_rtp_packet &it, uint32_t wanted_code, h26x_rtp_packet wanted, const char *what)
    {
        is_same(code == wanted_code, what);
        answers[wanted_code % ANSWERS]++;
        if (wanted_code != H26X_OK)
            memset(static_cast<void *>(&wanted), UNTOUCHED, sizeof wanted);
        is_same_packet(it, wanted, what);
    }

    uint32_t read_both(h26x_rtp_packet &wanted)
    {
        h26x_rtp_packet it = left<h26x_rtp_packet>();
        const uint32_t code = h26x_rtp_read(datagram.at, datagram.len, &it), wanted_code = read(datagram, wanted);
        told(code, it, wanted_code, wanted, "h26x_rtp_read");
        packets += wanted_code == H26X_OK;
        return wanted_code;
    }

    void write(const Parts &it, const char *what)
    {
        const uint32_t fault = fault_of(it);
        if (fault == H26X_OK)
            lay(text, it);
        const size_t room = room_for(fault == H26X_OK ? text.len : 40);
        size_t len = 99;
        const uint32_t code =
            h26x_rtp_write(&it.header, it.csrcs.at, it.csrcs.len, it.extension.at, it.extension.len, it.payload.at,
                           it.payload.len, it.padding.at, it.padding.len, to, room, &len);
        written(code, len, room, fault, {text.at, text.len}, 0, what);
    }

    // What was read is written as it was.
    void write_back(const Parts &it)
    {
        write(it, "h26x_rtp_write of what was read");
        is_same(text.len == datagram.len && memcmp(text.at, datagram.at, text.len) == 0,
                "what was read, written again");
    }

    // What is written is read as it was.
    void write_drawn()
    {
        const Parts it = drawing.parts(pool, sizeof pool);
        write(it, "h26x_rtp_write");
        if (fault_of(it) == H26X_OK)
            read_again(it);
        write_before(it);
        drawing.forget();
    }

    void read_again(const Parts &it)
    {
        const size_t payload = text.len - it.payload.len - it.padding.len;
        const h26x_rtp_packet wanted = {it.header, it.csrcs.len,   it.header.has_extension ? it.extension.len : 0,
                                        payload,   it.payload.len, it.padding.len};
        h26x_rtp_packet packet = left<h26x_rtp_packet>();
        is_same(h26x_rtp_read(text.at, text.len, &packet) == H26X_OK, "h26x_rtp_read of what was written");
        packet.header.profile = it.header.has_extension ? packet.header.profile : it.header.profile;
        is_same_packet(packet, wanted, "h26x_rtp_read of what was written");
    }

    // A header that ends at a place.
    void write_before(const Parts &it)
    {
        const uint32_t fault = header_fault(it);
        const bool is_padded = r.one_in(2);
        size_t len = 99;
        if (fault == H26X_OK)
            lay_header(text, it, is_padded);
        const size_t size = fault == H26X_OK ? text.len : 40;
        const size_t place = r.one_in(8) ? r.below(static_cast<uint32_t>(size) + 1) : size + r.below(40);
        const size_t room = r.one_in(12) ? r.below(static_cast<uint32_t>(place) + 1) : place + r.below(40);
        const uint32_t code = h26x_rtp_write_before(&it.header, it.csrcs.at, it.csrcs.len, it.extension.at,
                                                    it.extension.len, is_padded, place, to, room, &len);
        const bool has_room = fault == H26X_OK && size <= place && place <= room;
        written(code, len, has_room ? size : 0, fault, {text.at, text.len}, has_room ? place - size : 0,
                "h26x_rtp_write_before");
    }

    // A packet as a retransmission, and read as one again.
    void resend(const h26x_rtp_packet &packet)
    {
        const uint8_t payload_type = static_cast<uint8_t>(r.below(r.one_in(20) ? 256 : 128));
        const uint16_t sequence = static_cast<uint16_t>(r.draw());
        const uint32_t ssrc = static_cast<uint32_t>(r.draw());
        Parts it = parts_of(datagram.at, packet);
        it.header.payload_type = payload_type;
        it.header.sequence = sequence;
        it.header.ssrc = ssrc;
        lay_header(of_rtx, it, false);
        of_rtx.number(packet.header.sequence, 2);
        of_rtx.bytes(it.payload);
        const size_t room = room_for(of_rtx.len);
        size_t len = 99;
        const uint32_t code = h26x_rtx_write(datagram.at, datagram.len, payload_type, sequence, ssrc, to, room, &len);
        const uint32_t fault = payload_type > 127 ? H26X_RTP_PAYLOAD_TYPE : H26X_OK;
        written(code, len, room, fault, {of_rtx.at, of_rtx.len}, 0, "h26x_rtx_write");
        if (fault == H26X_OK)
            resent(packet);
    }

    // The original of a retransmission is the packet, behind two bytes more, and without padding.
    void resent(h26x_rtp_packet packet)
    {
        h26x_rtp_packet it = left<h26x_rtp_packet>();
        const uint32_t code =
            h26x_rtp_original(of_rtx.at, of_rtx.len, packet.header.payload_type, packet.header.ssrc, &it);
        is_same(code == H26X_OK, "h26x_rtp_original of a retransmission");
        packet.payload += 2;
        packet.padding_len = 0;
        is_same_packet(it, packet, "h26x_rtp_original of a retransmission");
    }

    void refuse_to_resend()
    {
        h26x_rtp_packet none;
        size_t len = 99;
        const uint8_t payload_type = static_cast<uint8_t>(r.below(256));
        const uint32_t code = h26x_rtx_write(datagram.at, datagram.len, payload_type, 5, 2, to, 2000, &len);
        written(code, len, 2000, read(datagram, none), {text.at, 0}, 0, "h26x_rtx_write of no packet");
    }

    void retransmitted(Bytes bytes)
    {
        const uint8_t payload_type = static_cast<uint8_t>(r.below(128));
        const uint32_t ssrc = static_cast<uint32_t>(r.draw());
        h26x_rtp_packet it = left<h26x_rtp_packet>(), wanted;
        const uint32_t code = h26x_rtp_original(bytes.at, bytes.len, payload_type, ssrc, &it);
        const uint32_t wanted_code = original(bytes, payload_type, ssrc, wanted);
        told(code, it, wanted_code, wanted, "h26x_rtp_original");
    }

    void redundant(Bytes payload)
    {
        uint8_t payload_type = 99;
        size_t place = 99;
        const uint32_t code = h26x_red_primary(payload.at, payload.len, &payload_type, &place);
        const uint32_t wanted_code = rtp::redundant(payload, red);
        const bool is_red = wanted_code == H26X_OK;
        answers[wanted_code % ANSWERS]++;
        is_same(code == wanted_code, "h26x_red_primary");
        is_same(payload_type == (is_red ? red.payload_type : 99) && place == (is_red ? red.place : 99),
                "h26x_red_primary");
        older(payload, wanted_code);
    }

    // The blocks before the primary one.
    void older(Bytes payload, uint32_t wanted_code)
    {
        constexpr size_t MOST = 6;
        h26x_red_block blocks[MOST + 1];
        for (h26x_red_block &it : blocks)
            it = left<h26x_red_block>();
        size_t count = 99, told = 0;
        const size_t room = r.below(MOST + 1);
        const uint32_t code = h26x_red_blocks(payload.at, payload.len, blocks, room, &count);
        const bool is_red = wanted_code == H26X_OK;
        is_same(code == wanted_code && count == (is_red ? red.blocks.size() : 99), "h26x_red_blocks");
        for (; is_red && told < std::min(room, red.blocks.size()); told++)
            is_same_block(blocks[told], red.blocks[told]);
        for (; told <= MOST; told++)
            is_same_block(blocks[told], left<h26x_red_block>());
    }

    void is_same_block(const h26x_red_block &a, const h26x_red_block &b)
    {
        is_same(a.begin == b.begin && a.len == b.len && a.timestamp_offset == b.timestamp_offset
                    && a.payload_type == b.payload_type,
                "h26x_red_blocks");
    }

    // The elements of an extension, one behind the other, and one from any place on.
    void walk(uint16_t profile, Bytes extension)
    {
        h26x_rtp_element it{};
        while (next_element(profile, extension, it.begin + it.len, it))
            continue;
        next_element(profile, extension, r.below(static_cast<uint32_t>(extension.len) + 3), it);
    }

    bool next_element(uint16_t profile, Bytes extension, size_t from, h26x_rtp_element &wanted)
    {
        h26x_rtp_element it = left<h26x_rtp_element>();
        const uint32_t code = h26x_rtp_element_next(profile, extension.at, extension.len, from, &it);
        const uint32_t wanted_code = element(profile, extension, from, wanted);
        answers[wanted_code % ANSWERS]++;
        if (wanted_code != H26X_OK)
            wanted = left<h26x_rtp_element>();
        elements += wanted_code == H26X_OK;
        is_same(code == wanted_code && it.begin == wanted.begin && it.len == wanted.len && it.id == wanted.id,
                "h26x_rtp_element_next");
        return wanted_code == H26X_OK;
    }
};

// The first thing that differs is told.
bool differs(const char *difference, Bytes drawn, uint64_t seed, uint64_t number)
{
    if (difference == nullptr)
        return false;
    printf("seed %" PRIu64 ", datagram %" PRIu64 ": %s differs, of ", seed, number, difference);
    print(drawn);
    return true;
}

} // namespace

int main(int argc, char **argv)
{
    if (argc != 3) {
        fputs("usage: datagrams SEED COUNT\n", stderr);
        return 2;
    }
    const uint64_t seed = strtoull(argv[1], nullptr, 10), count = strtoull(argv[2], nullptr, 10);
    static Beside beside(seed);
    static Control control(~seed);
    for (uint64_t i = 0; i < count; i++) {
        if (differs(beside.next(), beside.drawn(), seed, i) || differs(control.next(), control.drawn(), seed, i))
            return 1;
    }
    printf("%" PRIu64 " datagrams, %" PRIu64 " of them RTP packets, with %" PRIu64 " elements, %" PRIu64
           " RTCP, and as "
           "many of RTCP: each answer is the model's\n",
           count, beside.packets, beside.elements, beside.control);
    if (const uint32_t code = beside.never(); code != 0) {
        printf("no call answered %u\n", code - 1);
        return 1;
    }
    if (control.lacks()) {
        puts("nothing was drawn of some kind of RTCP");
        return 1;
    }
    return 0;
}
