// Datagrams that are drawn.
#ifndef DRAWING_HPP
#define DRAWING_HPP

#include "random.hpp"
#include "rtp.hpp"
#include <algorithm>
#include <cstdlib>

namespace rtp {

// A datagram as a sender may make it, or nearly so.
class Drawing {
public:
    explicit Drawing(Random &random) : r(random) {}

    Bytes drawn()
    {
        len = 0;
        if (r.one_in(30)) {
            random_bytes(r.below(40));
            return {at, len};
        }
        packet();
        if (r.one_in(2))
            for (uint32_t count = r.one_in(3) ? 2 : 1; count > 0; count--)
                change();
        return {at, len};
    }

    // That of an extension: mostly one of elements, or close by.
    uint16_t profile()
    {
        const uint32_t any = r.one_in(2) ? r.of({0x0fffu, 0x1010u, 0xbeddu, 0xbedfu}) : r.below(65536);
        return static_cast<uint16_t>(r.one_in(6) ? any : r.one_in(2) ? 0xbede : 0x1000 + r.below(16));
    }

    // Parts of a packet, at times such as have no place in one.
    Parts parts(const uint8_t *bytes, size_t bytes_len)
    {
        Parts it{};
        it.header.timestamp = number();
        it.header.ssrc = number();
        it.header.sequence = static_cast<uint16_t>(number());
        it.header.profile = profile();
        it.header.payload_type = static_cast<uint8_t>(r.below(r.one_in(20) ? 256 : 128));
        it.header.marker = r.one_in(2);
        it.header.has_extension = r.one_in(2);
        it.csrcs = {bytes + r.below(8), r.one_in(12) ? r.below(80) : 4 * (r.one_in(2) ? 0 : r.below(16))};
        it.extension = {bytes + r.below(8), r.one_in(12) ? r.below(80) : 4 * r.below(6)};
        if (r.one_in(1 << 10))
            it.extension.len = r.of({262136u, 262140u, 262141u, 262144u});
        it.payload = {bytes + r.below(8), r.below(r.one_in(60) ? 1500 : 20)};
        if (r.one_in(3)) {
            const size_t count = r.one_in(6) ? r.from(1, 255) : r.from(1, 6);
            padding[count - 1] = static_cast<uint8_t>(r.one_in(12) ? r.below(256) : count);
            it.padding = {padding, count};
        } else if (r.one_in(200)) {
            it.padding = {bytes, r.of({256u, 257u, 300u})};
        }
        if (std::max({it.csrcs.len, it.extension.len, it.payload.len, it.padding.len}) + 8 > bytes_len)
            std::abort();
        const uint8_t *const of_padding = padding;
        if (it.padding.at == of_padding)
            was_padding = it.padding.len;
        return it;
    }

    // What the padding ended in is taken back.
    void forget()
    {
        if (was_padding != 0)
            padding[was_padding - 1] = 7;
        was_padding = 0;
    }

private:
    Random &r;
    uint8_t at[4096], padding[256] = {};
    size_t len = 0, was_padding = 0;
    size_t extension_place = 0, red_place = 0; // 0: there is none

    uint32_t number() { return r.one_in(8) ? UINT32_MAX - r.below(2) : static_cast<uint32_t>(r.draw()); }

    void random_bytes(size_t count)
    {
        for (; count >= 8; count -= 8, len += 8) {
            const uint64_t drawn = r.draw();
            memcpy(at + len, &drawn, 8);
        }
        for (uint64_t drawn = r.draw(); count > 0; count--, drawn >>= 8)
            at[len++] = static_cast<uint8_t>(drawn);
    }

    void word(uint32_t value)
    {
        at[len++] = static_cast<uint8_t>(value >> 8);
        at[len++] = static_cast<uint8_t>(value);
    }

    void packet()
    {
        const uint32_t csrcs = r.one_in(3) ? r.below(16) : 0;
        const bool has_extension = r.one_in(2), is_padded = r.one_in(3);
        at[len++] = static_cast<uint8_t>(0x80 | (is_padded ? 0x20 : 0) | (has_extension ? 0x10 : 0) | csrcs);
        at[len++] = static_cast<uint8_t>(r.below(256));
        random_bytes(10 + 4 * csrcs);
        extension_place = has_extension ? len : 0;
        if (has_extension) {
            const uint32_t words = r.one_in(40) ? r.below(100) : r.below(5);
            const uint16_t form = profile();
            word(form);
            word(words);
            if (r.one_in(4))
                random_bytes(4 * words);
            else
                elements(form, 4 * words);
        }
        red_place = 0;
        if (r.one_in(3))
            red();
        random_bytes(r.one_in(40) ? r.below(1400) : r.below(12));
        if (is_padded) {
            const uint32_t count = r.one_in(20) ? r.from(1, 255) : r.from(1, 4);
            random_bytes(count - 1);
            at[len++] = static_cast<uint8_t>(count);
        }
    }

    // Elements of a header extension in so many bytes, and padding between them; the last isn't always all there.
    void elements(uint16_t form, size_t count)
    {
        const size_t end = len + count;
        while (len < end) {
            if (r.one_in(4)) {
                at[len++] = 0;
            } else if (form == 0xbede) {
                const uint32_t id = r.one_in(16) ? r.of({0u, 15u}) : r.from(1, 14);
                const uint32_t size = r.one_in(12) ? r.below(16) : r.below(3);
                at[len++] = static_cast<uint8_t>(id << 4 | size);
                random_bytes(size + 1);
            } else {
                const uint32_t size = r.one_in(40) ? r.below(256) : r.below(4);
                at[len++] = static_cast<uint8_t>(r.one_in(12) ? r.of({1, 15, 16, 255}) : r.from(1, 255));
                at[len++] = static_cast<uint8_t>(size);
                random_bytes(size);
            }
        }
        len = end;
    }

    // Blocks of redundant data or FEC, and of the primary one its header.
    void red()
    {
        uint32_t blocks = 0;
        red_place = len;
        for (uint32_t count = r.one_in(3) ? r.below(5) : 1; count > 0; count--) {
            const uint32_t size = r.one_in(60) ? r.below(600) : r.below(8);
            at[len++] = static_cast<uint8_t>(0x80 | r.below(128));
            at[len++] = static_cast<uint8_t>(r.below(256));
            word(r.below(64) << 10 | size);
            blocks += size;
        }
        at[len++] = static_cast<uint8_t>(r.below(128));
        random_bytes(std::min<size_t>(blocks, 1200));
    }

    // One thing of it is otherwise.
    void change()
    {
        if (len == 0)
            return;
        switch (r.below(10)) {
        case 0:
            at[0] = static_cast<uint8_t>((at[0] & 0x3f) | r.below(4) << 6);
            break;
        case 1: // how many CSRCs there are
            at[0] = static_cast<uint8_t>((at[0] & 0xf0) | r.below(16));
            break;
        case 2: // P or X
            at[0] ^= static_cast<uint8_t>(r.of({0x20, 0x10}));
            break;
        case 3: // how much padding there is
            at[len - 1] = static_cast<uint8_t>(r.one_in(2) ? r.below(3) : r.one_in(2) ? r.below(32) : r.below(256));
            break;
        case 4:
            if (extension_place != 0 && extension_place + 4 <= len)
                at[extension_place + 3] = static_cast<uint8_t>(at[extension_place + 3] + r.of({1, 1, 2, 255}));
            break;
        case 5:
            if (extension_place != 0 && extension_place + 4 <= len)
                at[extension_place + 2] = static_cast<uint8_t>(r.below(3));
            break;
        case 6:
            len = r.one_in(2) ? r.below(static_cast<uint32_t>(len)) : len - std::min<size_t>(len, 1 + r.below(4));
            break;
        case 7: // of what comes near RTCP
            if (len > 1)
                at[1] = static_cast<uint8_t>(r.one_in(2) ? r.of({191, 192, 200, 206, 223, 224}) : r.below(256));
            break;
        case 8:
            at[r.below(static_cast<uint32_t>(len))] = static_cast<uint8_t>(r.one_in(3) ? r.of({0, 255}) : r.below(256));
            break;
        default: // F, or a length, of the first block
            if (red_place != 0 && red_place + 4 <= len)
                at[red_place + r.of({0, 2, 3})] ^= static_cast<uint8_t>(1 << r.below(8));
        }
    }
};

} // namespace rtp

#endif
