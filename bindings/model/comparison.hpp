// A library beside a model: what calls answer, and what they write, is compared.
#ifndef COMPARISON_HPP
#define COMPARISON_HPP

#include "random.hpp"
#include "rtp.hpp"
#include <cstdio>

constexpr uint8_t UNTOUCHED = 0xee;
constexpr size_t BEHIND = 16, ANSWERS = 80;

class Comparison {
public:
    explicit Comparison(uint64_t seed) : r{seed}
    {
        memset(to, UNTOUCHED, sizeof to);
        memset(untouched, UNTOUCHED, sizeof untouched);
    }

    uint64_t answers[ANSWERS] = {};

protected:
    Random r;
    const char *difference = nullptr;
    uint8_t to[sizeof rtp::Text::at + BEHIND], untouched[BEHIND];

    void is_same(bool same, const char *what)
    {
        if (!same && difference == nullptr)
            difference = what;
    }

    static unsigned byte_of(const bool &it)
    {
        uint8_t byte;
        memcpy(&byte, &it, 1);
        return byte;
    }

    // What a call is given that may leave it.
    template <typename T> static T left()
    {
        T it;
        memset(static_cast<void *>(&it), UNTOUCHED, sizeof it);
        return it;
    }

    // The room that a call is given for so many bytes.
    size_t room_for(size_t len)
    {
        return r.one_in(8) ? r.below(static_cast<uint32_t>(len) + 1) : len + (r.one_in(2) ? 0 : r.below(9));
    }

    // A call wrote to `to` from a place on, or refused; len was 99 before.
    void written(uint32_t code, size_t len, size_t room, uint32_t fault, rtp::Bytes wanted, size_t from,
                 const char *what)
    {
        const uint32_t no_room = room < wanted.len ? H26X_NO_ROOM : H26X_OK;
        const uint32_t wanted_code = fault != H26X_OK ? fault : no_room;
        const size_t count = wanted_code == H26X_OK ? wanted.len : 0;
        answers[wanted_code % ANSWERS]++;
        is_same(code == wanted_code, what);
        is_same(len == (fault != H26X_OK ? 99 : wanted.len), what);
        is_same(count == 0 || memcmp(to + from, wanted.at, count) == 0, what);
        is_same(memcmp(to + from + count, untouched, BEHIND) == 0, what);
        is_same(from < BEHIND || memcmp(to + from - BEHIND, untouched, BEHIND) == 0, what);
        memset(to + from, UNTOUCHED, count);
    }
};

inline void print(rtp::Bytes bytes)
{
    for (size_t i = 0; i < bytes.len; i++)
        printf("%02x", bytes.at[i]);
    puts("");
}

#endif
