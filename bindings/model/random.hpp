// Numbers that are drawn.
#ifndef RANDOM_HPP
#define RANDOM_HPP

#include <cstdint>
#include <initializer_list>
#include <vector>

// Numbers that are the same of a seed everywhere (splitmix64).
struct Random {
    uint64_t state;

    uint64_t draw()
    {
        uint64_t z = state += 0x9e3779b97f4a7c15;
        z = (z ^ z >> 30) * 0xbf58476d1ce4e5b9;
        z = (z ^ z >> 27) * 0x94d049bb133111eb;
        return z ^ z >> 31;
    }
    uint32_t below(uint32_t n) { return static_cast<uint32_t>((draw() >> 32) * n >> 32); }
    uint32_t from(uint32_t least, uint32_t most) { return least + below(most - least + 1); }
    bool one_in(uint32_t n) { return n != 0 && below(n) == 0; }
    template <typename T> T of(std::initializer_list<T> all) { return all.begin()[below(uint32_t(all.size()))]; }
    template <typename T> const T &in(const std::vector<T> &all) { return all[below(uint32_t(all.size()))]; }
};

#endif
