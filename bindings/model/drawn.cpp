// Gives the receiver of access units of a library packets as drawn networks bring them, and compares all that it
// answers with a model of it (model.hpp):
//
//     drawn SEED COUNT
//
// with as many packets. At the first difference the smallest list of calls that was found to show one is printed, and
// the status is 1; so it is where no packet had one of the answers, which a million are enough for.
#include "network.hpp"
#include <cinttypes>
#include <cstdio>
#include <cstdlib>
#include <cstring>

using model::Bytes;
using network::Call;
using network::Kind;
using network::Network;

namespace {

// What the library writes to, and what stands there before.
constexpr size_t ROOM = 1 << 22;
constexpr int UNTOUCHED = 0xee;
uint8_t memory[ROOM + 64];

// How often each answer was given.
struct Totals {
    uint64_t packets = 0, networks = 0, refused_settings = 0, pushed[7] = {}, bytes = 0;
    uint64_t no_room = 0, clean = 0, continues = 0, keyframes = 0, missing = 0, deadlines = 0;
    uint64_t disposable = 0, clean_by_sets = 0, whole_by_front = 0, clean_behind_damage = 0, bare = 0, begun[2] = {};
    uint64_t clean_by_numbers = 0;
    h26x_access_units_counts counts{};
};

using Numbers = uint64_t[sizeof(h26x_access_units_counts) / sizeof(uint64_t)];

// The library's receiver beside the model.
class Pair {
public:
    Pair(const Network &n, Totals &t) : network(n), model(n.config), totals(t), has_sets(n.config.has_sets)
    {
        const uint32_t code = h26x_access_units_new(&network.config, &u);
        is_same(code == model::Receiver::code_of(network.config), "h26x_access_units_new");
        is_there = code == H26X_OK;
    }
    Pair(const Pair &) = delete;
    Pair &operator=(const Pair &) = delete;
    ~Pair()
    {
        if (difference != nullptr)
            memset(memory, UNTOUCHED, sizeof memory);
        Numbers all, sums;
        memcpy(all, &model.counts, sizeof all);
        memcpy(sums, &totals.counts, sizeof sums);
        for (size_t i = 0; i < sizeof all / sizeof *all; i++)
            sums[i] += all[i];
        memcpy(&totals.counts, sums, sizeof sums);
        totals.bare += model.bare;
        h26x_access_units_close(&u);
    }

    // What differs, or nullptr.
    const char *after(const Call &call, size_t place)
    {
        switch (call.kind) {
        case Kind::push:
        case Kind::skip:
            push(call);
            break;
        case Kind::next:
            next(call.now, call.room);
            break;
        case Kind::next_all:
            while (next(call.now, ROOM))
                ;
            break;
        case Kind::finish:
            is_same(h26x_access_units_finish(&u) == H26X_OK, "h26x_access_units_finish");
            model.finish();
            break;
        case Kind::begin_at:
            begin_at(call.number);
            break;
        case Kind::set_config: {
            const h26x_access_units_config &config = network.settings[call.room];
            is_same(h26x_access_units_set_config(&u, &config) == model.set_config(config),
                    "h26x_access_units_set_config");
            break;
        }
        case Kind::restart:
            is_same(h26x_access_units_restart(&u) == H26X_OK, "h26x_access_units_restart");
            model.restart();
        }
        look(place);
        return difference;
    }

    bool is_there = false;
    const char *difference = nullptr;

private:
    const Network &network;
    h26x_access_units u{};
    model::Receiver model;
    Totals &totals;

    void is_same(bool same, const char *what)
    {
        if (!same && difference == nullptr)
            difference = what;
    }

    void push(const Call &call)
    {
        uint32_t pushed = 99;
        uint16_t behind = 99, wanted_behind;
        uint32_t wanted, code;
        if (call.kind == Kind::skip) {
            code = h26x_access_units_skip(&u, call.now, call.number, &pushed, &behind);
            wanted = model.push(call.now, {call.number, 0, false, {}}, wanted_behind);
        } else {
            // behind the call the library has no use for the payload
            static Bytes payload;
            payload.assign(*call.payload);
            code = h26x_access_units_push(&u, call.now, call.number, call.timestamp, call.marker,
                                          reinterpret_cast<const uint8_t *>(payload.data()), payload.size(), &pushed,
                                          &behind);
            std::fill(payload.begin(), payload.end(), '\xee');
            wanted = model.push(call.now, {call.number, call.timestamp, call.marker, *call.payload}, wanted_behind);
        }
        is_same(code == H26X_OK, "the code of a packet");
        is_same(pushed == wanted, "what became of a packet");
        is_same(behind == wanted_behind, "how far a packet is behind");
        totals.pushed[wanted]++;
    }

    void begin_at(uint16_t number)
    {
        uint32_t in_time = 99;
        is_same(h26x_access_units_begin_at(&u, number, &in_time) == H26X_OK, "h26x_access_units_begin_at");
        const bool wanted = model.begin_at(number);
        is_same(in_time == wanted, "whether the first number is said in time");
        totals.begun[wanted]++;
    }

    // Whether an access unit was given out.
    bool next(uint32_t now, size_t room)
    {
        h26x_access_unit unit, told;
        Bytes bytes;
        memset(&unit, UNTOUCHED, sizeof unit);
        told = unit;
        const uint32_t code = h26x_access_units_next(&u, now, room == 0 ? nullptr : memory, room, &unit);
        const uint32_t wanted = model.next(now, room, told, bytes);
        is_same(code == wanted, "the code of the next access unit");
        is_same(unit.len == told.len, "len");
        is_same(unit.timestamp == told.timestamp, "timestamp");
        is_same(unit.missing == told.missing, "missing");
        is_same(unit.first == told.first && unit.last == told.last, "first, last");
        is_same(unit.extra == told.extra, "extra");
        is_same(told_bool(unit.is_whole) == told_bool(told.is_whole), "is_whole");
        is_same(told_bool(unit.is_clean) == told_bool(told.is_clean), "is_clean");
        is_same(told_bool(unit.is_disposable) == told_bool(told.is_disposable), "is_disposable");
        is_same(told_bool(unit.continues) == told_bool(told.continues), "continues");
        is_same(memcmp(memory, bytes.data(), bytes.size()) == 0, "the bytes");
        // all else of the memory is left
        memset(memory, UNTOUCHED, bytes.size());
        static const Bytes untouched(64, static_cast<char>(UNTOUCHED));
        is_same(memcmp(memory, untouched.data(), 64) == 0 && memcmp(memory + bytes.size(), untouched.data(), 64) == 0,
                "memory behind the bytes");
        totals.no_room += wanted == H26X_NO_ROOM;
        if (wanted == H26X_OK) {
            totals.bytes += told.len;
            totals.clean += told.is_clean;
            totals.disposable += told.is_disposable;
            totals.clean_by_sets += told.is_clean && has_sets;
            totals.clean_behind_damage += told.is_clean && told.extra != 2 && !was_clean;
            totals.clean_by_numbers += told.is_clean && told.extra != 2 && told.missing > 0;
            totals.whole_by_front += told.is_whole && told.missing > 0;
            was_clean = told.is_clean;
            totals.continues += told.continues;
            totals.keyframes += told.extra == 2;
        }
        return wanted == H26X_OK && difference == nullptr;
    }

    static unsigned told_bool(const bool &told)
    {
        uint8_t it;
        memcpy(&it, &told, 1);
        return it;
    }

    // What can be asked at any time. Where many numbers are missing they are asked for now and then.
    void look(size_t place)
    {
        h26x_access_units_counts counts;
        is_same(h26x_access_units_count(&u, &counts) == H26X_OK, "h26x_access_units_count");
        is_same(memcmp(&counts, &model.counts, sizeof counts) == 0, "counts");
        uint32_t at = 99;
        const bool waits = h26x_access_units_deadline(&u, &at);
        const std::optional<uint32_t> deadline = model.deadline();
        is_same(waits == deadline.has_value() && at == deadline.value_or(99), "the deadline");
        totals.deadlines += waits;
        if (many_missing && place % 16 != 0)
            return;
        const std::vector<uint16_t> missing = model.missing();
        uint16_t numbers[20];
        size_t count = 99;
        const size_t room = place % 20;
        memset(numbers, UNTOUCHED, sizeof numbers);
        const size_t told = std::min(room, missing.size());
        is_same(h26x_access_units_missing(&u, numbers, room, &count) == H26X_OK, "h26x_access_units_missing");
        is_same(count == missing.size(), "how many numbers are missing");
        is_same(std::equal(numbers, numbers + told, missing.begin())
                    && std::all_of(numbers + told, numbers + 20, [](uint16_t it) { return it == 0xeeee; }),
                "the missing numbers");
        many_missing = missing.size() > 8;
        totals.missing += missing.size();
    }

    const bool has_sets;
    bool many_missing = false, was_clean = true;
};

// What differs first, and the call behind which it does; nullptr where nothing does.
struct Outcome {
    const char *difference;
    size_t calls;
};

Outcome outcome_of(const Network &network, Totals &totals)
{
    Pair pair(network, totals);
    totals.networks++;
    if (!pair.is_there)
        totals.refused_settings++;
    if (!pair.is_there || pair.difference != nullptr)
        return {pair.difference, 0};
    for (size_t i = 0; i < network.calls.size(); i++) {
        const Call &call = network.calls[i];
        totals.packets += call.kind == Kind::push || call.kind == Kind::skip;
        if (pair.after(call, i) != nullptr)
            return {pair.difference, i + 1};
    }
    return {nullptr, 0};
}

// Leaves out calls, as long as something differs still, for some millions of calls.
Network smallest(Network network)
{
    Totals none;
    network.calls.resize(outcome_of(network, none).calls);
    size_t made = 0, at = 0, part = (network.calls.size() + 1) / 2;
    bool is_less = false;
    while (part > 0 && made < 20'000'000) {
        Network less = network;
        const auto from = less.calls.begin() + static_cast<std::ptrdiff_t>(at);
        less.calls.erase(from, from + static_cast<std::ptrdiff_t>(std::min(part, less.calls.size() - at)));
        const Outcome outcome = outcome_of(less, none);
        made += less.calls.size() + 1;
        if (outcome.difference != nullptr) {
            less.calls.resize(outcome.calls);
            network = less;
            is_less = true;
        } else {
            at += part;
        }
        if (at >= network.calls.size()) {
            part = is_less ? part : part / 2;
            is_less = false;
            at = 0;
        }
    }
    return network;
}

void print(const Network &network)
{
    static const char *const names[] = {"push",   "skip",    "next",     "next, until none",
                                        "finish", "restart", "begin at", "set settings"};
    const h26x_access_units_config &c = network.config;
    printf(
        "codec %u, max_wait %u, begin_wait %u, window %u, far_away %u, far_behind %u, numbers %d, avc %d, has_sets %d,"
        " held_limit %zu, run_limit %zu, unit_limit %zu\n",
        c.codec, c.max_wait, c.begin_wait, c.window, c.far_away, c.far_behind, c.numbers, c.avc, c.has_sets,
        c.held_limit, c.run_limit, c.unit_limit);
    for (const Call &call : network.calls) {
        printf("%s at %u", names[static_cast<size_t>(call.kind)], call.now);
        if (call.kind == Kind::push || call.kind == Kind::skip || call.kind == Kind::begin_at)
            printf(": %u", call.number);
        if (call.kind == Kind::next)
            printf(": room %u", call.room);
        if (call.kind == Kind::push) {
            printf(" of %u%s", call.timestamp, call.marker ? " with the marker: " : ": ");
            for (size_t i = 0; i < call.payload->size(); i++)
                printf("%02x", model::byte(*call.payload, i));
        }
        puts("");
    }
}

// An answer that no packet had, or nullptr.
const char *never(const Totals &t)
{
    const struct {
        uint64_t count;
        const char *name;
    } all[] = {
        {t.pushed[H26X_HELD], "held"},
        {t.pushed[H26X_PUSHED_LATE], "late"},
        {t.pushed[H26X_TWICE], "twice"},
        {t.pushed[H26X_FULL], "full"},
        {t.pushed[H26X_STRAY], "stray"},
        {t.pushed[H26X_ANEW], "anew"},
        {t.pushed[H26X_JUMPED], "jumped"},
        {t.no_room, "no room"},
        {t.clean, "clean"},
        {t.clean_by_sets, "clean by sets that the decoder has"},
        {t.clean_behind_damage, "clean behind a damaged picture"},
        {t.clean_by_numbers, "clean behind missing packets by its frame number"},
        {t.whole_by_front, "whole behind missing numbers"},
        {t.disposable, "disposable"},
        {t.begun[0], "a first number that is said too late"},
        {t.begun[1], "a first number that is said in time"},
        {t.continues, "continues"},
        {t.keyframes, "a keyframe"},
        {t.missing, "missing"},
        {t.deadlines, "a deadline"},
        {t.refused_settings, "refused settings"},
        {t.counts.refused, "refused"},
        {t.counts.skipped, "skipped"},
        {t.counts.whole, "whole"},
        {t.counts.units - t.counts.whole, "not whole"},
        {t.counts.units_given_up, "a unit given up"},
        {t.counts.texts_given_up, "a text given up"},
        {t.counts.no_unit, "a packet that bears no unit"},
        {t.counts.still, "an access unit at the timestamp of the one before"},
        {t.counts.unbelieved, "a marker that isn't believed"},
        {t.bare, "an access unit without bytes"},
    };
    for (const auto &it : all)
        if (it.count == 0)
            return it.name;
    return nullptr;
}

void draw_wrong_settings(Random &r, h26x_access_units_config &c)
{
    c.codec = r.one_in(2) ? c.codec : 262 + r.below(6);
    c.numbers = r.one_in(2);
    c.window = r.of<uint16_t>({0, 1, 16384, 16385, 65535});
}

} // namespace

int main(int argc, char **argv)
{
    if (argc != 3) {
        fputs("usage: drawn SEED COUNT\n", stderr);
        return 2;
    }
    const uint64_t seed = strtoull(argv[1], nullptr, 10), count = strtoull(argv[2], nullptr, 10);
    memset(memory, UNTOUCHED, sizeof memory);
    Random r{seed};
    network::Pools pools(r);
    Totals totals;
    while (totals.packets < count) {
        pools.renew_one(r);
        Network network = network::Drawing(r, r.in(pools.all)).drawn();
        if (r.one_in(30))
            draw_wrong_settings(r, network.config);
        const Outcome outcome = outcome_of(network, totals);
        if (outcome.difference == nullptr)
            continue;
        printf("seed %" PRIu64 ", network %" PRIu64 ": %s differs; as in:\n", seed, totals.networks,
               outcome.difference);
        print(smallest(network));
        return 1;
    }
    const h26x_access_units_counts &c = totals.counts;
    printf("%" PRIu64 " packets, %" PRIu64 " of them refused, in %" PRIu64 " networks, %" PRIu64
           " access units, %" PRIu64 " of them whole: each answer is the model's\n",
           totals.packets, c.refused, totals.networks, c.units, c.whole);
    if (const char *missed = never(totals)) {
        printf("but none was: %s\n", missed);
        return 1;
    }
    return 0;
}
