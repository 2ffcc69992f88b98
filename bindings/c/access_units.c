/* Access units, of packets as a network brings them: lost, late, twice, in any order, with markers and
 * without, and what is told and counted of all (RFC 3550, 5.1 and A.1; RFC 4585, 6.2.1). */
#include "calls.h"
#include <stdio.h>
#include <string.h>

/* What the packets of a test are given to. */
struct receiving {
    struct tally *tally;
    h26x_access_units u;
};

/* A window of four places, a wait of 100 ticks, none at the beginning, a decoder that has parameter sets, and room
 * for all else. */
static h26x_access_units_config settings(uint32_t codec)
{
    return (h26x_access_units_config){
        .codec = codec,
        .max_wait = 100,
        .window = 4,
        .has_sets = true,
        .held_limit = 1000,
        .run_limit = 1000,
        .unit_limit = 1000,
    };
}

static struct receiving receiver_of(struct tally *t, h26x_access_units_config config)
{
    struct receiving it = {.tally = t};
    expect(t, h26x_access_units_new(&config, &it.u) == H26X_OK);
    return it;
}

/* Gives a packet, and compares what became of it. */
static void pushes_at(struct receiving *it, uint32_t now, uint16_t sequence, uint32_t timestamp,
                      bool marker, const char *payload, uint32_t wanted, uint16_t wanted_behind,
                      int line)
{
    struct bytes in = bytes_of(payload);
    uint32_t pushed = 99;
    uint16_t behind = 99;
    expect_at(it->tally,
              h26x_access_units_push(&it->u, now, sequence, timestamp, marker, in.at, in.len, &pushed,
                                     &behind) == H26X_OK,
              payload, __FILE__, line);
    expect_at(it->tally, pushed == wanted && behind == wanted_behind, payload, __FILE__, line);
}
#define pushes(it, now, sequence, timestamp, marker, payload, pushed, behind) \
    pushes_at(it, now, sequence, timestamp, marker, payload, pushed, behind, __LINE__)
/* One that waits. */
#define holds(it, now, sequence, timestamp, marker, payload) \
    pushes_at(it, now, sequence, timestamp, marker, payload, H26X_HELD, 0, __LINE__)

static void skips_at(struct receiving *it, uint32_t now, uint16_t sequence, uint32_t wanted,
                     uint16_t wanted_behind, int line)
{
    uint32_t pushed = 99;
    uint16_t behind = 99;
    expect_at(it->tally, h26x_access_units_skip(&it->u, now, sequence, &pushed, &behind) == H26X_OK,
              "a skipped number", __FILE__, line);
    expect_at(it->tally, pushed == wanted && behind == wanted_behind, "what became of it", __FILE__,
              line);
}
#define skips(it, now, sequence, pushed, behind) skips_at(it, now, sequence, pushed, behind, __LINE__)

static bool is_told(h26x_access_unit a, h26x_access_unit b)
{
    return a.len == b.len && a.timestamp == b.timestamp && a.missing == b.missing && a.first == b.first
        && a.last == b.last && a.extra == b.extra && a.is_whole == b.is_whole
        && a.is_clean == b.is_clean && a.is_disposable == b.is_disposable && a.continues == b.continues;
}

/* Takes an access unit, whose length need not be said, and compares it. */
static void gives_at(struct receiving *it, uint32_t now, const char *bytes, h26x_access_unit wanted,
                     int line)
{
    uint8_t to[ROOM];
    h26x_access_unit unit;
    memset(&unit, 0xee, sizeof unit);
    expect_at(it->tally, h26x_access_units_next(&it->u, now, to, sizeof to, &unit) == H26X_OK, bytes,
              __FILE__, line);
    expect_at(it->tally, is_same(to, unit.len, bytes), bytes, __FILE__, line);
    wanted.len = unit.len;
    expect_at(it->tally, is_told(unit, wanted), bytes, __FILE__, line);
}
#define gives(it, now, bytes, ...) gives_at(it, now, bytes, (h26x_access_unit){__VA_ARGS__}, __LINE__)

/* None has ended, which leaves everything. */
static void gives_none_at(struct receiving *it, uint32_t now, int line)
{
    uint8_t to[4] = {7};
    h26x_access_unit unit, before;
    memset(&unit, 0xee, sizeof unit);
    before = unit;
    expect_at(it->tally, h26x_access_units_next(&it->u, now, to, sizeof to, &unit) == H26X_NOTHING_YET,
              "none has ended", __FILE__, line);
    expect_at(it->tally, memcmp(&unit, &before, sizeof unit) == 0 && to[0] == 7, "nothing is told",
              __FILE__, line);
}
#define gives_none(it, now) gives_none_at(it, now, __LINE__)

/* Compares what came so far of the access unit that is open, from a byte on: all of it, and what has room for two. */
static void shows_at(struct receiving *it, size_t from, const char *bytes, h26x_so_far wanted, int line)
{
    uint8_t to[ROOM] = {0}, two[3] = {7, 7, 7};
    h26x_so_far told;
    memset(&told, 0xee, sizeof told);
    expect_at(it->tally, h26x_access_units_so_far(&it->u, from, to, sizeof to, &told), bytes, __FILE__, line);
    expect_at(it->tally, is_same(to, told.len, bytes), bytes, __FILE__, line);
    expect_at(it->tally,
              told.timestamp == wanted.timestamp && told.extra == wanted.extra,
              "what is told so far", __FILE__, line);
    expect_at(it->tally, h26x_access_units_so_far(&it->u, from, two, 2, NULL), bytes, __FILE__, line);
    expect_at(it->tally, memcmp(two, told.len < 2 ? (uint8_t[]){7, 7} : to, 2) == 0 && two[2] == 7, "room for two",
              __FILE__, line);
}
#define shows(it, from, bytes, ...) shows_at(it, from, bytes, (h26x_so_far){__VA_ARGS__}, __LINE__)

/* None is open, or one that ended isn't given out, which leaves everything. */
static void shows_none_at(struct receiving *it, int line)
{
    uint8_t to[2] = {7, 7};
    h26x_so_far told, before;
    memset(&told, 0xee, sizeof told);
    before = told;
    expect_at(it->tally, !h26x_access_units_so_far(&it->u, 0, to, sizeof to, &told), "none is open", __FILE__, line);
    expect_at(it->tally, memcmp(&told, &before, sizeof told) == 0 && to[0] == 7 && to[1] == 7, "nothing is shown",
              __FILE__, line);
}
#define shows_none(it) shows_none_at(it, __LINE__)

/* Compares the numbers that are missing, so many, which are at most three. */
static void misses_at(struct receiving *it, size_t wanted, const uint16_t *numbers, int line)
{
    uint16_t told[4] = {7, 7, 7, 7};
    size_t count = 99;
    expect_at(it->tally, h26x_access_units_missing(&it->u, told, 4, &count) == H26X_OK,
              "missing numbers", __FILE__, line);
    expect_at(it->tally, count == wanted && memcmp(told, numbers, wanted * sizeof *told) == 0,
              "as many as are wanted", __FILE__, line);
    for (size_t i = wanted; i < 4; i++)
        expect_at(it->tally, told[i] == 7, "the rest of the memory", __FILE__, line);
}
#define misses(it, count, ...) misses_at(it, count, (const uint16_t[]){__VA_ARGS__}, __LINE__)

/* The tick at which to ask again, or none. */
static void asks_at_at(struct receiving *it, bool waits, uint32_t tick, int line)
{
    uint32_t at = 99;
    expect_at(it->tally, h26x_access_units_deadline(&it->u, &at) == waits && at == (waits ? tick : 99),
              "the deadline", __FILE__, line);
}
#define asks_at(it, tick) asks_at_at(it, true, tick, __LINE__)
#define asks_never(it) asks_at_at(it, false, 0, __LINE__)

static void counts_at(struct receiving *it, h26x_access_units_counts wanted, int line)
{
    h26x_access_units_counts counts;
    memset(&counts, 0xee, sizeof counts);
    expect_at(it->tally, h26x_access_units_count(&it->u, &counts) == H26X_OK, "counts", __FILE__, line);
    expect_at(it->tally, memcmp(&counts, &wanted, sizeof counts) == 0, "what is counted", __FILE__,
              line);
}
#define counts(it, ...) counts_at(it, (h26x_access_units_counts){__VA_ARGS__}, __LINE__)

/* A codec's parameter sets in their order, an access unit delimiter, the first slice of a keyframe and a later one, one
 * of another picture, one to which nothing refers where there is one temporal layer, and a keyframe in three fragments
 * (RFC 6184, 5.6 and 5.8; RFC 7798, 4.4.1 and 4.4.3; RFC 9328, 4.3.1 and 4.3.3); and some behind start codes. */
struct packets {
    uint32_t codec;
    const char *sets[3], *delimiter, *key, *later, *slice, *unreferenced, *start, *middle, *end;
    const char *keyframe_units, *key_unit, *later_unit, *slice_unit, *unit;
};

static const struct packets all_packets[] = {
    {H26X_H264, {"6742c01f", "68ce"}, "09f0", "6588", "6540", "619a", "019a", "7c858802", "7c050304", "7c450506",
     "00000001 6742c01f 00000001 68ce 00000001 6588", "00000001 6588", "00000001 6540", "00000001 619a",
     "00000001 65880203040506"},
    {H26X_H265, {"40010c", "420101", "4401c1"}, "460150", "2601ac", "26012c", "0201d0", "0001d0", "620193ac02",
     "6201130304", "6201530506", "00000001 40010c 00000001 420101 00000001 4401c1 00000001 2601ac", "00000001 2601ac",
     "00000001 26012c", "00000001 0201d0", "00000001 2601ac0203040506"},
    {H26X_H266, {"007900", "008100"}, "00a128", "0041c0", "004140", "0001c0", "0001e0", "00e988c002",
     "00e9080304", "00e9480506", "00000001 007900 00000001 008100 00000001 0041c0", "00000001 0041c0",
     "00000001 004140",
     "00000001 0001c0", "00000001 0041c00203040506"},
};

enum { KEY = 2, SLICE = 1 };

/* A stream that begins with a keyframe that bears no parameter set: it is given out at once, and since nobody knows
 * whether it is all, not told whole; its numbers go round. */
static void check_beginning(struct tally *t, const struct packets *p)
{
    struct receiving it = receiver_of(t, settings(p->codec));
    asks_never(&it);
    misses(&it, 0, 0);
    gives_none(&it, 0);
    holds(&it, 7, 65534, 0, true, p->key);
    asks_at(&it, 7);
    misses(&it, 0, 0);
    gives(&it, 7, p->key_unit, .first = 65534, .last = 65534, .extra = KEY, .is_clean = true);
    asks_never(&it);
    holds(&it, 108, 65535, 3000, true, p->key);
    gives(&it, 108, p->key_unit, .timestamp = 3000, .first = 65535, .last = 65535, .extra = KEY,
          .is_whole = true, .is_clean = true);
    holds(&it, 109, 0, 6000, true, p->slice);
    gives(&it, 109, p->slice_unit, .timestamp = 6000, .extra = SLICE, .is_whole = true,
          .is_clean = true);
    gives_none(&it, 109);
    counts(&it, .taken = 3, .units = 3, .whole = 2);
    h26x_access_units_free(it.u);
}

/* Units are shown as soon as they came whole, until their access unit has ended. */
static void check_so_far(struct tally *t, const struct packets *p)
{
    struct receiving it = receiver_of(t, settings(p->codec));
    shows_none(&it);
    holds(&it, 0, 10, 0, true, p->key);
    shows_none(&it);
    gives(&it, 0, p->key_unit, .first = 10, .last = 10, .extra = KEY, .is_clean = true);
    shows_none(&it);
    holds(&it, 0, 11, 3000, false, p->start);
    shows(&it, 0, "", .timestamp = 3000, .extra = 0);
    holds(&it, 0, 12, 3000, false, p->middle);
    shows(&it, 0, "", .timestamp = 3000, .extra = 0);
    holds(&it, 0, 13, 3000, false, p->end);
    shows(&it, 0, p->unit, .timestamp = 3000, .extra = KEY);
    shows(&it, 4, p->unit + strlen("00000001 "), .timestamp = 3000, .extra = KEY);
    shows(&it, SIZE_MAX, "", .timestamp = 3000, .extra = KEY);
    expect(t, h26x_access_units_so_far(&it.u, 0, NULL, SIZE_MAX, NULL));
    /* A packet that is missing, behind which another access unit begins: the first has ended, and is given out first. */
    holds(&it, 0, 15, 6000, false, p->slice);
    shows(&it, 0, p->unit, .timestamp = 3000, .extra = KEY);
    gives(&it, 100, p->unit, .timestamp = 3000, .first = 11, .last = 13, .extra = KEY);
    gives_none(&it, 100);
    shows(&it, 0, p->slice_unit, .timestamp = 6000, .extra = SLICE);
    /* One that has no room is given out before what is open is shown. */
    holds(&it, 100, 16, 9000, false, p->slice);
    expect(t, h26x_access_units_next(&it.u, 100, NULL, 0, NULL) == H26X_NO_ROOM);
    shows_none(&it);
    gives(&it, 100, p->slice_unit, .timestamp = 6000, .missing = 1, .first = 15, .last = 15, .extra = SLICE);
    gives_none(&it, 100);
    shows(&it, 0, p->slice_unit, .timestamp = 9000, .extra = SLICE);
    expect(t, h26x_access_units_restart(&it.u) == H26X_OK);
    shows_none(&it);
    h26x_access_units_free(it.u);
}

/* Lost, late, twice, and in another order. */
static void check_losses(struct tally *t, const struct packets *p)
{
    struct receiving it = receiver_of(t, settings(p->codec));
    holds(&it, 0, 10, 0, true, p->key);
    gives(&it, 100, p->key_unit, .first = 10, .last = 10, .extra = KEY, .is_clean = true);
    /* The middle fragment comes last, the last one twice, and the first one again once it was taken. */
    holds(&it, 100, 11, 3000, false, p->start);
    gives_none(&it, 100);
    holds(&it, 101, 13, 3000, true, p->end);
    pushes(&it, 101, 13, 3000, true, p->end, H26X_TWICE, 0);
    pushes(&it, 101, 11, 3000, false, p->start, H26X_TWICE, 0);
    gives_none(&it, 101);
    misses(&it, 1, 12);
    holds(&it, 102, 12, 3000, false, p->middle);
    misses(&it, 0, 0);
    gives(&it, 102, p->unit, .timestamp = 3000, .first = 11, .last = 13, .extra = KEY, .is_whole = true,
          .is_clean = true);
    /* 14 and 16 are missing; 18 is a window, less one, ahead of 15. */
    holds(&it, 103, 15, 6000, true, p->slice);
    holds(&it, 104, 17, 9000, true, p->slice);
    misses(&it, 2, 14, 16);
    gives_none(&it, 104);
    holds(&it, 105, 18, 12000, true, p->slice);
    gives(&it, 105, p->slice_unit, .timestamp = 6000, .missing = 1, .first = 15, .last = 15,
          .extra = SLICE);
    gives_none(&it, 105);
    misses(&it, 1, 16);
    asks_at(&it, 204);
    gives(&it, 204, p->slice_unit, .timestamp = 9000, .missing = 1, .first = 17, .last = 17,
          .extra = SLICE);
    gives(&it, 204, p->slice_unit, .timestamp = 12000, .first = 18, .last = 18, .extra = SLICE,
          .is_whole = true);
    gives_none(&it, 204);
    pushes(&it, 205, 16, 9000, true, p->slice, H26X_PUSHED_LATE, 3);
    counts(&it, .taken = 7, .lost = 2, .late = 1, .twice = 2, .units = 5, .whole = 2);
    /* A middle fragment is missing: nothing of that unit is written, so its access unit isn't given out, and what is
     * missing of it is told with the next one. */
    holds(&it, 300, 19, 15000, false, p->start);
    holds(&it, 300, 21, 15000, false, p->end);
    gives_none(&it, 399);
    gives_none(&it, 400);
    holds(&it, 400, 22, 18000, true, p->slice);
    gives(&it, 400, p->slice_unit, .timestamp = 18000, .missing = 1, .first = 22, .last = 22, .extra = SLICE,
          .is_whole = true);
    counts(&it, .taken = 10, .lost = 3, .late = 1, .twice = 2, .units = 6, .whole = 3);
    h26x_access_units_free(it.u);
}

/* Markers on each slice, none at all, and numbers that bear nothing, within a fragmented unit too. */
static void check_markers(struct tally *t, const struct packets *p)
{
    struct receiving it = receiver_of(t, settings(p->codec));
    uint32_t pushed = 99;
    holds(&it, 0, 10, 0, true, p->key);
    gives(&it, 100, p->key_unit, .first = 10, .last = 10, .extra = KEY, .is_clean = true);
    holds(&it, 100, 11, 3000, true, p->key);
    holds(&it, 100, 12, 3000, true, p->later);
    gives(&it, 100, p->key_unit, .timestamp = 3000, .first = 11, .last = 11, .extra = KEY,
          .is_whole = true, .is_clean = true);
    /* From then on another timestamp tells where an access unit ends. */
    gives_none(&it, 100);
    holds(&it, 100, 13, 6000, false, p->start);
    gives(&it, 100, p->later_unit, .timestamp = 3000, .first = 12, .last = 12, .extra = KEY,
          .is_clean = true, .continues = true);
    holds(&it, 100, 14, 6000, true, "");
    skips(&it, 100, 15, H26X_HELD, 0);
    skips(&it, 100, 15, H26X_TWICE, 0);
    skips(&it, 100, 12, H26X_TWICE, 0);
    expect(t, h26x_access_units_push(&it.u, 100, 16, 6000, true, NULL, 9, &pushed, NULL) == H26X_OK);
    expect(t, pushed == H26X_HELD);
    holds(&it, 100, 17, 6000, false, p->middle);
    holds(&it, 100, 18, 6000, false, p->end);
    holds(&it, 100, 19, 9000, true, p->slice);
    gives(&it, 100, p->unit, .timestamp = 6000, .first = 13, .last = 18, .extra = KEY, .is_whole = true,
          .is_clean = true);
    gives_none(&it, 100);
    holds(&it, 100, 20, 12000, true, p->slice);
    gives(&it, 100, p->slice_unit, .timestamp = 9000, .first = 19, .last = 19, .extra = SLICE,
          .is_whole = true, .is_clean = true);
    gives_none(&it, 100);
    counts(&it, .taken = 8, .twice = 2, .skipped = 3, .units = 5, .whole = 3, .unbelieved = 3);
    h26x_access_units_free(it.u);
}

/* Strays, and a sender that begins anew 20,000 back. */
static void check_strays(struct tally *t, const struct packets *p)
{
    h26x_access_units_config config = settings(p->codec);
    config.far_away = 100;
    struct receiving it = receiver_of(t, config);
    holds(&it, 0, 10, 0, true, p->key);
    gives(&it, 100, p->key_unit, .first = 10, .last = 10, .extra = KEY, .is_clean = true);
    /* 11 is due. 110 is 99 ahead of it, 111 a stray, and 10,111 one in its place. */
    pushes(&it, 100, 111, 3000, true, p->slice, H26X_STRAY, 0);
    pushes(&it, 100, 10111, 3000, true, p->slice, H26X_STRAY, 0);
    pushes(&it, 100, 112, 3000, true, p->slice, H26X_STRAY, 0);
    holds(&it, 100, 11, 3000, false, p->slice);
    gives_none(&it, 100);
    holds(&it, 100, 13, 3000, false, p->slice);
    pushes(&it, 100, 45547, 6000, true, p->key, H26X_STRAY, 0);
    pushes(&it, 100, 45548, 9000, true, p->slice, H26X_ANEW, 0);
    gives(&it, 100, p->slice_unit, .timestamp = 3000, .first = 11, .last = 11, .extra = SLICE);
    gives(&it, 100, p->key_unit, .timestamp = 6000, .first = 45547, .last = 45547, .extra = KEY,
          .is_clean = true);
    gives(&it, 100, p->slice_unit, .timestamp = 9000, .first = 45548, .last = 45548, .extra = SLICE,
          .is_whole = true, .is_clean = true);
    gives_none(&it, 100);
    counts(&it, .taken = 4, .lost = 1, .stray = 4, .anew = 1, .units = 4, .whole = 1);
    h26x_access_units_free(it.u);
}

/* Settings that change while it runs: with a window of 1 what waits is due. */
static void check_other_settings(struct tally *t, const struct packets *p)
{
    h26x_access_units_config config = settings(p->codec);
    struct receiving it = receiver_of(t, config);
    holds(&it, 0, 10, 0, true, p->key);
    gives(&it, 100, p->key_unit, .first = 10, .last = 10, .extra = KEY, .is_clean = true);
    holds(&it, 100, 12, 3000, true, p->slice);
    gives_none(&it, 100);
    config.window = 0;
    expect(t, h26x_access_units_set_config(&it.u, &config) == H26X_OUT_OF_RANGE);
    gives_none(&it, 100);
    config.window = 1;
    expect(t, h26x_access_units_set_config(&it.u, &config) == H26X_OK);
    gives(&it, 100, p->slice_unit, .timestamp = 3000, .missing = 1, .first = 12, .last = 12, .extra = SLICE);
    h26x_access_units_free(it.u);
}

/* Limits on what waits, on an open unit, and on an open access unit. */
static void check_limits(struct tally *t, const struct packets *p)
{
    h26x_access_units_config config = settings(p->codec);
    config.held_limit = 3;
    config.run_limit = 2;
    struct receiving it = receiver_of(t, config);
    holds(&it, 0, 10, 0, false, p->start);
    pushes(&it, 0, 11, 0, true, p->slice, H26X_FULL, 0);
    gives_none(&it, 0);
    holds(&it, 0, 11, 0, false, p->middle);
    holds(&it, 0, 12, 0, true, p->end);
    gives_none(&it, 0);
    counts(&it, .taken = 3, .units_given_up = 1);
    h26x_access_units_free(it.u);

    /* A packet that is refused for what it is. */
    it = receiver_of(t, settings(p->codec));
    pushes_at(&it, 0, 10, 0, true, p->codec == H26X_H264 ? "7c" : "ff", H26X_HELD, 0, __LINE__);
    holds(&it, 0, 11, 0, true, p->key);
    gives(&it, 100, p->key_unit, .missing = 1, .first = 11, .last = 11, .extra = KEY, .is_clean = true);
    counts(&it, .taken = 1, .lost = 1, .refused = 1, .units = 1);
    h26x_access_units_free(it.u);

    /* An open access unit that is longer than its limit is given up; what comes then isn't whole. */
    config = settings(p->codec);
    config.unit_limit = 4;
    it = receiver_of(t, config);
    holds(&it, 0, 10, 0, false, p->slice);
    holds(&it, 0, 11, 0, true, p->later);
    holds(&it, 0, 12, 3000, false, p->slice);
    holds(&it, 0, 13, 3000, true, p->later);
    gives(&it, 100, p->later_unit, .first = 10, .last = 11, .extra = KEY);
    gives(&it, 100, p->later_unit, .timestamp = 3000, .first = 12, .last = 13, .extra = KEY);
    counts(&it, .taken = 4, .units = 2, .texts_given_up = 2);
    h26x_access_units_free(it.u);

    /* One that is as long as its limit stays. */
    char both[64];
    snprintf(both, sizeof both, "%s%s", p->slice_unit, p->later_unit);
    config.unit_limit = bytes_of(p->slice_unit).len;
    it = receiver_of(t, config);
    holds(&it, 0, 10, 0, false, p->slice);
    holds(&it, 0, 11, 0, true, p->later);
    gives(&it, 100, both, .first = 10, .last = 11, .extra = KEY);
    counts(&it, .taken = 2, .units = 1);
    h26x_access_units_free(it.u);
}

/* The end of a stream, ticks that go round, and another sender. */
static void check_ends_of_streams(struct tally *t, const struct packets *p)
{
    h26x_access_units_config config = settings(p->codec);
    config.begin_wait = UINT32_MAX;
    struct receiving it = receiver_of(t, config);
    holds(&it, 0, 10, 0, true, p->key);
    gives(&it, 100, p->key_unit, .first = 10, .last = 10, .extra = KEY, .is_clean = true);
    holds(&it, 100, 12, 3000, false, p->key);
    gives_none(&it, 100);
    expect(t, h26x_access_units_finish(&it.u) == H26X_OK);
    gives(&it, 100, p->key_unit, .timestamp = 3000, .missing = 1, .first = 12, .last = 12, .extra = KEY);
    gives_none(&it, 100);
    /* Then any number is the next. */
    holds(&it, UINT32_MAX - 15, 5, 0, true, p->key);
    asks_at(&it, 84);
    gives_none(&it, 83);
    gives(&it, 84, p->key_unit, .first = 5, .last = 5, .extra = KEY, .is_clean = true);
    pushes(&it, 85, 45541, 3000, true, p->key, H26X_PUSHED_LATE, 20001);
    holds(&it, 85, 6, 3000, false, p->start);
    expect(t, h26x_access_units_restart(&it.u) == H26X_OK);
    gives_none(&it, 85);
    holds(&it, 85, 45541, 3000, true, p->key);
    gives_none(&it, 85);
    expect(t, h26x_access_units_finish(&it.u) == H26X_OK);
    gives(&it, 85, p->key_unit, .timestamp = 3000, .first = 45541, .last = 45541, .extra = KEY,
          .is_clean = true);
    counts(&it, .taken = 5, .lost = 1, .late = 1, .units = 4);
    h26x_access_units_free(it.u);
}

/* Refused packets over more than half of the numbers' circle: none that comes behind them is late. Each of them is
 * missing, so the next one waits to be taken. */
static void check_long_refusals(struct tally *t, const struct packets *p)
{
    const uint8_t refused[] = {p->codec == H26X_H264 ? 0x7c : 0xff};
    uint32_t held = 0;
    struct receiving it = receiver_of(t, settings(p->codec));
    holds(&it, 0, 65000, 0, true, p->key);
    gives(&it, 100, p->key_unit, .first = 65000, .last = 65000, .extra = KEY, .is_clean = true);
    for (uint32_t i = 1; i <= 40000; i++) {
        uint32_t pushed = 99;
        const uint16_t number = (uint16_t)(65000 + i);
        const uint32_t code = h26x_access_units_push(&it.u, 100, number, 0, true, refused, 1, &pushed, NULL);
        held += code == H26X_OK && pushed == H26X_HELD;
        gives_none(&it, 100);
    }
    expect(t, held == 40000);
    misses(&it, 0, 0);
    holds(&it, 100, (uint16_t)(65000 + 40001), 3000, true, p->slice);
    gives(&it, 100, p->slice_unit, .timestamp = 3000, .missing = 40000, .first = 39465, .last = 39465,
          .extra = SLICE);
    counts(&it, .taken = 2, .lost = 40000, .refused = 40000, .units = 2);
    h26x_access_units_free(it.u);
}

/* An access unit that has no room is kept, told, and given out by a later call; a restart leaves it. */
static void check_room(struct tally *t, const struct packets *p)
{
    struct receiving it = receiver_of(t, settings(p->codec));
    struct bytes wanted = bytes_of(p->unit);
    uint8_t to[64] = {7};
    h26x_access_unit unit, told = {.len = wanted.len, .first = 10, .last = 12, .extra = KEY, .is_clean = true};
    holds(&it, 0, 10, 0, false, p->start);
    holds(&it, 0, 11, 0, false, p->middle);
    holds(&it, 0, 12, 0, true, p->end);
    holds(&it, 0, 13, 3000, true, p->slice);
    for (size_t room = 0; room < wanted.len; room++) {
        memset(&unit, 0xee, sizeof unit);
        expect(t, h26x_access_units_next(&it.u, 100, to, room, &unit) == H26X_NO_ROOM);
        expect(t, is_told(unit, told) && to[0] == 7);
    }
    expect(t, h26x_access_units_next(&it.u, 100, NULL, 64, &unit) == H26X_NO_ROOM);
    expect(t, h26x_access_units_next(&it.u, 100, NULL, 64, NULL) == H26X_NO_ROOM);
    expect(t, is_told(unit, told) && to[0] == 7);
    expect(t, h26x_access_units_restart(&it.u) == H26X_OK);
    memset(&unit, 0xee, sizeof unit);
    to[wanted.len] = 7;
    expect(t, h26x_access_units_next(&it.u, 0, to, wanted.len, &unit) == H26X_OK);
    expect(t, is_told(unit, told) && is_same(to, wanted.len, p->unit) && to[wanted.len] == 7);
    gives_none(&it, 1000);
    /* The one behind it waits for it. */
    holds(&it, 0, 20, 0, true, p->key);
    holds(&it, 0, 21, 3000, true, p->slice);
    expect(t, h26x_access_units_next(&it.u, 100, to, 1, NULL) == H26X_NO_ROOM);
    gives(&it, 100, p->key_unit, .first = 20, .last = 20, .extra = KEY, .is_clean = true);
    gives(&it, 100, p->slice_unit, .timestamp = 3000, .first = 21, .last = 21, .extra = SLICE,
          .is_whole = true, .is_clean = true);
    counts(&it, .taken = 5, .units = 3, .whole = 1);
    h26x_access_units_free(it.u);
}

/* What may be left out, and less room for numbers than there are. */
static void check_left_out(struct tally *t, const struct packets *p)
{
    struct receiving it = receiver_of(t, settings(p->codec));
    struct bytes slice = bytes_of(p->slice);
    uint16_t numbers[2] = {7, 7};
    size_t count = 99;
    uint8_t to[64];
    expect(t, h26x_access_units_push(&it.u, 0, 65534, 0, true, slice.at, slice.len, NULL, NULL)
                  == H26X_OK);
    expect(t, h26x_access_units_next(&it.u, 100, to, sizeof to, NULL) == H26X_OK);
    expect(t, h26x_access_units_skip(&it.u, 100, 2, NULL, NULL) == H26X_OK);
    expect(t, h26x_access_units_deadline(&it.u, NULL));
    expect(t, h26x_access_units_missing(&it.u, NULL, 2, &count) == H26X_OK && count == 3);
    expect(t, h26x_access_units_missing(&it.u, NULL, SIZE_MAX, NULL) == H26X_OK);
    count = 99;
    expect(t, h26x_access_units_missing(&it.u, numbers, 0, &count) == H26X_OK && count == 3);
    expect(t, numbers[0] == 7 && numbers[1] == 7);
    expect(t, h26x_access_units_missing(&it.u, numbers, 1, NULL) == H26X_OK);
    expect(t, numbers[0] == 65535 && numbers[1] == 7);
    expect(t, h26x_access_units_missing(&it.u, numbers, 2, NULL) == H26X_OK);
    expect(t, numbers[0] == 65535 && numbers[1] == 0);
    misses(&it, 3, 65535, 0, 1);
    expect(t, h26x_access_units_next(&it.u, 100, NULL, 0, NULL) == H26X_NOTHING_YET);
    expect(t, h26x_access_units_count(&it.u, NULL) == H26X_OK);
    expect(t, h26x_access_units_begin_at(&it.u, 9, NULL) == H26X_OK);
    h26x_access_units_close(&it.u);
    h26x_access_units_close(&it.u);
    expect(t, it.u.at == NULL);
}

/* Lengths in the place of start codes, and decoding order numbers. */
static void check_settings(struct tally *t, const struct packets *p)
{
    h26x_access_units_config config = settings(p->codec);
    config.avc = true;
    config.window = 1;
    struct receiving it = receiver_of(t, config);
    holds(&it, 0, 10, 0, false, p->slice);
    holds(&it, 0, 12, 0, true, p->later);
    gives(&it, 0, p->codec == H26X_H264 ? "00000002 619a 00000002 6540"
                  : p->codec == H26X_H265 ? "00000003 0201d0 00000003 26012c"
                                          : "00000003 0001c0 00000003 004140",
          .missing = 1, .first = 10, .last = 12, .extra = KEY);
    h26x_access_units_free(it.u);

    config = settings(p->codec);
    config.numbers = true;
    config.max_wait = config.begin_wait = UINT32_MAX;
    if (p->codec == H26X_H264)
        return;
    it = receiver_of(t, config);
    holds(&it, 0, 10, 0, true, p->codec == H26X_H265 ? "02010005d0" : "00010005c0");
    asks_never(&it);
    gives_none(&it, UINT32_MAX);
    expect(t, h26x_access_units_finish(&it.u) == H26X_OK);
    gives(&it, 0, p->slice_unit, .first = 10, .last = 10,
          .extra = SLICE);
    h26x_access_units_free(it.u);
}

/* ---- How a stream begins ---- */

static size_t sets_of(const struct packets *p)
{
    return p->codec == H26X_H265 ? 3 : 2;
}

/* Packets of one access unit: the parameter sets, and a keyframe with the marker. How many they are. */
static uint16_t holds_keyframe(struct receiving *it, uint32_t now, uint16_t sequence, uint32_t timestamp,
                               const struct packets *p)
{
    const size_t sets = sets_of(p);
    for (size_t i = 0; i < sets; i++)
        holds(it, now, (uint16_t)(sequence + i), timestamp, false, p->sets[i]);
    holds(it, now, (uint16_t)(sequence + sets), timestamp, true, p->key);
    return (uint16_t)(sets + 1);
}

static struct receiving receiver_without_sets(struct tally *t, const struct packets *p)
{
    h26x_access_units_config config = settings(p->codec);
    config.has_sets = false;
    return receiver_of(t, config);
}

/* A lossless stream: its first access unit is given out as soon as it has ended, whole and clean. */
static void check_first_keyframe(struct tally *t, const struct packets *p)
{
    struct receiving it = receiver_without_sets(t, p);
    const uint16_t count = holds_keyframe(&it, 7, 65534, 0, p), next = (uint16_t)(65534 + count);
    asks_at(&it, 7);
    misses(&it, 0, 0);
    gives(&it, 7, p->keyframe_units, .first = 65534, .last = (uint16_t)(next - 1), .extra = KEY, .is_whole = true,
          .is_clean = true);
    asks_never(&it);
    holds(&it, 7, next, 3000, true, p->slice);
    gives(&it, 7, p->slice_unit, .timestamp = 3000, .first = next, .last = next, .extra = SLICE, .is_whole = true,
          .is_clean = true);
    counts(&it, .taken = count + 1u, .units = 2, .whole = 2);
    h26x_access_units_free(it.u);
}

/* Packets before the first that comes are taken within begin_wait, and max_wait at most; never asked for. */
static void check_reordered_start(struct tally *t, const struct packets *p)
{
    h26x_access_units_config config = settings(p->codec);
    config.begin_wait = 20;
    config.far_away = 100;
    struct receiving it = receiver_of(t, config);
    holds(&it, 0, 12, 0, true, p->later);
    misses(&it, 0, 0);
    asks_at(&it, 20);
    gives_none(&it, 19);
    holds(&it, 19, 10, 0, false, p->key);
    misses(&it, 1, 11);
    gives_none(&it, 19);
    holds(&it, 19, 11, 0, false, p->later);
    gives_none(&it, 19);
    asks_at(&it, 20);
    char all[128];
    snprintf(all, sizeof all, "%s%s%s", p->key_unit, p->later_unit, p->later_unit);
    gives(&it, 20, all, .first = 10, .last = 12, .extra = KEY, .is_clean = true);
    /* Once it has begun, max_wait holds. */
    holds(&it, 30, 14, 3000, true, p->slice);
    misses(&it, 1, 13);
    asks_at(&it, 130);
    gives_none(&it, 129);
    gives(&it, 130, p->slice_unit, .timestamp = 3000, .missing = 1, .first = 14, .last = 14, .extra = SLICE);
    /* A stream that begins anew, another sender, and the end of a stream have a beginning. */
    pushes(&it, 140, 5000, 6000, true, p->slice, H26X_STRAY, 0);
    pushes(&it, 141, 5001, 9000, true, p->slice, H26X_ANEW, 0);
    misses(&it, 0, 0);
    asks_at(&it, 161);
    gives_none(&it, 160);
    holds(&it, 160, 4999, 3000, true, p->key);
    gives(&it, 161, p->key_unit, .timestamp = 3000, .first = 4999, .last = 4999, .extra = KEY, .is_clean = true);
    expect(t, h26x_access_units_restart(&it.u) == H26X_OK);
    holds(&it, 200, 500, 0, true, p->key);
    asks_at(&it, 220);
    gives_none(&it, 219);
    gives(&it, 220, p->key_unit, .first = 500, .last = 500, .extra = KEY, .is_clean = true);
    expect(t, h26x_access_units_finish(&it.u) == H26X_OK);
    gives_none(&it, 220);
    holds(&it, 300, 40000, 0, true, p->slice);
    asks_at(&it, 320);
    gives_none(&it, 319);
    gives(&it, 320, p->slice_unit, .first = 40000, .last = 40000, .extra = SLICE);
    h26x_access_units_free(it.u);
}

/* Without a wait those before the first packet come late, and of both waits the shorter holds. */
static void check_waits_at_start(struct tally *t, const struct packets *p)
{
    h26x_access_units_config config = settings(p->codec);
    config.begin_wait = 0;
    struct receiving it = receiver_of(t, config);
    holds(&it, 0, 11, 0, true, p->later);
    gives(&it, 0, p->later_unit,
          .first = 11, .last = 11, .extra = KEY);
    pushes(&it, 0, 10, 0, false, p->key, H26X_PUSHED_LATE, 2);
    h26x_access_units_free(it.u);

    config.begin_wait = 500;
    it = receiver_of(t, config);
    holds(&it, 0, 10, 0, true, p->slice);
    asks_at(&it, 100);
    gives_none(&it, 99);
    gives(&it, 100, p->slice_unit, .first = 10, .last = 10, .extra = SLICE);
    h26x_access_units_free(it.u);
}

static void begins_at(struct receiving *it, uint16_t sequence, uint32_t wanted, int line)
{
    uint32_t in_time = 99;
    expect_at(it->tally, h26x_access_units_begin_at(&it->u, sequence, &in_time) == H26X_OK, "a first number",
              __FILE__, line);
    expect_at(it->tally, in_time == wanted, "whether it is said in time", __FILE__, line);
}

/* The number of the first packet is said: packets from it on are waited for, and the first access unit is whole
 * where all of it came. */
static void check_told_number(struct tally *t, const struct packets *p)
{
    struct receiving it = receiver_of(t, settings(p->codec));
    char both[64];
    snprintf(both, sizeof both, "%s%s", p->slice_unit, p->later_unit);
    begins_at(&it, 65535, 1, __LINE__);
    begins_at(&it, 9, 0, __LINE__);
    asks_never(&it);
    misses(&it, 0, 0);
    holds(&it, 5, 0, 0, true, p->later);
    misses(&it, 1, 65535);
    asks_at(&it, 105);
    gives_none(&it, 104);
    holds(&it, 104, 65535, 0, false, p->slice);
    gives(&it, 104, both, .first = 65535, .last = 0, .extra = KEY, .is_whole = true);
    begins_at(&it, 1, 0, __LINE__);
    counts(&it, .taken = 2, .units = 1, .whole = 1);

    /* It didn't come. One more behind it is late. */
    expect(t, h26x_access_units_restart(&it.u) == H26X_OK);
    begins_at(&it, 9, 1, __LINE__);
    holds(&it, 0, 10, 0, true, p->slice);
    gives_none(&it, 99);
    gives(&it, 100, p->slice_unit, .missing = 1, .first = 10, .last = 10, .extra = SLICE);
    pushes(&it, 100, 9, 0, false, p->slice, H26X_PUSHED_LATE, 2);

    /* Once a packet waits it is too late, and nothing changes. */
    expect(t, h26x_access_units_restart(&it.u) == H26X_OK);
    holds(&it, 0, 10, 0, true, p->slice);
    begins_at(&it, 8, 0, __LINE__);
    misses(&it, 0, 0);
    gives(&it, 0, p->slice_unit, .first = 10, .last = 10, .extra = SLICE);
    counts(&it, .taken = 4, .lost = 1, .late = 1, .units = 3, .whole = 1);
    h26x_access_units_free(it.u);
}

/* ---- With what a decoder can begin ---- */

/* An IDR that bears no parameter set, for a decoder that may have none. */
static void check_keyframe_without_sets(struct tally *t, const struct packets *p)
{
    const size_t sets = sets_of(p);
    struct receiving it = receiver_without_sets(t, p);
    holds(&it, 0, 10, 0, true, p->key);
    gives(&it, 0, p->key_unit, .first = 10, .last = 10, .extra = KEY);
    holds(&it, 0, 11, 3000, true, p->key);
    gives(&it, 0, p->key_unit, .timestamp = 3000, .first = 11, .last = 11, .extra = KEY, .is_whole = true);
    h26x_access_units_free(it.u);

    /* One set is left out. */
    for (size_t left_out = 0; left_out <= sets; left_out++) {
        uint16_t number = 20;
        uint8_t to[200];
        h26x_access_unit unit;
        it = receiver_without_sets(t, p);
        for (size_t i = 0; i < sets; i++)
            if (i != left_out)
                holds(&it, 0, number++, 0, false, p->sets[i]);
        holds(&it, 0, number, 0, true, p->key);
        expect(t, h26x_access_units_next(&it.u, 0, to, sizeof to, &unit) == H26X_OK);
        expect(t, unit.extra == KEY && unit.is_clean == (left_out == sets));
        h26x_access_units_free(it.u);
    }
}

/* A first slice is looked for among 64 units. */
static void check_many_units(struct tally *t)
{
    for (uint16_t others = 63; others <= 64; others++) {
        struct receiving it = receiver_of(t, settings(H26X_H264));
        uint8_t to[1000];
        h26x_access_unit unit;
        for (uint16_t i = 0; i < others; i++) {
            holds(&it, 0, i, 0, false, "0605");
            gives_none(&it, 0);
        }
        holds(&it, 0, others, 0, true, "6588");
        expect(t, h26x_access_units_next(&it.u, 0, to, sizeof to, &unit) == H26X_OK);
        expect(t, unit.extra == KEY && unit.is_clean == (others == 63));
        h26x_access_units_free(it.u);
    }
}

/* Sets that came in access units before, in order; and where a number is missing since. */
static void check_sets_before(struct tally *t, const struct packets *p)
{
    const uint16_t sets = (uint16_t)sets_of(p);
    for (uint16_t gap = 0; gap < 2; gap++) {
        struct receiving it = receiver_without_sets(t, p);
        const uint16_t slice = 20 + sets, key = slice + 1 + gap;
        /* (a marker without a slice ends none, so the next timestamp does) */
        for (uint16_t i = 0; i <= sets; i++) {
            uint8_t to[64];
            h26x_access_unit unit;
            holds(&it, 0, (uint16_t)(20 + i), i < sets ? i : 3000, true, i < sets ? p->sets[i] : p->slice);
            if (i == 0)
                gives_none(&it, 0);
            else
                expect(t, h26x_access_units_next(&it.u, 0, to, sizeof to, &unit) == H26X_OK && !unit.is_clean);
        }
        gives(&it, 0, p->slice_unit, .timestamp = 3000, .first = slice, .last = slice, .extra = SLICE,
              .is_whole = true);
        holds(&it, 0, key, 6000, true, p->key);
        gives(&it, 100, p->key_unit, .timestamp = 6000, .missing = gap, .first = key, .last = key, .extra = KEY,
              .is_whole = gap == 0, .is_clean = gap == 0);
        holds(&it, 100, key + 1, 9000, true, p->slice);
        gives(&it, 100, p->slice_unit, .timestamp = 9000, .first = key + 1, .last = key + 1, .extra = SLICE,
              .is_whole = true, .is_clean = gap == 0);
        h26x_access_units_free(it.u);
    }
}

/* A keyframe behind a gap, with its sets; one whose marker is lost before it; and one whose first slice is. */
static void check_keyframe_behind_gap(struct tally *t, const struct packets *p)
{
    struct receiving it = receiver_without_sets(t, p);
    holds(&it, 0, 10, 0, false, p->slice);
    gives_none(&it, 0);
    const uint16_t count = holds_keyframe(&it, 0, 12, 3000, p), next = (uint16_t)(12 + count);
    gives(&it, 100, p->slice_unit, .first = 10, .last = 10, .extra = SLICE);
    gives(&it, 100, p->keyframe_units, .timestamp = 3000, .missing = 1, .first = 12, .last = (uint16_t)(next - 1),
          .extra = KEY, .is_clean = true);
    gives_none(&it, 100);
    counts(&it, .taken = 1u + count, .lost = 1, .units = 2);
    h26x_access_units_free(it.u);

    it = receiver_of(t, settings(p->codec));
    holds(&it, 0, 10, 0, true, p->key);
    gives(&it, 0, p->key_unit, .first = 10, .last = 10, .extra = KEY, .is_clean = true);
    holds(&it, 0, 12, 3000, true, p->later);
    gives(&it, 100, p->later_unit,
          .timestamp = 3000, .missing = 1, .first = 12, .last = 12, .extra = KEY);
    /* One of the same timestamp behind missing numbers doesn't go on with what the marker ended. */
    holds(&it, 100, 13, 6000, true, p->slice);
    holds(&it, 100, 15, 6000, true, p->key);
    gives(&it, 100, p->slice_unit, .timestamp = 6000, .first = 13, .last = 13, .extra = SLICE, .is_whole = true);
    gives(&it, 200, p->key_unit, .timestamp = 6000, .missing = 1, .first = 15, .last = 15, .extra = KEY,
          .is_clean = true);
    h26x_access_units_free(it.u);

    /* Nor does a first slice that follows at once. */
    it = receiver_of(t, settings(p->codec));
    holds(&it, 0, 10, 0, true, p->later);
    holds(&it, 0, 11, 0, true, p->key);
    gives(&it, 0, p->later_unit,
          .first = 10, .last = 10, .extra = KEY);
    gives(&it, 0, p->key_unit, .first = 11, .last = 11, .extra = KEY, .is_whole = true, .is_clean = true);
    counts(&it, .taken = 2, .units = 2, .whole = 1, .still = 1);
    h26x_access_units_free(it.u);
}

/* ---- Pictures to which no other refers ---- */

/* A keyframe with a sequence parameter set, a picture in two packets between which one is missing, and the next one, of
 * which it is told whether it is clean. */
static void check_damaged_picture(struct tally *t, uint32_t codec, const char *sps, const char *key,
                                  const char *picture, const char *slice, bool is_disposable)
{
    struct receiving it = receiver_of(t, settings(codec));
    uint8_t to[64];
    h26x_access_unit unit;
    if (sps != NULL)
        holds(&it, 0, 9, 0, false, sps);
    holds(&it, 0, 10, 0, true, key);
    expect(t, h26x_access_units_next(&it.u, 0, to, sizeof to, &unit) == H26X_OK);
    expect(t, unit.is_clean && !unit.is_disposable);
    holds(&it, 0, 11, 3000, true, picture);
    expect(t, h26x_access_units_next(&it.u, 0, to, sizeof to, &unit) == H26X_OK);
    expect(t, unit.is_whole && unit.is_clean && unit.is_disposable == is_disposable);
    holds(&it, 0, 12, 6000, false, picture);
    holds(&it, 0, 14, 6000, true, slice);
    expect(t, h26x_access_units_next(&it.u, 100, to, sizeof to, &unit) == H26X_OK);
    expect(t, unit.missing == 1 && !unit.is_whole && !unit.is_clean && unit.is_disposable == is_disposable);
    holds(&it, 100, 15, 9000, true, slice);
    expect(t, h26x_access_units_next(&it.u, 100, to, sizeof to, &unit) == H26X_OK);
    expect(t, unit.is_whole && !unit.is_disposable && unit.is_clean == is_disposable);
    /* Where all of one is missing nobody knows what it was. */
    holds(&it, 100, 17, 12000, true, slice);
    expect(t, h26x_access_units_next(&it.u, 200, to, sizeof to, &unit) == H26X_OK);
    expect(t, !unit.is_whole && !unit.is_clean);
    /* Nor in H.265 how many temporal layers there are since. */
    holds(&it, 200, 18, 15000, true, picture);
    expect(t, h26x_access_units_next(&it.u, 200, to, sizeof to, &unit) == H26X_OK);
    expect(t, unit.is_whole && unit.is_disposable == (is_disposable && codec != H26X_H265));
    h26x_access_units_free(it.u);
}

static void check_disposable(struct tally *t, const struct packets *p)
{
    const char *sps = p->sets[p->codec == H26X_H265 ? 1 : 0];
    check_damaged_picture(t, p->codec, sps, p->key, p->unreferenced, p->slice, true);
    check_damaged_picture(t, p->codec, sps, p->key, p->slice, p->slice, false);
}

/* By the highest temporal layer of H.265, and by a picture header of H.266. */
static void check_disposable_of_codecs(struct tally *t)
{
    const uint32_t h265 = H26X_H265, h266 = H26X_H266;
    /* Two temporal layers: TRAIL_N of the lower one may be referred to by the upper one. */
    check_damaged_picture(t, h265, "420103", "2601ac", "0001d0", "0201d0", false);
    check_damaged_picture(t, h265, "420103", "2601ac", "0002d0", "0201d0", true);
    check_damaged_picture(t, h265, "420103", "2601ac", "0202d0", "0201d0", false);
    check_damaged_picture(t, h265, "42010d", "2601ac", "0006d0", "0201d0", false);
    check_damaged_picture(t, h265, "42010d", "2601ac", "0007d0", "0201d0", true);
    /* TSA_N, STSA_N, RADL_N, RASL_N; no sequence parameter set. */
    check_damaged_picture(t, h265, "420101", "2601ac", "0401d0", "0201d0", true);
    check_damaged_picture(t, h265, "420101", "2601ac", "0801d0", "0201d0", true);
    check_damaged_picture(t, h265, "420101", "2601ac", "0c01d0", "0201d0", true);
    check_damaged_picture(t, h265, "420101", "2601ac", "1001d0", "0201d0", true);
    check_damaged_picture(t, h265, NULL, "2601ac", "0001d0", "0201d0", false);
    /* In an aggregate: a picture header, and a slice without one; ph_non_ref_pic_flag is its second bit. */
    const char *key = "00e10003 009980 0003 004140";
    check_damaged_picture(t, h266, "007900", key, "00e10003 009940 0003 000140", "0001c0", true);
    check_damaged_picture(t, h266, "007900", key, "00e10003 009900 0003 000140", "0001c0", false);
    check_damaged_picture(t, h266, "007900", "0041c0", "000160", "0001c0", false);
    /* A keyframe isn't disposable, whatever it says. */
    check_damaged_picture(t, H26X_H264, "6742c01f", "0588", "019a", "619a", true);
    check_damaged_picture(t, h266, "007900", "0041e0", "0001e0", "0001c0", true);
}

/* ---- What stands first in an access unit ---- */

/* Whether an access unit of two packets from a number on is whole, which begins with a unit. */
static bool is_whole_from(struct receiving *it, const struct packets *p, uint16_t number, const char *first)
{
    const uint32_t now = number * 100u;
    uint8_t to[64];
    h26x_access_unit unit;
    holds(it, now, number, number, false, first);
    holds(it, now, number + 1, number, true, p->later);
    expect(it->tally, h26x_access_units_next(&it->u, now + 100, to, sizeof to, &unit) == H26X_OK);
    expect(it->tally, unit.first == number && unit.last == number + 1 && unit.is_clean == (first == p->key));
    return unit.is_whole;
}

/* A unit begins the first access unit, one behind a missing number, the first of a stream that goes on behind an end or
 * begins anew, and the first of another sender: whether each is whole. */
static void check_front(struct tally *t, const struct packets *p, const char *first, bool of_first, bool of_later)
{
    h26x_access_units_config config = settings(p->codec);
    config.far_away = 1000;
    struct receiving it = receiver_of(t, config);
    expect(t, is_whole_from(&it, p, 10, first) == of_first);
    expect(t, is_whole_from(&it, p, 13, first) == of_later);
    expect(t, h26x_access_units_finish(&it.u) == H26X_OK);
    gives_none(&it, 1400);
    expect(t, is_whole_from(&it, p, 20, first) == of_later);
    pushes(&it, 2200, 20000, 6000, false, first, H26X_STRAY, 0);
    pushes(&it, 2200, 20001, 6000, true, p->later, H26X_ANEW, 0);
    uint8_t to[64];
    h26x_access_unit unit;
    expect(t, h26x_access_units_next(&it.u, 2200, to, sizeof to, &unit) == H26X_OK);
    expect(t, unit.first == 20000 && unit.is_whole == of_later);
    expect(t, h26x_access_units_restart(&it.u) == H26X_OK);
    expect(t, is_whole_from(&it, p, 30, first) == of_first);
    h26x_access_units_free(it.u);
}

static void check_fronts(struct tally *t, const struct packets *p)
{
    const char *sps = p->sets[p->codec == H26X_H265 ? 1 : 0], *pps = p->sets[sets_of(p) - 1];
    check_front(t, p, p->delimiter, true, true);
    check_front(t, p, sps, p->codec != H26X_H265, false);
    check_front(t, p, pps, false, false);
    check_front(t, p, p->slice, false, false);
    check_front(t, p, p->key, false, false);
    if (p->codec == H26X_H264)
        return;
    const bool is_h265 = p->codec == H26X_H265;
    check_front(t, p, is_h265 ? "40010c" : "007100", true, false);
    /* No header has a temporal layer of 0: these are neither delimiters nor parameter sets. */
    check_front(t, p, is_h265 ? "460050" : "00a028", false, false);
    check_front(t, p, is_h265 ? "40000c" : "007000", false, false);
}

/* ---- What is refused ---- */

/* Settings for which there is no receiver. */
static void check_refused_settings(struct tally *t)
{
    static const uint32_t codecs[] = {H26X_H264, H26X_H265, H26X_H266};
    h26x_access_units u = {NULL};
    h26x_access_units_config config = settings(263);
    config.window = 0;
    expect(t, h26x_access_units_new(&config, &u) == H26X_UNKNOWN_CODEC && u.at == NULL);
    config.codec = H26X_H264;
    config.numbers = true;
    expect(t, h26x_access_units_new(&config, &u) == H26X_NOT_OF_THIS_CODEC && u.at == NULL);
    for (size_t i = 0; i < 3; i++) {
        config = settings(codecs[i]);
        config.window = 0;
        expect(t, h26x_access_units_new(&config, &u) == H26X_OUT_OF_RANGE && u.at == NULL);
        config.window = 16385;
        expect(t, h26x_access_units_new(&config, &u) == H26X_OUT_OF_RANGE && u.at == NULL);
        config.window = UINT16_MAX;
        expect(t, h26x_access_units_new(&config, &u) == H26X_OUT_OF_RANGE && u.at == NULL);
        config.window = 16384;
        expect(t, h26x_access_units_new(&config, &u) == H26X_OK);
        h26x_access_units_close(&u);
        config.window = 1;
        expect(t, h26x_access_units_new(&config, &u) == H26X_OK);
        h26x_access_units_close(&u);
    }
}

/* A handle of another end is given to each call of access units. */
static void check_other_ends(struct tally *t, void *at)
{
    h26x_access_units u = {at};
    h26x_access_unit unit = {.len = 9};
    h26x_access_units_counts told = {.taken = 9};
    uint8_t packet[] = {0x65, 1}, to[8] = {7};
    uint16_t numbers[2] = {7, 7}, behind = 99;
    uint32_t pushed = 99, tick = 99;
    size_t count = 99;
    const h26x_nack_times times = {0, 60, 2};
    const h26x_access_units_config config = settings(H26X_H264);
    expect(t, h26x_access_units_push(&u, 0, 1, 2, true, packet, 2, &pushed, &behind) == H26X_WRONG_END);
    expect(t, h26x_access_units_skip(&u, 0, 1, &pushed, &behind) == H26X_WRONG_END);
    expect(t, pushed == 99 && behind == 99);
    expect(t, h26x_access_units_next(&u, 0, to, 8, &unit) == H26X_WRONG_END);
    expect(t, unit.len == 9 && to[0] == 7);
    expect(t, !h26x_access_units_so_far(&u, 0, to, 8, NULL) && to[0] == 7);
    expect(t, !h26x_access_units_deadline(&u, &tick) && tick == 99);
    expect(t, h26x_access_units_missing(&u, numbers, 2, &count) == H26X_WRONG_END);
    expect(t, count == 0 && numbers[0] == 7);
    count = 99;
    expect(t, h26x_access_units_nacks(&u, 0, &times, numbers, 2, &count) == H26X_WRONG_END);
    expect(t, count == 0 && numbers[0] == 7);
    expect(t, h26x_access_units_set_config(&u, &config) == H26X_WRONG_END);
    expect(t, h26x_access_units_begin_at(&u, 1, &pushed) == H26X_WRONG_END && pushed == 99);
    expect(t, h26x_access_units_finish(&u) == H26X_WRONG_END);
    expect(t, h26x_access_units_restart(&u) == H26X_WRONG_END);
    expect(t, h26x_access_units_count(&u, &told) == H26X_WRONG_END && told.taken == 9);
}

/* One of access units is given to each call of another end. */
static void check_as_other_ends(struct tally *t, void *at)
{
    h26x_packetizer p = {at}, made_p = {NULL};
    h26x_depacketizer d = {at}, made_d = {NULL};
    h26x_receiver r = {{at}}, made_r = {{NULL}};
    h26x_h265_packet shown;
    h26x_refusal why;
    uint8_t packet[] = {0x65, 1}, to[8] = {7}, extra = 1;
    size_t count = 9, size = 9, ends[1];
    uint32_t received = 9, number = 9;
    uint16_t missing = 9;
    expect(t, h26x_packetize(&p, 9, packet, 2, &count) == H26X_WRONG_END && count == 0);
    expect(t, h26x_packetize_unit(&p, 9, packet, 2, &count) == H26X_WRONG_END);
    expect(t, h26x_packetize_into(&p, 9, packet, 2, 0, to, 8, ends, 1, &count, &size)
                  == H26X_WRONG_END);
    expect(t, h26x_packetize_unit_into(&p, 9, packet, 2, 0, to, 8, ends, 1, &count, &size)
                  == H26X_WRONG_END);
    expect(t, h26x_packets_size(&p, 9, packet, 2, 0, &count, &size) == H26X_WRONG_END && size == 0);
    expect(t, h26x_packetizer_clone(&p, &made_p) == H26X_WRONG_END && made_p.at == NULL);
    expect(t, h26x_packetizer_set_numbers(&p, true) == H26X_WRONG_END);
    expect(t, h26x_packetizer_set_max_size(&p, 9) == H26X_WRONG_END);
    expect(t, h26x_packetizer_set_lowest_header(&p, true) == H26X_WRONG_END);
    expect(t, h26x_packet_count(&p) == 0 && h26x_packet_len(&p, 0) == 0 && h26x_packets_len(&p) == 0);
    expect(t, h26x_packet_copy(&p, 0, to, 8) == 0 && h26x_packets_copy(&p, 0, to, 8, ends, 1) == 0);
    expect(t, h26x_depacketize(&d, false, packet, 2, to, 8, &size, &extra, &why) == H26X_WRONG_END);
    expect(t, h26x_depacketizer_clone(&d, &made_d) == H26X_WRONG_END && made_d.at == NULL);
    expect(t, h26x_depacketizer_set_numbers(&d, true) == H26X_WRONG_END);
    expect(t, h26x_give_up_run(&d) == H26X_WRONG_END && !h26x_depacketizer_same(&d, &d));
    expect(t, h26x_written_copy(&d, to, 8) == 0);
    expect(t, h26x_h265_shown(&d, &shown) == H26X_WRONG_END);
    expect(t, h26x_h265_part_copy(&d, 0, to, 8, &number) == 0 && number == H26X_NO_NUMBER);
    expect(t, h26x_receive(&r, 1, packet, 2, to, 8, &size, &extra, &received, &missing, &why)
                  == H26X_WRONG_END);
    expect(t, h26x_receiver_clone(&r, &made_r) == H26X_WRONG_END && made_r.at.at == NULL);
    expect(t, h26x_receiver_set_numbers(&r, true) == H26X_WRONG_END);
    expect(t, h26x_receiver_set_avc(&r, true) == H26X_WRONG_END);
    expect(t, h26x_receiver_skip(&r, 1, &received, &missing) == H26X_WRONG_END);
    expect(t, h26x_receiver_restart(&r) == H26X_WRONG_END && h26x_receiver_run_len(&r) == 0);
    expect(t, to[0] == 7 && extra == 1 && received == 9 && missing == 9);
}

static void check_ends(struct tally *t)
{
    struct receiving it = receiver_of(t, settings(H26X_H265));
    h26x_packetizer p;
    h26x_depacketizer d;
    h26x_receiver r;
    expect(t, h26x_packetizer_new(H26X_H264, false, &p) == H26X_OK);
    expect(t, h26x_depacketizer_new(H26X_H264, false, &d) == H26X_OK);
    expect(t, h26x_receiver_new(H26X_H264, false, false, 9, &r) == H26X_OK);
    check_other_ends(t, p.at);
    check_other_ends(t, d.at);
    check_other_ends(t, r.at.at);
    holds(&it, 0, 10, 0, true, "2601ac");
    check_as_other_ends(t, it.u.at);
    gives(&it, 100, "00000001 2601ac", .first = 10, .last = 10, .extra = KEY, .is_clean = true);
    h26x_access_units_free(it.u);
    h26x_access_units_free((h26x_access_units){NULL});
    h26x_access_units_close(NULL);
    h26x_packetizer_free(p);
    h26x_depacketizer_free(d);
    h26x_receiver_free(r);
}

void check_access_units(struct tally *t)
{
    for (size_t i = 0; i < sizeof all_packets / sizeof all_packets[0]; i++) {
        check_beginning(t, &all_packets[i]);
        check_so_far(t, &all_packets[i]);
        check_losses(t, &all_packets[i]);
        check_markers(t, &all_packets[i]);
        check_strays(t, &all_packets[i]);
        check_other_settings(t, &all_packets[i]);
        check_limits(t, &all_packets[i]);
        check_ends_of_streams(t, &all_packets[i]);
        check_long_refusals(t, &all_packets[i]);
        check_room(t, &all_packets[i]);
        check_left_out(t, &all_packets[i]);
        check_settings(t, &all_packets[i]);
        check_first_keyframe(t, &all_packets[i]);
        check_reordered_start(t, &all_packets[i]);
        check_waits_at_start(t, &all_packets[i]);
        check_told_number(t, &all_packets[i]);
        check_keyframe_without_sets(t, &all_packets[i]);
        check_sets_before(t, &all_packets[i]);
        check_keyframe_behind_gap(t, &all_packets[i]);
        check_disposable(t, &all_packets[i]);
        check_fronts(t, &all_packets[i]);
    }
    check_disposable_of_codecs(t);
    check_many_units(t);
    check_refused_settings(t);
    check_ends(t);
}
