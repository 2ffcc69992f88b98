/* Gives two libraries of h26x.h the same drawn calls, and compares all that they answer and write:
 *
 *     compare A.so B.so SECONDS SEED
 *     compare A.so B.so =CALLS SEED
 *
 * All calls are made, of handles of the right kind and of others, with what may be NULL as NULL, buffers
 * of any length, and rooms that are too small. At the first difference the status is 1. The last line
 * has a sum of all answers, which CALLS and SEED give on every machine of 64 bits. h26x_origin, by which
 * the two differ, is asked once, for the first line.
 *
 * A library that has refusing.c in it is refused memory: one of the first requests of every other call, alone
 * or with all behind it, also those to make a block smaller. A call that then answers H26X_OUT_OF_MEMORY has
 * written nothing, and made again it answers what the other library does, which had its memory. */
#include "drawn.h"
#ifdef _WIN32
#include <windows.h>
#else
#include <dlfcn.h>
#endif
#include <signal.h>
#include <stdio.h>
#include <stdlib.h>
#include <string.h>
#include <time.h>

#define NAMES(X)                                                                                   \
    X(version) X(codec_name) X(strerror) X(packetizer_new) X(depacketizer_new) X(receiver_new)     \
    X(access_units_new) X(rtp_receiver_new) X(rtp_sender_new)                                      \
    X(packetizer_free) X(depacketizer_free) X(receiver_free) X(access_units_free)                  \
    X(rtp_receiver_free) X(rtp_sender_free) X(sdp_free) X(h265_paci_packet)                        \
    X(sdp_read) X(sdp_of_payload) X(fits_single_units) X(rtpmap_read) X(rtpmap_write)              \
    X(repairmap_read) X(repairmap_write) X(rtx_format_read) X(rtx_format_write)                    \
    X(is_partition_head) X(is_partition_tail) X(detect_keyframe) X(detect_h264_nalu) X(next_unit)  \
    X(set_lowest_header) X(begins_keyframe) X(next_avc_unit)                                       \
    X(is_rtcp) X(rtp_read) X(rtp_element_next) X(rtp_original) X(rtp_write) X(rtp_write_before)    \
    X(rtx_write) X(red_primary) X(red_blocks) X(pli_write) X(pli_read) X(fir_write) X(fir_read) X(receiver_report_write)      \
    X(receiver_report_read) X(nack_write) X(nack_read) X(rtcp_next) X(rtp_statistics_receive)      \
    X(rtp_statistics_recover) X(rtp_statistics_report)                                             \
    X(unit_is_plain) X(out_size_hint) X(h264_profile_level) X(h265_is_known) X(h266_is_known)      \
    X(packetizer_clone) X(packetizer_set_numbers) X(packetizer_set_max_size)                       \
    X(packetizer_set_lowest_header) X(packetize)                                                   \
    X(packetize_unit) X(packetize_into) X(packets_size) X(packetize_unit_into) X(packet_count)     \
    X(packetizer_set_packing) X(packetize_units) X(packetize_units_into) X(units_size)             \
    X(packetizer_set_delimiters)                                                                   \
    X(packet_len) X(packets_len) X(packet_copy) X(packets_copy) X(depacketizer_clone)              \
    X(depacketizer_same) X(depacketizer_set_numbers) X(depacketize) X(written_copy) X(give_up_run) \
    X(receiver_clone) X(receiver_set_numbers) X(receiver_set_avc) X(receive) X(receiver_restart)   \
    X(receiver_skip) X(receiver_run_len) X(h265_shown) X(h265_part_copy) X(access_units_push)      \
    X(access_units_skip) X(access_units_next) X(access_units_so_far) X(access_units_deadline) X(access_units_missing)     \
    X(access_units_begin_at) X(access_units_finish) X(access_units_restart) X(access_units_count)  \
    X(access_units_set_config) X(access_units_nacks)                                               \
    X(rtp_receiver_push) X(rtp_receiver_next) X(rtp_receiver_set_config) X(rtp_receiver_follow)    \
    X(rtp_receiver_sources) X(rtp_receiver_so_far) X(rtp_receiver_deadline) X(rtp_receiver_nacks) X(rtp_receiver_finish)  \
    X(rtp_receiver_keyframe_wanted) X(rtp_receiver_statistics) X(rtp_receiver_report)              \
    X(rtp_receiver_count)                                                                          \
    X(rtp_sender_send) X(rtp_sender_resend) X(rtp_sender_streams) X(rtp_sender_count)              \
    X(sdp_answer) X(sdp_answer_with) X(sdp_agreed) X(sdp_accepts_declared) X(sdp_level_unit)       \
    X(sdp_broken_rule) X(sdp_name) X(sdp_codec) X(sdp_write) X(sdp_set) X(sdp_unset) X(sdp_value)  \
    X(sdp_number)                                                                                  \
    X(sdp_units) X(sdp_unit) X(sdp_other) X(sdp_max_don_diff) X(sdp_constraints)                   \
    X(sdp_capability_points)

struct library {
#define POINTER(name) __typeof__(h26x_##name) *name;
    NAMES(POINTER)
    POINTER(origin)
    /* That of refusing.c; NULL where the library is never refused memory. */
    unsigned long (*refuse_requests)(long granted, bool one_alone);
};

/* From packetizer_clone on, calls of a handle that is there. */
enum call {
#define NUMBER(name) CALL_##name,
    NAMES(NUMBER) CALLS
};

static const char *const names[] = {
#define NAME(name) #name,
    NAMES(NAME)};

static struct library libraries[2];

#ifdef _WIN32
#define OPEN(path) LoadLibraryA(path)
#define LOOK_UP(at, name) GetProcAddress(at, name)
#else
#define OPEN(path) dlopen(path, RTLD_NOW | RTLD_LOCAL)
#define LOOK_UP(at, name) dlsym(at, name)
#endif

static struct library opened(const char *path)
{
    struct library it;
    void *at = OPEN(path);
    if (at == NULL) {
        fprintf(stderr, "%s can't be opened\n", path);
        exit(2);
    }
#define FIND(name) *(void **)&it.name = (void *)LOOK_UP(at, "h26x_" #name);
    NAMES(FIND)
    FIND(origin)
    *(void **)&it.refuse_requests = (void *)LOOK_UP(at, "refuse_requests");
#define LOOK(name)                                                                                 \
    if (it.name == NULL) {                                                                         \
        fprintf(stderr, "%s has no h26x_" #name "\n", path);                                       \
        exit(2);                                                                                   \
    }
    NAMES(LOOK)
    LOOK(origin)
    return it;
}

/* ---- What a call is given ---- */

enum kind { NONE, PACKETIZER, DEPACKETIZER, RECEIVER, ACCESS_UNITS, RTP_RECEIVER, RTP_SENDER, SDP };

/* A handle of each library, of one kind. */
struct held {
    enum kind kind;
    uint32_t codec;
    uint16_t sequence;
    void *at[2];
};

enum { HELD = 8, ENDS = 512, MISSING = 64, POINTS = 3, NUMBERS = 49 };

static struct held held[HELD];

/* The tick, which goes on from call to call, and round. */
static uint32_t tick = UINT32_MAX - 1000;

/* What is drawn for a call. `wants` has a bit for each output that isn't NULL. */
struct drawn {
    enum call call;
    struct held *h, *other_h;
    uint32_t codec, x, y, z, wants;
    bool numbers, avc;
    size_t mtu, headroom, room, ends_room, len, extension_len;
    const uint8_t *bytes, *extension;
    bool has_to, has_ends, marker;
    uint16_t sequence;
    uint32_t tick;
};

static struct bytes input, extension;

/* Whether a library is refused memory: then runs of fragments that are given up come more often. */
static bool refuses;

static enum call draw_call(const struct held *h)
{
    static const enum call often[] = {CALL_packetize,   CALL_packetize_unit,      CALL_packetize_into,
                                      CALL_depacketize, CALL_packetize_unit_into, CALL_receive,
                                      CALL_depacketize, CALL_packets_copy,        CALL_receive,
                                      CALL_packetize_units, CALL_packetize_units_into};
    if (h->kind == SDP && !one_in(4))
        return CALL_sdp_answer + below(CALLS - CALL_sdp_answer);
    static const enum call often_of_units[] = {CALL_access_units_push, CALL_access_units_push,
                                               CALL_access_units_next};
    static const enum call often_of_datagrams[] = {CALL_rtp_receiver_push, CALL_rtp_receiver_push,
                                                   CALL_rtp_receiver_next};
    static const enum call often_of_sending[] = {CALL_rtp_sender_send, CALL_rtp_sender_send, CALL_rtp_sender_resend};
    const enum call call = one_in(2) ? (enum call)below(CALLS)
        : h->kind == ACCESS_UNITS    ? often_of_units[below(3)]
        : h->kind == RTP_RECEIVER    ? often_of_datagrams[below(3)]
        : h->kind == RTP_SENDER      ? often_of_sending[below(3)]
                                     : often[below(11)];
    if (call >= CALL_packetizer_clone && h->kind == NONE)
        return one_in(5) ? CALL_sdp_read : CALL_packetizer_new + below(6);
    return call;
}

static void draw_input(enum call call, uint32_t codec)
{
    switch (call) {
    case CALL_packetize:
    case CALL_packetize_into:
    case CALL_packets_size:
    case CALL_packetize_units:
    case CALL_packetize_units_into:
    case CALL_units_size:
    case CALL_next_unit:
    case CALL_next_avc_unit:
    case CALL_sdp_of_payload:
    case CALL_fits_single_units:
        draw_payload(&input, codec);
        break;
    case CALL_sdp_read:
        draw_format(&input, codec);
        break;
    case CALL_rtpmap_read:
    case CALL_repairmap_read:
        draw_rtpmap(&input);
        break;
    case CALL_rtx_format_read:
        draw_rtx_format(&input);
        break;
    case CALL_is_rtcp:
    case CALL_rtp_read:
    case CALL_rtp_original:
    case CALL_rtx_write:
    case CALL_pli_read:
    case CALL_fir_read:
    case CALL_receiver_report_read:
    case CALL_nack_read:
    case CALL_rtcp_next:
        draw_datagram(&input);
        break;
    case CALL_red_primary:
    case CALL_red_blocks:
        draw_red(&input);
        break;
    case CALL_sdp_set:
    case CALL_sdp_unset:
    case CALL_sdp_value:
    case CALL_sdp_number:
    case CALL_sdp_units:
    case CALL_sdp_unit:
        draw_name(&input, codec);
        break;
    case CALL_packetize_unit:
    case CALL_packetize_unit_into:
    case CALL_h265_paci_packet:
    case CALL_unit_is_plain:
        draw_unit(&input, codec);
        break;
    default:
        if (refuses && one_in(3))
            draw_fragment(&input, codec);
        else
            draw_packet(&input, codec);
    }
}

/* Draws a call. A buffer of NULL is said to have any length. */
static struct drawn draw_all(void)
{
    struct held *h = &held[below(HELD)];
    if (refuses && h->kind != ACCESS_UNITS && one_in(2))
        h = &held[below(HELD)];
    struct drawn d = {.call = draw_call(h), .h = h, .other_h = &held[below(HELD)]};
    d.codec = any_codec();
    draw_input(d.call, d.call == CALL_sdp_read ? d.codec : h->kind != NONE ? h->codec : 264 + below(3));
    draw_few(&extension, 40);
    if (d.call == CALL_sdp_set)
        draw_value(&extension, h->codec);
     d.x = draw(), d.y = draw(), d.z = draw();
    d.wants = one_in(6) ? draw() : UINT32_MAX;
    d.numbers = one_in(2), d.avc = one_in(2);
    d.mtu = one_in(4) ? 1200 : one_in(3) ? below(20) : below(1500);
    d.headroom = one_in(3) ? 12 : one_in(2) ? 0 : below(100);
    d.room = one_in(3) ? below(300) : MOST;
    d.ends_room = one_in(4) ? below(4) : ENDS;
    d.has_to = !one_in(16), d.has_ends = !one_in(16);
    d.bytes = one_in(40) ? NULL : input.at, d.len = input.len;
    d.extension = one_in(8) ? NULL : extension.at, d.extension_len = extension.len;
    d.sequence = (uint16_t)(h->sequence + (one_in(12) ? below(8) - 4 : one_in(60) ? draw() : 0));
    d.marker = one_in(3);
    d.tick = tick += one_in(4) ? below(40) : 0;
    return d;
}

/* ---- What a call answers ---- */

struct answer {
    uint64_t result, numbers[NUMBERS];
    uint8_t to[MOST];
    size_t ends[ENDS];
    uint16_t missing[MISSING];
    char text[128];
};

static struct answer answers[2];
static uint64_t sum = 14695981039346656037u;

static void add(uint64_t it)
{
    sum = (sum ^ it) * 1099511628211u;
    sum ^= sum >> 29;
}

/* Adds an answer to the sum. */
static void add_answer(const struct answer *a)
{
    add(a->result);
    for (size_t i = 0; i < NUMBERS; i++)
        add(a->numbers[i]);
    for (size_t i = 0; i < MISSING; i++)
        add(a->missing[i]);
    for (size_t i = 0; i < ENDS && a->ends[i] != SIZE_MAX; i++)
        add(a->ends[i]);
    for (size_t i = 0; i < 2000; i++)
        add(a->to[i]);
    for (size_t i = 0; a->text[i] != 0; i++)
        add((uint8_t)a->text[i]);
}

static void show_difference(enum call call)
{
    const struct answer *a = &answers[0], *b = &answers[1];
    printf("DIFFERENCE: h26x_%s: %llu and %llu\n", names[call], (unsigned long long)a->result,
           (unsigned long long)b->result);
    for (size_t i = 0; i < NUMBERS; i++)
        if (a->numbers[i] != b->numbers[i])
            printf("  number %zu: %llu and %llu\n", i, (unsigned long long)a->numbers[i],
                   (unsigned long long)b->numbers[i]);
    if (memcmp(a->to, b->to, sizeof a->to) != 0)
        printf("  other bytes\n");
    if (memcmp(a->ends, b->ends, sizeof a->ends) != 0)
        printf("  other ends\n");
    if (memcmp(a->missing, b->missing, sizeof a->missing) != 0)
        printf("  other missing numbers\n");
}

/* ---- The calls ---- */

/* Outputs, with something in each before the call. */
struct outputs {
    size_t count, size;
    uint8_t extra;
    uint32_t number;
    uint16_t gap;
    h26x_refusal why;
    h26x_h265_packet shown;
    uint8_t profile, level;
    h26x_access_unit unit;
    h26x_access_units_counts counts;
    uint64_t value;
    h26x_constraints said;
    h26x_capability_point points[POINTS];
    h26x_rtp_packet packet;
    h26x_report report;
    uint32_t media;
    h26x_rtp_told told;
    h26x_rtp_sources sources;
    h26x_rtp_statistics counted;
    h26x_so_far so_far;
    h26x_rtp_streams streams;
    h26x_rtp_sent sent;
    h26x_rtp_element element;
    h26x_red_block blocks[POINTS];
};

#define WANTED(bit, output) ((d->wants >> (bit) & 1) != 0 ? (output) : NULL)

/* Settings, of which most are those of a receiver. */
static h26x_access_units_config config_of(const struct drawn *d)
{
    return (h26x_access_units_config){
        .codec = d->codec,
        .max_wait = d->x % 4 == 0 ? UINT32_MAX : d->y % 200,
        .begin_wait = d->z % 3 == 0 ? 0 : d->z % 7 == 0 ? UINT32_MAX : d->x % 200,
        .window = d->x % 7 == 0 ? d->y & 0xffff : 1 + d->y % 8,
        .far_away = d->z % 2 ? 0 : 1 + d->z % 300,
        .far_behind = d->y % 2 ? 0 : 1 + d->y % 200,
        .numbers = d->numbers,
        .avc = d->avc,
        .has_sets = d->y % 3 == 0,
        .held_limit = d->z % 5 ? SIZE_MAX : d->x % 3000,
        .run_limit = d->y % 5 ? SIZE_MAX : d->z % 2000,
        .unit_limit = d->x % 5 ? SIZE_MAX : d->z % 4000,
    };
}

/* `at` are handles of each kind by one pointer, as another one is. */
#define P &(h26x_packetizer){d->h->at[s]}
#define D &(h26x_depacketizer){d->h->at[s]}
#define R &(h26x_receiver){{d->h->at[s]}}
#define U &(h26x_access_units){d->h->at[s]}
#define DATAGRAMS &(h26x_rtp_receiver){d->h->at[s]}
#define SENDING &(h26x_rtp_sender){d->h->at[s]}
#define F &(h26x_sdp){d->h->at[s]}

static uint64_t sends(int s, const struct drawn *d, struct answer *a, struct outputs *o)
{
    const struct library *l = &libraries[s];
    uint8_t *to = d->has_to ? a->to : NULL;
    size_t *ends = d->has_ends ? a->ends : NULL;
    size_t *count = WANTED(0, &o->count), *size = WANTED(1, &o->size);
    h26x_refusal *why = WANTED(3, &o->why);
    switch (d->call) {
    case CALL_packetizer_set_numbers:
        return l->packetizer_set_numbers(P, d->numbers);
    case CALL_packetizer_set_max_size:
        return l->packetizer_set_max_size(P, d->x % 4 == 0 ? d->y % 9 : d->y % 3000);
    case CALL_packetizer_set_lowest_header:
        return l->packetizer_set_lowest_header(P, d->numbers);
    case CALL_packetize:
        return l->packetize(P, d->mtu, d->bytes, d->len, count);
    case CALL_packetize_unit:
        return l->packetize_unit(P, d->mtu, d->bytes, d->len, count);
    case CALL_packetize_into:
        return l->packetize_into(P, d->mtu, d->bytes, d->len, d->headroom, to, d->room, ends,
                                 d->ends_room, count, size);
    case CALL_packetize_unit_into:
        return l->packetize_unit_into(P, d->mtu, d->bytes, d->len, d->headroom, to, d->room, ends,
                                      d->ends_room, count, size);
    case CALL_packets_size:
        return l->packets_size(P, d->mtu, d->bytes, d->len,
                               d->y % 100 == 0 ? SIZE_MAX / (1 + d->z % 4) : d->headroom, count, size);
    case CALL_packetizer_set_packing:
        return l->packetizer_set_packing(P, d->x % 6);
    case CALL_packetizer_set_delimiters:
        return l->packetizer_set_delimiters(P, d->numbers);
    case CALL_packetize_units:
        return l->packetize_units(P, d->mtu, d->bytes, d->len, count, why);
    case CALL_packetize_units_into:
        return l->packetize_units_into(P, d->mtu, d->bytes, d->len, d->headroom, to, d->room, ends,
                                       d->ends_room, count, size, why);
    case CALL_units_size:
        return l->units_size(P, d->mtu, d->bytes, d->len,
                             d->y % 100 == 0 ? SIZE_MAX / (1 + d->z % 4) : d->headroom, count, size, why);
    case CALL_packet_count:
        return l->packet_count(P);
    case CALL_packet_len:
        return l->packet_len(P, d->x % 8);
    case CALL_packets_len:
        return l->packets_len(P);
    case CALL_packet_copy:
        return l->packet_copy(P, d->x % 8, to, d->room);
    default:
        return l->packets_copy(P, d->x % 4 == 0 ? d->y % 10 : 0, to, d->room, ends, d->ends_room);
    }
}

static uint64_t receives(int s, const struct drawn *d, struct answer *a, struct outputs *o)
{
    const struct library *l = &libraries[s];
    uint8_t *to = d->has_to ? a->to : NULL, *extra = WANTED(2, &o->extra);
    size_t *written = WANTED(0, &o->count);
    h26x_refusal *why = WANTED(3, &o->why);
    switch (d->call) {
    case CALL_depacketizer_same:
        return l->depacketizer_same(D, &(h26x_depacketizer){d->other_h->at[s]});
    case CALL_depacketizer_set_numbers:
        return l->depacketizer_set_numbers(D, d->numbers);
    case CALL_depacketize:
        return l->depacketize(D, d->avc, d->bytes, d->len, to, d->room, written, extra, why);
    case CALL_written_copy:
        return l->written_copy(D, to, d->room);
    case CALL_give_up_run:
        return l->give_up_run(D);
    case CALL_receiver_set_numbers:
        return l->receiver_set_numbers(R, d->numbers);
    case CALL_receiver_set_avc:
        return l->receiver_set_avc(R, d->avc);
    case CALL_receive:
        return l->receive(R, d->sequence, d->bytes, d->len, to, d->room, written, extra,
                          WANTED(4, &o->number), WANTED(5, &o->gap), why);
    case CALL_receiver_skip:
        return l->receiver_skip(R, d->sequence, WANTED(4, &o->number), WANTED(5, &o->gap));
    case CALL_receiver_restart:
        return l->receiver_restart(R);
    case CALL_receiver_run_len:
        return l->receiver_run_len(R);
    case CALL_h265_shown:
        return l->h265_shown(D, &o->shown);
    default:
        return l->h265_part_copy(D, d->x % 5, to, d->room, WANTED(4, &o->number));
    }
}

static uint64_t receives_units(int s, const struct drawn *d, struct answer *a, struct outputs *o)
{
    const struct library *l = &libraries[s];
    switch (d->call) {
    case CALL_access_units_push:
        return l->access_units_push(U, d->tick, d->sequence, d->sequence / 4 * 3000u, d->marker, d->bytes,
                                    d->len, WANTED(4, &o->number), WANTED(5, &o->gap));
    case CALL_access_units_skip:
        return l->access_units_skip(U, d->tick, d->sequence, WANTED(4, &o->number), WANTED(5, &o->gap));
    case CALL_access_units_next:
        return l->access_units_next(U, d->tick, d->has_to ? a->to : NULL, d->room, WANTED(6, &o->unit));
    case CALL_access_units_so_far:
        return l->access_units_so_far(U, d->x % 9, d->has_to ? a->to : NULL, d->room, WANTED(6, &o->so_far));
    case CALL_access_units_deadline:
        return l->access_units_deadline(U, WANTED(4, &o->number));
    case CALL_access_units_missing:
        return l->access_units_missing(U, d->has_to ? a->missing : NULL, d->x % 3 ? d->y % MISSING : 0,
                                       WANTED(0, &o->count));
    case CALL_access_units_nacks: {
        const h26x_nack_times times = {d->x % 5, d->y % 50, (uint8_t)(d->x % 4)};
        return l->access_units_nacks(U, d->tick, &times, d->has_to ? a->missing : NULL,
                                     d->x % 3 ? d->y % MISSING : 0, WANTED(0, &o->count));
    }
    case CALL_access_units_begin_at:
        return l->access_units_begin_at(U, d->sequence, WANTED(4, &o->number));
    case CALL_access_units_finish:
        return l->access_units_finish(U);
    case CALL_access_units_restart:
        return l->access_units_restart(U);
    case CALL_access_units_set_config: {
        const h26x_access_units_config config = config_of(d);
        return l->access_units_set_config(U, &config);
    }
    default:
        return l->access_units_count(U, WANTED(7, &o->counts));
    }
}

/* A datagram of the packet that was drawn: of the codec, as a retransmission, in RED, as both, or of another type; of one of
 * three sources. Or what was drawn itself. */
static size_t make_datagram(const struct drawn *d, uint8_t *at)
{
    static const uint8_t types[] = {96, 96, 96, 97, 98, 99, 100, 101};
    const uint8_t type = types[d->x % 8];
    const uint16_t sequence = type == 97 || type == 99 ? (uint16_t)d->y : d->sequence;
    const uint32_t timestamp = d->sequence / 4 * 3000u;
    const uint8_t header[] = {0x80, (uint8_t)(d->marker << 7 | type), (uint8_t)(sequence >> 8), (uint8_t)sequence,
                              (uint8_t)(timestamp >> 24), (uint8_t)(timestamp >> 16), (uint8_t)(timestamp >> 8),
                              (uint8_t)timestamp, 0, 0, 0, type == 97 || type == 99 ? 2 : d->y % 30 ? 1 : 3};
    size_t len = sizeof header;
    if (d->z % 16 == 0 || d->bytes == NULL || d->len > MOST - 16)
        return 0;
    memcpy(at, header, len);
    if (type == 97 || type == 99) {
        at[len++] = (uint8_t)(d->sequence >> 8);
        at[len++] = (uint8_t)d->sequence;
    }
    if (type == 98 || type == 99)
        at[len++] = d->z % 3 ? 96 : (uint8_t)d->z;
    memcpy(at + len, d->bytes, d->len);
    return len + d->len;
}

static uint64_t receives_datagrams(int s, const struct drawn *d, struct answer *a, struct outputs *o)
{
    const struct library *l = &libraries[s];
    static uint8_t datagram[MOST];
    const size_t len = make_datagram(d, datagram);
    const h26x_nack_times times = {d->x % 5, d->y % 50, (uint8_t)(d->x % 4)};
    const h26x_rtp_sources sources = {1, 2, d->x % 4 != 0, d->y % 4 != 0};
    const h26x_access_units_config config = config_of(d);
    switch (d->call) {
    case CALL_rtp_receiver_push:
        return l->rtp_receiver_push(DATAGRAMS, d->tick, d->tick * 90, len > 0 ? datagram : d->bytes,
                                    len > 0 ? len : d->len, WANTED(8, &o->told));
    case CALL_rtp_receiver_next:
        return l->rtp_receiver_next(DATAGRAMS, d->tick, d->has_to ? a->to : NULL, d->room, WANTED(6, &o->unit));
    case CALL_rtp_receiver_set_config:
        return l->rtp_receiver_set_config(DATAGRAMS, &config);
    case CALL_rtp_receiver_follow:
        return l->rtp_receiver_follow(DATAGRAMS, &sources);
    case CALL_rtp_receiver_sources:
        return l->rtp_receiver_sources(DATAGRAMS, WANTED(9, &o->sources));
    case CALL_rtp_receiver_so_far:
        return l->rtp_receiver_so_far(DATAGRAMS, d->x % 9, d->has_to ? a->to : NULL, d->room,
                                      WANTED(6, &o->so_far));
    case CALL_rtp_receiver_deadline:
        return l->rtp_receiver_deadline(DATAGRAMS, WANTED(4, &o->number));
    case CALL_rtp_receiver_nacks:
        return l->rtp_receiver_nacks(DATAGRAMS, d->tick, &times, d->has_to ? a->missing : NULL,
                                     d->x % 3 ? d->y % MISSING : 0, WANTED(0, &o->count));
    case CALL_rtp_receiver_finish:
        return l->rtp_receiver_finish(DATAGRAMS);
    case CALL_rtp_receiver_keyframe_wanted:
        return l->rtp_receiver_keyframe_wanted(DATAGRAMS, d->tick, d->y % 200);
    case CALL_rtp_receiver_statistics:
        return l->rtp_receiver_statistics(DATAGRAMS, WANTED(10, &o->counted));
    case CALL_rtp_receiver_report:
        return l->rtp_receiver_report(DATAGRAMS, d->x, d->y, WANTED(11, &o->report));
    default:
        return l->rtp_receiver_count(DATAGRAMS, WANTED(7, &o->counts));
    }
}

/* What two formats agree on, whose parts go to numbers, or whether one is received that is declared. */
static uint64_t agrees(int s, const struct drawn *d, struct outputs *o)
{
    const struct library *l = &libraries[s];
    const h26x_sdp other = {d->other_h->at[s]};
    h26x_sdp_stream sends = {.level = 9}, receives = {.level = 9};
    if (d->call == CALL_sdp_accepts_declared)
        return l->sdp_accepts_declared(F, &other, d->x % 33);
    const uint64_t code = l->sdp_agreed(F, &other, d->x % 33, WANTED(0, &sends), WANTED(1, &receives));
    o->value = sends.level << 32 | receives.level;
    o->number = (uint32_t)((sends.mode << 8 | sends.sets << 4 | sends.is_there << 1 | sends.has_mode) << 16
                           | (receives.mode << 8 | receives.sets << 4 | receives.is_there << 1 | receives.has_mode));
    return code;
}

/* Packets lie one behind the other in what is written to, most of them behind their headroom. What goes again is one of
 * the last packets, or none. */
static uint64_t sends_datagrams(int s, const struct drawn *d, struct answer *a, struct outputs *o)
{
    const struct library *l = &libraries[s];
    size_t ends[4], end = 0;
    h26x_rtp_streams next = {0};
    for (size_t i = 0; i < 4; i++)
        ends[i] = end += d->headroom + (d->x >> 8 * i & 63) - (d->z % 9 == i);
    switch (d->call) {
    case CALL_rtp_sender_send:
        return l->rtp_sender_send(SENDING, d->tick, (uint16_t)d->z, d->extension,
                                  d->y % 3 ? 0 : d->y % 2 ? d->extension_len : d->extension_len / 4 * 4, d->headroom,
                                  d->has_to ? a->to : NULL, d->room, d->has_ends ? ends : NULL, d->y % 5,
                                  WANTED(0, &o->count));
    case CALL_rtp_sender_resend:
        l->rtp_sender_streams(SENDING, &next);
        return l->rtp_sender_resend(SENDING, (uint16_t)(next.sequence - d->y % 8), d->has_to ? a->to : NULL, d->room,
                                    WANTED(0, &o->count));
    case CALL_rtp_sender_streams:
        return l->rtp_sender_streams(SENDING, WANTED(12, &o->streams));
    default:
        return l->rtp_sender_count(SENDING, WANTED(13, &o->sent));
    }
}

static uint64_t describes(int s, const struct drawn *d, struct answer *a, struct outputs *o)
{
    const struct library *l = &libraries[s];
    uint8_t *to = d->has_to ? a->to : NULL, *name_to = d->has_ends ? (uint8_t *)a->text : NULL;
    size_t *len = WANTED(0, &o->count);
    h26x_refusal *why = WANTED(3, &o->why);
    switch (d->call) {
    case CALL_sdp_agreed:
    case CALL_sdp_accepts_declared:
        return agrees(s, d, o);
    case CALL_sdp_level_unit:
        return l->sdp_level_unit(F, d->y % 4 ? 20 + d->x % 44 : d->x, d->z % 3, to, d->room % 40, len, why);
    case CALL_sdp_broken_rule:
        return l->sdp_broken_rule(F, d->x % 5, why);
    case CALL_sdp_name:
        return l->sdp_name(F, d->x % 32, to, d->y % 40, len);
    case CALL_sdp_codec:
        return l->sdp_codec(F);
    case CALL_sdp_write:
        return l->sdp_write(F, to, d->room, len);
    case CALL_sdp_set:
        return l->sdp_set(F, d->bytes, d->len, d->extension, d->extension_len);
    case CALL_sdp_unset:
        return l->sdp_unset(F, d->bytes, d->len);
    case CALL_sdp_value:
        return l->sdp_value(F, d->bytes, d->len, d->numbers, to, d->room % 40, len);
    case CALL_sdp_number:
        return l->sdp_number(F, d->bytes, d->len, d->numbers, WANTED(2, &o->value));
    case CALL_sdp_units:
        return l->sdp_units(F, d->bytes, d->len, len, why);
    case CALL_sdp_unit:
        return l->sdp_unit(F, d->bytes, d->len, d->x % 4, to, d->room % 40, len, why);
    case CALL_sdp_other:
        return l->sdp_other(F, d->x % 4, name_to, d->y % 20, len, to, d->room % 40, WANTED(1, &o->size));
    case CALL_sdp_max_don_diff:
        return l->sdp_max_don_diff(F, WANTED(4, &o->number));
    case CALL_sdp_constraints:
        return l->sdp_constraints(F, to, d->room % 20, WANTED(6, &o->said));
    default:
        return l->sdp_capability_points(F, d->numbers, d->has_ends ? o->points : NULL, d->x % (POINTS + 1), len,
                                        why);
    }
}

/* Three bytes of which many are a profile and a level. */
static uint32_t profile_level_id(const struct drawn *d)
{
    static const uint8_t first[] = {0x42, 0x4d, 0x58, 0x64, 0x6e, 0x7a, 0xf4, 0x2c};
    if (d->x % 2 == 0)
        return d->x;
    return (uint32_t)first[d->x / 2 % 8] << 16 | (d->y % 2 ? d->y & 0xff00 : (d->y & 0x3c) << 10)
        | d->z % 60;
}

/* Gives a packet that is copied first the header of its units. */
static uint64_t set_lowest_header(const struct library *l, const struct drawn *d, struct answer *a)
{
    uint8_t *at = d->bytes != NULL ? a->to : NULL;
    if (at != NULL)
        memcpy(at, d->bytes, d->len);
    l->set_lowest_header(d->codec, d->numbers, at, d->len);
    return d->len;
}

/* What each library counted of a source. */
static h26x_rtp_statistics counted[2];

/* Counts a packet whose number is mostly near the highest. Now and then there is nothing yet, or as much as can be. */
static uint64_t counts(int s, const struct drawn *d)
{
    h26x_rtp_statistics *it = &counted[s];
    if (d->x % 64 == 0)
        *it = (h26x_rtp_statistics){0};
    if (d->x % 64 == 1)
        it->expected = it->received = it->bytes = it->recovered = it->jitter = UINT64_MAX - d->y % 4;
    const uint16_t near = (uint16_t)(it->highest + d->y % 5), edge = (uint16_t)(it->highest + (d->y % 2 ? 3001 : -101) - d->y % 4);
    const uint16_t sequence = d->z % 8 ? near : d->z % 64 ? edge : it->has_jumped ? it->after_jump : d->sequence;
    return libraries[s].rtp_statistics_receive(it, d->y, sequence, d->z, d->len);
}

/* Bytes cut to whole words, mostly. */
static size_t words(size_t len, uint32_t drawn)
{
    return drawn % 5 == 0 ? len : len & ~(size_t)3;
}

static h26x_report report_of(const struct drawn *d)
{
    return (h26x_report){d->x, (int32_t)d->y, d->z, d->x ^ d->y, d->y ^ d->z, d->x ^ d->z, (uint8_t)d->x};
}

/* Asks for numbers, each of which is mostly near the one before. */
static uint64_t asks(int s, const struct drawn *d, uint8_t *to, struct outputs *o)
{
    uint16_t numbers[MISSING];
    const size_t count = d->extension_len < MISSING ? d->extension_len : MISSING;
    uint16_t number = d->sequence;
    for (size_t i = 0; i < count; i++)
        numbers[i] = number += d->z % 5 == 0 ? extension.at[i] : extension.at[i] % 20;
    return libraries[s].nack_write(d->x, d->y, d->extension != NULL ? numbers : NULL, count, to, d->z % 100,
                                   WANTED(0, &o->count), WANTED(1, &o->size));
}

static uint64_t wraps(int s, const struct drawn *d, struct answer *a, struct outputs *o)
{
    /* (so many of the first of these are padding) */
    static const uint8_t padding[] = {1, 2, 3, 4};
    const struct library *l = &libraries[s];
    const h26x_rtp_header header = {d->x, d->y, d->sequence, (uint16_t)d->z, (uint8_t)(d->x % 9 ? d->y % 128 : d->y),
                                    d->marker, d->avc};
    const h26x_report report = report_of(d);
    const size_t csrcs_len = words(d->extension_len, d->x), extension_len = words(d->len, d->y);
    uint8_t *to = d->has_to ? a->to : NULL;
    size_t *len = WANTED(0, &o->count);
    switch (d->call) {
    case CALL_is_rtcp:
        return l->is_rtcp(d->bytes, d->len);
    case CALL_rtp_read:
        return l->rtp_read(d->bytes, d->len, WANTED(6, &o->packet));
    case CALL_rtp_element_next:
        return l->rtp_element_next(d->x % 3 == 0 ? 0xbede : 0x1000 | d->z % 17, d->extension, d->extension_len, d->y % 20,
                                   WANTED(6, &o->element));
    case CALL_rtp_original:
        return l->rtp_original(d->bytes, d->len, d->y % 128, d->z, WANTED(6, &o->packet));
    case CALL_rtp_write:
        return l->rtp_write(&header, d->extension, csrcs_len, d->bytes, extension_len, d->bytes, d->len,
                            padding + (d->z % 7 == 0), d->z % 4, to, d->room, len);
    case CALL_rtp_write_before:
        return l->rtp_write_before(&header, d->extension, csrcs_len, d->bytes, extension_len, d->numbers, d->z % 8000, to,
                                   d->room, len);
    case CALL_rtx_write:
        return l->rtx_write(d->bytes, d->len, (uint8_t)(d->x % 9 ? d->y % 128 : d->y), d->sequence, d->z, to, d->room, len);
    case CALL_red_primary:
        return l->red_primary(d->bytes, d->len, WANTED(1, &o->profile), len);
    case CALL_red_blocks:
        return l->red_blocks(d->bytes, d->len, d->has_ends ? o->blocks : NULL, d->x % (POINTS + 1), len);
    case CALL_pli_write:
        return l->pli_write(d->x, d->y, to, d->z % 40, len);
    case CALL_pli_read:
        return l->pli_read(d->bytes, d->len, WANTED(4, &o->number), WANTED(7, &o->media));
    case CALL_fir_write:
        return l->fir_write(d->x, d->y, (uint8_t)d->z, to, d->z % 40, len);
    case CALL_fir_read:
        return l->fir_read(d->bytes, d->len, WANTED(4, &o->number), WANTED(7, &o->media), WANTED(1, &o->profile));
    case CALL_receiver_report_write:
        return l->receiver_report_write(d->x, &report, to, d->z % 40, len);
    case CALL_receiver_report_read:
        return l->receiver_report_read(d->bytes, d->len, WANTED(4, &o->number), WANTED(7, &o->report));
    case CALL_nack_write:
        return asks(s, d, to, o);
    case CALL_nack_read:
        return l->nack_read(d->bytes, d->len, WANTED(4, &o->number), WANTED(7, &o->media),
                            d->has_to ? a->missing : NULL, d->x % 3 ? d->y % MISSING : 0, WANTED(0, &o->count));
    case CALL_rtcp_next:
        return l->rtcp_next(d->bytes, d->len, d->x % 3 == 0 ? 0 : d->x % 3 == 1 ? 12 : d->y % (d->len + 2), len);
    case CALL_rtp_statistics_receive:
        return counts(s, d);
    case CALL_rtp_statistics_recover:
        l->rtp_statistics_recover(&counted[s]);
        return 0;
    default:
        l->rtp_statistics_report(&counted[s], d->x, d->y, d->z, WANTED(7, &o->report));
        return 0;
    }
}

/* Reads a format of retransmission, whose parts go to numbers. */
static uint64_t reads_rtx(const struct library *l, const struct drawn *d, struct outputs *o)
{
    h26x_rtx_format it = {.rtx_time = 9};
    const uint64_t code = l->rtx_format_read(d->bytes, d->len, WANTED(0, &it), WANTED(3, &o->why));
    o->value = it.rtx_time;
    o->number = (uint32_t)it.payload_type << 1 | it.has_rtx_time;
    return code;
}

static uint64_t looks(int s, const struct drawn *d, struct answer *a, struct outputs *o)
{
    const struct library *l = &libraries[s];
    switch (d->call) {
    case CALL_version:
        return l->version();
    case CALL_h265_paci_packet:
        return l->h265_paci_packet(d->bytes, d->len, d->extension, d->extension_len,
                                   d->has_to ? a->to : NULL, d->room, WANTED(0, &o->count));
    case CALL_is_partition_head:
        return l->is_partition_head(d->codec, d->bytes, d->len);
    case CALL_is_partition_tail:
        return l->is_partition_tail(d->codec, d->avc, d->bytes, d->len);
    case CALL_detect_keyframe:
        return l->detect_keyframe(d->codec, d->bytes, d->len);
    case CALL_begins_keyframe:
        return l->begins_keyframe(d->codec, d->numbers, d->bytes, d->len);
    case CALL_detect_h264_nalu:
        return l->detect_h264_nalu(d->bytes, d->len, d->x % 32);
    case CALL_set_lowest_header:
        return set_lowest_header(l, d, a);
    case CALL_next_unit:
        return l->next_unit(d->codec, d->bytes, d->len, d->x % 3 == 0 ? 0 : d->y % (d->len + 2),
                            WANTED(0, &o->count), WANTED(1, &o->size));
    case CALL_next_avc_unit:
        return l->next_avc_unit(d->bytes, d->len, d->x % 3 == 0 ? 0 : d->y % (d->len + 2),
                                WANTED(0, &o->count), WANTED(1, &o->size));
    case CALL_unit_is_plain:
        return l->unit_is_plain(d->codec, d->bytes, d->len);
    case CALL_out_size_hint:
        return l->out_size_hint(d->x % 5 == 0 ? SIZE_MAX - d->y % 9000 : d->y);
    case CALL_fits_single_units:
        return l->fits_single_units(d->bytes, d->len, d->mtu);
    case CALL_rtpmap_read:
        return l->rtpmap_read(d->bytes, d->len, WANTED(0, &o->profile), WANTED(4, &o->number));
    case CALL_rtpmap_write:
        return l->rtpmap_write((uint8_t)d->x, d->codec, d->has_to ? a->to : NULL, d->y % 20, WANTED(0, &o->count));
    case CALL_repairmap_read:
        return l->repairmap_read(d->bytes, d->len, WANTED(0, &o->profile), WANTED(4, &o->number));
    case CALL_repairmap_write:
        return l->repairmap_write((uint8_t)d->x, d->z % 7, d->has_to ? a->to : NULL, d->y % 20, WANTED(0, &o->count));
    case CALL_rtx_format_read:
        return reads_rtx(l, d, o);
    case CALL_rtx_format_write:
        return l->rtx_format_write(&(h26x_rtx_format){d->y, (uint8_t)d->x, d->z % 2}, d->has_to ? a->to : NULL, d->z % 40,
                                   WANTED(0, &o->count));
    case CALL_h264_profile_level:
        return l->h264_profile_level(profile_level_id(d), WANTED(0, &o->profile), WANTED(1, &o->level));
    case CALL_h265_is_known:
        return l->h265_is_known(d->x % 16, d->y % 3, d->z & 0xff);
    default:
        return l->h266_is_known(d->x % 128, d->y % 3, d->z & 0xff);
    }
}

/* Makes a handle, where that is drawn: NULL where none was made. */
static void *makes(int s, const struct drawn *d, struct answer *a, struct outputs *o)
{
    const struct library *l = &libraries[s];
    h26x_packetizer p = {NULL};
    h26x_depacketizer e = {NULL};
    h26x_receiver r = {{NULL}};
    h26x_access_units u = {NULL};
    h26x_rtp_receiver g = {NULL};
    const h26x_access_units_config config = config_of(d);
    const h26x_rtp_payload_types types = {96, 97, 98, 99, 100, d->x % 8 != 0, d->y % 8 != 0, d->z % 8 != 0, d->x % 5 != 0};
    const h26x_rtp_streams streams = {1, 2, d->x & 0xffff, d->y & 0xffff, d->z % 8 ? 96 : d->z >> 8 & 0xff,
                                      d->x % 8 ? 97 : d->y & 0xff, d->numbers};
    h26x_rtp_sender b = {NULL};
    h26x_sdp f = {NULL};
    switch (d->call) {
    case CALL_rtp_sender_new:
        a->result = l->rtp_sender_new(&streams, d->z % 3 ? 3000 : d->x % 200, &b);
        return b.at;
    case CALL_access_units_new:
        a->result = l->access_units_new(&config, &u);
        return u.at;
    case CALL_rtp_receiver_new:
        a->result = l->rtp_receiver_new(&config, &types, &g);
        return g.at;
    case CALL_sdp_read:
        a->result = l->sdp_read(d->codec, d->bytes, d->len, &f, WANTED(3, &o->why));
        return f.at;
    case CALL_sdp_of_payload:
        a->result = l->sdp_of_payload(d->codec, d->bytes, d->len, &f);
        return f.at;
    case CALL_sdp_answer:
        a->result = l->sdp_answer(F, &(h26x_sdp){d->other_h->at[s]}, &f);
        return f.at;
    case CALL_sdp_answer_with:
        a->result = l->sdp_answer_with(F, &(h26x_sdp){d->other_h->at[s]}, d->x % 33, &f);
        return f.at;
    case CALL_packetizer_new:
        a->result = l->packetizer_new(d->codec, d->numbers, &p);
        return p.at;
    case CALL_depacketizer_new:
        a->result = l->depacketizer_new(d->codec, d->numbers, &e);
        return e.at;
    case CALL_receiver_new:
        a->result = l->receiver_new(d->codec, d->numbers, d->avc, d->x % 4 ? SIZE_MAX : d->y % 2000, &r);
        return r.at.at;
    case CALL_packetizer_clone:
        a->result = l->packetizer_clone(P, &p);
        return p.at;
    case CALL_depacketizer_clone:
        a->result = l->depacketizer_clone(D, &e);
        return e.at;
    default:
        a->result = l->receiver_clone(R, &r);
        return r.at.at;
    }
}

static enum kind kind_made(enum call call)
{
    switch (call) {
    case CALL_packetizer_new:
    case CALL_packetizer_clone:
        return PACKETIZER;
    case CALL_depacketizer_new:
    case CALL_depacketizer_clone:
        return DEPACKETIZER;
    case CALL_receiver_new:
    case CALL_receiver_clone:
        return RECEIVER;
    case CALL_access_units_new:
        return ACCESS_UNITS;
    case CALL_rtp_receiver_new:
        return RTP_RECEIVER;
    case CALL_rtp_sender_new:
        return RTP_SENDER;
    case CALL_sdp_read:
    case CALL_sdp_of_payload:
    case CALL_sdp_answer:
    case CALL_sdp_answer_with:
        return SDP;
    default:
        return NONE;
    }
}

/* Numbers as one. */
static uint64_t fold(const uint64_t *parts, size_t count)
{
    uint64_t all = 0;
    for (size_t i = 0; i < count; i++)
        all = (all ^ parts[i]) * 1099511628211u;
    return all;
}
#define FOLD(parts) fold(parts, sizeof (parts) / sizeof (parts)[0])

/* A capability point as one number. */
static uint64_t folded(const h26x_capability_point *it)
{
    const uint64_t parts[] = {it->spatial_segmentation, it->tier_flag, it->level_id, it->max_lsr, it->max_lps,
                              it->max_br, it->tool, it->has_tier_flag, it->has_level_id, it->has_max_lsr,
                              it->has_max_lps, it->has_max_br};
    return FOLD(parts);
}

/* So an RTP packet, a report, and what is counted. */
static uint64_t folded_packet(const h26x_rtp_packet *it)
{
    const h26x_rtp_header *header = &it->header;
    const uint64_t parts[] = {header->timestamp, header->ssrc, header->sequence, header->profile, header->payload_type,
                              header->marker, header->has_extension, it->csrcs_len, it->extension_len, it->payload,
                              it->payload_len, it->padding_len};
    return FOLD(parts);
}

static uint64_t folded_report(const h26x_report *it)
{
    const uint64_t parts[] = {it->ssrc, (uint32_t)it->lost, it->highest, it->jitter, it->last_sender_report, it->delay,
                              it->fraction_lost};
    return FOLD(parts);
}

static uint64_t folded_statistics(const h26x_rtp_statistics *it)
{
    const uint64_t parts[] = {it->expected, it->received, it->bytes, it->recovered, it->jitter, it->expected_before,
                              it->received_before, it->transit, it->base, it->highest, it->after_jump, it->has_transit,
                              it->has_jumped};
    return FOLD(parts);
}

/* And an element of its extension and the blocks of a redundant payload. */
static uint64_t folded_parts(const h26x_rtp_element *element, const h26x_red_block *blocks)
{
    uint64_t parts[3 + 4 * POINTS] = {element->begin, element->len, element->id};
    for (size_t i = 0; i < POINTS; i++) {
        const h26x_red_block *it = &blocks[i];
        const uint64_t block[] = {it->begin, it->len, it->timestamp_offset, it->payload_type};
        memcpy(parts + 3 + 4 * i, block, sizeof block);
    }
    return FOLD(parts);
}

/* And what is told of a datagram and of its sources. */
static uint64_t folded_told(const h26x_rtp_told *it)
{
    const uint64_t parts[] = {it->became, it->ssrc, it->no_media, it->pushed, it->behind, it->sequence, it->payload_type,
                              it->is_recovered};
    return FOLD(parts);
}

static uint64_t folded_sources(const h26x_rtp_sources *it)
{
    const uint64_t parts[] = {it->media, it->rtx, it->has_media, it->has_rtx};
    return FOLD(parts);
}

/* And the streams of a sender, and what it sent. */
static uint64_t folded_streams(const h26x_rtp_streams *it)
{
    const uint64_t parts[] = {it->ssrc, it->rtx_ssrc, it->sequence, it->rtx_sequence, it->payload_type,
                              it->rtx_payload_type, it->has_rtx};
    return FOLD(parts);
}

static uint64_t folded_sent(const h26x_rtp_sent *it)
{
    const uint64_t parts[] = {it->packets, it->bytes, it->rtx_packets, it->rtx_bytes};
    return FOLD(parts);
}

/* Gives one library a call; the pointer of a handle that it made. */
static void *give(int s, const struct drawn *d)
{
    struct answer *a = &answers[s];
    struct outputs o = {11, 12, d->wants >> 8 & 1 ? d->x % 3 : 0, 13, 14, {15, 16}, {17, 18, 19, 20}, 21, 22,
                        {.len = 23}, {.taken = 24}, 25, {.flags = 26}, {{.max_br = 27}}, {.payload = 28}, {.ssrc = 29}, 30,
                        {.ssrc = 31}, {.media = 32}, {.bytes = 33}, {.len = 34}, {.ssrc = 35}, {.bytes = 36}, {.len = 37},
                        {{.len = 38}}};
    void *made = NULL;
    *a = (struct answer){.result = 0};
    memset(a->to, 0xee, sizeof a->to);
    memset(a->ends, 0xff, sizeof a->ends);
    if (d->call == CALL_codec_name || d->call == CALL_strerror) {
        const char *text = d->call == CALL_strerror ? libraries[s].strerror(d->x % 80)
                                                    : libraries[s].codec_name(d->codec);
        snprintf(a->text, sizeof a->text, "%s", text != NULL ? text : "none");
    } else if (kind_made(d->call) != NONE)
        made = makes(s, d, a, &o);
    else if (d->call >= CALL_sdp_answer)
        a->result = describes(s, d, a, &o);
    else if (d->call >= CALL_is_rtcp && d->call <= CALL_rtp_statistics_report)
        a->result = wraps(s, d, a, &o);
    else if (d->call < CALL_packetizer_clone)
        a->result = looks(s, d, a, &o);
    else if (d->call < CALL_depacketizer_clone)
        a->result = sends(s, d, a, &o);
    else if (d->call < CALL_access_units_push)
        a->result = receives(s, d, a, &o);
    else if (d->call < CALL_rtp_receiver_push)
        a->result = receives_units(s, d, a, &o);
    else if (d->call < CALL_rtp_sender_send)
        a->result = receives_datagrams(s, d, a, &o);
    else
        a->result = sends_datagrams(s, d, a, &o);
    const h26x_access_unit *unit = &o.unit;
    const h26x_access_units_counts *counts = &o.counts;
    const uint64_t numbers[NUMBERS] = {
        o.count ^ (uint64_t)o.so_far.len << 20, o.size,
        o.extra ^ o.value << 8 ^ (uint64_t)o.so_far.extra << 56 ^ (uint64_t)o.so_far.timestamp << 24, o.number, (uint64_t)o.gap << 16 | (uint64_t)o.profile << 8 | o.level,
        o.why.first ^ (uint64_t)o.why.second << 32,
        (uint64_t)o.shown.kind << 32 | (uint64_t)o.shown.header << 16 | o.shown.word, o.shown.parts,
        unit->len, unit->timestamp, unit->missing, unit->first, unit->last, unit->extra, unit->is_whole,
        unit->is_clean, unit->is_disposable, unit->continues, counts->taken, counts->lost, counts->late, counts->twice,
        counts->stray, counts->refused, counts->skipped, counts->anew, counts->units, counts->whole,
        counts->units_given_up, counts->texts_given_up, counts->no_unit, counts->still, counts->unbelieved,
        o.said.flags, o.said.len,
        (uint64_t)o.said.frame_only << 2 | (uint64_t)o.said.multilayer << 1 | o.said.general, folded(&o.points[0]),
        folded(&o.points[1]), folded(&o.points[2]), folded_packet(&o.packet), folded_report(&o.report), o.media,
        folded_statistics(&counted[s]), folded_told(&o.told), folded_sources(&o.sources), folded_statistics(&o.counted),
        folded_streams(&o.streams), folded_sent(&o.sent), folded_parts(&o.element, o.blocks)};
    memcpy(a->numbers, numbers, sizeof numbers);
    return made;
}

/* ---- Handles ---- */

/* Frees a handle; of none, NULL. */
static void put_down(struct held *h, enum kind kind)
{
    for (int s = 0; s < 2; s++) {
        void *at = h->kind == NONE ? NULL : h->at[s];
        if (kind == PACKETIZER)
            libraries[s].packetizer_free((h26x_packetizer){at});
        if (kind == DEPACKETIZER)
            libraries[s].depacketizer_free((h26x_depacketizer){at});
        if (kind == RECEIVER)
            libraries[s].receiver_free((h26x_receiver){{at}});
        if (kind == ACCESS_UNITS)
            libraries[s].access_units_free((h26x_access_units){at});
        if (kind == RTP_SENDER)
            libraries[s].rtp_sender_free((h26x_rtp_sender){at});
        if (kind == RTP_RECEIVER)
            libraries[s].rtp_receiver_free((h26x_rtp_receiver){at});
        if (kind == SDP)
            libraries[s].sdp_free((h26x_sdp){at});
    }
    h->kind = NONE;
}

/* A handle that was made takes the place of another one. */
static void take_up(const struct drawn *d, void *const made[2])
{
    const bool is_copy = d->call >= CALL_packetizer_clone;
    const uint32_t codec = is_copy ? d->h->codec : d->codec;
    struct held *h = &held[below(HELD)];
    put_down(h, h->kind);
    *h = (struct held){kind_made(d->call), codec, draw() & 0xffff, {made[0], made[1]}};
}

/* Whether the call that was drawn can't be made: of two handles one is missing, or both are one. */
static bool is_none(const struct drawn *d)
{
    return (d->call == CALL_depacketizer_same && (d->other_h->kind == NONE || d->other_h == d->h))
        || (CALL_sdp_answer <= d->call && d->call <= CALL_sdp_accepts_declared && d->other_h->kind == NONE);
}

/* Keeps the packets that were copied. */
static void keep_packets(const struct drawn *d)
{
    const struct answer *a = &answers[0];
    if (d->call != CALL_packets_copy || !d->has_to || !d->has_ends)
        return;
    for (size_t i = 0, begins = 0; i < a->result; begins = a->ends[i++])
        keep(d->h->codec, a->to + begins, a->ends[i] - begins);
}

/* How many requests of calls were refused, and how many calls answered so. */
static unsigned long requests_refused, calls_refused;

/* Whether a call wrote nothing into the memory that it was lent. */
static bool wrote_nothing(const struct answer *a)
{
    const uint8_t *ends = (const uint8_t *)a->ends;
    return a->to[0] == 0xee && memcmp(a->to, a->to + 1, sizeof a->to - 1) == 0 && ends[0] == 0xff
        && memcmp(ends, ends + 1, sizeof a->ends - 1) == 0;
}

/* Gives one library a call, of which requests for memory may be refused: then it is made again. */
static void *give_or_refuse(int s, const struct drawn *d)
{
    const struct library *l = &libraries[s];
    if (l->refuse_requests == NULL || one_in(2))
        return give(s, d);
    l->refuse_requests(below(one_in(4) ? 12 : 3), one_in(2));
    void *made = give(s, d);
    const unsigned long refused = l->refuse_requests(-1, false);
    requests_refused += refused;
    if (refused == 0 || answers[s].result != H26X_OUT_OF_MEMORY)
        return made;
    calls_refused++;
    if (made != NULL || (d->call != CALL_set_lowest_header && !wrote_nothing(&answers[s]))) {
        printf("h26x_%s was refused memory and wrote something\n", names[d->call]);
        exit(1);
    }
    return give(s, d);
}

/* Gives both libraries a call; whether both answer the same. */
static bool same(const struct drawn *d)
{
    void *made[2];
    if (d->call >= CALL_packetizer_free && d->call <= CALL_sdp_free) {
        if (d->h->kind == NONE)
            put_down(d->h, PACKETIZER + (d->call - CALL_packetizer_free));
        else if (one_in(3))
            put_down(d->h, d->h->kind);
        return true;
    }
    for (int s = 0; s < 2; s++)
        made[s] = give_or_refuse(s, d);
    if (memcmp(&answers[0], &answers[1], sizeof answers[0]) != 0
        || (made[0] == NULL) != (made[1] == NULL)) {
        show_difference(d->call);
        return false;
    }
    add_answer(&answers[0]);
    keep_packets(d);
    if ((d->call == CALL_receive || d->call == CALL_access_units_push || d->call == CALL_rtp_receiver_push)
        && answers[0].result == H26X_OK)
        d->h->sequence = d->sequence + 1;
    if (made[0] != NULL)
        take_up(d, made);
    return true;
}

/* Which call is made, and of which seed. */
static unsigned long long at_call;
static const char *seed;

/* A call that ends the process is a difference too. */
static void ended(int of)
{
    printf("signal %d at call %llu of seed %s\n", of, at_call, seed);
    fflush(stdout);
    _Exit(1);
}

int main(int argc, char **argv)
{
    if (argc != 5) {
        fprintf(stderr, "usage: compare A.so B.so SECONDS|=CALLS SEED\n");
        return 2;
    }
    libraries[0] = opened(argv[1]), libraries[1] = opened(argv[2]);
    printf("%s; %s\n", libraries[0].origin(), libraries[1].origin());
    refuses = libraries[0].refuse_requests != NULL || libraries[1].refuse_requests != NULL;
    seed = argv[4];
    begin(strtoull(seed, NULL, 10));
    signal(SIGABRT, ended);
    signal(SIGSEGV, ended);
    const bool is_counted = argv[3][0] == '=';
    const unsigned long long most = strtoull(argv[3] + is_counted, NULL, 10);
    const time_t end = time(NULL) + (time_t)most;
    for (; is_counted ? at_call < most : at_call % 1024 != 0 || time(NULL) < end; at_call++) {
        struct drawn d = draw_all();
        if (!is_none(&d) && !same(&d)) {
            printf("call %llu of seed %s\n", at_call, seed);
            return 1;
        }
    }
    for (size_t i = 0; i < HELD; i++)
        put_down(&held[i], held[i].kind);
    if (requests_refused > 0)
        printf("%lu requests refused, %lu calls made again; ", requests_refused, calls_refused);
    printf("%llu drawn calls of seed %s, no difference, sum %016llx\n", at_call, seed,
           (unsigned long long)sum);
    return 0;
}
