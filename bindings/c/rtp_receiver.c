/* Datagrams of one stream, given to a receiver of datagrams, and beside it read and put in order by the calls that it is
 * made of: what is told, asked, counted and given out is the same (RFC 3550, RFC 5761, RFC 4588, RFC 2198, RFC 4585). */
#include "calls.h"
#include <string.h>

/* The payload types of all streams here, and their SSRCs: the stream's, that of its retransmissions, a stranger's. */
enum { MEDIA = 96, RTX = 97, RED = 98, RTX_OF_RED = 99, FEC = 100, OTHER = 101 };
enum { STREAM = 1, RESENT = 2, STRANGER = 3 };
static const h26x_rtp_payload_types types = {MEDIA, RTX, RED, RTX_OF_RED, FEC, true, true, true, true};
static const h26x_rtp_sources sources = {STREAM, RESENT, true, true};

/* A codec's parameter sets, the first slice of a keyframe, and one of a picture to which others refer and of one to which
 * none does (RFC 6184, 1.3; RFC 7798, 1.1.4; RFC 9328, 1.1.4). */
static const struct codec {
    uint32_t number;
    const char *key_units, *key, *slice, *unreferenced;
} codecs[] = {
    {H26X_H264, "000001 6742c01f 000001 68ce 000001 6588", "6588", "619a", "019a"},
    {H26X_H265, "000001 40010c 000001 420101 000001 4401c1 000001 2601ac", "2601ac", "0201d0", "0001d0"},
    {H26X_H266, "000001 007900 000001 008100 000001 0041c0", "0041c0", "0001c0", "0001e0"},
};

static h26x_access_units_config settings(const struct codec *c)
{
    return (h26x_access_units_config){.codec = c->number,
                                      .max_wait = 100,
                                      .window = 64,
                                      .far_away = 3000,
                                      .far_behind = 100,
                                      .held_limit = 4000,
                                      .run_limit = 1000,
                                      .unit_limit = 1000};
}

/* ---- By hand ---- */

/* A receiver, and what stands for it. */
struct both {
    struct tally *tally;
    h26x_rtp_receiver r;
    h26x_access_units u;
    h26x_rtp_sources known;
    h26x_rtp_statistics statistics;
    bool has_begun, goes_on, has_asked;
    uint32_t asked;
};

static struct both both_of(struct tally *t, const struct codec *c, bool has_sets)
{
    struct both it = {.tally = t};
    h26x_access_units_config config = settings(c);
    config.has_sets = has_sets;
    expect(t, h26x_rtp_receiver_new(&config, &types, &it.r) == H26X_OK);
    expect(t, h26x_access_units_new(&config, &it.u) == H26X_OK);
    return it;
}

static void free_both(struct both *it)
{
    h26x_rtp_receiver_close(&it->r);
    h26x_rtp_receiver_close(&it->r);
    expect(it->tally, it->r.at == NULL);
    h26x_access_units_close(&it->u);
}

static void follow(struct both *it, const h26x_rtp_sources *to)
{
    expect(it->tally, h26x_rtp_receiver_follow(&it->r, to) == H26X_OK);
    expect(it->tally, h26x_access_units_restart(&it->u) == H26X_OK);
    it->known = *to;
    it->statistics = (h26x_rtp_statistics){0};
    it->has_begun = it->goes_on = it->has_asked = false;
}

/* Whether a number is missing (RFC 4588, 5.3). */
static bool is_missing(const struct both *it, uint16_t number)
{
    uint16_t numbers[256];
    size_t count;
    expect(it->tally, h26x_access_units_missing(&it->u, numbers, 256, &count) == H26X_OK && count <= 256);
    for (size_t i = 0; i < count; i++)
        if (numbers[i] == number)
            return true;
    return false;
}

static bool is_rtx(uint8_t payload_type)
{
    return payload_type == RTX || payload_type == RTX_OF_RED;
}

/* Whether a packet is of the stream. */
static bool is_of_stream(const struct both *it, const h26x_rtp_packet *p, const uint8_t *at)
{
    const h26x_rtp_header *h = &p->header;
    if (!it->known.has_media)
        return h->payload_type == MEDIA || h->payload_type == RED;
    if (h->ssrc == it->known.media || !is_rtx(h->payload_type))
        return h->ssrc == it->known.media;
    if (it->known.has_rtx)
        return h->ssrc == it->known.rtx;
    return p->payload_len >= 2 && is_missing(it, (uint16_t)(at[p->payload] << 8 | at[p->payload + 1]));
}

/* Once a packet of the stream came: whose SSRC it told, and what is counted. */
static void note(struct both *it, uint32_t arrival, const h26x_rtp_packet *came, const h26x_rtp_told *told)
{
    if (!it->known.has_media || it->known.media == came->header.ssrc) {
        it->known.media = came->header.ssrc;
        it->known.has_media = true;
    } else {
        it->known.rtx = came->header.ssrc;
        it->known.has_rtx = true;
    }
    if (!told->is_recovered)
        h26x_rtp_statistics_receive(&it->statistics, arrival, came->header.sequence, came->header.timestamp,
                                    came->payload_len);
    else if (told->pushed != H26X_PUSHED_LATE && told->pushed != H26X_TWICE && told->pushed != H26X_FULL)
        h26x_rtp_statistics_recover(&it->statistics);
}

/* Gives a packet of the stream, RTX undone, to the receiver of access units: RED is undone. */
static uint32_t take_packet(struct both *it, uint32_t now, const h26x_rtp_packet *p, const uint8_t *at,
                            h26x_rtp_told *told)
{
    const uint8_t *payload = at + p->payload;
    size_t len = p->payload_len, place;
    uint8_t type = p->header.payload_type;
    told->sequence = p->header.sequence;
    if (len > 0 && type == RED) {
        const uint32_t code = h26x_red_primary(payload, len, &type, &place);
        if (code != H26X_OK)
            return code;
        payload += place;
        len -= place;
    }
    if (len > 0 && type == MEDIA)
        return h26x_access_units_push(&it->u, now, p->header.sequence, p->header.timestamp, p->header.marker, payload,
                                      len, &told->pushed, &told->behind);
    told->no_media = len == 0 ? H26X_RTP_PADDING_ALONE : type == FEC ? H26X_RTP_FEC : H26X_RTP_OTHER_TYPE;
    told->payload_type = told->no_media == H26X_RTP_OTHER_TYPE ? type : 0;
    return h26x_access_units_skip(&it->u, now, p->header.sequence, &told->pushed, &told->behind);
}

/* Takes a datagram by hand, and tells what is to be told of it. */
static uint32_t take_datagram(struct both *it, uint32_t now, uint32_t arrival, const uint8_t *at, size_t len,
                              h26x_rtp_told *told)
{
    h26x_rtp_packet came, p;
    told->became = H26X_RTP_RTCP;
    if (h26x_is_rtcp(at, len))
        return H26X_OK;
    uint32_t code = h26x_rtp_read(at, len, &came);
    if (code != H26X_OK)
        return code;
    const uint8_t type = came.header.payload_type;
    if (!is_of_stream(it, &came, at)) {
        told->became = type == MEDIA || type == RED ? H26X_RTP_NEW_SOURCE : H26X_RTP_OTHER_SOURCE;
        told->ssrc = came.header.ssrc;
        return H26X_OK;
    }
    p = came;
    told->became = H26X_RTP_PROBE;
    told->is_recovered = is_rtx(type);
    if (is_rtx(type) && h26x_rtp_original(at, len, type == RTX ? MEDIA : RED, it->known.media, &p) != H26X_OK) {
        told->is_recovered = false;
        return H26X_OK;
    }
    told->became = H26X_RTP_TAKEN;
    code = take_packet(it, now, &p, at, told);
    if (code == H26X_OK)
        note(it, arrival, &came, told);
    return code;
}

static bool is_same_told(const h26x_rtp_told *a, const h26x_rtp_told *b)
{
    return a->became == b->became && a->ssrc == b->ssrc && a->no_media == b->no_media && a->pushed == b->pushed
        && a->behind == b->behind && a->sequence == b->sequence && a->payload_type == b->payload_type
        && a->is_recovered == b->is_recovered;
}

static bool is_same_unit(const h26x_access_unit *a, const h26x_access_unit *b)
{
    return a->len == b->len && a->timestamp == b->timestamp && a->missing == b->missing && a->first == b->first
        && a->last == b->last && a->extra == b->extra && a->is_whole == b->is_whole && a->is_clean == b->is_clean
        && a->is_disposable == b->is_disposable && a->continues == b->continues;
}

/* Takes the access units that have ended; how many they are. */
static size_t take_units(struct both *it, uint32_t now)
{
    struct tally *t = it->tally;
    uint8_t a[ROOM], b[ROOM];
    h26x_access_unit of_r, of_u;
    uint32_t code;
    size_t count = 0;
    while ((code = h26x_rtp_receiver_next(&it->r, now, a, sizeof a, &of_r)) == H26X_OK) {
        expect(t, h26x_access_units_next(&it->u, now, b, sizeof b, &of_u) == H26X_OK);
        expect(t, is_same_unit(&of_r, &of_u) && memcmp(a, b, of_r.len) == 0);
        it->has_begun = true;
        it->goes_on = of_u.is_clean || (of_u.is_disposable && it->goes_on);
        count++;
    }
    expect(t, code == H26X_NOTHING_YET && h26x_access_units_next(&it->u, now, b, sizeof b, &of_u) == H26X_NOTHING_YET);
    return count;
}

/* Whether a keyframe is to be asked for, by what was given out. */
static bool wants_keyframe(struct both *it, uint32_t now, uint32_t again)
{
    const bool wants = it->has_begun && !it->goes_on && (!it->has_asked || now - it->asked >= again);
    it->asked = wants ? now : it->asked;
    it->has_asked = it->has_asked || wants;
    return wants;
}

/* What came so far of the access unit that is open, from the third byte on. */
static void compare_so_far(struct both *it)
{
    struct tally *t = it->tally;
    uint8_t of_r[64] = {7}, of_u[64] = {7};
    h26x_so_far r_told = {.len = 9}, u_told = {.len = 9};
    const bool is_open = h26x_access_units_so_far(&it->u, 3, of_u, sizeof of_u, &u_told);
    expect(t, h26x_rtp_receiver_so_far(&it->r, 3, of_r, sizeof of_r, &r_told) == is_open);
    expect(t, r_told.len == u_told.len && memcmp(of_r, of_u, sizeof of_r) == 0);
    expect(t, !is_open || (r_told.timestamp == u_told.timestamp && r_told.extra == u_told.extra));
}

/* What is asked and told at this tick. */
static void compare_asked(struct both *it, uint32_t now)
{
    static const h26x_nack_times times = {.first = 5, .again = 20, .most = 3};
    struct tally *t = it->tally;
    uint16_t of_r[8] = {7}, of_u[8] = {7};
    size_t r_count = 99, u_count = 99;
    uint32_t r_at = 7, u_at = 7;
    expect(t, h26x_rtp_receiver_nacks(&it->r, now, &times, of_r, 8, &r_count) == H26X_OK);
    expect(t, h26x_access_units_nacks(&it->u, now, &times, of_u, 8, &u_count) == H26X_OK);
    expect(t, r_count == u_count && memcmp(of_r, of_u, sizeof of_r) == 0);
    expect(t, h26x_rtp_receiver_deadline(&it->r, &r_at) == h26x_access_units_deadline(&it->u, &u_at) && r_at == u_at);
    expect(t, h26x_rtp_receiver_keyframe_wanted(&it->r, now, 50) == wants_keyframe(it, now, 50));
    compare_so_far(it);
}

static bool is_same_report(const h26x_report *a, const h26x_report *b)
{
    return a->ssrc == b->ssrc && a->lost == b->lost && a->highest == b->highest && a->jitter == b->jitter
        && a->last_sender_report == b->last_sender_report && a->delay == b->delay
        && a->fraction_lost == b->fraction_lost;
}

/* What is counted, known and reported. */
static void compare_counted(struct both *it)
{
    struct tally *t = it->tally;
    h26x_access_units_counts of_r, of_u;
    h26x_rtp_statistics counted;
    h26x_rtp_sources known;
    h26x_report reported, wanted;
    expect(t, h26x_rtp_receiver_count(&it->r, &of_r) == H26X_OK);
    expect(t, h26x_access_units_count(&it->u, &of_u) == H26X_OK && memcmp(&of_r, &of_u, sizeof of_r) == 0);
    expect(t, h26x_rtp_receiver_sources(&it->r, &known) == H26X_OK);
    expect(t, known.media == it->known.media && known.has_media == it->known.has_media);
    expect(t, known.rtx == it->known.rtx && known.has_rtx == it->known.has_rtx);
    expect(t, h26x_rtp_receiver_statistics(&it->r, &counted) == H26X_OK);
    const h26x_rtp_statistics *by_hand = &it->statistics;
    expect(t, counted.expected == by_hand->expected && counted.received == by_hand->received);
    expect(t, counted.bytes == by_hand->bytes && counted.recovered == by_hand->recovered);
    expect(t, counted.jitter == by_hand->jitter && counted.transit == by_hand->transit);
    expect(t, counted.base == by_hand->base && counted.highest == by_hand->highest);
    expect(t, counted.expected_before == by_hand->expected_before);
    expect(t, counted.received_before == by_hand->received_before && counted.after_jump == by_hand->after_jump);
    expect(t, counted.has_transit == by_hand->has_transit && counted.has_jumped == by_hand->has_jumped);
    memset(&reported, 0xee, sizeof reported);
    wanted = reported;
    const bool is_told = h26x_rtp_receiver_report(&it->r, 8, 9, &reported);
    expect(t, is_told == it->known.has_media);
    if (is_told)
        h26x_rtp_statistics_report(&it->statistics, it->known.media, 8, 9, &wanted);
    expect(t, is_same_report(&reported, &wanted));
}

/* Gives a datagram to both. */
static uint32_t push(struct both *it, uint32_t now, const uint8_t *at, size_t len, h26x_rtp_told *told)
{
    h26x_rtp_told wanted = {0}, before;
    memset(told, 0xee, sizeof *told);
    before = *told;
    const uint32_t arrival = now * 90;
    const uint32_t code = h26x_rtp_receiver_push(&it->r, now, arrival, at, len, told);
    expect(it->tally, code == take_datagram(it, now, arrival, at, len, &wanted));
    expect(it->tally, is_same_told(told, code == H26X_OK ? &wanted : &before));
    return code;
}

/* ---- Drawn streams ---- */

enum { PACKETS = 256, LONGEST = 120, UNITS = 24, FILLED = 90 };

/* What was sent, and a generator of numbers (the constants are those of MMIX, Knuth). */
struct sent {
    uint64_t state;
    uint8_t at[PACKETS][LONGEST];
    size_t lens[PACKETS], count;
    h26x_rtp_header header;
    uint16_t rtx_sequence;
};

static uint32_t below(struct sent *s, uint32_t n)
{
    s->state = s->state * 6364136223846793005u + 1442695040888963407u;
    return (uint32_t)(s->state >> 33) % n;
}

/* Sends a payload of a payload type, as it is or as the primary block of RED behind none or one of FEC. */
static void send(struct tally *t, struct sent *s, uint8_t type, const uint8_t *payload, size_t len)
{
    static const uint8_t padding[] = {0, 0, 3};
    uint8_t block[LONGEST] = {0x80 | FEC, 0, 0, 2};
    const uint32_t form = below(s, 4);
    size_t before = 0;
    if (form < 2)
        before = form == 0 ? 1 : 7;
    if (before > 0) {
        block[before == 1 ? 0 : 4] = type; /* the bytes of FEC stand between */
        memcpy(block + before, payload, len);
    }
    s->header.payload_type = before > 0 ? RED : type;
    const size_t padding_len = below(s, 8) == 0 ? sizeof padding : 0;
    expect(t, s->count < PACKETS);
    expect(t,
           h26x_rtp_write(&s->header, NULL, 0, NULL, 0, before > 0 ? block : payload, before + len, padding,
                          padding_len, s->at[s->count], LONGEST, &s->lens[s->count])
               == H26X_OK);
    s->count++;
    s->header.sequence++;
}

/* What bears nothing of the codec. */
static void send_none(struct tally *t, struct sent *s)
{
    static const uint8_t payload[] = {1, 2, 3};
    switch (below(s, 8)) {
    case 0:
        send(t, s, MEDIA, payload, 0);
        break;
    case 1:
        send(t, s, FEC, payload, sizeof payload);
        break;
    case 2:
        send(t, s, OTHER, payload, sizeof payload);
        break;
    default:
        break;
    }
}

/* Sends access units, of which each eighth is a keyframe. */
static void send_units(struct tally *t, struct sent *s, const struct codec *c)
{
    h26x_packetizer p;
    size_t count;
    expect(t, h26x_packetizer_new(c->number, false, &p) == H26X_OK);
    for (uint32_t n = 0; n < UNITS; n++) {
        const char *slice = n % 3 == 2 ? c->unreferenced : c->slice;
        struct bytes unit = bytes_of(n % 8 == 0 ? c->key_units : slice);
        memset(unit.at + unit.len, 0x2a, FILLED);
        expect(t, h26x_packetize(&p, 24, unit.at, unit.len + below(s, FILLED), &count) == H26X_OK);
        for (size_t i = 0; i < count; i++) {
            uint8_t packet[64];
            s->header.marker = i + 1 == count;
            send(t, s, MEDIA, packet, h26x_packet_copy(&p, i, packet, sizeof packet));
            s->header.marker = false;
            send_none(t, s);
        }
        s->header.timestamp += 3000;
    }
    h26x_packetizer_free(p);
}

/* A packet again as a retransmission, some of whose numbers the stream has passed. */
static size_t resend(struct tally *t, struct sent *s, size_t n, uint8_t *to)
{
    h26x_rtp_packet p;
    size_t len = 0;
    expect(t, h26x_rtp_read(s->at[n], s->lens[n], &p) == H26X_OK);
    const uint8_t type = p.header.payload_type == RED ? RTX_OF_RED : RTX;
    expect(t, h26x_rtx_write(s->at[n], s->lens[n], type, s->rtx_sequence++, RESENT, to, 2 * LONGEST, &len) == H26X_OK);
    return len;
}

/* What a stranger sends, or anybody: another source, a probe, RTCP, or a packet that is cut or has a bit turned. */
static size_t disturb(struct tally *t, struct sent *s, size_t n, uint8_t *to)
{
    h26x_rtp_header header = {.payload_type = RTX, .ssrc = RESENT, .sequence = s->rtx_sequence};
    size_t len = 0;
    memcpy(to, s->at[n], s->lens[n]);
    switch (below(s, 6)) {
    case 0:
        to[11] = STRANGER;
        return s->lens[n];
    case 1:
        len = resend(t, s, n, to);
        to[11] = STRANGER;
        return len;
    case 2:
        expect(t, h26x_rtp_write(&header, NULL, 0, NULL, 0, NULL, 0, NULL, 0, to, LONGEST, &len) == H26X_OK);
        return len;
    case 3:
        expect(t, h26x_pli_write(1, 2, to, LONGEST, &len) == H26X_OK);
        return len;
    case 4:
        return below(s, (uint32_t)s->lens[n]);
    default:
        to[below(s, (uint32_t)s->lens[n])] ^= (uint8_t)(1u << below(s, 8));
        return s->lens[n];
    }
}

/* What comes of the n-th packet: it is lost, comes twice, late or as it is; others are sent again, or come between. The
 * first one comes alone, since it may tell the SSRC. */
static void bring(struct both *it, struct sent *s, size_t n, uint32_t now)
{
    uint8_t other[2 * LONGEST];
    h26x_rtp_told told;
    const size_t before = below(s, (uint32_t)n + 1);
    if (n == 0 || below(s, 8) != 0)
        push(it, now, s->at[n], s->lens[n], &told);
    if (n == 0)
        return;
    if (below(s, 8) == 0)
        push(it, now, s->at[before], s->lens[before], &told);
    if (below(s, 3) == 0)
        push(it, now, other, resend(it->tally, s, n - below(s, n < 8 ? (uint32_t)n + 1 : 8), other), &told);
    if (below(s, 4) == 0)
        push(it, now, other, disturb(it->tally, s, before, other), &told);
}

/* A stream through such a network, from its first packet on, which tells its SSRC, or by what a description told. */
static void check_drawn(struct tally *t, const struct codec *c, bool is_told)
{
    static const h26x_rtp_sources media = {.media = STREAM, .has_media = true};
    struct both it = both_of(t, c, is_told);
    struct sent s = {.state = t->passed, .header = {.sequence = 65500, .ssrc = STREAM}};
    uint32_t now = UINT32_MAX - 200;
    size_t units = 0;
    if (is_told)
        follow(&it, &sources);
    send_units(t, &s, c);
    for (size_t n = 0; n < s.count; n++, now += 3) {
        bring(&it, &s, n, now);
        units += take_units(&it, now);
        compare_asked(&it, now);
        if (n % 16 == 0)
            compare_counted(&it);
        if (n == s.count / 2 && below(&s, 2) == 0)
            follow(&it, &media);
    }
    expect(t, h26x_rtp_receiver_finish(&it.r) == H26X_OK && h26x_access_units_finish(&it.u) == H26X_OK);
    units += take_units(&it, now);
    compare_counted(&it);
    expect(t, units > 0);
    free_both(&it);
}

/* ---- Row by row ---- */

/* The first bytes of a packet with the marker: payload type, number and SSRC of one byte each. */
static struct bytes datagram(uint8_t type, uint8_t number, uint8_t ssrc, const char *payload)
{
    struct bytes it = {.at = {0x80, (uint8_t)(0x80 | type), 0, number, 0, 0, 0, 9, 0, 0, 0, ssrc}, .len = 12};
    const struct bytes rest = bytes_of(payload);
    memcpy(it.at + 12, rest.at, rest.len);
    it.len += rest.len;
    return it;
}

/* What is told of a datagram to a receiver that follows the SSRCs 1 and, of RTX, 2, where 3 and 5 came before. */
static void check_told(struct tally *t, const struct codec *c)
{
    const struct {
        uint8_t type, number, ssrc;
        const char *payload;
        uint32_t code;
        h26x_rtp_told told;
    } rows[] = {
        {MEDIA, 6, STREAM, c->slice, H26X_OK, {.sequence = 6}},
        {MEDIA, 5, STREAM, c->slice, H26X_OK, {.sequence = 5, .pushed = H26X_TWICE}},
        {MEDIA, 6, STREAM, "", H26X_OK, {.sequence = 6, .no_media = H26X_RTP_PADDING_ALONE}},
        {FEC, 6, STREAM, "01", H26X_OK, {.sequence = 6, .no_media = H26X_RTP_FEC}},
        {OTHER, 6, STREAM, "01", H26X_OK, {.sequence = 6, .no_media = H26X_RTP_OTHER_TYPE, .payload_type = OTHER}},
        {RED, 6, STREAM, "65 01", H26X_OK, {.sequence = 6, .no_media = H26X_RTP_OTHER_TYPE, .payload_type = OTHER}},
        {RED, 6, STREAM, "64 01", H26X_OK, {.sequence = 6, .no_media = H26X_RTP_FEC}},
        {RED, 6, STREAM, "60", H26X_OK, {.sequence = 6, .no_media = H26X_RTP_PADDING_ALONE}},
        {RED, 6, STREAM, "e4", H26X_RED_HEADERS_PAST_THE_END, {0}},
        {RED, 6, STREAM, "e4 00 00 09 60 01", H26X_RED_BLOCKS_PAST_THE_END, {0}},
        {RTX, 200, RESENT, "0004 aa", H26X_OK, {.sequence = 4, .is_recovered = true}},
        {RTX, 200, RESENT, "0004", H26X_OK, {.sequence = 4, .is_recovered = true, .no_media = H26X_RTP_PADDING_ALONE}},
        {RTX, 200, RESENT, "0003 aa", H26X_OK, {.sequence = 3, .is_recovered = true, .pushed = H26X_TWICE}},
        {RTX_OF_RED, 200, RESENT, "0004 60 aa", H26X_OK, {.sequence = 4, .is_recovered = true}},
        {RTX_OF_RED, 200, RESENT, "0004 e4", H26X_RED_HEADERS_PAST_THE_END, {0}},
        {RTX, 200, RESENT, "00", H26X_OK, {.became = H26X_RTP_PROBE}},
        {RTX, 200, STREAM, "", H26X_OK, {.became = H26X_RTP_PROBE}},
        {MEDIA, 6, STRANGER, "01", H26X_OK, {.became = H26X_RTP_NEW_SOURCE, .ssrc = STRANGER}},
        {RED, 6, RESENT, "01", H26X_OK, {.became = H26X_RTP_NEW_SOURCE, .ssrc = RESENT}},
        {RTX, 6, STRANGER, "0004 aa", H26X_OK, {.became = H26X_RTP_OTHER_SOURCE, .ssrc = STRANGER}},
        {OTHER, 6, STRANGER, "01", H26X_OK, {.became = H26X_RTP_OTHER_SOURCE, .ssrc = STRANGER}},
        {200 - 128, 6, STREAM, "", H26X_OK, {.became = H26X_RTP_RTCP}},
    };
    for (size_t i = 0; i < sizeof rows / sizeof rows[0]; i++) {
        struct both it = both_of(t, c, true);
        const struct bytes third = datagram(MEDIA, 3, STREAM, c->key), fifth = datagram(MEDIA, 5, STREAM, c->slice);
        const struct bytes in = datagram(rows[i].type, rows[i].number, rows[i].ssrc, rows[i].payload);
        h26x_rtp_told told, before;
        follow(&it, &sources);
        expect(t, push(&it, 0, third.at, third.len, &told) == H26X_OK && told.sequence == 3);
        expect(t, take_units(&it, 0) == 1);
        expect(t, push(&it, 0, fifth.at, fifth.len, &told) == H26X_OK && told.became == H26X_RTP_TAKEN);
        memset(&before, 0xee, sizeof before);
        expect(t, push(&it, 1, in.at, in.len, &told) == rows[i].code);
        expect(t, is_same_told(&told, rows[i].code == H26X_OK ? &rows[i].told : &before));
        compare_counted(&it);
        free_both(&it);
    }
}

/* The SSRC of the stream is that of its first packet, and that of RTX the one that bears what is missing; a new one is
 * followed once it is told. */
static void check_sources(struct tally *t, const struct codec *c)
{
    struct both it = both_of(t, c, true);
    const struct bytes rtx = datagram(RTX, 200, RESENT, "0004 aa"), key = datagram(MEDIA, 3, STREAM, c->key);
    const struct bytes slice = datagram(MEDIA, 5, STREAM, c->slice), other = datagram(MEDIA, 9, STRANGER, c->key);
    h26x_rtp_told told;
    compare_counted(&it);
    push(&it, 0, rtx.at, rtx.len, &told);
    expect(t, told.became == H26X_RTP_OTHER_SOURCE && told.ssrc == RESENT);
    push(&it, 0, key.at, key.len, &told);
    expect(t, told.became == H26X_RTP_TAKEN && take_units(&it, 0) == 1);
    push(&it, 0, rtx.at, rtx.len, &told);
    expect(t, told.became == H26X_RTP_OTHER_SOURCE && told.ssrc == RESENT);
    push(&it, 0, slice.at, slice.len, &told);
    push(&it, 0, rtx.at, rtx.len, &told);
    expect(t, told.became == H26X_RTP_TAKEN && told.is_recovered);
    compare_counted(&it);
    push(&it, 0, other.at, other.len, &told);
    expect(t, told.became == H26X_RTP_NEW_SOURCE && told.ssrc == STRANGER);
    const h26x_rtp_sources its = {.media = told.ssrc, .has_media = true};
    follow(&it, &its);
    push(&it, 0, other.at, other.len, &told);
    expect(t, told.became == H26X_RTP_TAKEN && told.sequence == 9 && take_units(&it, 0) == 1);
    compare_counted(&it);
    free_both(&it);
}

/* A keyframe is asked for where what came lets no decoder go on, and not again for 50 ticks; one that comes ends it. */
static void check_keyframes(struct tally *t, const struct codec *c)
{
    struct both it = both_of(t, c, true);
    const struct bytes slice = datagram(MEDIA, 3, STREAM, c->slice), key = datagram(MEDIA, 4, STREAM, c->key);
    h26x_rtp_told told;
    expect(t, !h26x_rtp_receiver_keyframe_wanted(&it.r, 0, 50));
    push(&it, 0, slice.at, slice.len, &told);
    expect(t, !h26x_rtp_receiver_keyframe_wanted(&it.r, 0, 50) && take_units(&it, 0) == 1);
    expect(t, h26x_rtp_receiver_keyframe_wanted(&it.r, 7, 50) && !h26x_rtp_receiver_keyframe_wanted(&it.r, 56, 50));
    expect(t, h26x_rtp_receiver_keyframe_wanted(&it.r, 57, 50));
    push(&it, 60, key.at, key.len, &told);
    expect(t, take_units(&it, 60) == 1 && !h26x_rtp_receiver_keyframe_wanted(&it.r, 1000, 50));
    free_both(&it);
}

/* An access unit that has no room is kept, also where another source is followed; and other settings. */
static void check_room(struct tally *t, const struct codec *c)
{
    struct both it = both_of(t, c, true);
    const struct bytes key = datagram(MEDIA, 3, STREAM, c->key), slice = datagram(MEDIA, 9, STREAM, c->slice);
    const size_t wanted = key.len - 12 + 4;
    h26x_access_units_config config = settings(c);
    h26x_access_unit unit = {0};
    h26x_rtp_told told;
    uint8_t to[64] = {7};
    push(&it, 0, key.at, key.len, &told);
    for (size_t room = 0; room < wanted; room++)
        expect(t,
               h26x_rtp_receiver_next(&it.r, 0, to, room, &unit) == H26X_NO_ROOM && unit.len == wanted && to[0] == 7);
    expect(t, h26x_rtp_receiver_next(&it.r, 0, NULL, 64, NULL) == H26X_NO_ROOM);
    expect(t, h26x_rtp_receiver_follow(&it.r, &sources) == H26X_OK);
    expect(t, h26x_rtp_receiver_next(&it.r, 0, to, wanted, NULL) == H26X_OK);
    expect(t, memcmp(to + 4, key.at + 12, wanted - 4) == 0);
    expect(t, h26x_rtp_receiver_next(&it.r, 0, to, sizeof to, &unit) == H26X_NOTHING_YET);

    expect(t, h26x_rtp_receiver_push(&it.r, 0, 0, key.at, key.len, NULL) == H26X_OK);
    expect(t, h26x_rtp_receiver_next(&it.r, 0, to, sizeof to, &unit) == H26X_OK && unit.first == 3);
    expect(t, h26x_rtp_receiver_push(&it.r, 0, 0, slice.at, slice.len, NULL) == H26X_OK);
    expect(t, h26x_rtp_receiver_next(&it.r, 0, to, sizeof to, &unit) == H26X_NOTHING_YET);
    config.window = 0;
    expect(t, h26x_rtp_receiver_set_config(&it.r, &config) == H26X_OUT_OF_RANGE);
    expect(t, h26x_rtp_receiver_next(&it.r, 0, to, sizeof to, &unit) == H26X_NOTHING_YET);
    config.window = 1;
    expect(t, h26x_rtp_receiver_set_config(&it.r, &config) == H26X_OK);
    expect(t,
           h26x_rtp_receiver_next(&it.r, 0, to, sizeof to, &unit) == H26X_OK && unit.first == 9 && unit.missing == 5);
    free_both(&it);
}

/* What is refused where one is made, what may be left out, and payload types that aren't there. */
static void check_left_out(struct tally *t, const struct codec *c)
{
    const h26x_rtp_payload_types alone = {.media = MEDIA, .rtx = RTX, .red = RED, .rtx_of_red = RTX_OF_RED, .fec = FEC};
    const h26x_nack_times times = {.most = 1};
    const struct bytes key = datagram(MEDIA, 3, STREAM, c->key), red = datagram(RED, 4, STREAM, "60aa");
    const struct bytes later = datagram(MEDIA, 9, STREAM, c->slice);
    h26x_access_units_config config = settings(c);
    h26x_rtp_receiver r = {NULL};
    h26x_rtp_told told = {.payload_type = 9};
    uint16_t numbers[2] = {7, 7};
    size_t count = 99;
    config.window = 0;
    expect(t, h26x_rtp_receiver_new(&config, &alone, &r) == H26X_OUT_OF_RANGE);
    config.window = 16385;
    expect(t, h26x_rtp_receiver_new(&config, &alone, &r) == H26X_OUT_OF_RANGE);
    config.window = 16384;
    config.codec = 263;
    expect(t, h26x_rtp_receiver_new(&config, &alone, &r) == H26X_UNKNOWN_CODEC);
    config.codec = H26X_H264;
    config.numbers = true;
    expect(t, h26x_rtp_receiver_new(&config, &alone, &r) == H26X_NOT_OF_THIS_CODEC && r.at == NULL);
    h26x_rtp_receiver_free(r);
    h26x_rtp_receiver_close(NULL);
    config = settings(c);
    expect(t, h26x_rtp_receiver_new(&config, &alone, &r) == H26X_OK);
    expect(t, !h26x_rtp_receiver_report(&r, 0, 0, NULL) && !h26x_rtp_receiver_deadline(&r, NULL));
    expect(t, h26x_rtp_receiver_push(&r, 0, 0, NULL, 99, NULL) == H26X_RTP_TOO_SHORT);
    expect(t, h26x_rtp_receiver_push(&r, 0, 0, key.at, key.len, NULL) == H26X_OK);
    expect(t, h26x_rtp_receiver_next(&r, 0, NULL, 0, NULL) == H26X_NO_ROOM);
    expect(t, h26x_rtp_receiver_push(&r, 0, 0, red.at, red.len, &told) == H26X_OK);
    expect(t, told.no_media == H26X_RTP_OTHER_TYPE && told.payload_type == RED);
    expect(t, h26x_rtp_receiver_push(&r, 0, 0, later.at, later.len, NULL) == H26X_OK);
    expect(t, h26x_rtp_receiver_deadline(&r, NULL) && h26x_rtp_receiver_report(&r, 0, 0, NULL));
    expect(t, h26x_rtp_receiver_sources(&r, NULL) == H26X_OK && h26x_rtp_receiver_statistics(&r, NULL) == H26X_OK);
    expect(t, h26x_rtp_receiver_count(&r, NULL) == H26X_OK);
    expect(t, h26x_rtp_receiver_nacks(&r, 0, &times, NULL, 2, &count) == H26X_OK && count == 0);
    expect(t, h26x_rtp_receiver_nacks(&r, 0, &times, numbers, 1, NULL) == H26X_OK);
    expect(t, numbers[0] == 5 && numbers[1] == 7);
    h26x_rtp_receiver_free(r);
}

/* A handle of another kind, which stays as it was. */
static void check_wrong_end(struct tally *t, const struct codec *c)
{
    const h26x_access_units_config config = settings(c);
    const h26x_nack_times times = {.most = 1};
    const struct bytes key = datagram(MEDIA, 3, STREAM, c->key);
    h26x_access_units u;
    h26x_rtp_told told;
    h26x_rtp_sources known;
    h26x_rtp_statistics counted;
    h26x_access_units_counts counts;
    h26x_access_unit unit;
    h26x_report report;
    uint16_t number = 7;
    uint8_t to[1] = {7};
    size_t count = 99;
    uint32_t at = 7;
    memset(&told, 0xee, sizeof told);
    memset(&report, 0xee, sizeof report);
    memset(&known, 1, sizeof known);
    const h26x_rtp_told told_before = told;
    const h26x_report report_before = report;
    expect(t, h26x_access_units_new(&config, &u) == H26X_OK);
    h26x_rtp_receiver r = {u.at};
    expect(t, h26x_rtp_receiver_push(&r, 0, 0, key.at, key.len, &told) == H26X_WRONG_END);
    expect(t, is_same_told(&told, &told_before));
    expect(t, h26x_rtp_receiver_set_config(&r, &config) == H26X_WRONG_END);
    expect(t, h26x_rtp_receiver_follow(&r, &sources) == H26X_WRONG_END);
    expect(t, h26x_rtp_receiver_sources(&r, &known) == H26X_WRONG_END && known.media == 0x01010101);
    expect(t, h26x_rtp_receiver_next(&r, 0, to, 1, &unit) == H26X_WRONG_END && to[0] == 7);
    expect(t, !h26x_rtp_receiver_so_far(&r, 0, to, 1, NULL) && to[0] == 7);
    expect(t, !h26x_rtp_receiver_deadline(&r, &at) && at == 7);
    expect(t, h26x_rtp_receiver_nacks(&r, 0, &times, &number, 1, &count) == H26X_WRONG_END);
    expect(t, count == 0 && number == 7);
    expect(t, !h26x_rtp_receiver_keyframe_wanted(&r, 0, 0));
    expect(t, h26x_rtp_receiver_statistics(&r, &counted) == H26X_WRONG_END);
    expect(t, !h26x_rtp_receiver_report(&r, 0, 0, &report) && is_same_report(&report, &report_before));
    expect(t, h26x_rtp_receiver_finish(&r) == H26X_WRONG_END);
    expect(t, h26x_rtp_receiver_count(&r, &counts) == H26X_WRONG_END);
    h26x_access_units_free(u);
    expect(t, h26x_rtp_receiver_new(&config, &types, &r) == H26X_OK);
    u.at = r.at;
    expect(t, h26x_access_units_finish(&u) == H26X_WRONG_END && h26x_access_units_restart(&u) == H26X_WRONG_END);
    expect(t, h26x_access_units_skip(&u, 0, 0, NULL, NULL) == H26X_WRONG_END);
    h26x_rtp_receiver_free(r);
}

void check_rtp_receiver(struct tally *t)
{
    for (size_t i = 0; i < sizeof codecs / sizeof codecs[0]; i++) {
        check_drawn(t, &codecs[i], false);
        check_drawn(t, &codecs[i], true);
        check_told(t, &codecs[i]);
        check_sources(t, &codecs[i]);
        check_keyframes(t, &codecs[i]);
        check_room(t, &codecs[i]);
        check_left_out(t, &codecs[i]);
        check_wrong_end(t, &codecs[i]);
    }
}
