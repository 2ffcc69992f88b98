/* Handles in threads, as the header allows: each thread has ends of its own, and makes calls of those that all change
 * only with a lock; copies that were made with the lock it uses without, and handles that nobody changes all threads
 * look at together, without one. Run under a tool that finds data races. Says how many units came through; the first
 * that doesn't ends it with status 1. */
#define _POSIX_C_SOURCE 200809L
#include "h26x.h"
#include <pthread.h>
#include <stdio.h>
#include <stdlib.h>
#include <string.h>

enum { THREADS = 4, ROUNDS = 30, UNIT = 5000, PACKETS = 60 };

static void expect_at(bool holds, const char *what, int line)
{
    if (!holds) {
        fprintf(stderr, "threads.c:%d: does not hold: %s\n", line, what);
        exit(1);
    }
}
#define expect(what) expect_at(what, #what, __LINE__)

/* A codec, and the header of a unit of a keyframe (RFC 6184, 1.3; RFC 7798, 1.1.4; RFC 9328, 1.1.4). */
struct codec {
    uint32_t number;
    uint8_t header[2];
    size_t header_len;
};

static const struct codec codecs[] = {
    {H26X_H264, {0x65, 0}, 1},
    {H26X_H265, {0x26, 0x01}, 2},
    {H26X_H266, {0x00, 0x39}, 2},
};

/* What all threads have: ends of a codec, which the lock is for; and one of each kind that stays as it is while threads
 * run, each as a const one. */
struct shared {
    pthread_mutex_t lock;
    h26x_packetizer packetizer;
    h26x_receiver receiver;
    uint16_t sequence;
    h26x_packetizer packets;
    h26x_depacketizer open;
    h26x_receiver receiving;
    h26x_access_units waiting;
    h26x_rtp_receiver datagrams;
};

static struct shared shared[3];

struct work {
    uint8_t byte;
    size_t units;
};

static size_t make_unit(const struct codec *c, uint8_t byte, uint8_t *unit)
{
    memcpy(unit, c->header, c->header_len);
    memset(unit + c->header_len, byte, UNIT);
    return c->header_len + UNIT;
}

/* Sends a unit in packets, and receives it again. */
static void carry(h26x_packetizer *p, h26x_receiver *r, uint16_t *sequence, const struct codec *c, struct work *work)
{
    uint8_t unit[UNIT + 2], to[UNIT + 6], packet[100], told = 0;
    const size_t len = make_unit(c, work->byte, unit);
    size_t count, written = 0;
    expect(h26x_packetize(p, sizeof packet, unit, len, &count) == H26X_OK && count <= PACKETS && count > 1);
    for (size_t i = 0; i < count; i++) {
        const size_t packet_len = h26x_packet_copy(p, i, packet, sizeof packet);
        uint32_t received;
        expect(h26x_receive(r, (*sequence)++, packet, packet_len, to, sizeof to, &written, &told, &received, NULL, NULL)
               == H26X_OK);
        expect(received == H26X_IN_ORDER);
    }
    expect(written == len + 4 && told == 2 && memcmp(to + 4, unit, len) == 0);
    work->units++;
}

static h26x_access_units units_of(const struct codec *c)
{
    const h26x_access_units_config config = {.codec = c->number,
                                             .max_wait = 100,
                                             .begin_wait = UINT32_MAX,
                                             .window = PACKETS,
                                             .held_limit = SIZE_MAX,
                                             .run_limit = UNIT,
                                             .unit_limit = SIZE_MAX};
    h26x_access_units u;
    expect(h26x_access_units_new(&config, &u) == H26X_OK);
    return u;
}

/* Sends a unit in packets, which come in the other order, and takes it as an access unit. */
static void carry_reversed(h26x_packetizer *p, h26x_access_units *u, const struct codec *c, struct work *work)
{
    uint8_t unit[UNIT + 2], to[UNIT + 6], packet[100];
    const size_t len = make_unit(c, work->byte, unit);
    size_t count;
    h26x_access_unit told;
    expect(h26x_packetize(p, sizeof packet, unit, len, &count) == H26X_OK && count <= PACKETS && count > 1);
    for (size_t i = count; i-- > 0;) {
        const size_t packet_len = h26x_packet_copy(p, i, packet, sizeof packet);
        uint32_t pushed;
        expect(h26x_access_units_push(u, 0, (uint16_t)(65500 + i), 0, i + 1 == count, packet, packet_len, &pushed, NULL)
               == H26X_OK);
        expect(pushed == H26X_HELD);
    }
    expect(h26x_access_units_next(u, 100, to, sizeof to, &told) == H26X_OK && told.len == len + 4);
    expect(memcmp(to + 4, unit, len) == 0);
    work->units++;
}

static h26x_rtp_receiver datagrams_of(const struct codec *c)
{
    const h26x_access_units_config config = {.codec = c->number,
                                             .max_wait = 100,
                                             .begin_wait = UINT32_MAX,
                                             .window = PACKETS,
                                             .held_limit = SIZE_MAX,
                                             .run_limit = UNIT,
                                             .unit_limit = SIZE_MAX};
    const h26x_rtp_payload_types types = {.media = 96};
    h26x_rtp_receiver r;
    expect(h26x_rtp_receiver_new(&config, &types, &r) == H26X_OK);
    return r;
}

/* Gives a packet's payload as a datagram of the SSRC 9. */
static void push_datagram(h26x_rtp_receiver *r, uint16_t sequence, bool marker, const uint8_t *payload, size_t len)
{
    const h26x_rtp_header header = {.payload_type = 96, .ssrc = 9, .sequence = sequence, .marker = marker};
    uint8_t datagram[200];
    h26x_rtp_told told;
    size_t datagram_len;
    expect(h26x_rtp_write(&header, NULL, 0, NULL, 0, payload, len, NULL, 0, datagram, sizeof datagram, &datagram_len)
           == H26X_OK);
    expect(h26x_rtp_receiver_push(r, 7, 0, datagram, datagram_len, &told) == H26X_OK);
    expect(told.became == H26X_RTP_TAKEN && told.sequence == sequence && told.pushed == H26X_HELD);
}

/* Sends a unit in datagrams, which come in the other order. */
static void carry_datagrams(h26x_packetizer *p, h26x_rtp_receiver *r, const struct codec *c, struct work *work)
{
    uint8_t unit[UNIT + 2], to[UNIT + 6], packet[100];
    const size_t len = make_unit(c, work->byte, unit);
    size_t count;
    h26x_access_unit told;
    expect(h26x_packetize(p, sizeof packet, unit, len, &count) == H26X_OK && count <= PACKETS && count > 1);
    for (size_t i = count; i-- > 0;)
        push_datagram(r, (uint16_t)(65500 + i), i + 1 == count, packet, h26x_packet_copy(p, i, packet, sizeof packet));
    expect(h26x_rtp_receiver_next(r, 107, to, sizeof to, &told) == H26X_OK && told.len == len + 4);
    expect(memcmp(to + 4, unit, len) == 0);
    work->units++;
}

static void with_own_ends(const struct codec *c, struct work *work)
{
    h26x_packetizer p;
    h26x_receiver r;
    uint16_t sequence = 65500;
    expect(h26x_packetizer_new(c->number, false, &p) == H26X_OK);
    expect(h26x_receiver_new(c->number, false, false, UNIT, &r) == H26X_OK);
    for (int i = 0; i < 3; i++)
        carry(&p, &r, &sequence, c, work);
    h26x_access_units u = units_of(c);
    carry_reversed(&p, &u, c, work);
    h26x_rtp_receiver d = datagrams_of(c);
    carry_datagrams(&p, &d, c, work);
    h26x_packetizer_free(p);
    h26x_receiver_free(r);
    h26x_access_units_free(u);
    h26x_rtp_receiver_free(d);
}

/* The ends that all have, with the lock; copies of them without. */
static void with_shared_ends(struct shared *s, const struct codec *c, struct work *work)
{
    h26x_packetizer p;
    h26x_receiver r;
    uint16_t sequence;
    pthread_mutex_lock(&s->lock);
    carry(&s->packetizer, &s->receiver, &s->sequence, c, work);
    expect(h26x_packetizer_clone(&s->packetizer, &p) == H26X_OK);
    expect(h26x_receiver_clone(&s->receiver, &r) == H26X_OK);
    sequence = s->sequence;
    pthread_mutex_unlock(&s->lock);
    carry(&p, &r, &sequence, c, work);
    h26x_packetizer_free(p);
    h26x_receiver_free(r);
}

/* Every call that takes a handle as a const one, of handles that no call changes, and without a lock. */
static void ask_shared_ends(const struct shared *s, const struct codec *c)
{
    const bool is_shown = c->number == H26X_H265;
    uint8_t packet[100];
    size_t ends[2], count, size;
    h26x_packetizer p;
    h26x_depacketizer d;
    h26x_receiver r;
    h26x_h265_packet shown;
    h26x_access_units_counts counts;
    h26x_rtp_sources sources;
    h26x_rtp_statistics counted;
    uint16_t numbers[2];
    uint32_t at;
    expect(h26x_access_units_deadline(&s->waiting, &at) && at == 107);
    expect(h26x_access_units_missing(&s->waiting, numbers, 2, &count) == H26X_OK && count == 1);
    expect(numbers[0] == 8);
    expect(h26x_access_units_count(&s->waiting, &counts) == H26X_OK && counts.taken == 0);
    expect(h26x_rtp_receiver_deadline(&s->datagrams, &at) && at == 107);
    expect(h26x_rtp_receiver_sources(&s->datagrams, &sources) == H26X_OK && sources.media == 9);
    expect(h26x_rtp_receiver_statistics(&s->datagrams, &counted) == H26X_OK && counted.received == 2);
    expect(h26x_rtp_receiver_count(&s->datagrams, &counts) == H26X_OK && counts.taken == 0);
    expect(h26x_packet_count(&s->packets) > 2 && h26x_packets_len(&s->packets) > UNIT);
    expect(h26x_packet_len(&s->packets, 1) == sizeof packet);
    expect(h26x_packet_copy(&s->packets, 1, packet, sizeof packet) == sizeof packet);
    expect(h26x_packets_copy(&s->packets, 1, packet, sizeof packet, ends, 2) == 1 && ends[0] == sizeof packet);
    expect(h26x_packets_size(&s->packets, 100, packet, sizeof packet, 12, &count, &size) == H26X_OK);
    expect(h26x_units_size(&s->packets, 100, packet, 0, 12, &count, &size, NULL) == H26X_OK && count == 0);
    expect(h26x_packetizer_clone(&s->packets, &p) == H26X_OK);
    expect(h26x_depacketizer_clone(&s->open, &d) == H26X_OK);
    expect(h26x_depacketizer_same(&s->open, &d) && h26x_depacketizer_same(&d, &s->open));
    expect(h26x_depacketizer_same(&s->open, &s->open));
    expect(h26x_written_copy(&s->open, packet, sizeof packet) == 0);
    expect(h26x_h265_shown(&s->open, &shown) == (is_shown ? H26X_OK : H26X_NOT_OF_THIS_CODEC));
    expect(h26x_h265_part_copy(&s->open, 0, packet, sizeof packet, NULL) == (is_shown ? sizeof packet - 3 : 0));
    expect(h26x_receiver_run_len(&s->receiving) > 0);
    expect(h26x_receiver_clone(&s->receiving, &r) == H26X_OK);
    expect(h26x_receiver_run_len(&r) == h26x_receiver_run_len(&s->receiving));
    expect(h26x_written_copy(&s->receiving.at, packet, sizeof packet) == 0);
    expect(h26x_h265_shown(&s->receiving.at, &shown) == (is_shown ? H26X_OK : H26X_NOT_OF_THIS_CODEC));
    h26x_packetizer_close(&p);
    h26x_depacketizer_close(&d);
    h26x_receiver_close(&r);
    expect(p.at == NULL && d.at == NULL && r.at.at == NULL);
}

/* Calls without a handle. */
static void ask(const struct codec *c)
{
    static const uint8_t payload[] = {0, 0, 1, 0x65, 1, 2, 0, 0, 1, 0x41, 3};
    static const uint8_t lengths[] = {0, 0, 0, 1, 0x65};
    static const uint16_t numbers[] = {5, 22};
    uint8_t unit[2 + UNIT];
    size_t begin, end;
    expect(h26x_next_unit(c->number, payload, sizeof payload, 0, &begin, &end) && begin == 3 && end == 6);
    expect(h26x_next_avc_unit(lengths, sizeof lengths, 0, &begin, &end) && begin == 4 && end == 5);
    expect(h26x_unit_is_plain(c->number, c->header, c->header_len));
    expect(h26x_detect_keyframe(c->number, c->header, 2));
    expect(h26x_begins_keyframe(c->number, false, unit, make_unit(c, 1, unit)));
    expect(h26x_is_partition_head(c->number, c->header, 2));
    expect(h26x_is_partition_tail(c->number, true, c->header, 2));
    expect(!h26x_is_rtcp(payload, sizeof payload)
           && h26x_rtp_read(payload, sizeof payload, NULL) == H26X_RTP_TOO_SHORT);
    expect(h26x_pli_write(1, 2, unit, sizeof unit, &end) == H26X_OK && h26x_pli_read(unit, end, NULL, NULL));
    expect(h26x_nack_write(1, 2, numbers, 2, unit, sizeof unit, &end, NULL) == H26X_OK
           && h26x_nack_read(unit, end, NULL, NULL, NULL, 0, NULL) && h26x_rtcp_next(unit, end, 0, NULL));
    expect(h26x_h265_is_known(1, 0, 93) && h26x_h266_is_known(1, 0, 51));
    expect(strcmp(h26x_strerror(H26X_OUT_OF_MEMORY), "") != 0 && h26x_codec_name(c->number) != NULL);
}

static void *run(void *at)
{
    struct work *work = at;
    for (int round = 0; round < ROUNDS; round++)
        for (size_t i = 0; i < 3; i++) {
            with_own_ends(&codecs[i], work);
            with_shared_ends(&shared[i], &codecs[i], work);
            ask_shared_ends(&shared[i], &codecs[i]);
            ask(&codecs[i]);
        }
    return NULL;
}

static void begin(struct shared *s, const struct codec *c)
{
    uint8_t unit[UNIT + 2], packet[100], told = 0;
    const size_t len = make_unit(c, 9, unit);
    size_t count;
    expect(pthread_mutex_init(&s->lock, NULL) == 0);
    expect(h26x_packetizer_new(c->number, false, &s->packetizer) == H26X_OK);
    expect(h26x_packetizer_new(c->number, false, &s->packets) == H26X_OK);
    expect(h26x_depacketizer_new(c->number, false, &s->open) == H26X_OK);
    expect(h26x_receiver_new(c->number, false, false, UNIT, &s->receiver) == H26X_OK);
    expect(h26x_receiver_new(c->number, false, false, UNIT, &s->receiving) == H26X_OK);
    expect(h26x_packetize_unit(&s->packets, sizeof packet, unit, len, &count) == H26X_OK);
    expect(h26x_packet_copy(&s->packets, 0, packet, sizeof packet) == sizeof packet);
    expect(h26x_depacketize(&s->open, false, packet, sizeof packet, NULL, 0, NULL, &told, NULL) == H26X_OK);
    s->waiting = units_of(c);
    expect(h26x_access_units_push(&s->waiting, 7, 7, 0, true, packet, sizeof packet, NULL, NULL) == H26X_OK);
    expect(h26x_access_units_push(&s->waiting, 7, 9, 0, true, packet, sizeof packet, NULL, NULL) == H26X_OK);
    s->datagrams = datagrams_of(c);
    push_datagram(&s->datagrams, 7, true, packet, sizeof packet);
    push_datagram(&s->datagrams, 9, true, packet, sizeof packet);
    expect(h26x_receive(&s->receiving, 7, packet, sizeof packet, NULL, 0, NULL, &told, NULL, NULL, NULL) == H26X_OK);
}

static void end(struct shared *s)
{
    h26x_packetizer_free(s->packetizer);
    h26x_packetizer_free(s->packets);
    h26x_depacketizer_free(s->open);
    h26x_receiver_free(s->receiver);
    h26x_receiver_free(s->receiving);
    h26x_access_units_free(s->waiting);
    h26x_rtp_receiver_free(s->datagrams);
    expect(pthread_mutex_destroy(&s->lock) == 0);
}

int main(void)
{
    struct work work[THREADS] = {{0, 0}};
    pthread_t threads[THREADS];
    size_t units = 0;
    for (size_t i = 0; i < 3; i++)
        begin(&shared[i], &codecs[i]);
    for (int i = 0; i < THREADS; i++) {
        work[i].byte = (uint8_t)(i + 1);
        expect(pthread_create(&threads[i], NULL, run, &work[i]) == 0);
    }
    for (int i = 0; i < THREADS; i++) {
        expect(pthread_join(threads[i], NULL) == 0);
        units += work[i].units;
    }
    for (size_t i = 0; i < 3; i++)
        end(&shared[i]);
    expect(units == THREADS * ROUNDS * 3 * 7);
    printf("%zu units came through, in %d threads\n", units, (int)THREADS);
    return 0;
}
