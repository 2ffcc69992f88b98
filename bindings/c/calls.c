/* Goes through every call of h26x.h for all codecs and compares the answers, in two threads at
 * once, and hands ends from one thread to the other. What is compared with was written out by hand
 * from the RFCs. Says how many checks passed; the first that doesn't ends it with status 1. */
#define _POSIX_C_SOURCE 200809L
#include "calls.h"
#include <pthread.h>
#include <stdio.h>
#include <stdlib.h>
#include <string.h>

void expect_at(struct tally *t, bool holds, const char *what, const char *file, int line)
{
    if (!holds) {
        fprintf(stderr, "%s:%d: does not hold: %s\n", file, line, what);
        exit(1);
    }
    t->passed++;
}

static uint8_t digit(char c)
{
    const char *digits = "0123456789abcdef", *at = memchr(digits, c, 16);
    if (at == NULL) {
        fprintf(stderr, "not a digit: %c\n", c);
        exit(1);
    }
    return (uint8_t)(at - digits);
}

struct bytes bytes_of(const char *hex)
{
    struct bytes b = {.len = 0};
    while (*hex != '\0' && *hex != '|') {
        if (*hex == ' ') {
            hex++;
            continue;
        }
        b.at[b.len++] = (uint8_t)(digit(hex[0]) << 4 | digit(hex[1]));
        hex += 2;
    }
    return b;
}

bool is_same(const uint8_t *at, size_t len, const char *hex)
{
    struct bytes wanted = bytes_of(hex);
    return len == wanted.len && memcmp(at, wanted.at, len) == 0;
}

const char *behind_bar(const char *hex)
{
    hex += strcspn(hex, "|");
    return *hex == '|' ? hex + 1 : hex;
}

void holds_at(struct tally *t, h26x_packetizer *p, size_t count, const char *packets, const char *file, int line)
{
    uint8_t packet[ROOM];
    size_t i = 0, len;
    expect_at(t, h26x_packet_count(p) == count, "the count of packets", file, line);
    for (; *packets != '\0'; packets = behind_bar(packets), i++) {
        len = h26x_packet_copy(p, i, packet, sizeof packet);
        expect_at(t, is_same(packet, len, packets), packets, file, line);
        expect_at(t, h26x_packet_len(p, i) == len, "a packet's length", file, line);
    }
    expect_at(t, count == i, "as many packets as are wanted", file, line);
}

void sends_at(struct tally *t, h26x_packetizer *p, size_t mtu, const char *payload, const char *packets,
              const char *file, int line)
{
    struct bytes in = bytes_of(payload);
    size_t count = 99;
    uint32_t code = h26x_packetize(p, mtu, in.at, in.len, &count);
    expect_at(t, code == H26X_OK, payload, file, line);
    holds_at(t, p, count, packets, file, line);
}

void takes_at(struct tally *t, h26x_depacketizer *d, const char *packet, const char *written, uint8_t told,
              const char *file, int line)
{
    struct bytes in = bytes_of(packet);
    uint8_t to[ROOM], extra = 0;
    size_t len = 99;
    h26x_refusal why;
    uint32_t code = h26x_depacketize(d, false, in.at, in.len, to, sizeof to, &len, &extra, &why);
    expect_at(t, code == H26X_OK, packet, file, line);
    expect_at(t, is_same(to, len, written), packet, file, line);
    expect_at(t, extra == told, packet, file, line);
}

/* A packetizer for which sets wait and a depacketizer with an open unit, on their way from one
 * thread to the other. */
struct box {
    pthread_mutex_t lock;
    pthread_cond_t came;
    bool is_full;
    h26x_packetizer p;
    h26x_depacketizer d;
};

static struct box box = {.lock = PTHREAD_MUTEX_INITIALIZER, .came = PTHREAD_COND_INITIALIZER};

static void hand_over(struct tally *t)
{
    h26x_packetizer p;
    h26x_depacketizer d;
    expect(t, h26x_packetizer_new(H26X_H264, false, &p) == H26X_OK);
    expect(t, h26x_depacketizer_new(H26X_H265, false, &d) == H26X_OK);
    sends(t, &p, 1500, "000001 070001 000001 080203", "");
    takes(t, &d, "620193aa", "", 0);
    pthread_mutex_lock(&box.lock);
    box.p = p;
    box.d = d;
    box.is_full = true;
    pthread_cond_signal(&box.came);
    pthread_mutex_unlock(&box.lock);
}

static void take_over(struct tally *t)
{
    pthread_mutex_lock(&box.lock);
    while (!box.is_full)
        pthread_cond_wait(&box.came, &box.lock);
    pthread_mutex_unlock(&box.lock);
    sends(t, &box.p, 1500, "050405", "78 0003 070001 0003 080203|050405");
    takes(t, &box.d, "620153bb", "00000001 2601aabb", 2);
    h26x_packetizer_free(box.p);
    h26x_depacketizer_free(box.d);
}

struct work {
    struct tally tally;
    void (*pass)(struct tally *);
};

static void *run(void *at)
{
    struct work *work = at;
    check_cutting(&work->tally);
    for (int round = 0; round < 20; round++) {
        check_sending(&work->tally);
        check_receiving(&work->tally);
        check_sequenced(&work->tally);
        check_access_units(&work->tally);
        check_access_unit_rows(&work->tally);
        check_nack_rows(&work->tally);
        check_rtp_receiver(&work->tally);
        check_rtp_sender(&work->tally);
        check_showing(&work->tally);
        check_looking(&work->tally);
        check_profiles(&work->tally);
        check_sdp(&work->tally);
        check_sdp_rows(&work->tally);
        check_answer_rows(&work->tally);
        check_direction_rows(&work->tally);
        check_unit_rows(&work->tally);
        check_place_rows(&work->tally);
        check_datagrams(&work->tally);
        check_many(&work->tally);
        check_optional(&work->tally);
    }
    work->pass(&work->tally);
    return NULL;
}

int main(void)
{
    struct work work[2] = {{{0}, hand_over}, {{0}, take_over}};
    pthread_t threads[2];
    for (int i = 0; i < 2; i++)
        if (pthread_create(&threads[i], NULL, run, &work[i]) != 0)
            return 1;
    for (int i = 0; i < 2; i++)
        if (pthread_join(threads[i], NULL) != 0)
            return 1;
    printf("%zu checks passed, in two threads\n", work[0].tally.passed + work[1].tally.passed);
    return 0;
}
