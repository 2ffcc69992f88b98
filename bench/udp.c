/* Times the sending of frames over UDP on 127.0.0.1, with RTP's header before each packet: packets
 * copied out of the handle and sent one by one, packets made in one buffer and sent by sendmmsg,
 * and the same in runs that the kernel cuts (UDP_SEGMENT). Before that it looks whether all of them
 * bring the same datagrams; while they are timed nothing is read, and the kernel drops what
 * comes. */
#define _GNU_SOURCE
#include "datagrams.h"
#include "h26x.h"
#include <stdio.h>
#include <stdlib.h>
#include <string.h>
#include <sys/socket.h>
#include <time.h>

enum { LIMIT = 1200, TURNS = 25, LONGEST_FRAME = 200000, ROOM = 1 << 18, MOST_PACKETS = 256 };
static const double BATCH = 0.02; /* seconds of sending that are timed together, about */

struct frame {
    const char *name;
    size_t len;
    uint8_t at[LONGEST_FRAME + 4];
};

/* What sends, with the buffer that packets are made in. */
struct server {
    h26x_packetizer packetizer;
    h26x_rtp_header header;
    struct sender sender;
    bool is_silent; /* packets are made and get headers, and aren't sent */
    uint8_t at[ROOM];
    size_t ends[MOST_PACKETS];
};

static void stop(const char *what)
{
    perror(what);
    exit(1);
}

static void write_header(struct server *s, uint8_t *to, bool is_last)
{
    s->header.marker = is_last;
    if (h26x_rtp_write_before(&s->header, NULL, 0, NULL, 0, false, RTP_HEADER, to, RTP_HEADER, NULL) != H26X_OK)
        stop("h26x_rtp_write_before");
    s->header.sequence++;
}

/* Packets are made behind the handle; each is copied into one small buffer behind its header, and
 * sent from there. */
static size_t one_by_one(struct server *s, const struct frame *f)
{
    uint8_t packet[RTP_HEADER + LIMIT];
    size_t count;
    if (h26x_packetize(&s->packetizer, LIMIT, f->at, f->len, &count) != H26X_OK)
        stop("h26x_packetize");
    for (size_t i = 0; i < count; i++) {
        const size_t len = h26x_packet_copy(&s->packetizer, i, packet + RTP_HEADER, LIMIT);
        write_header(s, packet, i + 1 == count);
        if (!s->is_silent && send(s->sender.socket, packet, RTP_HEADER + len, 0) < 0)
            stop("send");
    }
    return count;
}

/* Packets are made in one buffer and sent out of it. */
static size_t one_buffer(struct server *s, const struct frame *f)
{
    size_t count, size;
    if (h26x_packetize_into(&s->packetizer, LIMIT, f->at, f->len, RTP_HEADER, s->at, ROOM, s->ends,
                            MOST_PACKETS, &count, &size) != H26X_OK)
        stop("h26x_packetize_into");
    const struct packets made = {s->at, s->ends, count};
    for (size_t i = 0; i < count; i++)
        write_header(s, s->at + packet_begin(&made, i), i + 1 == count);
    if (!s->is_silent && !send_packets(&s->sender, &made))
        stop("sendmmsg");
    return count;
}

struct way {
    const char *name;
    size_t (*send_frame)(struct server *s, const struct frame *f);
    bool by_runs, is_silent;
};

static const struct way ways[] = {
    {"copied, one send a packet", one_by_one, false, false},
    {"one buffer, sendmmsg", one_buffer, false, false},
    {"one buffer, UDP_SEGMENT", one_buffer, true, false},
    {"copied, not sent", one_by_one, false, true},
    {"one buffer, not sent", one_buffer, false, true},
};
enum { WAYS = sizeof ways / sizeof *ways };

static size_t send_in_way(struct server *s, const struct way *w, const struct frame *f)
{
    s->sender.by_runs = w->by_runs;
    s->is_silent = w->is_silent;
    const size_t count = w->send_frame(s, f);
    if (s->sender.by_runs != w->by_runs)
        exit(1); /* what it says is said */
    return count;
}

/* Reads so many datagrams, and adds them, the length first, to a sum. */
static uint64_t sum_datagrams(int socket, size_t count)
{
    static struct inbox in;
    uint64_t sum = 14695981039346656037u;
    size_t taken = 0;
    while (taken < count) {
        if (!receive(socket, &in))
            stop("a datagram is lacking");
        for (size_t i = 0; i < in.count; i++, taken++) {
            sum = (sum ^ in.lens[i]) * 1099511628211u;
            for (size_t n = 0; n < in.lens[i]; n++)
                sum = (sum ^ in.at[i][n]) * 1099511628211u;
        }
    }
    return sum;
}

/* Looks whether every way brings the same datagrams of a frame. */
static void compare(struct server *s, int receives, const struct frame *f)
{
    uint64_t first = 0;
    for (int w = 0; w < WAYS; w++) {
        if (ways[w].is_silent)
            continue;
        s->header.sequence = 0;
        const uint64_t sum = sum_datagrams(receives, send_in_way(s, &ways[w], f));
        if (w > 0 && sum != first) {
            fprintf(stderr, "%s: other datagrams\n", ways[w].name);
            exit(1);
        }
        first = sum;
    }
}

static double now(void)
{
    struct timespec t;
    clock_gettime(CLOCK_MONOTONIC, &t);
    return (double)t.tv_sec + (double)t.tv_nsec * 1e-9;
}

/* Packets a second of a batch that sends a frame so often. */
static double speed(struct server *s, const struct way *w, const struct frame *f, size_t rounds)
{
    size_t packets = 0;
    const double start = now();
    for (size_t i = 0; i < rounds; i++)
        packets += send_in_way(s, w, f);
    return (double)packets / (now() - start);
}

static int by_size(const void *a, const void *b)
{
    const double x = *(const double *)a, y = *(const double *)b;
    return (x > y) - (x < y);
}

/* Times every way in turn, so that what else the machine does strikes all alike. */
static void time_frame(struct server *s, const struct frame *f)
{
    double speeds[WAYS][TURNS];
    size_t rounds[WAYS], count = 0;
    for (int w = 0; w < WAYS; w++) {
        count = send_in_way(s, &ways[w], f);
        rounds[w] = (size_t)(BATCH * speed(s, &ways[w], f, 20) / (double)count) + 1;
    }
    for (int turn = 0; turn < TURNS; turn++)
        for (int w = 0; w < WAYS; w++)
            speeds[w][turn] = speed(s, &ways[w], f, rounds[w]);
    for (int w = 0; w < WAYS; w++) {
        qsort(speeds[w], TURNS, sizeof speeds[w][0], by_size);
        printf("%-18s %4zu packets  %-26s best %7.3f  median %7.3f million packets a second\n",
               f->name, count, ways[w].name, speeds[w][TURNS - 1] * 1e-6,
               speeds[w][TURNS / 2] * 1e-6);
    }
}

/* A unit of this many bytes behind a start code, without a zero. */
static void make_frame(struct frame *f, const char *name, uint8_t header, size_t len)
{
    uint64_t state = 88172645463325252u;
    f->name = name;
    f->len = 4 + len;
    memcpy(f->at, "\0\0\0\1", 4);
    f->at[4] = header;
    for (size_t i = 5; i < f->len; i++) {
        state ^= state << 13;
        state ^= state >> 7;
        state ^= state << 17;
        f->at[i] = (uint8_t)((state >> 32) | 4);
    }
}

int main(void)
{
    static struct server s = {.header = {.payload_type = 96, .ssrc = 0x68323658}};
    static struct frame frames[2];
    const int least = 1; /* the kernel makes it what one small datagram takes */
    int receives;
    make_frame(&frames[0], "frame of 8 kB", 0x61, 8000);
    make_frame(&frames[1], "picture of 200 kB", 0x65, LONGEST_FRAME);
    if (h26x_packetizer_new(H26X_H264, false, &s.packetizer) != H26X_OK)
        stop("h26x_packetizer_new");
    if (!open_sockets(&s.sender.socket, &receives))
        stop("sockets");
    if (!knows_runs(s.sender.socket))
        stop("UDP_SEGMENT");
    for (int i = 0; i < 2; i++)
        compare(&s, receives, &frames[i]);
    if (setsockopt(receives, SOL_SOCKET, SO_RCVBUF, &least, sizeof least) != 0)
        stop("SO_RCVBUF");
    for (int i = 0; i < 2; i++)
        time_frame(&s, &frames[i]);
    h26x_packetizer_free(s.packetizer);
    return 0;
}
