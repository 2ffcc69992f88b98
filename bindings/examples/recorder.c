/* Records a stream that comes as RTP over UDP: recorder PORT h264|h265|h266 OUT
 * It undoes RTX, asks for missing packets (NACK), and for a keyframe where a decoder can't go on (PLI),
 * and reports what came, to where RTP comes from. It ends once nothing comes for a while. */
#define _DEFAULT_SOURCE
#include "h26x.h"
#include <arpa/inet.h>
#include <poll.h>
#include <stdio.h>
#include <stdlib.h>
#include <time.h>

/* Milliseconds: for a missing packet, until it is asked for again, between reports, of silence. */
enum { MAX_WAIT = 1000, RETRY = 20, REPORTS = 5000, SILENCE = 2000 };
enum { MOST = 1 << 22, OWN_SSRC = 0x68323659 }; /* bytes of an access unit; who asks and reports */

/* Takes a datagram; a stream that comes with another SSRC is followed. Without memory it is lost. */
static void take(h26x_rtp_receiver *r, uint32_t now, const uint8_t *at, size_t len)
{
    h26x_rtp_told told;
    while (h26x_rtp_receiver_push(r, now, now * 90, at, len, &told) == H26X_OK
           && told.became == H26X_RTP_NEW_SOURCE)
        h26x_rtp_receiver_follow(r, &(h26x_rtp_sources){.media = told.ssrc, .has_media = true});
}

/* Writes what a decoder can decode. */
static bool write_units(h26x_rtp_receiver *r, uint32_t now, FILE *file)
{
    static uint8_t bytes[3 * MOST]; /* what is open, its last unit, and what a packet brings */
    h26x_access_unit unit;
    uint32_t code;
    while ((code = h26x_rtp_receiver_next(r, now, bytes, sizeof bytes, &unit)) == H26X_OK)
        if (unit.is_clean && fwrite(bytes, 1, unit.len, file) != unit.len)
            return false;
    return code == H26X_NOTHING_YET;
}

/* Reports, where it is time for it, and asks for what is missing; how many bytes it says. */
static size_t answer(h26x_rtp_receiver *r, uint32_t now, bool reports, uint8_t *to, size_t room)
{
    const h26x_nack_times times = {.again = RETRY, .most = MAX_WAIT / RETRY};
    h26x_rtp_sources of;
    h26x_report report;
    uint16_t lost[256];
    size_t n, len = 0, size = 0;
    if (h26x_rtp_receiver_sources(r, &of) != H26X_OK || !of.has_media)
        return 0;
    if (reports && h26x_rtp_receiver_report(r, 0, 0, &report)
        && h26x_receiver_report_write(OWN_SSRC, &report, to, room, &size) == H26X_OK)
        len = size;
    if (h26x_rtp_receiver_nacks(r, now, &times, lost, 256, &n) == H26X_OK
        && h26x_nack_write(OWN_SSRC, of.media, lost, n, to + len, room - len, &size, &n) == H26X_OK)
        len += size;
    if (h26x_rtp_receiver_keyframe_wanted(r, now, MAX_WAIT)
        && h26x_pli_write(OWN_SSRC, of.media, to + len, room - len, &size) == H26X_OK)
        len += size;
    return len;
}

/* Records until the stream is over. */
static bool record(h26x_rtp_receiver *r, int from, FILE *file)
{
    static uint8_t at[65536], rtcp[1200];
    uint32_t now = 0, before, came = UINT32_MAX;
    struct sockaddr_in peer;
    struct timespec time;
    do {
        socklen_t size = sizeof peer;
        poll(&(struct pollfd){.fd = from, .events = POLLIN}, 1, RETRY);
        const ssize_t len = recvfrom(from, at, sizeof at, MSG_DONTWAIT, (void *)&peer, &size);
        clock_gettime(CLOCK_MONOTONIC, &time);
        before = now, now = (uint32_t)(time.tv_sec * 1000 + time.tv_nsec / 1000000);
        came = len > 0 ? now : came;
        take(r, now, at, len > 0 ? (size_t)len : 0);
        if (!write_units(r, now, file))
            return false;
        const size_t said = answer(r, now, now / REPORTS != before / REPORTS, rtcp, sizeof rtcp);
        if (said > 0)
            sendto(from, rtcp, said, 0, (void *)&peer, sizeof peer);
    } while (came == UINT32_MAX || now - came < SILENCE);
    return h26x_rtp_receiver_finish(r) == H26X_OK && write_units(r, now, file);
}

int main(int argc, char **argv)
{
    const h26x_rtp_payload_types types = {.media = 96, .rtx = 97, .has_rtx = true};
    h26x_access_units_config config = {.max_wait = MAX_WAIT, .begin_wait = RETRY, .window = 512};
    h26x_rtp_receiver r;
    config.codec = argc == 4 && argv[2][0] == 'h' ? (uint32_t)atoi(argv[2] + 1) : 0;
    config.held_limit = config.run_limit = config.unit_limit = MOST;
    if (argc != 4 || h26x_rtp_receiver_new(&config, &types, &r) != H26X_OK)
        return fputs("usage: recorder PORT h264|h265|h266 OUT\n", stderr), 2;
    const struct sockaddr_in own = {.sin_family = AF_INET, .sin_port = htons(atoi(argv[1]))};
    FILE *file = fopen(argv[3], "wb");
    const int from = socket(AF_INET, SOCK_DGRAM, 0);
    if (file == NULL || bind(from, (void *)&own, sizeof own) != 0)
        return perror("recorder"), 1;
    const bool is_written = record(&r, from, file);
    h26x_rtp_receiver_free(r);
    return fclose(file) == 0 && is_written ? 0 : 1;
}
