/* Tests recorder.c: runs it on 127.0.0.1, sends it a stream of whose packets some are lost (resender.h),
 * and compares what it recorded with the stream, from its first keyframe on:
 *
 *     recorded RECORDER OUT h264|h265|h266 IN [LIMIT]
 *
 * RECORDER is the program, OUT the file that it writes, IN an Annex B stream, which goes in payloads of
 * LIMIT bytes at most, 1200 unless said; its parameter sets must stand as udp.c has it. Ends with status
 * 1 where anything differs. */
#define _GNU_SOURCE
#include "access_units.h"
#include "h26x.h"
#include "resender.h"
#include "stream.h"
#include <arpa/inet.h>
#include <signal.h>
#include <stdio.h>
#include <stdlib.h>
#include <sys/socket.h>
#include <sys/wait.h>
#include <unistd.h>

/* How often, and each after how many microseconds, it is looked whether the recorder listens. */
enum { TRIES = 1000, TRY_EACH = 10000 };

static struct sockaddr_in address(uint16_t port)
{
    return (struct sockaddr_in){
        .sin_family = AF_INET, .sin_port = port, .sin_addr = {htonl(INADDR_LOOPBACK)}};
}

/* A port on which nobody listens, as it stands in an address; 0: there is none. */
static uint16_t free_port(void)
{
    struct sockaddr_in at = address(0);
    socklen_t len = sizeof at;
    const int it = socket(AF_INET, SOCK_DGRAM, 0);
    if (bind(it, (struct sockaddr *)&at, len) != 0
        || getsockname(it, (struct sockaddr *)&at, &len) != 0)
        at.sin_port = 0;
    close(it);
    return at.sin_port;
}

/* Whether somebody listens on a port: else what is sent there comes back as refused. An empty datagram is
 * nothing to a recorder. */
static bool is_taken(uint16_t port)
{
    const struct sockaddr_in at = address(port);
    const int it = socket(AF_INET, SOCK_DGRAM, 0);
    const bool is_heard = connect(it, (const struct sockaddr *)&at, sizeof at) == 0
        && send(it, "", 0, 0) == 0 && usleep(TRY_EACH) == 0 && send(it, "", 0, 0) == 0;
    close(it);
    return is_heard;
}

/* Runs the recorder, and waits until it listens. */
static bool start(char *program, char *codec, char *out, uint16_t port, pid_t *recorder)
{
    char number[8];
    snprintf(number, sizeof number, "%u", ntohs(port));
    *recorder = fork();
    if (*recorder == 0) {
        execl(program, program, number, codec, out, (char *)NULL);
        _exit(127);
    }
    for (int i = 0; *recorder > 0 && i < TRIES; i++)
        if (is_taken(port))
            return true;
    return fail("the recorder doesn't begin");
}

/* Sends the stream to the recorder, and waits until that ends. */
static bool record(char *program, char *codec, char *out, const struct stream *s)
{
    const uint16_t port = free_port();
    const struct sockaddr_in to = address(port);
    const int sends = socket(AF_INET, SOCK_DGRAM, 0);
    pid_t recorder;
    int status = 1;
    const bool is_sent = start(program, codec, out, port, &recorder)
        && connect(sends, (const struct sockaddr *)&to, sizeof to) == 0 && send_stream(s, sends);
    close(sends);
    if (recorder > 0 && !is_sent)
        kill(recorder, SIGTERM);
    if (recorder > 0)
        waitpid(recorder, &status, 0);
    return is_sent && (status == 0 || fail("the recorder fails"));
}

/* ---- What must be recorded ---- */

static bool is_of_keyframe(uint32_t codec, const uint8_t *unit, size_t len)
{
    const unsigned type = unit_type(codec, unit, len);
    switch (codec) {
    case H26X_H264:
        return type == 5;
    case H26X_H265:
        return 16 <= type && type <= 23;
    default:
        return 7 <= type && type <= 9;
    }
}

/* Whether an access unit has a unit of a keyframe. */
static bool is_keyframe(uint32_t codec, const uint8_t *at, size_t len)
{
    size_t begin, end = 0;
    while (h26x_next_unit(codec, at, len, end, &begin, &end))
        if (is_of_keyframe(codec, at + begin, end - begin))
            return true;
    return false;
}

/* Whether the text is that of the stream from its first keyframe on. */
static bool is_recorded(const struct stream *s, const uint8_t *text, size_t len)
{
    size_t begin, end = 0, units;
    while (next_access_unit(s->codec, s->at, s->len, end, &begin, &end)) {
        if (!is_keyframe(s->codec, s->at + begin, end - begin))
            continue;
        const struct stream rest = {s->codec, s->at + begin, s->len - begin, s->limit};
        return is_text_of(&rest, text, len, &units);
    }
    return fail("the stream has no keyframe");
}

int main(int argc, char **argv)
{
    struct stream s = {0}, back = {0};
    const bool is_sent =
        argc >= 5 && read_stream(argc - 3, argv + 3, &s) && record(argv[1], argv[3], argv[2], &s);
    char *recorded[] = {argv[3], argv[2]};
    const bool is_right =
        is_sent && read_stream(2, recorded, &back) && is_recorded(&s, back.at, back.len);
    free(back.at);
    free(s.at);
    return is_right ? 0 : 1;
}
