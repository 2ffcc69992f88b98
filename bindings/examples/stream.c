/* Streams, memory and what went wrong. */
#define _GNU_SOURCE
#include "stream.h"
#include "access_units.h"
#include "datagrams.h"
#include "h26x.h"
#include <errno.h>
#include <stdio.h>
#include <stdlib.h>
#include <string.h>

enum { LIMIT = 1200, LONGEST_PAYLOAD = LONGEST_DATAGRAM - RTP_HEADER };

bool fail(const char *what)
{
    fprintf(stderr, "%s: %s\n", program_invocation_short_name, what);
    return false;
}

bool fail_by_errno(const char *what)
{
    fprintf(stderr, "%s: %s: %s\n", program_invocation_short_name, what, strerror(errno));
    return false;
}

void *grown(void *at, size_t size)
{
    void *block = realloc(at, size);
    if (block == NULL) {
        fail("no memory");
        exit(1);
    }
    return block;
}

static bool read_file(const char *name, struct stream *s)
{
    FILE *file = fopen(name, "rb");
    size_t n;
    if (file == NULL)
        return fail_by_errno(name);
    do {
        s->at = grown(s->at, s->len + 65536);
        n = fread(s->at + s->len, 1, 65536, file);
        s->len += n;
    } while (n > 0);
    const bool is_whole = !ferror(file);
    fclose(file);
    return is_whole || fail("the file can't be read");
}

bool read_stream(int count, char **arguments, struct stream *s)
{
    const char *names[] = {"h264", "h265", "h266"};
    const uint32_t codecs[] = {H26X_H264, H26X_H265, H26X_H266};
    s->limit = count == 3 ? strtoul(arguments[2], NULL, 10) : LIMIT;
    for (int i = 0; i < 3 && (count == 2 || count == 3); i++)
        if (strcmp(arguments[0], names[i]) == 0)
            s->codec = codecs[i];
    if (s->codec == 0 || s->limit < 4 || s->limit > LONGEST_PAYLOAD)
        return fail("h264|h265|h266 IN [LIMIT], with a limit of 4 to 65495 bytes");
    return read_file(arguments[1], s);
}

bool is_text_of(const struct stream *s, const uint8_t *text, size_t len, size_t *units)
{
    size_t begin, end = 0, at = 0;
    *units = 0;
    while (h26x_next_unit(s->codec, s->at, s->len, end, &begin, &end)) {
        const size_t unit_len = end - begin;
        if (len - at < 4 + unit_len || memcmp(text + at, "\0\0\0\1", 4) != 0
            || memcmp(text + at + 4, s->at + begin, unit_len) != 0)
            return fail("a unit came back as another");
        at += 4 + unit_len;
        ++*units;
    }
    if (*units == 0)
        return fail("the stream has no unit");
    return at == len || fail("more units came back than were sent");
}
