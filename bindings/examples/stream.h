/* What the programs here begin with: a stream read from a file, memory, and sentences on what went
 * wrong. */
#ifndef STREAM_H
#define STREAM_H

#include <stdbool.h>
#include <stddef.h>
#include <stdint.h>

/* An Annex B stream, and the largest RTP payload that is made of it. */
struct stream {
    uint32_t codec;
    uint8_t *at;
    size_t len, limit;
};

/* Say on standard error, behind the program's name, what went wrong; the second adds what errno
 * means. Both answer false. */
bool fail(const char *what);
bool fail_by_errno(const char *what);

/* A block of this size with what stands in `at`. Without memory the program ends here. */
void *grown(void *at, size_t size);

/* Reads a stream by its arguments, h264|h265|h266 IN [LIMIT]. LIMIT is 1200 bytes unless said. */
bool read_stream(int count, char **arguments, struct stream *s);

/* Whether a text is the units of the stream, each behind 00 00 00 01. *units is how
 * many there are. */
bool is_text_of(const struct stream *s, const uint8_t *text, size_t len, size_t *units);

#endif
