/* What the fuzz targets of C share. They read the inputs of the Rust crate's (rust/emupedestal/fuzz/src/lib.rs).
 *
 * The library has no instructions that tell a fuzzer what ran. So buffers end where memory that can't be touched
 * begins, and a target tells the fuzzer itself what was answered. */
#ifndef FUZZ_H
#define FUZZ_H

#include "h26x.h"

/* The longest input that is tried, and the longest memory that is asked for. */
enum { LONGEST = 4096, MOST = 1 << 21 };

/* Ends the program where it doesn't hold. */
void expect_at(bool holds, const char *what, const char *file, int line);
#define expect(what) expect_at(what, #what, __FILE__, __LINE__)

/* What is left of an input. Where it ends numbers are 0 and bytes are none. */
struct input {
    const uint8_t *at;
    size_t len;
};
uint8_t take_byte(struct input *in);
uint16_t take_word(struct input *in);
/* Bytes behind their length in two bytes, as many as there are. */
struct input take_bytes(struct input *in);

/* How ends are set up, by the first byte: the codec, decoding order numbers, lengths; the rest is the target's. */
struct settings {
    uint32_t codec;
    bool numbers, avc;
    uint8_t more;
};
struct settings take_settings(struct input *in);

/* Tells the fuzzer that it saw this. */
void saw(uint32_t what, uint32_t a, uint32_t b, uint32_t c);

/* A number in few steps, by its bits. */
uint32_t about(size_t n);

/* Memory of `len` bytes behind which none can be touched, filled with a pattern. One place is used for each: what
 * stood there is gone. */
enum place { PACKET, OUTPUT, OTHER, ENDS, PLACES };
uint8_t *room_for(enum place place, size_t len);
/* Whether bytes of such memory are still the pattern. */
bool is_untouched(const uint8_t *at, size_t len);
/* A copy of bytes there. */
const uint8_t *copied(enum place place, struct input bytes);

/* Of a codec: how long a unit's header is; the type in one, or 255; whether packets can carry the unit. */
size_t header_len(uint32_t codec);
unsigned type_of(uint32_t codec, const uint8_t *unit, size_t len);
bool is_carried(uint32_t codec, const uint8_t *unit, size_t len);

#endif
