#include "drawn.h"
#include <string.h>

static uint64_t state;

void begin(uint64_t seed)
{
    state = 88172645463325252u ^ seed * 0x9e3779b97f4a7c15u;
}

uint32_t draw(void)
{
    state ^= state << 13;
    state ^= state >> 7;
    state ^= state << 17;
    return (uint32_t)(state >> 16);
}

uint32_t below(uint32_t n)
{
    return draw() % n;
}

bool one_in(uint32_t n)
{
    return below(n) == 0;
}

uint32_t any_codec(void)
{
    static const uint32_t none[] = {0, 263, 267, UINT32_MAX};
    return one_in(5) ? none[below(4)] : 264 + below(3);
}

/* Start codes, marks, and headers of units and packets more often than others. */
static uint8_t byte(void)
{
    static const uint8_t often[] = {0,    0,    0,    1,    1,    2,    3,    4,    0x26, 0x40, 0x62,
                                    0x60, 0x64, 0x65, 0x67, 0x68, 0x78, 0x7c, 0x85, 0x81, 0x41, 0xff};
    return one_in(3) ? draw() & 0xff : often[below(sizeof often)];
}

static size_t length(void)
{
    switch (below(8)) {
    case 0:
        return below(4);
    case 1:
    case 2:
    case 3:
        return below(40);
    case 4:
    case 5:
        return below(400);
    case 6:
        return 1180 + below(60);
    default:
        return below(6000);
    }
}

void draw_few(struct bytes *it, size_t most)
{
    it->len = below((uint32_t)most);
    for (size_t i = 0; i < it->len; i++)
        it->at[i] = byte();
}

static void head(uint8_t *at, uint32_t codec)
{
    static const uint8_t of_264[] = {1, 5, 6, 7, 7, 8, 8, 9, 12, 1, 24, 28};
    static const uint8_t of_265[] = {1, 19, 20, 32, 33, 34, 35, 38, 39, 48, 49, 50};
    static const uint8_t of_266[] = {0, 7, 8, 13, 14, 15, 16, 20, 28, 29, 24, 1};
    switch (codec) {
    case H26X_H264:
        at[0] = 0x60 | of_264[below(12)];
        break;
    case H26X_H265:
        at[0] = of_265[below(12)] << 1 & 0xff;
        at[1] = 1 + below(3);
        break;
    default:
        at[0] = below(3);
        at[1] = of_266[below(12)] << 3 & 0xff;
        at[1] |= 1 + below(3);
    }
}

/* Bytes of a unit: mostly such as no start code has, so that the search for the next passes over them,
 * or such as it stops at all the time. */
static void fill(uint8_t *at, size_t len)
{
    const uint32_t kind = one_in(6) ? below(5) : 5;
    for (size_t i = 0; i < len; i++)
        switch (kind) {
        case 0:
            at[i] = byte();
            break;
        case 1:
            at[i] = one_in(200) ? byte() : 0;
            break;
        case 2:
            at[i] = one_in(200) ? byte() : i % 3 == 2 ? 3 : 0;
            break;
        case 3:
            at[i] = draw() % 3;
            break;
        case 4:
            at[i] = (draw() | 2) & 0xff;
            break;
        default:
            at[i] = one_in(40) ? byte() : (draw() | 1) & 0xff;
        }
}

void draw_unit(struct bytes *it, uint32_t codec)
{
    it->len = length();
    for (size_t i = 0; i < it->len; i++)
        it->at[i] = byte();
    if (it->len > 1 && !one_in(4))
        head(it->at, codec);
}

void draw_payload(struct bytes *it, uint32_t codec)
{
    it->len = 0;
    for (size_t n = 1 + below(6); n > 0; n--) {
        const size_t len = length() / (1 + below(3));
        if (it->len + len + 10 > MOST)
            return;
        if (!one_in(8)) {
            for (size_t zeros = 2 + below(3); zeros > 0; zeros--)
                it->at[it->len++] = 0;
            it->at[it->len++] = 1;
        }
        fill(it->at + it->len, len);
        if (len > 1)
            head(it->at + it->len, codec);
        it->len += len;
    }
}

/* Packets that were made, the last of them. */
static struct {
    uint32_t codec;
    uint8_t at[LONGEST_KEPT];
    size_t len;
} kept[4096];
static uint32_t kept_count;

void keep(uint32_t codec, const uint8_t *packet, size_t len)
{
    if (len > LONGEST_KEPT)
        return;
    const uint32_t i = kept_count < 4096 ? kept_count++ : below(4096);
    memcpy(kept[i].at, packet, kept[i].len = len);
    kept[i].codec = codec;
}

void draw_fragment(struct bytes *it, uint32_t codec)
{
    static const uint8_t heads[][3] = {{0x7c, 0x05}, {0x62, 1, 0x13}, {0, 0xe9, 0x07}};
    const size_t len = codec == H26X_H264 ? 2 : 3;
    memcpy(it->at, heads[codec == H26X_H264 ? 0 : codec == H26X_H265 ? 1 : 2], len);
    it->at[len - 1] |= one_in(2) ? 0x80 : 0;
    it->len = len + length();
    fill(it->at + len, it->len - len);
}

void draw_packet(struct bytes *it, uint32_t codec)
{
    for (int tries = 0; tries < 8 && kept_count > 0; tries++) {
        const uint32_t i = below(kept_count);
        if (kept[i].codec != codec && !one_in(16))
            continue;
        memcpy(it->at, kept[i].at, it->len = kept[i].len);
        if (one_in(4) && it->len > 0)
            it->at[below(it->len < 8 ? (uint32_t)it->len : 8)] = byte();
        if (one_in(8) && it->len > 0)
            it->len = below((uint32_t)it->len);
        return;
    }
    draw_unit(it, codec);
}

/* ---- Datagrams ---- */

static void add(struct bytes *it, size_t count)
{
    for (; count > 0; count--)
        it->at[it->len++] = byte();
}

/* A redundant payload (RFC 2198, 3): headers of blocks, that of the primary one, and their bytes. */
static void add_red(struct bytes *it)
{
    size_t sizes = 0;
    for (uint32_t blocks = below(3); blocks > 0; blocks--) {
        const uint32_t size = one_in(8) ? below(1024) : below(6);
        const uint8_t header[] = {0x80 | below(128), byte(), (byte() & 0xfc) | (uint8_t)(size >> 8), size & 0xff};
        memcpy(it->at + it->len, header, 4);
        it->len += 4, sizes += size;
    }
    it->at[it->len++] = below(128);
    add(it, one_in(8) ? below(8) : sizes + below(8));
}

/* A packet of RTP (RFC 3550, 5.1): CSRCs, an extension, a redundant payload or another, and padding. */
static void add_rtp(struct bytes *it)
{
    const uint32_t csrcs = one_in(3) ? below(16) : 0, words = one_in(8) ? below(70) : below(4), padding = below(6);
    const bool is_extended = one_in(3), is_padded = one_in(3);
    it->at[it->len++] = (uint8_t)(0x80 | is_padded << 5 | is_extended << 4 | csrcs);
    add(it, 11 + 4 * csrcs);
    if (is_extended) {
        add(it, 3);
        it->at[it->len - 1] = 0;
        it->at[it->len++] = (uint8_t)words;
        add(it, 4 * words);
    }
    if (one_in(4))
        add_red(it);
    else
        add(it, below(30));
    if (is_padded) {
        add(it, padding > 1 ? padding - 1 : 0);
        it->at[it->len++] = (uint8_t)padding;
    }
}

/* A packet of RTCP: a PLI, a FIR, a receiver report, or a NACK of few pairs (RFC 4585, 6.3.1; RFC 5104, 4.3.1; RFC 3550,
 * 6.4.2; RFC 4585, 6.2.1). */
static void add_rtcp(struct bytes *it)
{
    const uint8_t heads[][4] = {
        {0x81, 206, 0, 2}, {0x84, 206, 0, 4}, {0x81, 201, 0, 7}, {0x81, 205, 0, (uint8_t)(2 + below(5))}};
    const uint32_t kind = below(4);
    memcpy(it->at + it->len, heads[kind], 4);
    it->len += 4;
    add(it, 4 * (size_t)heads[kind][3]);
}

/* One of them, or a compound of some (RFC 3550, 6.1). */
static void add_rtcps(struct bytes *it)
{
    do
        add_rtcp(it);
    while (one_in(3) && it->len < 400);
}

/* Turns a bit of the front, and cuts it, now and then. */
static void spoil(struct bytes *it)
{
    if (one_in(4) && it->len > 0)
        it->at[below(it->len < 24 ? (uint32_t)it->len : 24)] ^= (uint8_t)(1 << below(8));
    if (one_in(8))
        it->len = below((uint32_t)it->len + 1);
}

void draw_datagram(struct bytes *it)
{
    it->len = 0;
    if (one_in(3))
        add_rtcps(it);
    else
        add_rtp(it);
    spoil(it);
}

void draw_red(struct bytes *it)
{
    it->len = 0;
    add_red(it);
    spoil(it);
}

/* ---- Texts of SDP ---- */

static void add_text(struct bytes *it, const char *text)
{
    for (; *text != 0; text++) {
        const bool is_small = *text >= 'a' && *text <= 'z';
        it->at[it->len++] = one_in(300) ? byte() : (uint8_t)(*text - (is_small && one_in(20) ? 32 : 0));
    }
}

/* One of some texts, which end with NULL. */
static const char *one_of(const char *const *texts)
{
    uint32_t many = 0;
    while (texts[many] != NULL)
        many++;
    return texts[below(many)];
}

/* A parameter's name and a value of it, if it's always the same. */
struct parameter {
    const char *name, *value;
};

static struct parameter any_parameter(uint32_t codec)
{
    static const struct parameter of_264[] = {
        {"profile-level-id", "42e01f"}, {"profile-level-id", "4D801f"}, {"packetization-mode", "1"},
        {"packetization-mode", "0"}, {"level-asymmetry-allowed", "1"},
        {"sprop-parameter-sets", "Z0IACpZTBYmI,aMljiA=="}, {"sprop-parameter-sets", "Z0I=,ZYg="},
        {"max-mbps", "18446744073709551615"}, {"max-recv-level", "e028"}, {"sar-understood", "254"},
        {"sprop-max-don-diff", "32767"}, {"deint-buf-cap", "0"}};
    static const struct parameter of_265[] = {
        {"profile-id", "1"}, {"profile-id", "2"}, {"tier-flag", "0"}, {"level-id", "93"}, {"level-id", "180"},
        {"tx-mode", "SRST"}, {"sprop-vps", "QAEMAf//AWAAAAMAkAAAAw=="}, {"interop-constraints", "B00000000000"},
        {"sprop-max-don-diff", "2"}, {"sprop-depack-buf-bytes", "9"}, {"max-recv-level-id", "186"},
        {"dec-parallel-cap", NULL}};
    static const struct parameter of_266[] = {
        {"profile-id", "1"}, {"profile-id", "17"}, {"tier-flag", "1"}, {"level-id", "51"}, {"level-id", "83"},
        {"sprop-sps", "AHkACwIzgIA="}, {"sprop-dci", "AGk="}, {"sprop-ols-id", "256"}, {"interop-constraints", NULL},
        {"sprop-max-don-diff", "0"}, {"max-lsr", "7"}, {"depack-buf-cap", "4294967295"}};
    static const struct parameter others[] = {{"x", "a=b"}, {"y", ""}, {"apt", "96"}, {"", "1"}};
    if (one_in(8))
        return others[below(4)];
    return (codec == H26X_H264 ? of_264 : codec == H26X_H265 ? of_265 : of_266)[below(12)];
}

/* Capability points, and constraints of H.266, such as there are and others. */
static const char *drawn_value(uint32_t codec)
{
    static const char *const points[] = {
        "{w:8;level-id=93}", "{t:4;max-lsr=1;max-br=2,w:4095;tier-flag=1}", "{ W : 8 ; max-lps=4294967295;x=1}",
        "{w:8;level-id=93,t:4;level-id=90,w:1;max-br=3,t:2;max-lsr=18446744073709551615}", "{w:0;level-id=93}",
        "{t:4;level-id=93,w:9}", "{w:8;level-id=256}", "{w:8;level-id=1;level-id=2}", "{x:8;level-id=93}", "{}", NULL};
    static const char *const constraints[] = {"gA==", "QA==", "oIAAAAAAAAAAAX4=", "oA==", "gAA=", "gA", NULL};
    return one_of(codec == H26X_H266 ? constraints : points);
}

static const char *any_value(void)
{
    static const char *const values[] = {"0", "1", "93", "32768", "42e01", "SRST", "MRST", "AGk=", "ZwAAAWU=", "Z0I=,,",
                                         "{", "18446744073709551616", "a b", "", NULL};
    return one_of(values);
}

void draw_format(struct bytes *it, uint32_t codec)
{
    it->len = 0;
    for (uint32_t many = below(5); many > 0; many--) {
        const struct parameter parameter = any_parameter(codec);
        add_text(it, parameter.name);
        add_text(it, one_in(20) ? "" : one_in(6) ? " = " : "=");
        add_text(it, one_in(8) ? any_value() : parameter.value != NULL ? parameter.value : drawn_value(codec));
        add_text(it, one_in(6) ? " ;; " : one_in(3) ? "; " : ";");
    }
}

void draw_name(struct bytes *it, uint32_t codec)
{
    it->len = 0;
    add_text(it, any_parameter(codec).name);
}

void draw_value(struct bytes *it, uint32_t codec)
{
    it->len = 0;
    add_text(it, one_in(3) ? any_value() : drawn_value(codec));
    add_text(it, one_in(12) ? ";x=1" : one_in(6) ? " " : "");
}

void draw_rtpmap(struct bytes *it)
{
    static const char *const types[] = {"96", "0", "127", "128", " 9", "x", "", NULL};
    static const char *const encodings[] = {" H264", " H265", " h266", " VP8", "H264", "  H264", " rtx", " RED", " ulpfec",
                                            " flexfec", " FlexFEC-03", " flexfec-3", NULL};
    static const char *const clocks[] = {"/90000", "/90000", "/90000 ", "/48000", "/90000/1", "", NULL};
    it->len = 0;
    add_text(it, one_of(types));
    add_text(it, one_of(encodings));
    add_text(it, one_of(clocks));
}

void draw_rtx_format(struct bytes *it)
{
    static const char *const parts[] = {"apt=96", "apt=0", "APT = 127", "apt=128", "apt=", "rtx-time=3000", "Rtx-Time=0",
                                        "rtx-time=18446744073709551616", "x=1", "x={", "", NULL};
    it->len = 0;
    for (uint32_t many = below(4); many > 0; many--) {
        add_text(it, one_of(parts));
        add_text(it, one_in(6) ? " ;; " : ";");
    }
}
