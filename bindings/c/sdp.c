/* Format parameters of SDP and payload types. Lines are of real ends: as Chromium, Firefox and Safari offer them, as
 * FFmpeg 5.1.9 and GStreamer 1.22.0 wrote them in a run, and the examples of the RFCs. */
#include "calls.h"
#include <string.h>

#define TEXT(text) (const uint8_t *)(text), strlen(text)

static h26x_sdp format_of(struct tally *t, uint32_t codec, const char *text)
{
    h26x_sdp it = {NULL};
    h26x_refusal why = {7, 8};
    expect_at(t, h26x_sdp_read(codec, TEXT(text), &it, &why) == H26X_OK, text, __FILE__, __LINE__);
    expect_at(t, it.at != NULL && why.first == 7 && why.second == 8, text, __FILE__, __LINE__);
    expect_at(t, h26x_sdp_codec(&it) == codec, text, __FILE__, __LINE__);
    return it;
}

/* Compares what is written, in as much room as it takes and in less. */
static void is_written(struct tally *t, const h26x_sdp *it, const char *wanted)
{
    uint8_t to[1024];
    size_t len = 99;
    const size_t all = strlen(wanted);
    expect_at(t, h26x_sdp_write(it, to, sizeof to, &len) == H26X_OK, wanted, __FILE__, __LINE__);
    expect_at(t, len == all && memcmp(to, wanted, len) == 0, wanted, __FILE__, __LINE__);
    memset(to, 0xee, sizeof to);
    len = 99;
    expect_at(t, h26x_sdp_write(it, to, all, &len) == H26X_OK && to[all] == 0xee, wanted, __FILE__, __LINE__);
    memset(to, 0xee, sizeof to);
    if (all == 0)
        return;
    expect_at(t, h26x_sdp_write(it, to, all - 1, &len) == H26X_NO_ROOM, wanted, __FILE__, __LINE__);
    expect_at(t, len == all && to[0] == 0xee && to[all - 1] == 0xee, wanted, __FILE__, __LINE__);
}

/* A line is written as this, in the RFC's order, and that again as it is. */
static void writes(struct tally *t, uint32_t codec, const char *line, const char *wanted)
{
    h26x_sdp it = format_of(t, codec, line), again = format_of(t, codec, wanted);
    is_written(t, &it, wanted);
    is_written(t, &again, wanted);
    h26x_sdp_free(it);
    h26x_sdp_free(again);
}

static void check_lines(struct tally *t)
{
    const struct {
        uint32_t codec;
        const char *line, *wanted;
    } rows[] = {
        /* Chromium, Safari, Firefox. */
        {H26X_H264, "level-asymmetry-allowed=1;packetization-mode=1;profile-level-id=42001f",
         "profile-level-id=42001f;level-asymmetry-allowed=1;packetization-mode=1"},
        {H26X_H264, "level-asymmetry-allowed=1;packetization-mode=0;profile-level-id=42e01f",
         "profile-level-id=42e01f;level-asymmetry-allowed=1;packetization-mode=0"},
        {H26X_H264, "level-asymmetry-allowed=1;packetization-mode=1;profile-level-id=4d001f",
         "profile-level-id=4d001f;level-asymmetry-allowed=1;packetization-mode=1"},
        {H26X_H264, "level-asymmetry-allowed=1;packetization-mode=1;profile-level-id=f4001f",
         "profile-level-id=f4001f;level-asymmetry-allowed=1;packetization-mode=1"},
        {H26X_H264, "level-asymmetry-allowed=1;packetization-mode=1;profile-level-id=640c1f",
         "profile-level-id=640c1f;level-asymmetry-allowed=1;packetization-mode=1"},
        {H26X_H264, "profile-level-id=42e01f;level-asymmetry-allowed=1",
         "profile-level-id=42e01f;level-asymmetry-allowed=1"},
        {H26X_H265, "level-id=180;profile-id=1;tier-flag=0;tx-mode=SRST",
         "profile-id=1;tier-flag=0;level-id=180;tx-mode=SRST"},
        {H26X_H265, "level-id=93;tx-mode=SRST", "level-id=93;tx-mode=SRST"},
        /* FFmpeg, GStreamer. */
        {H26X_H264,
         "packetization-mode=1; sprop-parameter-sets=Z0LACtkJbARAAAADAEAAAAyDxImS,aMuBEsg=; "
         "profile-level-id=42C00A",
         "profile-level-id=42C00A;sprop-parameter-sets=Z0LACtkJbARAAAADAEAAAAyDxImS,aMuBEsg=;"
         "packetization-mode=1"},
        {H26X_H264,
         "packetization-mode=1;sprop-parameter-sets=Z01AFeygoP2AtQYGBqUAAAMAAQAAAwA8jxYtlg==,aOvssg==;"
         "profile-level-id=4d4015;level-asymmetry-allowed=1",
         "profile-level-id=4d4015;sprop-parameter-sets=Z01AFeygoP2AtQYGBqUAAAMAAQAAAwA8jxYtlg==,aOvssg==;"
         "level-asymmetry-allowed=1;packetization-mode=1"},
        {H26X_H265,
         "sprop-vps=QAEMAf//AWAAAAMAkAAAAwAAAwA8lZgJ; "
         "sprop-sps=QgEBAWAAAAMAkAAAAwAAAwA8oAoIDxZZWaSTK8BaAgAAAwACAAADADIQ; sprop-pps=RAHBcrRiQA==",
         "sprop-vps=QAEMAf//AWAAAAMAkAAAAwAAAwA8lZgJ;"
         "sprop-sps=QgEBAWAAAAMAkAAAAwAAAwA8oAoIDxZZWaSTK8BaAgAAAwACAAADADIQ;sprop-pps=RAHBcrRiQA=="},
        /* RFC 6184, 8.2.1; RFC 7798, 7.1; RFC 9328, 7.2. */
        {H26X_H264,
         "profile-level-id=42A01E;\r\n packetization-mode=1;\r\n sprop-parameter-sets=Z0IACpZTBYmI,aMljiA==",
         "profile-level-id=42A01E;sprop-parameter-sets=Z0IACpZTBYmI,aMljiA==;packetization-mode=1"},
        {H26X_H265, "dec-parallel-cap={w:8;level-id=93,t:4;level-id=90}; level-id=120",
         "level-id=120;dec-parallel-cap={w:8;level-id=93,t:4;level-id=90}"},
        {H26X_H266, "profile-id=17; level-id=83; tier-flag=1; sprop-dci=AGk=",
         "profile-id=17;tier-flag=1;level-id=83;sprop-dci=AGk="},
        /* Nothing, blanks, names in capitals, and what no RFC has. */
        {H26X_H264, "", ""},
        {H26X_H266, " ; ;", ""},
        {H26X_H265, "X=1 ;; Level-ID = 93; y ;x=2", "level-id=93;X=1;y=;x=2"},
    };
    for (size_t i = 0; i < sizeof rows / sizeof rows[0]; i++)
        writes(t, rows[i].codec, rows[i].line, rows[i].wanted);
}

/* A text that is refused, with the place of its first fault. */
static void check_faults(struct tally *t)
{
    const struct {
        uint32_t codec;
        const char *text;
        uint32_t code;
        size_t place;
    } rows[] = {
        {H26X_H265, "level-id=93;dec-parallel-cap={w:8", H26X_SDP_OPEN_BRACE, 0},
        {H26X_H264, "x=1;;packetization-mode=+1", H26X_SDP_NOT_A_NUMBER, 1},
        {H26X_H264, "packetization-mode=", H26X_SDP_NOT_A_NUMBER, 0},
        {H26X_H264, "packetization-mode=3", H26X_SDP_OUT_OF_RANGE, 0},
        {H26X_H265, "max-lsr=18446744073709551616", H26X_SDP_OUT_OF_RANGE, 0},
        {H26X_H266, "tier-flag=1;profile-id=128;level-id=x", H26X_SDP_OUT_OF_RANGE, 1},
        {H26X_H264, "profile-level-id=42e01", H26X_SDP_NOT_HEXADECIMAL, 0},
        {H26X_H264, "a;b;profile-level-id=42e01g", H26X_SDP_NOT_HEXADECIMAL, 2},
        {H26X_H265, "tx-mode=srmt", H26X_SDP_NOT_TX_MODE, 0},
        {H26X_H265, "level-id=93;tx-mode=SRST;LEVEL-ID=93", H26X_SDP_TWICE, 2},
        {263, "", H26X_UNKNOWN_CODEC, 99},
    };
    for (size_t i = 0; i < sizeof rows / sizeof rows[0]; i++) {
        h26x_sdp made = {NULL};
        h26x_refusal why = {99, 99};
        const char *text = rows[i].text;
        uint32_t code = h26x_sdp_read(rows[i].codec, TEXT(text), &made, &why);
        expect_at(t, code == rows[i].code && made.at == NULL, text, __FILE__, __LINE__);
        expect_at(t, why.first == rows[i].place, text, __FILE__, __LINE__);
        expect(t, h26x_sdp_read(rows[i].codec, TEXT(text), &made, NULL) == code && made.at == NULL);
    }
}

/* A parameter's value by a name, or a code. */
static void value_is(struct tally *t, const h26x_sdp *it, const char *name, bool or_default, uint32_t code,
                     const char *wanted)
{
    uint8_t to[64];
    size_t len = 99;
    memset(to, 0xee, sizeof to);
    expect_at(t, h26x_sdp_value(it, TEXT(name), or_default, to, sizeof to, &len) == code, name, __FILE__, __LINE__);
    if (code != H26X_OK) {
        expect_at(t, len == 99 && to[0] == 0xee, name, __FILE__, __LINE__);
        return;
    }
    expect_at(t, len == strlen(wanted) && memcmp(to, wanted, len) == 0, name, __FILE__, __LINE__);
    expect_at(t, to[len] == 0xee, name, __FILE__, __LINE__);
    memset(to, 0xee, sizeof to);
    if (len == 0)
        return;
    expect(t, h26x_sdp_value(it, TEXT(name), or_default, to, len - 1, &len) == H26X_NO_ROOM);
    expect(t, len == strlen(wanted) && to[0] == 0xee);
}

static void number_is(struct tally *t, const h26x_sdp *it, const char *name, bool or_default, uint32_t code,
                      uint64_t wanted)
{
    uint64_t value = 99;
    expect_at(t, h26x_sdp_number(it, TEXT(name), or_default, &value) == code, name, __FILE__, __LINE__);
    expect_at(t, value == (code == H26X_OK ? wanted : 99), name, __FILE__, __LINE__);
}

static void check_values(struct tally *t)
{
    h26x_sdp it = format_of(t, H26X_H264, "profile-level-id=42E01f;packetization-mode=1;max-mbps=18446744073709551615");
    value_is(t, &it, "Profile-Level-ID", false, H26X_OK, "42E01f");
    value_is(t, &it, "packetization-mode", true, H26X_OK, "1");
    value_is(t, &it, "sar-understood", false, H26X_SDP_ABSENT, NULL);
    value_is(t, &it, "sar-understood", true, H26X_OK, "13");
    value_is(t, &it, "max-fs", true, H26X_SDP_ABSENT, NULL);
    value_is(t, &it, "profile-id", true, H26X_SDP_UNKNOWN_NAME, NULL);
    value_is(t, &it, "", true, H26X_SDP_UNKNOWN_NAME, NULL);
    number_is(t, &it, "PACKETIZATION-MODE", false, H26X_OK, 1);
    number_is(t, &it, "max-mbps", false, H26X_OK, UINT64_MAX);
    number_is(t, &it, "sar-understood", false, H26X_SDP_ABSENT, 0);
    number_is(t, &it, "sar-understood", true, H26X_OK, 13);
    number_is(t, &it, "max-fs", true, H26X_SDP_ABSENT, 0);
    number_is(t, &it, "profile-level-id", true, H26X_SDP_OTHER_KIND, 0);
    number_is(t, &it, "tx-mode", true, H26X_SDP_UNKNOWN_NAME, 0);
    h26x_sdp_free(it);

    it = format_of(t, H26X_H265, "sprop-spatial-segmentation-idc=fFf");
    value_is(t, &it, "profile-id", true, H26X_OK, "1");
    value_is(t, &it, "tx-mode", true, H26X_OK, "SRST");
    value_is(t, &it, "interop-constraints", true, H26X_OK, "B00000000000");
    number_is(t, &it, "sprop-spatial-segmentation-idc", false, H26X_OK, 4095);
    number_is(t, &it, "include-dph", false, H26X_SDP_OTHER_KIND, 0);
    number_is(t, &it, "level-id", true, H26X_OK, 93);
    number_is(t, &it, "depack-buf-cap", true, H26X_OK, UINT32_MAX);
    h26x_sdp_free(it);

    it = format_of(t, H26X_H266, "");
    value_is(t, &it, "interop-constraints", true, H26X_OK, "gA==");
    number_is(t, &it, "level-id", true, H26X_OK, 51);
    number_is(t, &it, "depack-buf-cap", true, H26X_OK, UINT32_MAX);
    number_is(t, &it, "sprop-ols-id", true, H26X_SDP_ABSENT, 0);
    h26x_sdp_free(it);
}

/* The name of a place, in as much room as it takes and in less. */
static void name_is(struct tally *t, const h26x_sdp *it, size_t place, const char *name)
{
    uint8_t to[32];
    size_t len = 99;
    const size_t all = strlen(name);
    memset(to, 0xee, sizeof to);
    expect_at(t, h26x_sdp_name(it, place, to, all, &len) == H26X_OK && len == all, name, __FILE__, __LINE__);
    expect_at(t, memcmp(to, name, all) == 0 && to[all] == 0xee, name, __FILE__, __LINE__);
    memset(to, 0xee, sizeof to);
    expect_at(t, h26x_sdp_name(it, place, to, all - 1, &len) == H26X_NO_ROOM, name, __FILE__, __LINE__);
    expect_at(t, len == all && to[0] == 0xee, name, __FILE__, __LINE__);
}

/* Every name of each RFC is known to its codec, and stands in its place. */
static void check_names(struct tally *t)
{
    static const char *const of_264[] = {
        "profile-level-id", "max-recv-level", "max-mbps", "max-smbps", "max-fs", "max-cpb", "max-dpb", "max-br",
        "redundant-pic-cap", "sprop-parameter-sets", "sprop-level-parameter-sets", "use-level-src-parameter-sets",
        "in-band-parameter-sets", "level-asymmetry-allowed", "packetization-mode", "sprop-interleaving-depth",
        "sprop-deint-buf-req", "deint-buf-cap", "sprop-init-buf-time", "sprop-max-don-diff", "max-rcmd-nalu-size",
        "sar-understood", "sar-supported", NULL};
    static const char *const of_265[] = {
        "profile-space", "profile-id", "tier-flag", "level-id", "interop-constraints",
        "profile-compatibility-indicator", "sprop-sub-layer-id", "recv-sub-layer-id", "max-recv-level-id", "tx-mode",
        "sprop-vps", "sprop-sps", "sprop-pps", "sprop-sei", "max-lsr", "max-lps", "max-cpb", "max-dpb", "max-br",
        "max-tr", "max-tc", "max-fps", "sprop-max-don-diff", "sprop-depack-buf-nalus", "sprop-depack-buf-bytes",
        "depack-buf-cap", "sprop-segmentation-id", "sprop-spatial-segmentation-idc", "dec-parallel-cap",
        "include-dph", NULL};
    static const char *const of_266[] = {
        "profile-id", "tier-flag", "sub-profile-id", "interop-constraints", "level-id", "sprop-sublayer-id",
        "sprop-ols-id", "recv-sublayer-id", "recv-ols-id", "max-recv-level-id", "sprop-dci", "sprop-vps", "sprop-sps",
        "sprop-pps", "sprop-sei", "max-lsr", "max-fps", "sprop-max-don-diff", "sprop-depack-buf-bytes",
        "depack-buf-cap", NULL};
    static const char *const *const names[] = {of_264, of_265, of_266};
    for (size_t i = 0; i < 3; i++) {
        h26x_sdp it = format_of(t, H26X_H264 + (uint32_t)i, "");
        size_t n = 0;
        for (; names[i][n] != NULL; n++) {
            value_is(t, &it, names[i][n], false, H26X_SDP_ABSENT, NULL);
            name_is(t, &it, n, names[i][n]);
        }
        const size_t past[] = {n, n + 1, SIZE_MAX};
        for (size_t p = 0; p < 3; p++) {
            size_t len = 99;
            expect(t, h26x_sdp_name(&it, past[p], NULL, 0, &len) == H26X_SDP_ABSENT && len == 99);
        }
        h26x_sdp_free(it);
    }
}

/* Units of a parameter, of which `wanted` names each with '|' between two. */
static void units_are(struct tally *t, const h26x_sdp *it, const char *name, const char *wanted)
{
    uint8_t to[64];
    size_t count = 99, len = 99, i = 0;
    h26x_refusal why = {7, 8};
    expect_at(t, h26x_sdp_units(it, TEXT(name), &count, &why) == H26X_OK, name, __FILE__, __LINE__);
    for (; *wanted != '\0'; wanted = behind_bar(wanted), i++) {
        expect_at(t, h26x_sdp_unit(it, TEXT(name), i, to, sizeof to, &len, &why) == H26X_OK, name, __FILE__, __LINE__);
        expect_at(t, is_same(to, len, wanted), name, __FILE__, __LINE__);
        to[0] = 0xee;
        expect_at(t, h26x_sdp_unit(it, TEXT(name), i, to, len - 1, &len, &why) == H26X_NO_ROOM, name, __FILE__, __LINE__);
        expect_at(t, to[0] == 0xee, name, __FILE__, __LINE__);
    }
    len = 99;
    expect_at(t, count == i && why.first == 7 && why.second == 8, name, __FILE__, __LINE__);
    expect_at(t, h26x_sdp_unit(it, TEXT(name), i, to, sizeof to, &len, &why) == H26X_SDP_ABSENT, name, __FILE__, __LINE__);
    expect_at(t, len == 99 && to[0] == 0xee, name, __FILE__, __LINE__);
}

/* Why a parameter has none. */
static void has_no_units(struct tally *t, uint32_t codec, const char *text, const char *name, uint32_t code,
                         size_t place)
{
    h26x_sdp it = format_of(t, codec, text);
    uint8_t to[4] = {0xee};
    size_t count = 99, len = 99;
    h26x_refusal why = {99, 99};
    expect_at(t, h26x_sdp_units(&it, TEXT(name), &count, &why) == code && count == 99, text, __FILE__, __LINE__);
    expect_at(t, why.first == place, text, __FILE__, __LINE__);
    why.first = 99;
    expect_at(t, h26x_sdp_unit(&it, TEXT(name), 0, to, 4, &len, &why) == code && len == 99, text, __FILE__, __LINE__);
    expect_at(t, why.first == place && to[0] == 0xee, text, __FILE__, __LINE__);
    h26x_sdp_free(it);
}

static void check_units(struct tally *t)
{
    h26x_sdp it = format_of(t, H26X_H264, "sprop-parameter-sets=Z0IACpZTBYmI,aMljiA==");
    units_are(t, &it, "Sprop-Parameter-Sets", "6742000a9653058988|68c96388");
    h26x_sdp_free(it);
    it = format_of(t, H26X_H265, "sprop-pps=RAHBcrRiQA==;sprop-sei=TgEF");
    units_are(t, &it, "sprop-pps", "4401c172b46240");
    units_are(t, &it, "sprop-sei", "4e0105");
    h26x_sdp_free(it);
    it = format_of(t, H26X_H266, "sprop-dci=AGk=");
    units_are(t, &it, "sprop-dci", "0069");
    h26x_sdp_free(it);
    has_no_units(t, H26X_H264, "", "sprop-vps", H26X_SDP_UNKNOWN_NAME, 0);
    has_no_units(t, H26X_H264, "", "profile-level-id", H26X_SDP_OTHER_KIND, 0);
    has_no_units(t, H26X_H264, "", "sprop-parameter-sets", H26X_SDP_ABSENT, 0);
    has_no_units(t, H26X_H264, "sprop-parameter-sets=Z0I=,Z0I", "sprop-parameter-sets", H26X_SDP_NOT_BASE64, 1);
    has_no_units(t, H26X_H264, "sprop-parameter-sets=Z0I=,,Z0I=", "sprop-parameter-sets", H26X_SDP_EMPTY_UNIT, 1);
    has_no_units(t, H26X_H264, "sprop-parameter-sets=Z0I=,ZYg=", "sprop-parameter-sets", H26X_SDP_OTHER_TYPE, 1);
    has_no_units(t, H26X_H264, "sprop-parameter-sets=ZwAAAWU=", "sprop-parameter-sets", H26X_SDP_START_CODE, 0);
    has_no_units(t, H26X_H265, "sprop-vps=QgEB", "sprop-vps", H26X_SDP_OTHER_TYPE, 0);
}

/* A value that is given leaves white space out; one that isn't one changes nothing. */
static void check_set(struct tally *t)
{
    const struct {
        const char *name, *value;
        uint32_t code;
    } refused[] = {
        {"packetization-mode", "3", H26X_SDP_OUT_OF_RANGE},     {"packetization-mode", "+1", H26X_SDP_NOT_A_NUMBER},
        {"packetization-mode", "", H26X_SDP_NOT_A_NUMBER},      {"packetization-mode", " \r\n", H26X_SDP_NOT_A_NUMBER},
        {"packetization-mode", "1;", H26X_SDP_NOT_A_VALUE},     {"packetization-mode", "1;x=1", H26X_SDP_NOT_A_VALUE},
        {"profile-level-id", "42e01", H26X_SDP_NOT_HEXADECIMAL}, {"profile-level-id", "42e01f{", H26X_SDP_NOT_A_VALUE},
        {"level-id", "93", H26X_SDP_UNKNOWN_NAME},              {"x", "2", H26X_SDP_UNKNOWN_NAME},
        {"", "2", H26X_SDP_UNKNOWN_NAME},                       {" packetization-mode", "1", H26X_SDP_UNKNOWN_NAME},
    };
    h26x_sdp it = format_of(t, H26X_H264, "packetization-mode=1;x=1");
    for (size_t i = 0; i < sizeof refused / sizeof refused[0]; i++) {
        expect_at(t, h26x_sdp_set(&it, TEXT(refused[i].name), TEXT(refused[i].value)) == refused[i].code,
                  refused[i].value, __FILE__, __LINE__);
        is_written(t, &it, "packetization-mode=1;x=1");
    }
    expect(t, h26x_sdp_set(&it, TEXT("Profile-Level-ID"), TEXT(" \t42e01f\r\n")) == H26X_OK);
    is_written(t, &it, "profile-level-id=42e01f;packetization-mode=1;x=1");
    expect(t, h26x_sdp_unset(&it, TEXT("PACKETIZATION-MODE")) == H26X_OK);
    expect(t, h26x_sdp_unset(&it, TEXT("packetization-mode")) == H26X_OK);
    expect(t, h26x_sdp_unset(&it, TEXT("x")) == H26X_SDP_UNKNOWN_NAME);
    is_written(t, &it, "profile-level-id=42e01f;x=1");
    /* Units are those that were set last. */
    expect(t, h26x_sdp_set(&it, TEXT("sprop-parameter-sets"), TEXT("Z0IACpZTBYmI,aMljiA==")) == H26X_OK);
    units_are(t, &it, "sprop-parameter-sets", "6742000a9653058988|68c96388");
    expect(t, h26x_sdp_set(&it, TEXT("sprop-parameter-sets"), TEXT("aMljiA==")) == H26X_OK);
    units_are(t, &it, "sprop-parameter-sets", "68c96388");
    expect(t, h26x_sdp_unset(&it, TEXT("sprop-parameter-sets")) == H26X_OK);
    value_is(t, &it, "sprop-parameter-sets", false, H26X_SDP_ABSENT, NULL);
    h26x_sdp_free(it);
    /* Of a payload, and in braces. */
    struct bytes sets = bytes_of("000001 6742c00a 000001 68cb");
    expect(t, h26x_sdp_of_payload(H26X_H264, sets.at, sets.len, &it) == H26X_OK);
    expect(t, h26x_sdp_unset(&it, TEXT("sprop-parameter-sets")) == H26X_OK);
    expect(t, h26x_sdp_set(&it, TEXT("profile-level-id"), TEXT("42c01f")) == H26X_OK);
    is_written(t, &it, "profile-level-id=42c01f;packetization-mode=1");
    h26x_sdp_free(it);
    it = format_of(t, H26X_H265, "level-id=93");
    expect(t, h26x_sdp_set(&it, TEXT("dec-parallel-cap"), TEXT("{w:8;level-id=93}")) == H26X_OK);
    expect(t, h26x_sdp_set(&it, TEXT("dec-parallel-cap"), TEXT("{w:8;level-id=93")) == H26X_SDP_NOT_A_VALUE);
    is_written(t, &it, "level-id=93;dec-parallel-cap={w:8;level-id=93}");
    h26x_sdp_free(it);
}

/* What no RFC has, in its order. */
static void check_others(struct tally *t)
{
    h26x_sdp it = format_of(t, H26X_H265, "x=12;level-id=93; Name = a=b ;y");
    static const char *const names[] = {"x", "Name", "y"}, *const values[] = {"12", "a=b", ""};
    uint8_t name[8], value[8];
    size_t name_len = 99, value_len = 99;
    for (size_t i = 0; i < 3; i++) {
        memset(name, 0xee, 8);
        memset(value, 0xee, 8);
        expect(t, h26x_sdp_other(&it, i, name, 8, &name_len, value, 8, &value_len) == H26X_OK);
        expect(t, name_len == strlen(names[i]) && memcmp(name, names[i], name_len) == 0);
        expect(t, value_len == strlen(values[i]) && memcmp(value, values[i], value_len) == 0);
        expect(t, name[name_len] == 0xee && value[value_len] == 0xee);
    }
    memset(name, 0xee, 8);
    memset(value, 0xee, 8);
    expect(t, h26x_sdp_other(&it, 1, name, 3, &name_len, value, 8, &value_len) == H26X_NO_ROOM);
    expect(t, name_len == 4 && value_len == 3 && name[0] == 0xee && value[0] == 0xee);
    name_len = value_len = 99;
    expect(t, h26x_sdp_other(&it, 1, name, 8, &name_len, value, 2, &value_len) == H26X_NO_ROOM);
    expect(t, name_len == 4 && value_len == 3 && name[0] == 0xee && value[0] == 0xee);
    expect(t, h26x_sdp_other(&it, 1, NULL, 8, NULL, NULL, 8, NULL) == H26X_NO_ROOM);
    expect(t, h26x_sdp_other(&it, 2, name, 1, NULL, NULL, 8, NULL) == H26X_OK && name[0] == 'y');
    name_len = value_len = 99;
    expect(t, h26x_sdp_other(&it, 3, name, 8, &name_len, value, 8, &value_len) == H26X_SDP_ABSENT);
    expect(t, h26x_sdp_other(&it, SIZE_MAX, name, 8, &name_len, value, 8, &value_len) == H26X_SDP_ABSENT);
    expect(t, name_len == 99 && value_len == 99 && name[0] == 'y' && value[0] == 0xee);
    h26x_sdp_free(it);
}

/* The answer to an offered format by one of ours, as it is written; NULL where there is none. */
static void answers(struct tally *t, uint32_t codec, const char *offered, const char *ours, const char *wanted)
{
    h26x_sdp a = format_of(t, codec, offered), b = format_of(t, codec, ours), made = {NULL}, again = {NULL};
    uint32_t code = h26x_sdp_answer(&a, &b, &made);
    expect_at(t, code == (wanted != NULL ? H26X_OK : H26X_SDP_NO_ANSWER), offered, __FILE__, __LINE__);
    expect_at(t, (made.at != NULL) == (wanted != NULL), offered, __FILE__, __LINE__);
    if (wanted != NULL) {
        is_written(t, &made, wanted);
        /* An answer to it is itself. */
        expect(t, h26x_sdp_answer(&made, &b, &again) == H26X_OK);
        is_written(t, &again, wanted);
    }
    h26x_sdp_close(&a);
    h26x_sdp_close(&b);
    h26x_sdp_close(&made);
    h26x_sdp_close(&again);
}

/* What is wanted is by hand, from RFC 6184, 8.2.2, RFC 7798, 7.2.2, and RFC 9328, 7.3.2. */
static void check_answers(struct tally *t)
{
    const char *chromium = "level-asymmetry-allowed=1;packetization-mode=1;profile-level-id=42e01f";
    const char *safari = "level-asymmetry-allowed=1;packetization-mode=1;profile-level-id=640c1f";
    const char *h265 = "level-id=180;profile-id=1;tier-flag=0;tx-mode=SRST";
    /* Our level, where both ends allow each direction its own; else the lower one. */
    answers(t, H26X_H264, chromium, "profile-level-id=42e034;level-asymmetry-allowed=1;packetization-mode=1",
            "profile-level-id=42e034;level-asymmetry-allowed=1;packetization-mode=1");
    answers(t, H26X_H264, safari, "profile-level-id=640c15;packetization-mode=1",
            "profile-level-id=640c15;packetization-mode=1");
    answers(t, H26X_H264, safari, "profile-level-id=640c34;packetization-mode=1",
            "profile-level-id=640c1f;packetization-mode=1");
    /* A mode that isn't given is 0; Constrained High is not High. */
    answers(t, H26X_H264, chromium, "profile-level-id=42e01f", NULL);
    answers(t, H26X_H264, safari, "profile-level-id=64001f;packetization-mode=1", NULL);
    /* One profile by other bytes; what is ours alone is said. */
    answers(t, H26X_H264, "profile-level-id=42e01f;level-asymmetry-allowed=1;z=1", "profile-level-id=4D801F;x=1",
            "profile-level-id=42e01f;x=1");
    answers(t, H26X_H265, h265, "level-id=93", "profile-id=1;tier-flag=0;level-id=93;tx-mode=SRST");
    answers(t, H26X_H265, h265, "level-id=186", "profile-id=1;tier-flag=0;level-id=180;tx-mode=SRST");
    answers(t, H26X_H265, h265, "tier-flag=1;level-id=180", NULL);
    answers(t, H26X_H265, h265, "tx-mode=MRST", NULL);
    answers(t, H26X_H266, "profile-id=1;level-id=83;sprop-max-don-diff=0", "level-id=51", "profile-id=1;level-id=51");
    answers(t, H26X_H266, "profile-id=17", "profile-id=17;level-id=51", "profile-id=17");
    answers(t, H26X_H266, "profile-id=17", "profile-id=33", NULL);
    /* Two codecs have nothing in common, and no option has another bit. */
    h26x_sdp a = format_of(t, H26X_H264, ""), b = format_of(t, H26X_H265, ""), made = {NULL};
    h26x_sdp_stream sends = {.level = 9}, receives = {.level = 9};
    const uint32_t others[] = {12, 32, 1u << 31, UINT32_MAX};
    for (size_t i = 0; i < 4; i++) {
        h26x_refusal why = {7, 8};
        expect(t, h26x_sdp_answer_with(&a, &a, others[i], &made) == H26X_OUT_OF_RANGE && made.at == NULL);
        expect(t, h26x_sdp_broken_rule(&a, others[i], &why) == H26X_OUT_OF_RANGE && why.first == 0 && why.second == 0);
        expect(t, h26x_sdp_agreed(&a, &a, others[i], &sends, &receives) == H26X_OUT_OF_RANGE);
        expect(t, h26x_sdp_accepts_declared(&a, &a, others[i]) == H26X_OUT_OF_RANGE);
    }
    expect(t, h26x_sdp_agreed(&a, &b, 0, &sends, &receives) == H26X_SDP_NO_ANSWER);
    expect(t, sends.level == 9 && receives.level == 9);
    expect(t, h26x_sdp_accepts_declared(&a, &b, 0) == H26X_SDP_NO_ANSWER);
    expect(t, h26x_sdp_answer_with(&a, &b, 0, &made) == H26X_SDP_NO_ANSWER && made.at == NULL);
    expect(t, h26x_sdp_answer(&a, &b, &made) == H26X_SDP_NO_ANSWER && made.at == NULL);
    h26x_sdp_free(a);
    h26x_sdp_free(b);
}

/* What a stream says of itself. By hand from its sets (Rec. ITU-T H.264, 7.3.2.1.1; H.265, 7.3.3; H.266, 7.3.2.4 and
 * 7.3.3.1), of H.264 as FFmpeg wrote it. */
static void stream_says(struct tally *t, uint32_t codec, const char *payload, uint32_t code, const char *wanted)
{
    struct bytes in = bytes_of(payload);
    h26x_sdp made = {NULL};
    expect_at(t, h26x_sdp_of_payload(codec, in.at, in.len, &made) == code, payload, __FILE__, __LINE__);
    if (code == H26X_OK)
        is_written(t, &made, wanted);
    expect_at(t, (made.at != NULL) == (code == H26X_OK), payload, __FILE__, __LINE__);
    h26x_sdp_free(made);
}

static void check_streams(struct tally *t)
{
    stream_says(t, H26X_H264,
                "00000001 6742c00ad9096c044000000300400000 0c83c48992 000001 68cb8112c8 000001 658884 000001 67010203",
                H26X_OK, "profile-level-id=42c00a;sprop-parameter-sets=Z0LACtkJbARAAAADAEAAAAyDxImS,aMuBEsg=;packetization-mode=1");
    stream_says(t, H26X_H264, "", H26X_SDP_NO_SET, NULL);
    stream_says(t, H26X_H264, "000001 658884 000001 6742c01f", H26X_SDP_NO_SET, NULL);
    stream_says(t, H26X_H264, "6742c0", H26X_SDP_SHORT_SET, NULL);
    stream_says(t, H26X_H265,
                "000001 40010c01ffff016000000300900000030000 03003c959809 000001 4401c172b46240", H26X_OK,
                "profile-space=0;profile-id=1;tier-flag=0;level-id=60;interop-constraints=900000000000;"
                "profile-compatibility-indicator=60000000;sprop-vps=QAEMAf//AWAAAAMAkAAAAwAAAwA8lZgJ;"
                "sprop-pps=RAHBcrRiQA==");
    stream_says(t, H26X_H265, "000001 4401c172b46240", H26X_SDP_NO_SET, NULL);
    stream_says(t, H26X_H266, "000001 0079000b02338080 000001 00810080", H26X_OK,
                "profile-id=1;tier-flag=0;interop-constraints=gA==;level-id=51;sprop-sps=AHkACwIzgIA=;sprop-pps=AIEAgA==");
    stream_says(t, H26X_H266, "0079000b0233", H26X_SDP_SHORT_SET, NULL);
    stream_says(t, H26X_H266, "0079000a023380", H26X_SDP_NO_PROFILE, NULL);
    stream_says(t, H26X_H266, "0079000b0233a0", H26X_SDP_SHORT_SET, NULL);
    stream_says(t, H26X_H266, "0079000d0233a08000000300000300000300017eff", H26X_OK,
                "profile-id=1;tier-flag=0;interop-constraints=oIAAAAAAAAAAAX4=;level-id=51;sprop-sps=AHkADQIzoIAAAAMAAAMAAAMAAX7/");
    stream_says(t, 267, "6742c01f", H26X_UNKNOWN_CODEC, NULL);
}

static void check_single_units(struct tally *t)
{
    struct bytes stream = bytes_of("000001 6742c01f 000001 68ce 000001 6588842103");
    expect(t, h26x_fits_single_units(stream.at, stream.len, 5));
    expect(t, !h26x_fits_single_units(stream.at, stream.len, 4));
    expect(t, h26x_fits_single_units(NULL, 5, 0));
}

/* `sprop-max-don-diff` (RFC 7798, 7.1; RFC 9328, 7.2). */
static void check_max_don_diff(struct tally *t)
{
    const struct {
        uint32_t codec;
        const char *text;
        uint32_t code, wanted;
    } rows[] = {{H26X_H265, "", H26X_OK, 0},
                {H26X_H265, "sprop-max-don-diff=2", H26X_OK, 2},
                {H26X_H266, "", H26X_OK, 0},
                {H26X_H266, "sprop-max-don-diff=32767", H26X_OK, 32767},
                {H26X_H264, "sprop-max-don-diff=2", H26X_NOT_OF_THIS_CODEC, 99}};
    for (size_t i = 0; i < sizeof rows / sizeof rows[0]; i++) {
        h26x_sdp it = format_of(t, rows[i].codec, rows[i].text);
        uint32_t value = 99;
        expect(t, h26x_sdp_max_don_diff(&it, &value) == rows[i].code && value == rows[i].wanted);
        expect(t, h26x_sdp_max_don_diff(&it, NULL) == rows[i].code);
        h26x_sdp_free(it);
    }
}

/* `interop-constraints` (RFC 7798, 7.1, with Rec. ITU-T H.265, 7.3.3; RFC 9328, 7.2, with H.266, 7.3.3.1). */
static void constraints_are(struct tally *t, uint32_t codec, const char *text, const char *bytes,
                            h26x_constraints wanted)
{
    h26x_sdp it = format_of(t, codec, text);
    struct bytes all = bytes_of(bytes);
    for (size_t room = 0; room <= all.len + 1; room++) {
        uint8_t to[16];
        h26x_constraints said = {9, 9, true, true, true};
        const size_t copied = room < all.len ? room : all.len;
        memset(to, 0xee, sizeof to);
        expect_at(t, h26x_sdp_constraints(&it, to, room, &said) == H26X_OK, text, __FILE__, __LINE__);
        expect_at(t, said.flags == wanted.flags && said.len == all.len, text, __FILE__, __LINE__);
        expect_at(t, said.frame_only == wanted.frame_only, text, __FILE__, __LINE__);
        expect_at(t, said.multilayer == wanted.multilayer, text, __FILE__, __LINE__);
        expect_at(t, said.general == wanted.general, text, __FILE__, __LINE__);
        expect_at(t, memcmp(to, all.at, copied) == 0 && to[copied] == 0xee, text, __FILE__, __LINE__);
    }
    h26x_sdp_free(it);
}

static void has_no_constraints(struct tally *t, uint32_t codec, const char *text, uint32_t code)
{
    h26x_sdp it = format_of(t, codec, text);
    uint8_t to[4] = {0xee};
    h26x_constraints said = {9, 9, true, false, true};
    expect_at(t, h26x_sdp_constraints(&it, to, 4, &said) == code && to[0] == 0xee, text, __FILE__, __LINE__);
    expect_at(t, said.flags == 9 && said.len == 9 && said.frame_only, text, __FILE__, __LINE__);
    expect_at(t, !said.multilayer && said.general, text, __FILE__, __LINE__);
    expect_at(t, h26x_sdp_constraints(&it, NULL, 4, NULL) == code, text, __FILE__, __LINE__);
    h26x_sdp_free(it);
}

static void check_constraints(struct tally *t)
{
    constraints_are(t, H26X_H265, "", "b00000000000", (h26x_constraints){.flags = 0xb00000000000, .frame_only = true});
    constraints_are(t, H26X_H265, "interop-constraints=A0000000f001", "a0000000f001",
                    (h26x_constraints){.flags = 0xa0000000f001});
    constraints_are(t, H26X_H265, "interop-constraints=123456789abc", "123456789abc",
                    (h26x_constraints){.flags = 0x123456789abc, .frame_only = true});
    constraints_are(t, H26X_H266, "", "80", (h26x_constraints){.frame_only = true});
    constraints_are(t, H26X_H266, "interop-constraints=QA==", "40", (h26x_constraints){.multilayer = true});
    constraints_are(t, H26X_H266, "interop-constraints=AA==", "00", (h26x_constraints){.general = false});
    constraints_are(t, H26X_H266, "interop-constraints=oIAAAAAAAAAAAX4=", "a08000000000000000017e",
                    (h26x_constraints){.frame_only = true, .general = true});
    has_no_constraints(t, H26X_H264, "interop-constraints=gA==", H26X_NOT_OF_THIS_CODEC);
    has_no_constraints(t, H26X_H266, "interop-constraints=gA", H26X_SDP_CONSTRAINTS_NOT_BASE64);
    has_no_constraints(t, H26X_H266, "interop-constraints=", H26X_SDP_SHORT_CONSTRAINTS);
    has_no_constraints(t, H26X_H266, "interop-constraints=oA==", H26X_SDP_SHORT_CONSTRAINTS);
    has_no_constraints(t, H26X_H266, "interop-constraints=oIAAAAAAAAAAAX4A", H26X_SDP_LONG_CONSTRAINTS);
    has_no_constraints(t, H26X_H266, "interop-constraints=gAA=", H26X_SDP_LONG_CONSTRAINTS);
}

enum { MOST_POINTS = 3 };

static bool is_point(const h26x_capability_point *a, const h26x_capability_point *b)
{
    return a->tool == b->tool && a->spatial_segmentation == b->spatial_segmentation && a->tier_flag == b->tier_flag
           && a->level_id == b->level_id && a->max_lsr == b->max_lsr && a->max_lps == b->max_lps
           && a->max_br == b->max_br && a->has_tier_flag == b->has_tier_flag && a->has_level_id == b->has_level_id
           && a->has_max_lsr == b->has_max_lsr && a->has_max_lps == b->has_max_lps && a->has_max_br == b->has_max_br;
}

/* The points of a line, in room for none to one more than they are. */
static void points_are(struct tally *t, const char *line, bool or_default, size_t many,
                       const h26x_capability_point *wanted)
{
    h26x_sdp it = format_of(t, H26X_H265, line);
    for (size_t room = 0; room <= many + 1; room++) {
        h26x_capability_point points[MOST_POINTS + 1];
        size_t count = 99;
        h26x_refusal why = {7, 8};
        memset(points, 0xee, sizeof points);
        h26x_capability_point untouched = points[0];
        expect_at(t, h26x_sdp_capability_points(&it, or_default, points, room, &count, &why) == H26X_OK, line, __FILE__,
                  __LINE__);
        expect_at(t, count == many && why.first == 7 && why.second == 8, line, __FILE__, __LINE__);
        for (size_t i = 0; i <= many; i++)
            expect_at(t, is_point(&points[i], i < room && i < many ? &wanted[i] : &untouched), line, __FILE__,
                      __LINE__);
    }
    h26x_sdp_free(it);
}

/* Why a line has none, with the place of the point and the code of what is wrong there. */
static void has_no_points(struct tally *t, uint32_t codec, const char *line, uint32_t code, size_t place, size_t fault)
{
    h26x_sdp it = format_of(t, codec, line);
    for (int or_default = 0; or_default < 2; or_default++) {
        h26x_capability_point point = {.max_br = 9};
        size_t count = 99;
        h26x_refusal why = {99, 99};
        expect_at(t, h26x_sdp_capability_points(&it, or_default, &point, 1, &count, &why) == code, line, __FILE__,
                  __LINE__);
        expect_at(t, count == 99 && is_point(&point, &(h26x_capability_point){.max_br = 9}), line, __FILE__, __LINE__);
        expect_at(t, why.first == place && why.second == fault, line, __FILE__, __LINE__);
        expect_at(t, h26x_sdp_capability_points(&it, or_default, NULL, 9, NULL, NULL) == code, line, __FILE__,
                  __LINE__);
    }
    h26x_sdp_free(it);
}

/* `dec-parallel-cap` (RFC 7798, 7.1). */
static void check_capability_points(struct tally *t)
{
    const h26x_capability_point of_rfc[] = {
        {.tool = H26X_WAVEFRONTS, .spatial_segmentation = 8, .level_id = 93, .has_level_id = 1},
        {.tool = H26X_NO_WAVEFRONTS, .spatial_segmentation = 4, .level_id = 90, .has_level_id = 1}};
    points_are(t, "dec-parallel-cap={w:8;level-id=93,t:4;level-id=90}; level-id=120", false, 2, of_rfc);
    const h26x_capability_point whole[] = {
        {1, 1, 255, UINT64_MAX, UINT32_MAX, 7, H26X_NO_WAVEFRONTS, 1, 1, 1, 1, 1},
        {.spatial_segmentation = 4095, .tool = H26X_WAVEFRONTS, .max_lps = 0, .has_max_lps = 1},
        {.spatial_segmentation = 1, .tool = H26X_WAVEFRONTS, .tier_flag = 0, .has_tier_flag = 1}};
    points_are(t,
               "dec-parallel-cap={t:1;max-br=7;tier-flag=1;level-id=255;max-lsr=18446744073709551615;"
               "max-lps=4294967295,W:4095;x=1;MAX-LPS=0,w:1;tier-flag=0}",
               false, 3, whole);
    /* What a point leaves out is as it is said outside, if it is said there. */
    const char *line = "tier-flag=1;level-id=120;max-lsr=9;max-br=8;dec-parallel-cap={w:8;max-lps=5,t:2;max-br=3}";
    const h26x_capability_point own[] = {
        {.spatial_segmentation = 8, .tool = 1, .max_lps = 5, .has_max_lps = 1},
        {.spatial_segmentation = 2, .tool = 0, .max_br = 3, .has_max_br = 1}};
    const h26x_capability_point inferred[] = {{8, 1, 120, 9, 5, 8, 1, 1, 1, 1, 1, 1},
                                              {2, 1, 120, 9, 0, 3, 0, 1, 1, 1, 0, 1}};
    points_are(t, line, false, 2, own);
    points_are(t, line, true, 2, inferred);
    const h26x_capability_point highest[] = {{8, 1, 150, 0, 0, 0, 1, 1, 1, 0, 0, 0}};
    points_are(t, "max-recv-level-id=150;level-id=120;dec-parallel-cap={w:8;tier-flag=1}", true, 1, highest);
    const h26x_capability_point taken[] = {{8, 0, 93, 1, 0, 0, 1, 1, 1, 1, 0, 0}};
    points_are(t, "dec-parallel-cap={w:8;max-lsr=1}", true, 1, taken);

    has_no_points(t, H26X_H265, "level-id=93", H26X_SDP_ABSENT, 0, 0);
    has_no_points(t, H26X_H264, "dec-parallel-cap={w:8;level-id=93}", H26X_NOT_OF_THIS_CODEC, 0, 0);
    has_no_points(t, H26X_H266, "dec-parallel-cap={w:8;level-id=93}", H26X_NOT_OF_THIS_CODEC, 0, 0);
    has_no_points(t, H26X_H265, "dec-parallel-cap=w:8;level-id=93", H26X_SDP_NO_BRACES, 0, 0);
    has_no_points(t, H26X_H265, "dec-parallel-cap={}", H26X_SDP_NO_TOOL, 0, 0);
    has_no_points(t, H26X_H265, "dec-parallel-cap={w:8;level-id=93,x:8;level-id=93}", H26X_SDP_NO_TOOL, 1, 0);
    has_no_points(t, H26X_H265, "dec-parallel-cap={w:0;level-id=93}", H26X_SDP_SEGMENTATION, 0, H26X_SDP_OUT_OF_RANGE);
    has_no_points(t, H26X_H265, "dec-parallel-cap={w:1;max-br=1,t:4096;level-id=93}", H26X_SDP_SEGMENTATION, 1,
                  H26X_SDP_OUT_OF_RANGE);
    has_no_points(t, H26X_H265, "dec-parallel-cap={w:+1;level-id=93}", H26X_SDP_SEGMENTATION, 0, H26X_SDP_NOT_A_NUMBER);
    has_no_points(t, H26X_H265, "dec-parallel-cap={w:8;level-id=256}", H26X_SDP_LIMITS, 0, H26X_SDP_OUT_OF_RANGE);
    has_no_points(t, H26X_H265, "dec-parallel-cap={w:8;max-br=1,w:8;max-br=1,t:8;level-id=x}", H26X_SDP_LIMITS, 2,
                  H26X_SDP_NOT_A_NUMBER);
    has_no_points(t, H26X_H265, "dec-parallel-cap={w:8;max-br=1,t:8;max-br=1;Max-Br=1}", H26X_SDP_LIMITS, 1,
                  H26X_SDP_TWICE);
    has_no_points(t, H26X_H265, "dec-parallel-cap={w:8;x={1,2}}", H26X_SDP_LIMITS, 0, H26X_SDP_OPEN_BRACE);
    has_no_points(t, H26X_H265, "dec-parallel-cap={w:8}", H26X_SDP_NO_LIMIT, 0, 0);
    has_no_points(t, H26X_H265, "dec-parallel-cap={w:8;level-id=93,t:4;x=1}", H26X_SDP_NO_LIMIT, 1, 0);
}

/* RFC 6184, 8.2.1; RFC 7798, 7.2.1; RFC 9328, 7.3.1. */
static void check_rtpmaps(struct tally *t)
{
    const struct {
        const char *text;
        uint32_t code;
        uint8_t payload_type;
        uint32_t codec;
    } rows[] = {
        {"96 H264/90000", H26X_OK, 96, H26X_H264},     {" 127 h265/90000\r\n", H26X_OK, 127, H26X_H265},
        {"0 H266/90000", H26X_OK, 0, H26X_H266},       {"128 H264/90000", H26X_SDP_PAYLOAD_TYPE, 99, 99},
        {"", H26X_SDP_PAYLOAD_TYPE, 99, 99},           {"x H264/90000", H26X_SDP_PAYLOAD_TYPE, 99, 99},
        {"96 VP8/90000", H26X_SDP_ENCODING_NAME, 99, 99}, {"96 H264", H26X_SDP_CLOCK_RATE, 99, 99},
        {"96 H264/48000", H26X_SDP_CLOCK_RATE, 99, 99},
    };
    for (size_t i = 0; i < sizeof rows / sizeof rows[0]; i++) {
        uint8_t payload_type = 99;
        uint32_t codec = 99;
        const char *text = rows[i].text;
        expect_at(t, h26x_rtpmap_read(TEXT(text), &payload_type, &codec) == rows[i].code, text, __FILE__, __LINE__);
        expect_at(t, payload_type == rows[i].payload_type && codec == rows[i].codec, text, __FILE__, __LINE__);
        expect(t, h26x_rtpmap_read(TEXT(text), NULL, NULL) == rows[i].code);
    }
    uint8_t to[16];
    size_t len = 99;
    expect(t, h26x_rtpmap_write(96, H26X_H264, to, 16, &len) == H26X_OK);
    expect(t, len == 13 && memcmp(to, "96 H264/90000", 13) == 0);
    expect(t, h26x_rtpmap_write(127, H26X_H266, to, 16, &len) == H26X_OK);
    expect(t, len == 14 && memcmp(to, "127 H266/90000", 14) == 0);
    to[0] = 0xee;
    expect(t, h26x_rtpmap_write(0, H26X_H265, to, 11, &len) == H26X_NO_ROOM && len == 12 && to[0] == 0xee);
    len = 99;
    expect(t, h26x_rtpmap_write(128, H26X_H265, to, 16, &len) == H26X_SDP_PAYLOAD_TYPE);
    expect(t, h26x_rtpmap_write(96, 263, to, 16, &len) == H26X_UNKNOWN_CODEC && len == 99 && to[0] == 0xee);
    expect(t, h26x_rtpmap_write(0, H26X_H265, NULL, 16, NULL) == H26X_NO_ROOM);
}

/* What goes beside video: RFC 4588, 8.3 and 8.6; RFC 2198, 5; RFC 5109, 13.2; RFC 8627, 5.1.2. Others are rows of
 * streams/sdp.txt. */
static void check_repair(struct tally *t)
{
    uint8_t to[64], payload_type = 99;
    uint32_t format = 99;
    size_t len = 99;
    h26x_refusal why = {7, 8};
    expect(t, h26x_repairmap_read(TEXT(" 97 RTX/90000\r\n"), &payload_type, &format) == H26X_OK);
    expect(t, payload_type == 97 && format == H26X_REPAIR_RTX);
    expect(t, h26x_repairmap_read(TEXT("98 H264/90000"), &payload_type, &format) == H26X_SDP_ENCODING_NAME);
    expect(t, payload_type == 97 && format == H26X_REPAIR_RTX);
    memset(to, 0xee, sizeof to);
    expect(t, h26x_repairmap_write(97, H26X_REPAIR_RTX, to, 11, &len) == H26X_NO_ROOM && len == 12 && to[0] == 0xee);
    expect(t, h26x_repairmap_write(97, H26X_REPAIR_RTX, to, 12, &len) == H26X_OK && memcmp(to, "97 rtx/90000", 12) == 0);
    len = 99;
    expect(t, h26x_repairmap_write(128, H26X_REPAIR_RTX, to, 64, &len) == H26X_SDP_PAYLOAD_TYPE && len == 99);
    expect(t, h26x_repairmap_write(97, 0, to, 64, &len) == H26X_OUT_OF_RANGE && len == 99);
    expect(t, h26x_repairmap_write(128, 6, to, 64, &len) == H26X_OUT_OF_RANGE && len == 99);

    h26x_rtx_format rtx = {9, 9, true};
    expect(t, h26x_rtx_format_read(TEXT("apt=96;rtx-time=x"), &rtx, &why) == H26X_SDP_NOT_A_NUMBER);
    expect(t, why.first == 1 && why.second == 0);
    expect(t, h26x_rtx_format_read(TEXT("x={"), &rtx, &why) == H26X_SDP_OPEN_BRACE && why.first == 0);
    expect(t, h26x_rtx_format_read(TEXT("rtx-time=3000"), &rtx, &why) == H26X_SDP_NO_APT && why.first == 0);
    expect(t, rtx.rtx_time == 9 && rtx.payload_type == 9 && rtx.has_rtx_time);
    why = (h26x_refusal){7, 8};
    expect(t, h26x_rtx_format_read(TEXT("apt=96"), &rtx, &why) == H26X_OK && why.first == 7 && why.second == 8);
    expect(t, rtx.rtx_time == 0 && rtx.payload_type == 96 && !rtx.has_rtx_time);
    rtx.rtx_time = 5; /* which isn't said */
    expect(t, h26x_rtx_format_write(&rtx, to, 6, &len) == H26X_OK && len == 6 && memcmp(to, "apt=96", 6) == 0);
    rtx = (h26x_rtx_format){.payload_type = 127, .has_rtx_time = true};
    memset(to, 0xee, sizeof to);
    expect(t, h26x_rtx_format_write(&rtx, to, 17, &len) == H26X_NO_ROOM && len == 18 && to[0] == 0xee);
    expect(t, h26x_rtx_format_write(&rtx, to, 18, &len) == H26X_OK && memcmp(to, "apt=127;rtx-time=0", 18) == 0);
    rtx.payload_type = 128;
    len = 99;
    expect(t, h26x_rtx_format_write(&rtx, to, 64, &len) == H26X_SDP_PAYLOAD_TYPE && len == 99);
}

/* Handles of other ends, each way. */
static void check_ends(struct tally *t)
{
    h26x_packetizer p = {NULL}, wrong;
    h26x_sdp it = format_of(t, H26X_H264, "x"), other, made = {NULL};
    uint8_t to[8] = {0xee}, value_to[8] = {0xee};
    size_t len = 99, value_len = 99;
    uint64_t value = 99;
    uint32_t number = 99;
    h26x_refusal why = {99, 99};
    h26x_constraints said = {.flags = 99};
    h26x_capability_point point = {.max_br = 99};
    h26x_sdp_stream stream = {.level = 9};
    expect(t, h26x_packetizer_new(H26X_H264, false, &p) == H26X_OK);
    other.at = p.at;
    expect(t, h26x_sdp_codec(&other) == 0);
    expect(t, h26x_sdp_write(&other, to, 8, &len) == H26X_WRONG_END);
    expect(t, h26x_sdp_set(&other, TEXT("max-fs"), TEXT("9")) == H26X_WRONG_END);
    expect(t, h26x_sdp_unset(&other, TEXT("max-fs")) == H26X_WRONG_END);
    expect(t, h26x_sdp_value(&other, TEXT("max-fs"), true, to, 8, &len) == H26X_WRONG_END);
    expect(t, h26x_sdp_number(&other, TEXT("max-fs"), true, &value) == H26X_WRONG_END && value == 99);
    expect(t, h26x_sdp_units(&other, TEXT("sprop-parameter-sets"), &len, &why) == H26X_WRONG_END);
    expect(t, h26x_sdp_unit(&other, TEXT("sprop-parameter-sets"), 0, to, 8, &len, &why) == H26X_WRONG_END);
    expect(t, h26x_sdp_other(&other, 0, to, 8, &len, value_to, 8, &value_len) == H26X_WRONG_END);
    expect(t, h26x_sdp_max_don_diff(&other, &number) == H26X_WRONG_END && number == 99);
    expect(t, h26x_sdp_constraints(&other, to, 8, &said) == H26X_WRONG_END && said.flags == 99);
    expect(t, h26x_sdp_capability_points(&other, true, &point, 1, &len, &why) == H26X_WRONG_END && point.max_br == 99);
    expect(t, why.first == 0 && why.second == 0);
    expect(t, len == 99 && value_len == 99 && to[0] == 0xee && value_to[0] == 0xee);
    expect(t, h26x_sdp_broken_rule(&other, 0, NULL) == H26X_WRONG_END);
    expect(t, h26x_sdp_name(&other, 0, to, 8, &len) == H26X_WRONG_END && len == 99 && to[0] == 0xee);
    expect(t, h26x_sdp_level_unit(&other, 62, 0, to, 8, &len, &why) == H26X_WRONG_END && len == 99 && to[0] == 0xee);
    expect(t, h26x_sdp_agreed(&other, &it, 0, &stream, NULL) == H26X_WRONG_END && stream.level == 9);
    expect(t, h26x_sdp_agreed(&it, &other, 0, NULL, &stream) == H26X_WRONG_END && stream.level == 9);
    expect(t, h26x_sdp_accepts_declared(&other, &it, 0) == H26X_WRONG_END);
    expect(t, h26x_sdp_accepts_declared(&it, &other, 0) == H26X_WRONG_END);
    expect(t, h26x_sdp_answer_with(&other, &it, 0, &made) == H26X_WRONG_END && made.at == NULL);
    expect(t, h26x_sdp_answer(&other, &it, &made) == H26X_WRONG_END && made.at == NULL);
    expect(t, h26x_sdp_answer(&it, &other, &made) == H26X_WRONG_END && made.at == NULL);
    wrong.at = it.at;
    len = 99;
    expect(t, h26x_packetize(&wrong, 9, to, 1, &len) == H26X_WRONG_END && len == 0);
    expect(t, h26x_packetizer_clone(&wrong, &wrong) == H26X_WRONG_END && wrong.at == it.at);
    expect(t, h26x_packet_count(&wrong) == 0);
    h26x_packetizer_free(p);
    h26x_sdp_free(it);
}

/* NULL, whatever length or room is said, and handles that are closed twice. */
static void check_nulls(struct tally *t)
{
    const size_t lengths[] = {0, 1, SIZE_MAX};
    for (size_t i = 0; i < 3; i++) {
        const size_t many = lengths[i];
        h26x_sdp it = {NULL}, made = {NULL};
        expect(t, h26x_sdp_read(H26X_H264, NULL, many, &it, NULL) == H26X_OK);
        expect(t, h26x_sdp_write(&it, NULL, many, NULL) == H26X_OK);
        expect(t, h26x_sdp_set(&it, NULL, many, NULL, many) == H26X_SDP_UNKNOWN_NAME);
        expect(t, h26x_sdp_set(&it, TEXT("sprop-parameter-sets"), NULL, many) == H26X_OK);
        expect(t, h26x_sdp_unset(&it, NULL, many) == H26X_SDP_UNKNOWN_NAME);
        expect(t, h26x_sdp_unset(&it, TEXT("sprop-parameter-sets")) == H26X_OK);
        expect(t, h26x_sdp_value(&it, NULL, many, true, NULL, many, NULL) == H26X_SDP_UNKNOWN_NAME);
        expect(t, h26x_sdp_value(&it, TEXT("sar-understood"), true, NULL, many, NULL) == H26X_NO_ROOM);
        expect(t, h26x_sdp_number(&it, TEXT("sar-understood"), true, NULL) == H26X_OK);
        expect(t, h26x_sdp_broken_rule(&it, 0, NULL) == H26X_OK);
        expect(t, h26x_sdp_name(&it, 0, NULL, many, NULL) == H26X_NO_ROOM);
        expect(t, h26x_sdp_agreed(&it, &it, 0, NULL, NULL) == H26X_OK);
        expect(t, h26x_sdp_level_unit(&it, 62, 0, NULL, many, NULL, NULL) == H26X_SDP_ABSENT);
        expect(t, h26x_sdp_units(&it, NULL, many, NULL, NULL) == H26X_SDP_UNKNOWN_NAME);
        expect(t, h26x_sdp_unit(&it, NULL, many, 0, NULL, many, NULL, NULL) == H26X_SDP_UNKNOWN_NAME);
        expect(t, h26x_sdp_other(&it, 0, NULL, many, NULL, NULL, many, NULL) == H26X_SDP_ABSENT);
        made = format_of(t, H26X_H265, "dec-parallel-cap={w:8;max-lsr=1}");
        expect(t, h26x_sdp_constraints(&made, NULL, many, NULL) == H26X_OK);
        expect(t, h26x_sdp_capability_points(&made, true, NULL, many, NULL, NULL) == H26X_OK);
        h26x_sdp_close(&made);
        expect(t, h26x_sdp_of_payload(H26X_H264, NULL, many, &made) == H26X_SDP_NO_SET && made.at == NULL);
        expect(t, h26x_rtpmap_read(NULL, many, NULL, NULL) == H26X_SDP_PAYLOAD_TYPE);
        expect(t, h26x_repairmap_read(NULL, many, NULL, NULL) == H26X_SDP_PAYLOAD_TYPE);
        expect(t, h26x_repairmap_write(97, H26X_REPAIR_RED, NULL, many, NULL) == H26X_NO_ROOM);
        expect(t, h26x_rtx_format_read(NULL, many, NULL, NULL) == H26X_SDP_NO_APT);
        expect(t, h26x_rtx_format_write(&(h26x_rtx_format){.payload_type = 96}, NULL, many, NULL) == H26X_NO_ROOM);
        for (int n = 0; n < 2; n++) {
            h26x_sdp_close(&it);
            expect(t, it.at == NULL);
            h26x_sdp_free(it);
            h26x_sdp_close(NULL);
        }
    }
}

void check_sdp(struct tally *t)
{
    check_lines(t);
    check_faults(t);
    check_values(t);
    check_names(t);
    check_units(t);
    check_set(t);
    check_others(t);
    check_answers(t);
    check_streams(t);
    check_single_units(t);
    check_max_don_diff(t);
    check_constraints(t);
    check_capability_points(t);
    check_rtpmaps(t);
    check_repair(t);
    check_ends(t);
    check_nulls(t);
}
