/* The rows of streams/sdp.txt, which says how they are written. */
#include "calls.h"
#include <stdio.h>
#include <stdlib.h>
#include <string.h>

enum { LONGEST = 2000 };

#define TEXT(text) (const uint8_t *)(text), strlen(text)

/* The next column of a row, without the blanks round it. */
static const char *next_column(char **at)
{
    char *column = *at + strspn(*at, " "), *end = column + strcspn(column, "|");
    *at = *end == 0 ? end : end + 1;
    while (end > column && end[-1] == ' ')
        end--;
    *end = 0;
    return column;
}

static uint32_t codec_of(const char *name)
{
    return strcmp(name, "h264") == 0 ? H26X_H264 : strcmp(name, "h265") == 0 ? H26X_H265 : H26X_H266;
}

/* The code of a refusal as a row has it, or H26X_OK. */
static uint32_t code_of(const char *wanted)
{
    static const struct {
        const char *words;
        uint32_t code;
    } refusals[] = {
        {"! no number", H26X_SDP_NOT_A_NUMBER},
        {"! out of range", H26X_SDP_OUT_OF_RANGE},
        {"! not hexadecimal", H26X_SDP_NOT_HEXADECIMAL},
        {"! no mode", H26X_SDP_NOT_TX_MODE},
        {"! unknown name", H26X_SDP_UNKNOWN_NAME},
        {"! no value", H26X_SDP_NOT_A_VALUE},
        {"! twice", H26X_SDP_TWICE},
        {"! no apt", H26X_SDP_NO_APT},
        {"! payload type", H26X_SDP_PAYLOAD_TYPE},
        {"! encoding name", H26X_SDP_ENCODING_NAME},
        {"! clock rate", H26X_SDP_CLOCK_RATE},
    };
    for (size_t i = 0; i < sizeof refusals / sizeof refusals[0]; i++)
        if (strcmp(wanted, refusals[i].words) == 0)
            return refusals[i].code;
    return H26X_OK;
}

static h26x_sdp format_of(struct tally *t, uint32_t codec, const char *text)
{
    h26x_sdp made = {NULL};
    expect_at(t, h26x_sdp_read(codec, TEXT(text), &made, NULL) == H26X_OK, text, __FILE__, __LINE__);
    return made;
}

/* What is wanted of parameters that are written. */
static void is_written(struct tally *t, const h26x_sdp *it, const char *wanted)
{
    uint8_t to[LONGEST];
    size_t len = 0;
    const bool is_one =
        h26x_sdp_write(it, to, sizeof to, &len) == H26X_OK && len == strlen(wanted) && memcmp(to, wanted, len) == 0;
    expect_at(t, is_one, wanted, __FILE__, __LINE__);
}

/* A parameter that is set, or dropped. */
static void changes(struct tally *t, bool sets, char *row)
{
    const char *codec = next_column(&row), *line = next_column(&row), *name = next_column(&row),
               *value = sets ? next_column(&row) : "", *wanted = next_column(&row);
    const uint32_t code = code_of(wanted);
    h26x_sdp it = format_of(t, codec_of(codec), line);
    const uint32_t got = sets ? h26x_sdp_set(&it, TEXT(name), TEXT(value)) : h26x_sdp_unset(&it, TEXT(name));
    expect_at(t, got == code, wanted, __FILE__, __LINE__);
    is_written(t, &it, code == H26X_OK ? wanted : line);
    h26x_sdp_free(it);
}

/* A broken rule as a row has it. */
static void rule_is(struct tally *t, const h26x_sdp *it, uint32_t options, const char *wanted)
{
    static const char *const words[] = {"profile",      "level",        "highest level", "below level (",
                                        "reordering",   "out of order", "above level (", "aspect ratios",
                                        "sets in band", "hash types"};
    char got[64] = "-", name[32] = "";
    size_t len = 0;
    h26x_refusal why = {0, 0};
    const uint32_t code = h26x_sdp_broken_rule(it, options, &why);
    if (code == H26X_SDP_RULE_BELOW_LEVEL || code == H26X_SDP_RULE_ABOVE_LEVEL)
        expect(t, h26x_sdp_name(it, why.first, (uint8_t *)name, sizeof name - 1, &len) == H26X_OK);
    if (code != H26X_OK)
        snprintf(got, sizeof got, "%s%s%s", words[code - H26X_SDP_RULE_PROFILE], name, len != 0 ? ")" : "");
    expect_at(t, strcmp(got, wanted) == 0, wanted, __FILE__, __LINE__);
}

static void breaks(struct tally *t, char *row)
{
    const char *codec = next_column(&row), *line = next_column(&row), *wanted = next_column(&row),
               *any_order = *row != 0 ? next_column(&row) : wanted, *webrtc = *row != 0 ? next_column(&row) : wanted;
    const h26x_sdp it = format_of(t, codec_of(codec), line);
    rule_is(t, &it, 0, wanted);
    rule_is(t, &it, H26X_SDP_ANY_ORDER, any_order);
    rule_is(t, &it, H26X_SDP_WEBRTC, webrtc);
    h26x_sdp_free(it);
}

/* The answers both ways, one way each, and by multicast. */
static void goes_ways(struct tally *t, char *row)
{
    static const uint32_t ways[] = {0, H26X_SDP_SEND_ONLY, H26X_SDP_RECV_ONLY, H26X_SDP_MULTICAST};
    const uint32_t codec = codec_of(next_column(&row));
    const h26x_sdp offered = format_of(t, codec, next_column(&row)), ours = format_of(t, codec, next_column(&row));
    h26x_sdp answer = {NULL};
    for (size_t i = 0; i < 4; i++) {
        const char *wanted = next_column(&row);
        const bool is_none = strcmp(wanted, "-") == 0;
        const uint32_t code = h26x_sdp_answer_with(&offered, &ours, ways[i], &answer);
        expect_at(t, code == (is_none ? H26X_SDP_NO_ANSWER : H26X_OK), wanted, __FILE__, __LINE__);
        if (!is_none)
            is_written(t, &answer, wanted);
        h26x_sdp_free(answer);
        answer.at = NULL;
    }
    const uint32_t both = H26X_SDP_SEND_ONLY | H26X_SDP_RECV_ONLY;
    expect(t, h26x_sdp_answer_with(&offered, &ours, both, &answer) == H26X_OUT_OF_RANGE && answer.at == NULL);
    h26x_sdp_free(offered);
    h26x_sdp_free(ours);
}

/* How an end answers, in words. */
static uint32_t options_of(const char *how)
{
    return (strstr(how, "sends") != NULL ? H26X_SDP_SEND_ONLY : 0)
        | (strstr(how, "receives") != NULL ? H26X_SDP_RECV_ONLY : 0)
        | (strstr(how, "any-order") != NULL ? H26X_SDP_ANY_ORDER : 0)
        | (strstr(how, "webrtc") != NULL ? H26X_SDP_WEBRTC : 0)
        | (strstr(how, "multicast") != NULL ? H26X_SDP_MULTICAST : 0);
}

/* A stream as a row has it. */
static void stream_is(struct tally *t, const h26x_sdp_stream *it, const char *wanted)
{
    static const char *const words[] = {"in-band", "told", "told-of-level"};
    char got[64] = "-", mode[24] = "-";
    if (it->has_mode)
        snprintf(mode, sizeof mode, "%llu", (unsigned long long)it->mode);
    if (it->is_there)
        snprintf(got, sizeof got, "%llu %s %s", (unsigned long long)it->level, mode, words[it->sets]);
    else
        expect(t, it->level == 0 && it->mode == 0 && it->sets == 0 && !it->has_mode);
    expect_at(t, strcmp(got, wanted) == 0, wanted, __FILE__, __LINE__);
}

/* What is agreed, of our end, and what the other end sees of it. */
static void agrees(struct tally *t, char *row)
{
    const uint32_t codec = codec_of(next_column(&row)), options = options_of(next_column(&row));
    const h26x_sdp own = format_of(t, codec, next_column(&row)), other = format_of(t, codec, next_column(&row));
    const char *sends = next_column(&row), *receives = next_column(&row);
    const uint32_t ways = options & (H26X_SDP_SEND_ONLY | H26X_SDP_RECV_ONLY);
    const uint32_t others = ways == 0 ? options : options ^ (H26X_SDP_SEND_ONLY | H26X_SDP_RECV_ONLY);
    h26x_sdp_stream ours[2] = {{9, 9, 9, true, true}, {9, 9, 9, true, true}}, theirs[2];
    expect_at(t, h26x_sdp_agreed(&own, &other, options, &ours[0], &ours[1]) == H26X_OK, sends, __FILE__, __LINE__);
    stream_is(t, &ours[0], sends);
    stream_is(t, &ours[1], receives);
    expect_at(t, h26x_sdp_agreed(&other, &own, others, &theirs[0], &theirs[1]) == H26X_OK, sends, __FILE__, __LINE__);
    stream_is(t, &theirs[0], receives);
    stream_is(t, &theirs[1], sends);
    h26x_sdp_free(own);
    h26x_sdp_free(other);
}

/* Whether ours receives what is declared. */
static void is_declared(struct tally *t, char *row)
{
    const uint32_t codec = codec_of(next_column(&row)), options = options_of(next_column(&row));
    const h26x_sdp declared = format_of(t, codec, next_column(&row)), ours = format_of(t, codec, next_column(&row));
    const char *wanted = next_column(&row);
    const uint32_t code = strcmp(wanted, "yes") == 0 ? H26X_OK : H26X_SDP_NO_ANSWER;
    expect_at(t, h26x_sdp_accepts_declared(&declared, &ours, options) == code, wanted, __FILE__, __LINE__);
    h26x_sdp_free(declared);
    h26x_sdp_free(ours);
}

/* The code of a fault of sets of levels, and the place that stands behind it. */
static uint32_t level_fault(const char *wanted, size_t *place)
{
    static const struct {
        const char *words;
        uint32_t code;
    } faults[] = {
        {"! not hexadecimal ", H26X_SDP_NOT_HEXADECIMAL},
        {"! no sets ", H26X_SDP_NO_LEVEL_SETS},
        {"! no base64 ", H26X_SDP_NOT_BASE64},
        {"! empty unit ", H26X_SDP_EMPTY_UNIT},
        {"! other type ", H26X_SDP_OTHER_TYPE},
        {"! start code ", H26X_SDP_START_CODE},
        {"! codec", H26X_NOT_OF_THIS_CODEC},
    };
    *place = 0;
    for (size_t i = 0; i < sizeof faults / sizeof faults[0]; i++)
        if (strncmp(wanted, faults[i].words, strlen(faults[i].words)) == 0) {
            if (wanted[strlen(faults[i].words)] != 0)
                *place = (size_t)(wanted[strlen(faults[i].words)] - '0');
            return faults[i].code;
        }
    return H26X_SDP_ABSENT;
}

/* The units of a level, each beside that of sprop-parameter-sets that says the same. */
static void level_has(struct tally *t, char *row)
{
    static const char name[] = "sprop-parameter-sets";
    const uint32_t codec = codec_of(next_column(&row));
    const h26x_sdp it = format_of(t, codec, next_column(&row));
    const uint64_t level = strtoull(next_column(&row), NULL, 10);
    const char *wanted = next_column(&row);
    char line[LONGEST];
    uint8_t unit[64], same[64];
    size_t count = 0, place, len = 99, same_len = 0;
    h26x_refusal why = {9, 9};
    const uint32_t code = level_fault(wanted, &place);
    if (code == H26X_SDP_ABSENT && wanted[0] != '-') {
        snprintf(line, sizeof line, "%s=%s", name, wanted);
        const h26x_sdp plain = format_of(t, H26X_H264, line);
        expect_at(t, h26x_sdp_units(&plain, TEXT(name), &count, NULL) == H26X_OK && count > 0, wanted, __FILE__,
                  __LINE__);
        for (size_t i = 0; i < count; i++) {
            expect(t, h26x_sdp_unit(&plain, TEXT(name), i, same, sizeof same, &same_len, NULL) == H26X_OK);
            expect_at(t, h26x_sdp_level_unit(&it, level, i, unit, sizeof unit, &len, &why) == H26X_OK, wanted, __FILE__,
                      __LINE__);
            expect_at(t, len == same_len && memcmp(unit, same, len) == 0 && why.first == 9, wanted, __FILE__, __LINE__);
        }
        h26x_sdp_free(plain);
    }
    len = 99;
    expect_at(t, h26x_sdp_level_unit(&it, level, count, unit, sizeof unit, &len, &why) == code, wanted, __FILE__,
              __LINE__);
    expect_at(t, why.first == place && why.second == 0 && len == 99, wanted, __FILE__, __LINE__);
    h26x_sdp_free(it);
}

/* A payload type of what goes beside video. */
static void is_map(struct tally *t, char *row)
{
    static const char *const names[] = {NULL, "rtx", "red", "ulpfec", "flexfec", "flexfec-03"};
    const char *line = next_column(&row), *wanted = next_column(&row);
    const uint32_t code = code_of(wanted);
    uint8_t payload_type = 99, to[40];
    uint32_t format = 99;
    size_t len = 0;
    char parts[40];
    expect_at(t, h26x_repairmap_read(TEXT(line), &payload_type, &format) == code, line, __FILE__, __LINE__);
    if (code != H26X_OK)
        return;
    snprintf(parts, sizeof parts, "%u %s/%d", payload_type, names[format], H26X_CLOCK_RATE);
    expect_at(t, strcmp(parts, wanted) == 0, line, __FILE__, __LINE__);
    expect_at(t, h26x_repairmap_write(payload_type, format, to, sizeof to, &len) == H26X_OK, line, __FILE__, __LINE__);
    expect_at(t, len == strlen(wanted) && memcmp(to, wanted, len) == 0, line, __FILE__, __LINE__);
}

/* A format of retransmission. */
static void is_rtx(struct tally *t, char *row)
{
    const char *line = next_column(&row), *belongs = next_column(&row);
    const uint32_t code = code_of(belongs);
    h26x_rtx_format it = {.payload_type = 99};
    expect_at(t, h26x_rtx_format_read(TEXT(line), &it, NULL) == code, line, __FILE__, __LINE__);
    if (code != H26X_OK)
        return;
    const char *time = next_column(&row), *wanted = next_column(&row);
    char got[40] = "-", type[8];
    uint8_t to[64];
    size_t len = 0;
    snprintf(type, sizeof type, "%u", it.payload_type);
    if (it.has_rtx_time)
        snprintf(got, sizeof got, "%llu", (unsigned long long)it.rtx_time);
    expect_at(t, strcmp(type, belongs) == 0 && strcmp(got, time) == 0, line, __FILE__, __LINE__);
    expect_at(t, h26x_rtx_format_write(&it, to, sizeof to, &len) == H26X_OK, line, __FILE__, __LINE__);
    expect_at(t, len == strlen(wanted) && memcmp(to, wanted, len) == 0, line, __FILE__, __LINE__);
}

static void walk(struct tally *t, char *row)
{
    const char *kind = next_column(&row);
    if (strcmp(kind, "set") == 0)
        changes(t, true, row);
    else if (strcmp(kind, "drop") == 0)
        changes(t, false, row);
    else if (strcmp(kind, "rule") == 0)
        breaks(t, row);
    else if (strcmp(kind, "ways") == 0)
        goes_ways(t, row);
    else if (strcmp(kind, "agree") == 0)
        agrees(t, row);
    else if (strcmp(kind, "declared") == 0)
        is_declared(t, row);
    else if (strcmp(kind, "level") == 0)
        level_has(t, row);
    else if (strcmp(kind, "map") == 0)
        is_map(t, row);
    else if (strcmp(kind, "rtx") == 0)
        is_rtx(t, row);
    else
        expect_at(t, false, kind, __FILE__, __LINE__);
}

void check_sdp_rows(struct tally *t)
{
    FILE *file = fopen("streams/sdp.txt", "r");
    char row[LONGEST];
    size_t rows = 0;
    expect(t, file != NULL);
    while (fgets(row, LONGEST, file) != NULL) {
        row[strcspn(row, "\n")] = 0;
        if (row[0] == '#')
            continue;
        walk(t, row);
        rows++;
    }
    expect(t, rows > 130);
    fclose(file);
}
