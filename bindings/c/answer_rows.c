/* The offers and answers of streams/answers.txt, which says how it is written. */
#include "calls.h"
#include <stdio.h>
#include <string.h>

enum { LONGEST = 2000 };

/* The next column of a row, without the blanks round it. */
static const char *next_column(char **at)
{
    char *column = *at + strspn(*at, " "), *end = column + strcspn(column, "|");
    *at = *end == 0 ? end : end + 1;
    while (end > column && end[-1] == ' ')
        end--;
    *end = 0;
    return column;
}

static h26x_sdp format_of(struct tally *t, uint32_t codec, const char *text)
{
    h26x_sdp made = {NULL};
    expect_at(t, h26x_sdp_read(codec, (const uint8_t *)text, strlen(text), &made, NULL) == H26X_OK, text, __FILE__,
              __LINE__);
    return made;
}

/* What is wanted of parameters that are written. */
static void is_written(struct tally *t, const h26x_sdp *made, const char *wanted)
{
    uint8_t to[LONGEST];
    size_t len = 0;
    const bool is_one =
        h26x_sdp_write(made, to, sizeof to, &len) == H26X_OK && len == strlen(wanted) && memcmp(to, wanted, len) == 0;
    expect_at(t, is_one, wanted, __FILE__, __LINE__);
}

typedef uint32_t answering(const h26x_sdp *offered, const h26x_sdp *ours, h26x_sdp *made);

/* What a call answers. */
static void is_answered(struct tally *t, answering *by, const h26x_sdp *offered, const h26x_sdp *ours,
                        const char *wanted)
{
    h26x_sdp answer = {NULL};
    const uint32_t code = by(offered, ours, &answer);
    const bool has_answer = strcmp(wanted, "-") != 0;
    expect_at(t, code == (has_answer ? H26X_OK : H26X_SDP_NO_ANSWER), wanted, __FILE__, __LINE__);
    if (has_answer)
        is_written(t, &answer, wanted);
    h26x_sdp_free(answer);
}

/* Whether a peer's answer says the same as ours, which a row that tells why it doesn't has. */
static void is_of_peer(struct tally *t, uint32_t codec, const char *answer, const char *ours, bool is_told)
{
    uint8_t to[LONGEST];
    size_t len = 0;
    bool is_one = strcmp(answer, "-") == 0 && strcmp(ours, "-") == 0;
    if (strcmp(answer, "-") != 0) {
        const h26x_sdp said = format_of(t, codec, answer);
        expect_at(t, h26x_sdp_write(&said, to, sizeof to, &len) == H26X_OK, answer, __FILE__, __LINE__);
        is_one = len == strlen(ours) && memcmp(to, ours, len) == 0;
        h26x_sdp_free(said);
    }
    expect_at(t, is_one != is_told, answer, __FILE__, __LINE__);
}

static uint32_t answer_as_webrtc(const h26x_sdp *offered, const h26x_sdp *ours, h26x_sdp *made)
{
    return h26x_sdp_answer_webrtc(offered, ours, false, made);
}

/* The same by options. */
static uint32_t answer_in_order(const h26x_sdp *offered, const h26x_sdp *ours, h26x_sdp *made)
{
    return h26x_sdp_answer_with(offered, ours, 0, made);
}

static uint32_t answer_in_any_order(const h26x_sdp *offered, const h26x_sdp *ours, h26x_sdp *made)
{
    return h26x_sdp_answer_with(offered, ours, H26X_SDP_ANY_ORDER, made);
}

static uint32_t answer_as_webrtc_has_it(const h26x_sdp *offered, const h26x_sdp *ours, h26x_sdp *made)
{
    return h26x_sdp_answer_with(offered, ours, H26X_SDP_WEBRTC, made);
}

static void walk(struct tally *t, char *row)
{
    const char *codec = next_column(&row), *offer = next_column(&row), *own = next_column(&row),
               *wanted = next_column(&row), *any_order = *row != 0 ? next_column(&row) : wanted,
               *webrtc = *row != 0 ? next_column(&row) : wanted, *peer = next_column(&row), *peers = next_column(&row),
               *why = next_column(&row);
    const uint32_t number = strcmp(codec, "h264") == 0 ? H26X_H264 : strcmp(codec, "h265") == 0 ? H26X_H265 : H26X_H266;
    const h26x_sdp offered = format_of(t, number, offer), ours = format_of(t, number, own);
    is_answered(t, h26x_sdp_answer, &offered, &ours, wanted);
    is_answered(t, h26x_sdp_answer_any_order, &offered, &ours, any_order);
    is_answered(t, answer_as_webrtc, &offered, &ours, webrtc);
    is_answered(t, answer_in_order, &offered, &ours, wanted);
    is_answered(t, answer_in_any_order, &offered, &ours, any_order);
    is_answered(t, answer_as_webrtc_has_it, &offered, &ours, webrtc);
    if (*peer != 0)
        is_of_peer(t, number, peers, webrtc, *why != 0);
    h26x_sdp_free(offered);
    h26x_sdp_free(ours);
}

void check_answer_rows(struct tally *t)
{
    FILE *file = fopen("streams/answers.txt", "r");
    char row[LONGEST];
    size_t rows = 0;
    expect(t, file != NULL);
    while (fgets(row, LONGEST, file) != NULL) {
        row[strcspn(row, "\n")] = 0;
        if (row[0] == '#')
            continue;
        walk(t, row);
        rows++;
    }
    expect(t, rows > 40);
    fclose(file);
}
