/* The answers of streams/directions.txt, which says how it is written. */
#include "calls.h"
#include <stdio.h>
#include <string.h>

enum { LONGEST = 1000, COLUMNS = 5 };

static uint32_t options_of(const char *how)
{
    static const char *const words[] = {"any-order", "webrtc", "sends", "receives", "multicast"};
    uint32_t options = 0;
    for (size_t i = 0; i < sizeof words / sizeof *words; i++)
        options |= strstr(how, words[i]) != NULL ? 1U << i : 0;
    return options;
}

static void walk(struct tally *t, char *const column[COLUMNS])
{
    const uint32_t codec = column[0][3] == '4' ? H26X_H264 : column[0][3] == '5' ? H26X_H265 : H26X_H266;
    h26x_sdp ends[2] = {{NULL}, {NULL}}, answer = {NULL};
    for (size_t i = 0; i < 2; i++)
        expect(t, h26x_sdp_read(codec, (uint8_t *)column[2 + i], strlen(column[2 + i]), &ends[i], NULL) == H26X_OK);
    uint8_t to[LONGEST] = "-";
    size_t len = 1;
    const uint32_t code = h26x_sdp_answer_with(&ends[0], &ends[1], options_of(column[1]), &answer);
    expect(t, code == H26X_SDP_NO_ANSWER || h26x_sdp_write(&answer, to, LONGEST, &len) == H26X_OK);
    expect_at(t, len == strlen(column[4]) && memcmp(to, column[4], len) == 0, column[2], __FILE__, __LINE__);
    h26x_sdp_free(answer);
    h26x_sdp_free(ends[0]);
    h26x_sdp_free(ends[1]);
}

void check_direction_rows(struct tally *t)
{
    FILE *file = fopen("streams/directions.txt", "r");
    char row[LONGEST], *column[COLUMNS] = {row};
    size_t rows = 0;
    expect(t, file != NULL);
    while (fgets(row, LONGEST, file) != NULL) {
        if (row[0] == '#')
            continue;
        for (size_t i = 1; i < COLUMNS; i++) {
            char *const bar = strstr(column[i - 1], " | ");
            expect(t, bar != NULL);
            *bar = 0;
            column[i] = bar + 3;
        }
        column[COLUMNS - 1][strcspn(column[COLUMNS - 1], "\n")] = 0;
        walk(t, column);
        rows++;
    }
    expect(t, rows > 30);
    fclose(file);
}
