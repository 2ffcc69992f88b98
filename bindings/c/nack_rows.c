/* Missing numbers that are asked for, and when: the rows of streams/nacks.txt, which says how they are
 * written. */
#include "calls.h"
#include "h26x.h"
#include <stdbool.h>
#include <stdint.h>
#include <stdio.h>
#include <stdlib.h>
#include <string.h>

enum { LONGEST = 400, NUMBERS = 16 };

/* Takes all access units that ended. */
static void take(struct tally *t, h26x_access_units *u)
{
    uint8_t to[64];
    h26x_access_unit unit;
    uint32_t code;
    while ((code = h26x_access_units_next(u, 0, to, sizeof to, &unit)) == H26X_OK)
        ;
    expect(t, code == H26X_NOTHING_YET);
}

/* Asks, and compares the numbers with those behind the step's `=`. */
static void ask(struct tally *t, h26x_access_units *u, const char *step)
{
    unsigned now = 0, first = 0, again = 0, most = 0, room = 0;
    uint16_t numbers[NUMBERS];
    char said[LONGEST] = "";
    size_t count = 99;
    expect(t, sscanf(step, "?%u/%u/%u/%u/%u=", &now, &first, &again, &most, &room) == 5 && room < NUMBERS);
    const h26x_nack_times times = {first, again, (uint8_t)most};
    memset(numbers, 0xee, sizeof numbers);
    expect(t, h26x_access_units_nacks(u, now, &times, numbers, room, &count) == H26X_OK && count <= room);
    for (size_t i = 0; i < count; i++)
        snprintf(said + strlen(said), sizeof said - strlen(said), "%s%u", i > 0 ? "," : "", numbers[i]);
    for (size_t i = count; i < NUMBERS; i++)
        expect(t, numbers[i] == 0xeeee);
    expect(t, strcmp(strchr(step, '=') + 1, count > 0 ? said : "-") == 0);
}

static void walk(struct tally *t, char *row)
{
    static const uint8_t slice[] = {0x41, 0x9a, 0x80};
    const h26x_access_units_config config = {.codec = H26X_H264,
                                             .max_wait = UINT32_MAX,
                                             .window = 100,
                                             .far_away = 3000,
                                             .held_limit = SIZE_MAX,
                                             .run_limit = SIZE_MAX,
                                             .unit_limit = SIZE_MAX};
    h26x_access_units u;
    uint32_t pushed = 99;
    expect(t, h26x_access_units_new(&config, &u) == H26X_OK);
    for (char *step = row, *next; *step != 0; step = next) {
        next = step + strcspn(step, " ");
        if (*next != 0)
            *next++ = 0;
        if (step[0] == '?') {
            ask(t, &u, step);
        } else if (strcmp(step, "restart") == 0) {
            expect(t, h26x_access_units_restart(&u) == H26X_OK);
        } else {
            const unsigned number = (unsigned)strtoul(step, NULL, 10);
            expect(t,
                   h26x_access_units_push(&u, 0, (uint16_t)number, number * 9, true, slice, sizeof slice, &pushed, NULL)
                           == H26X_OK
                       && pushed == H26X_HELD);
            take(t, &u);
        }
    }
    h26x_access_units_free(u);
}

void check_nack_rows(struct tally *t)
{
    FILE *file = fopen("streams/nacks.txt", "r");
    char row[LONGEST];
    size_t rows = 0;
    expect(t, file != NULL);
    if (file == NULL)
        return;
    while (fgets(row, sizeof row, file) != NULL) {
        row[strcspn(row, "\n")] = 0;
        if (row[0] == '#')
            continue;
        walk(t, row);
        rows++;
    }
    expect(t, rows == 16);
    fclose(file);
}
