/* The texts of streams/unit_places.txt, which says how it is written, and the places of their units. */
#include "calls.h"
#include <stdio.h>
#include <stdlib.h>
#include <string.h>

enum { LONGEST = 200 };

/* Where the next unit of a text stands, in a form that a row names. */
static bool next(const char *form, const struct bytes *text, size_t from, size_t *begin, size_t *end)
{
    if (*form == 'l')
        return h26x_next_avc_unit(text->at, text->len, from, begin, end);
    return h26x_next_unit((uint32_t)strtoul(form + 1, NULL, 10), text->at, text->len, from, begin, end);
}

static void walk(struct tally *t, const char *row)
{
    const char *text = behind_bar(row), *wanted = behind_bar(text);
    const struct bytes in = bytes_of(text);
    size_t begin = 9, end = 0, first, last;
    int len = 0;
    for (; sscanf(wanted, "%zu-%zu%n", &first, &last, &len) == 2; wanted += len) {
        size_t only = 9;
        expect_at(t, next(row, &in, end, NULL, &only) && only == last, row, __FILE__, __LINE__);
        expect_at(t, next(row, &in, end, &begin, &end) && begin == first && end == last, row, __FILE__, __LINE__);
    }
    first = begin;
    last = end;
    expect_at(t, !next(row, &in, end, &begin, &last) && begin == first && last == end, row, __FILE__, __LINE__);
}

void check_place_rows(struct tally *t)
{
    FILE *file = fopen("streams/unit_places.txt", "r");
    char row[LONGEST];
    size_t rows = 0;
    expect(t, file != NULL);
    while (fgets(row, LONGEST, file) != NULL) {
        if (row[0] == '#')
            continue;
        row[strcspn(row, "\n")] = 0;
        walk(t, row);
        rows++;
    }
    fclose(file);
    expect(t, rows == 22);
}
