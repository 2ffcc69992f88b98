/* The access units of streams/sent_units.txt, which says how it is written, and the packets of all their units. */
#include "calls.h"
#include <stdio.h>
#include <stdlib.h>
#include <string.h>

enum { LONGEST = 2000 };

/* A row, taken apart. */
struct row {
    uint32_t codec, packing;
    bool numbers, delimiters;
    size_t mtu, len, count;
    uint8_t text[LONGEST], packets[LONGEST];
    size_t ends[64];
    bool is_refused;
    uint32_t code;
    h26x_refusal why;
};

/* The next column of a row, without the blanks round it. */
static char *next_column(char **at)
{
    char *column = *at + strspn(*at, " "), *end = column + strcspn(column, "|\n");
    *at = *end == 0 ? end : end + 1;
    while (end > column && end[-1] == ' ')
        end--;
    *end = 0;
    return column;
}

/* Writes words of hexadecimal digits one behind the other, each behind `lead`; how many bytes they are. */
static size_t joined(char *words, const char *lead, uint8_t *to, size_t *ends, size_t *count)
{
    size_t len = 0;
    const struct bytes before = bytes_of(lead);
    for (char *word = words, *next = words; *word != 0; word = next) {
        next += strcspn(word, " ");
        if (*next != 0)
            *next++ = 0;
        const struct bytes it = bytes_of(word);
        memcpy(to + len, before.at, before.len);
        memcpy(to + len + before.len, it.at, it.len);
        len += before.len + it.len;
        if (ends != NULL)
            ends[(*count)++] = len;
    }
    return len;
}

static uint32_t packing_of(const char *name)
{
    return *name == 't' ? H26X_TOGETHER : *name == 'b' ? H26X_BEFORE_SLICES : *name == 'a' ? H26X_APART : H26X_SINGLE;
}

static struct row row_of(char *line)
{
    struct row it = {.len = 0};
    char *codec = next_column(&line);
    it.codec = (uint32_t)strtoul(codec + 1, &codec, 10);
    it.numbers = *codec != 0;
    const char *packing = next_column(&line);
    it.packing = packing_of(packing);
    it.delimiters = strstr(packing, "without delimiters") == NULL;
    it.mtu = strtoul(next_column(&line), NULL, 10);
    it.len = joined(next_column(&line), "00000001", it.text, NULL, NULL);
    char *wanted = next_column(&line);
    it.is_refused = *wanted == '!';
    if (it.is_refused) {
        it.code = (uint32_t)strtoul(wanted + 1, &wanted, 10);
        it.why.first = strtoul(wanted, &wanted, 10);
        it.why.second = strtoul(wanted, NULL, 10);
    } else {
        joined(wanted, "", it.packets, it.ends, &it.count);
    }
    return it;
}

static bool is_why(const struct row *it, uint32_t code, const h26x_refusal *why)
{
    return code == it->code && why->first == it->why.first && why->second == it->why.second;
}

/* The unit that can't go is named by each call, and nothing else changes. */
static void is_refused(struct tally *t, const struct row *it, h26x_packetizer *p)
{
    const uint8_t unit[] = {0x42, 0x01, 0xaa};
    uint8_t to[8] = {7};
    size_t count = 9, size = 9, ends[1] = {9};
    h26x_refusal why = {0, 0};
    expect(t, h26x_packetize_unit(p, 1200, unit, 3, &count) == H26X_OK && count == 1);
    count = 9;
    expect(t, is_why(it, h26x_packetize_units(p, it->mtu, it->text, it->len, &count, &why), &why) && count == 1);
    expect(t, h26x_packet_len(p, 0) == (it->numbers ? 5 : 3));
    why.first = why.second = 0;
    expect(t,
           is_why(it, h26x_packetize_units_into(p, it->mtu, it->text, it->len, 0, to, 8, ends, 1, &count, &size, &why),
                  &why));
    expect(t, count == 0 && size == 0 && to[0] == 7 && ends[0] == 9);
    count = size = why.first = why.second = 9;
    expect(t, is_why(it, h26x_units_size(p, it->mtu, it->text, it->len, 1, &count, &size, &why), &why));
    expect(t, count == 0 && size == 0);
}

/* A depacketizer writes the text again, where all of it is sent. */
static void comes_back(struct tally *t, const struct row *it)
{
    h26x_depacketizer d;
    uint8_t back[LONGEST];
    size_t len = 0, written;
    expect(t, h26x_depacketizer_new(it->codec, it->numbers, &d) == H26X_OK);
    for (size_t i = 0, begin = 0; i < it->count; begin = it->ends[i++]) {
        expect(t,
               h26x_depacketize(&d, false, it->packets + begin, it->ends[i] - begin, back + len, sizeof back - len,
                                &written, NULL, NULL)
                   == H26X_OK);
        len += written;
    }
    expect(t, !it->delimiters || (len == it->len && memcmp(back, it->text, len) == 0));
    h26x_depacketizer_free(d);
}

/* The packets are those that are wanted, by each call. */
static void is_sent(struct tally *t, const struct row *it, h26x_packetizer *p, h26x_packetizer *q)
{
    uint8_t packets[LONGEST];
    size_t ends[64], count = 99, size = 99, len = it->count == 0 ? 0 : it->ends[it->count - 1];
    h26x_refusal why = {7, 8};
    expect(t, h26x_units_size(p, it->mtu, it->text, it->len, 3, &count, &size, &why) == H26X_OK);
    expect(t, count == it->count && size == len + 3 * count);
    count = 99;
    expect(t, h26x_packetize_units(p, it->mtu, it->text, it->len, &count, &why) == H26X_OK && count == it->count);
    expect(t, h26x_packets_copy(p, 0, packets, sizeof packets, ends, 64) == count && h26x_packets_len(p) == len);
    expect(t, memcmp(packets, it->packets, len) == 0 && memcmp(ends, it->ends, count * sizeof *ends) == 0);

    memset(packets, 0xee, sizeof packets);
    expect(
        t,
        h26x_packetize_units_into(q, it->mtu, it->text, it->len, 0, packets, len, ends, it->count, &count, &size, &why)
            == H26X_OK);
    expect(t, count == it->count && size == len && packets[len] == 0xee && why.first == 7 && why.second == 8);
    expect(t, memcmp(packets, it->packets, len) == 0 && memcmp(ends, it->ends, count * sizeof *ends) == 0);
    comes_back(t, it);
}

static void walk(struct tally *t, const struct row *it)
{
    h26x_packetizer p, q;
    expect(t, h26x_packetizer_new(it->codec, it->numbers, &p) == H26X_OK);
    expect(t, h26x_packetizer_set_packing(&p, it->packing) == H26X_OK);
    expect(t, h26x_packetizer_set_delimiters(&p, it->delimiters) == H26X_OK);
    expect(t, h26x_packetizer_clone(&p, &q) == H26X_OK);
    if (it->is_refused)
        is_refused(t, it, &p);
    else
        is_sent(t, it, &p, &q);
    h26x_packetizer_free(p);
    h26x_packetizer_free(q);
}

void check_unit_rows(struct tally *t)
{
    FILE *file = fopen("streams/sent_units.txt", "r");
    char line[LONGEST];
    size_t rows = 0;
    expect(t, file != NULL);
    if (file == NULL)
        return;
    while (fgets(line, LONGEST, file) != NULL) {
        if (*line == '#')
            continue;
        const struct row it = row_of(line);
        walk(t, &it);
        rows++;
    }
    fclose(file);
    expect(t, rows == 54);
}
