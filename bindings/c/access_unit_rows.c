/* The streams of streams/access_units.txt, which says how it is written, and the access units that are given out of
 * them. */
#include "calls.h"
#include <stdio.h>
#include <string.h>

enum { LONGEST = 2000 };

/* The letters of what becomes of a packet, at the numbers of h26x_pushed; one that is held has none. */
static const char ANSWERS[] = " ltfsaj";

/* A row that is walked: what is left of what is given out. */
struct walk {
    struct tally *tally;
    const char *row, *wanted;
    h26x_access_units u;
};
#define holds(w, what) expect_at((w)->tally, what, (w)->row, __FILE__, __LINE__)

/* The next word, if there is one. */
static bool next_word(const char **at, char word[LONGEST])
{
    int len = 0;
    if (sscanf(*at, " %1999s%n", word, &len) != 1)
        return false;
    *at += len;
    return true;
}

/* What is told of an access unit, as the text has it. */
static void say(const h26x_access_unit *unit, char said[64])
{
    char missing[16] = "";
    if (unit->missing > 0)
        snprintf(missing, sizeof missing, "%u", (unsigned)unit->missing);
    const bool is_none = unit->extra != 2 && !unit->is_whole && !unit->is_clean && !unit->continues && !missing[0];
    snprintf(said, 64, "%u-%u:%s%s%s%s%s%s", (unsigned)unit->first, (unsigned)unit->last, unit->extra == 2 ? "k" : "",
             unit->is_whole ? "w" : "", unit->is_clean ? "c" : "", unit->continues ? "g" : "", missing,
             is_none ? "-" : "");
}

/* Compares an access unit with the next one that is wanted. */
static void compare(struct walk *w, const h26x_access_unit *unit, const uint8_t *bytes)
{
    char word[LONGEST], said[64], text[LONGEST] = "00000001", first[32];
    size_t len = strlen(text);
    say(unit, said);
    holds(w, next_word(&w->wanted, word));
    const char *units = strrchr(word, ':');
    holds(w, units != NULL && strlen(said) == (size_t)(units - word) && memcmp(said, word, strlen(said)) == 0);
    for (units++; *units != 0 && len < LONGEST - 9; units++)
        len += (size_t)snprintf(text + len, 9, "%s", *units == '+' ? "00000001" : (char[]){*units, 0});
    holds(w, is_same(bytes, unit->len, text));
    snprintf(first, sizeof first, " %u:%u", (unsigned)unit->first, (unsigned)unit->timestamp);
    holds(w, strstr(w->row, first) != NULL);
}

/* Gives a packet, or ends the stream, and takes what has ended. */
static void give(struct walk *w, const char *word)
{
    uint8_t to[ROOM];
    h26x_access_unit unit;
    if (strcmp(word, "end") == 0) {
        holds(w, h26x_access_units_finish(&w->u) == H26X_OK);
    } else {
        unsigned number = 0, timestamp = 0;
        uint32_t pushed = 99;
        holds(w, sscanf(word, "%u:%u", &number, &timestamp) == 2);
        const char *payload = strrchr(word, ':');
        const char *marker = strchr(word, 'm');
        const char *answer = strchr(ANSWERS, payload[-1]);
        const struct bytes in = bytes_of(payload + 1);
        holds(
            w,
            h26x_access_units_push(&w->u, 0, (uint16_t)number, timestamp, marker != NULL, in.at, in.len, &pushed, NULL)
                == H26X_OK);
        holds(w, pushed == (answer == NULL ? H26X_HELD : (uint32_t)(answer - ANSWERS)));
    }
    while (h26x_access_units_next(&w->u, 0, to, sizeof to, &unit) == H26X_OK)
        compare(w, &unit, to);
}

/* Compares the counts that a row may name. */
static void compare_counts(struct walk *w)
{
    h26x_access_units_counts counts;
    char word[LONGEST];
    unsigned long long count;
    holds(w, h26x_access_units_count(&w->u, &counts) == H26X_OK);
    const struct {
        const char *name;
        uint64_t *count;
    } all[] = {{"no_unit", &counts.no_unit}, {"still", &counts.still}, {"unbelieved", &counts.unbelieved},
               {"refused", &counts.refused}, {"lost", &counts.lost},   {"late", &counts.late},
               {"twice", &counts.twice},     {"stray", &counts.stray}, {"anew", &counts.anew}};
    const size_t last = sizeof all / sizeof *all - 1;
    holds(w, !next_word(&w->wanted, word) || strcmp(word, "|") == 0);
    while (next_word(&w->wanted, word)) {
        size_t i = 0;
        while (i < last && strcmp(word, all[i].name) != 0)
            i++;
        holds(w, next_word(&w->wanted, word) && sscanf(word, "%llu", &count) == 1 && *all[i].count == count);
        *all[i].count = 0;
    }
    for (size_t i = 0; i <= last; i++)
        holds(w, *all[i].count == 0);
}

static void walk(struct tally *t, const char *row)
{
    struct walk w = {t, row, strstr(row, " = "), {NULL}};
    char word[LONGEST];
    const char *at = row;
    h26x_access_units_config config = {.max_wait = UINT32_MAX,
                                       .window = 1,
                                       .far_away = 3000,
                                       .far_behind = 100,
                                       .held_limit = SIZE_MAX,
                                       .run_limit = SIZE_MAX,
                                       .unit_limit = SIZE_MAX};
    holds(&w, w.wanted != NULL && next_word(&at, word));
    w.wanted += 3;
    config.codec = strcmp(word, "h264") == 0 ? H26X_H264 : strcmp(word, "h265") == 0 ? H26X_H265 : H26X_H266;
    const char *numbers = strstr(row, " numbers ");
    config.numbers = numbers != NULL;
    at = config.numbers ? numbers + strlen(" numbers ") : at;
    holds(&w, h26x_access_units_new(&config, &w.u) == H26X_OK);
    while (next_word(&at, word) && strcmp(word, "=") != 0)
        give(&w, word);
    compare_counts(&w);
    h26x_access_units_free(w.u);
}

void check_access_unit_rows(struct tally *t)
{
    FILE *file = fopen("streams/access_units.txt", "r");
    char row[LONGEST];
    size_t len = 0, rows = 0;
    expect(t, file != NULL);
    while (fgets(row + len, (int)(LONGEST - len), file) != NULL) {
        len = strcspn(row, "\n");
        if (len > 0 && row[len - 1] == '\\') {
            row[--len] = 0;
            continue;
        }
        row[len] = 0;
        len = 0;
        if (row[0] == '#')
            continue;
        walk(t, row);
        rows++;
    }
    expect(t, rows > 50);
    fclose(file);
}
