/* Times what a packet costs through h26x_access_units in C, by turns with one copy of each payload into kept memory
 * (the bound):
 *
 *     units TURNS FILE..         prints for each file its name, and the best of each in nanoseconds a packet
 *     units --count ROUNDS FILE  takes the packets so many times, for callgrind
 *
 * A file is one of `units --write` of bench/calls: its name begins with the codec and ends with the window. */
#define _POSIX_C_SOURCE 199309L
#include "h26x.h"
#include <stdio.h>
#include <stdlib.h>
#include <string.h>
#include <time.h>

enum { ROOM = 8000000, HEADER = 12 };

struct packets {
    const char *name;
    uint8_t *at;
    size_t len, count;
    h26x_access_units_config config;
};

static uint8_t text[ROOM];

static void stop(const char *what)
{
    fprintf(stderr, "units: %s\n", what);
    exit(1);
}

static uint32_t number(const uint8_t *at, size_t len)
{
    return len == 0 ? 0 : at[0] | number(at + 1, len - 1) << 8;
}

static struct packets packets_of(const char *path)
{
    struct packets p = {0};
    FILE *file = fopen(path, "rb");
    p.at = malloc(64000000);
    if (file == NULL || p.at == NULL)
        stop(path);
    p.len = fread(p.at, 1, 64000000, file);
    fclose(file);
    for (size_t i = 0; i < p.len; i += HEADER + number(p.at + i + 8, 4))
        p.count++;
    p.name = strrchr(path, '/') == NULL ? path : strrchr(path, '/') + 1;
    p.config.codec = (uint32_t)atoi(p.name + 1);
    p.config.window = (uint16_t)atoi(strrchr(p.name, '-') + 1);
    p.config.max_wait = UINT32_MAX;
    p.config.far_away = 3000;
    p.config.held_limit = p.config.unit_limit = ROOM;
    p.config.run_limit = ROOM / 2;
    return p;
}

static double now(void)
{
    struct timespec t;
    clock_gettime(CLOCK_MONOTONIC, &t);
    return (double)t.tv_sec * 1e9 + (double)t.tv_nsec;
}

static void copy_each(const struct packets *p)
{
    size_t filled = 0;
    for (size_t i = 0; i < p->len;) {
        const size_t len = number(p->at + i + 8, 4);
        memcpy(text + filled, p->at + i + HEADER, len);
        filled = p->at[i + 6] ? 0 : filled + len;
        __asm__ volatile("" : : "r"(text) : "memory");
        i += HEADER + len;
    }
}

static void take_each(const struct packets *p)
{
    h26x_access_units u;
    h26x_access_unit unit;
    if (h26x_access_units_new(&p->config, &u) != H26X_OK)
        stop("h26x_access_units_new");
    for (size_t i = 0; i < p->len;) {
        const uint8_t *at = p->at + i;
        const size_t len = number(at + 8, 4);
        if (h26x_access_units_push(&u, 0, (uint16_t)number(at, 2), number(at + 2, 4), at[6], at + HEADER, len, NULL,
                                   NULL)
            != H26X_OK)
            stop("h26x_access_units_push");
        while (h26x_access_units_next(&u, 0, text, ROOM, &unit) == H26X_OK)
            __asm__ volatile("" : : "r"(text) : "memory");
        i += HEADER + len;
    }
    h26x_access_units_free(u);
}

static double least(double best, double since, size_t count)
{
    const double each = (now() - since) / (double)count;
    return best == 0 || each < best ? each : best;
}

static void time_both(const struct packets *p, int turns)
{
    double copied = 0, taken = 0;
    for (int turn = 0; turn < turns; turn++) {
        double since = now();
        copy_each(p);
        copied = least(copied, since, p->count);
        since = now();
        take_each(p);
        taken = least(taken, since, p->count);
    }
    printf("%s %.1f %.1f\n", p->name, copied, taken);
    fflush(stdout);
}

int main(int count, char **words)
{
    if (count == 4 && strcmp(words[1], "--count") == 0) {
        const struct packets p = packets_of(words[3]);
        for (int round = 0; round < atoi(words[2]); round++)
            take_each(&p);
        printf("%zu\n", p.count);
        return 0;
    }
    for (int i = 2; i < count; i++) {
        struct packets p = packets_of(words[i]);
        time_both(&p, atoi(words[1]));
        free(p.at);
    }
    return 0;
}
