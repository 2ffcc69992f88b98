/* Lists of what is sent. */
#include "losses.h"
#include "stream.h"
#include <stdlib.h>

/* The constants are those of MMIX (Knuth). */
size_t draw_below(uint64_t *state, size_t count)
{
    *state = *state * 6364136223846793005u + 1442695040888963407u;
    return (size_t)(*state >> 33) % count;
}

static bool draw(uint64_t *state, size_t of_1000)
{
    return draw_below(state, 1000) < of_1000;
}

/* Appends a packet: in its place, or behind one of the next eight. */
static void append(struct list *l, uint64_t *state, size_t packet, bool is_behind)
{
    const size_t delay = is_behind ? 2 * (1 + draw_below(state, 8)) + 1 : 0;
    l->at[l->count++] = (struct sending){2 * packet + delay, packet};
}

static int by_time(const void *a, const void *b)
{
    const struct sending *x = a, *y = b;
    if (x->time != y->time)
        return x->time < y->time ? -1 : 1;
    return (x->packet > y->packet) - (x->packet < y->packet);
}

/* Of what is sent twice, each second one comes right behind itself or with the first. */
void draw_list(struct list *l, uint64_t *state, size_t packets, const struct rates *r)
{
    l->at = grown(l->at, (2 * packets + 1) * sizeof *l->at);
    l->count = 0;
    for (size_t n = 0; n < packets; n++) {
        if (draw(state, r->lost))
            continue;
        append(l, state, n, draw(state, r->behind));
        if (draw(state, r->twice))
            append(l, state, n, draw(state, 500));
    }
    qsort(l->at, l->count, sizeof *l->at, by_time);
}
