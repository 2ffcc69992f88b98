/* What must become of packets. */
#include "outcome.h"
#include "h26x.h"
#include "stream.h"
#include <string.h>

bool is_whole(const struct outcome *o, const struct placed_unit *u)
{
    for (size_t n = u->first; n <= u->last; n++)
        if (!o->is_taken[n])
            return false;
    return true;
}

/* How long the text is of the units whose last packet is this one, which is taken. */
static size_t completed_len(const struct outcome *o, size_t packet)
{
    size_t len = 0;
    for (size_t i = 0; i < o->units->count; i++) {
        const struct placed_unit *u = &o->units->at[i];
        if (u->last == packet && is_whole(o, u))
            len += u->end - u->begin;
    }
    return len;
}

struct answer must_answer(struct outcome *o, size_t packet)
{
    if (packet < o->up_to)
        return (struct answer){H26X_LATE, (uint16_t)(o->up_to - packet), 0};
    /* Before the first that comes none is known to be missing. */
    const size_t missing = o->up_to == 0 ? 0 : packet - o->up_to;
    o->is_taken[packet] = true;
    o->up_to = packet + 1;
    return (struct answer){missing == 0 ? H26X_IN_ORDER : H26X_GAP, (uint16_t)missing,
                           completed_len(o, packet)};
}

bool is_outcome(const struct outcome *o, const uint8_t *text, size_t len, size_t *units)
{
    size_t at = 0;
    *units = 0;
    for (size_t i = 0; i < o->units->count; i++) {
        const struct placed_unit *u = &o->units->at[i];
        const size_t size = u->end - u->begin;
        if (!is_whole(o, u))
            continue;
        if (len - at < size || memcmp(text + at, o->units->text + u->begin, size) != 0)
            return fail("a unit whose packets were all taken is missing or damaged");
        at += size;
        ++*units;
    }
    return at == len || fail("more is written than the units whose packets were all taken");
}
