/* What must become of the packets of a stream, by the order in which they come: computed from that
 * order and from what the packets hold, and from nothing that a receiver says. */
#ifndef OUTCOME_H
#define OUTCOME_H

#include "ends.h"
#include "packet_units.h"

/* The units of a stream, which of its packets were taken, and how many packets stand up to the
 * newest one of these. */
struct outcome {
    const struct packet_units *units;
    bool *is_taken;
    size_t up_to;
};

/* What a receiver must answer to a packet that comes now. A packet that comes twice, or behind a
 * later one, is late, and isn't taken. */
struct answer must_answer(struct outcome *o, size_t packet);

/* Whether a unit must be written: each of its packets was taken. */
bool is_whole(const struct outcome *o, const struct placed_unit *u);

/* Whether a text is the units that must be written, in order. *units is how many they are. */
bool is_outcome(const struct outcome *o, const uint8_t *text, size_t len, size_t *units);

#endif
