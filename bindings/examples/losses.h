/* Lists of what is sent of some packets: which of them, how often and in which order, drawn by a
 * small generator of numbers. */
#ifndef LOSSES_H
#define LOSSES_H

#include <stddef.h>
#include <stdint.h>

/* How many of 1000 packets are lost, are sent twice, and are sent behind later ones. */
struct rates {
    size_t lost, twice, behind;
};

/* A packet that is sent, and when: packets go in the order of their times. */
struct sending {
    size_t time, packet;
};

struct list {
    struct sending *at;
    size_t count;
};

/* A number below this one, of a linear congruence. Begin with any state. */
size_t draw_below(uint64_t *state, size_t count);

/* Draws what is sent of so many packets, in the place of what the list had. Its memory is the
 * caller's to free. */
void draw_list(struct list *l, uint64_t *state, size_t packets, const struct rates *r);

#endif
