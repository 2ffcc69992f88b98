/* Which units of an Annex B stream are of one picture. */
#ifndef ACCESS_UNITS_H
#define ACCESS_UNITS_H

#include <stdbool.h>
#include <stddef.h>
#include <stdint.h>

/* Where the next access unit of a stream stands, from `from` on: the bytes from *begin, with the
 * start code of its first unit, up to *end. Begin with 0, and go on from *end. False where no unit
 * is left. */
bool next_access_unit(uint32_t codec, const uint8_t *stream, size_t len, size_t from, size_t *begin,
                      size_t *end);

/* The type in a unit's header, or a packet's (RFC 6184, 1.3; RFC 7798, 1.1.4; RFC 9328, 1.1.4); 64,
 * which is none, where the header isn't whole. */
unsigned unit_type(uint32_t codec, const uint8_t *unit, size_t len);

#endif
