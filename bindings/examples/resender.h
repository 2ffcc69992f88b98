/* A sender over UDP, of whose packets some are lost on the way and some come behind later ones, and who sends again what
 * it is asked for. */
#ifndef RESENDER_H
#define RESENDER_H

#include "stream.h"

/* The payload types of the stream and of its retransmissions (RFC 4588). */
enum { MEDIA_TYPE = 96, RTX_TYPE = 97 };

/* Sends a stream, a packet a millisecond, loses one packet of ten, sends another one behind the next, and sends packets
 * without a payload. It sends again as retransmissions what it is asked for (NACK; RFC 4585, 6.2.1), and loses that too, until
 * for a second nothing is asked for. */
bool send_stream(const struct stream *s, int socket);

#endif
