/* Sends a unit of H.264 in packets and receives it again: the first program of a caller of the
 * installed library. It is C99, and C++ too. */
#include <h26x.h>
#include <stdio.h>
#include <string.h>

enum { LIMIT = 1200, UNIT = 3000, ROOM = 4096 };

static int fails(const char *what)
{
    fprintf(stderr, "%s\n", what);
    return 1;
}

int main(void)
{
    static uint8_t unit[UNIT], packet[LIMIT], out[ROOM];
    h26x_packetizer p;
    h26x_depacketizer d;
    h26x_refusal why;
    size_t count, written, len = 0;
    uint8_t extra = 0;

    if (h26x_version() != H26X_VERSION_NUMBER)
        return fails("the library isn't of the header's version");
    memset(unit, 0xab, sizeof unit);
    unit[0] = 0x65; /* of an IDR picture */
    if (h26x_packetizer_new(H26X_H264, false, &p) != H26X_OK)
        return fails("no packetizer");
    if (h26x_depacketizer_new(H26X_H264, false, &d) != H26X_OK)
        return fails("no depacketizer");
    if (h26x_packetize(&p, LIMIT, unit, sizeof unit, &count) != H26X_OK || count != 3)
        return fails("not in three packets");
    for (size_t i = 0; i < count; i++) {
        size_t packet_len = h26x_packet_copy(&p, i, packet, sizeof packet);
        if (h26x_depacketize(&d, false, packet, packet_len, out + len, sizeof out - len, &written, &extra, &why)
            != H26X_OK)
            return fails("a packet is refused");
        len += written;
    }
    if (len != 4 + sizeof unit || memcmp(out, "\0\0\0\1", 4) != 0 || memcmp(out + 4, unit, sizeof unit) != 0)
        return fails("what is received isn't what was sent");
    if (extra != 2)
        return fails("the keyframe isn't told");
    h26x_depacketizer_free(d);
    h26x_packetizer_free(p);
    printf("h26x %s: a unit of %d bytes, sent in %d packets and received\n", H26X_VERSION, UNIT, (int)count);
    return 0;
}
