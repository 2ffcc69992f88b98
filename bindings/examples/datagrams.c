/* Packets as datagrams. */
#define _GNU_SOURCE
#include "datagrams.h"
#include <arpa/inet.h>
#include <errno.h>
#include <netinet/in.h>
#include <netinet/udp.h>
#include <stdio.h>
#include <string.h>
#include <sys/socket.h>
#include <sys/time.h>
#include <unistd.h>

/* Messages a call; datagrams a run, which every kernel with UDP_SEGMENT cuts; bytes of waiting
 * datagrams, which the kernel bounds by net.core.rmem_max. */
enum { MESSAGES = 256, SEGMENTS = 64, WAITING = 4 << 20 };

size_t packet_begin(const struct packets *p, size_t n)
{
    return n == 0 ? 0 : p->ends[n - 1];
}

static bool bind_and_connect(int sends, int receives)
{
    struct sockaddr_in address = {.sin_family = AF_INET, .sin_addr = {htonl(INADDR_LOOPBACK)}};
    struct sockaddr *at = (struct sockaddr *)&address;
    socklen_t len = sizeof address;
    const struct timeval patience = {.tv_sec = 2};
    const int waiting = WAITING;
    return bind(receives, at, len) == 0 && getsockname(receives, at, &len) == 0
        && setsockopt(receives, SOL_SOCKET, SO_RCVBUF, &waiting, sizeof waiting) == 0
        && setsockopt(receives, SOL_SOCKET, SO_RCVTIMEO, &patience, sizeof patience) == 0
        && connect(sends, at, len) == 0;
}

bool open_sockets(int *sends, int *receives)
{
    *receives = socket(AF_INET, SOCK_DGRAM, 0);
    *sends = socket(AF_INET, SOCK_DGRAM, 0);
    if (*receives >= 0 && *sends >= 0 && bind_and_connect(*sends, *receives))
        return true;
    const int why = errno;
    close(*sends);
    close(*receives);
    errno = why;
    return false;
}

bool knows_runs(int socket)
{
    const int none = 0; /* a run by every message's own word, else none */
    return setsockopt(socket, IPPROTO_UDP, UDP_SEGMENT, &none, sizeof none) == 0;
}

/* Room for the word of a message that says into how long pieces the kernel cuts it. */
union control {
    char room[CMSG_SPACE(sizeof(uint16_t))];
    size_t aligned;
};

/* What goes in one call: messages, each with the bytes that it sends, its word, and how many of the
 * packets are sent once it is. */
struct batch {
    struct mmsghdr messages[MESSAGES];
    struct iovec bytes[MESSAGES];
    union control controls[MESSAGES];
    size_t behind[MESSAGES];
    unsigned count;
};

/* Cuts a message into datagrams of this size, the last of which may be shorter. */
static void cut_message(struct msghdr *message, union control *control, uint16_t size)
{
    memset(control, 0, sizeof *control);
    message->msg_control = control;
    message->msg_controllen = sizeof control->room;
    struct cmsghdr *word = CMSG_FIRSTHDR(message);
    word->cmsg_level = IPPROTO_UDP;
    word->cmsg_type = UDP_SEGMENT;
    word->cmsg_len = CMSG_LEN(sizeof size);
    memcpy(CMSG_DATA(word), &size, sizeof size);
}

/* Where the run of packet `first` ends: packets of its size, and perhaps a shorter one behind them,
 * as many as the kernel cuts. */
static size_t run_end(const struct packets *p, size_t first)
{
    const size_t begin = packet_begin(p, first), size = p->ends[first] - begin;
    size_t n = first + 1;
    while (n < p->count && n - first < SEGMENTS && p->ends[n - 1] - begin == (n - first) * size
           && p->ends[n] - p->ends[n - 1] <= size && p->ends[n] - begin <= LONGEST_DATAGRAM)
        n++;
    return n;
}

/* Makes a message of the packets from `first` up to `behind`, which are one, or a run. */
static void add_message(struct batch *b, const struct packets *p, size_t first, size_t behind)
{
    const size_t begin = packet_begin(p, first);
    struct iovec *bytes = &b->bytes[b->count];
    struct msghdr *message = &b->messages[b->count].msg_hdr;
    bytes->iov_base = (uint8_t *)p->at + begin; /* which is only read */
    bytes->iov_len = p->ends[behind - 1] - begin;
    memset(message, 0, sizeof *message);
    message->msg_iov = bytes;
    message->msg_iovlen = 1;
    if (behind - first > 1)
        cut_message(message, &b->controls[b->count], (uint16_t)(p->ends[first] - begin));
    b->behind[b->count++] = behind;
}

/* Makes messages of the packets from `first` on, as many as go in one call. */
static void fill(struct batch *b, const struct packets *p, size_t first, bool by_runs)
{
    b->count = 0;
    while (first < p->count && b->count < MESSAGES) {
        const size_t behind = by_runs ? run_end(p, first) : first + 1;
        add_message(b, p, first, behind);
        first = behind;
    }
}

/* Sends a batch. *first goes on by the packets that are sent, all of them where it answers true. */
static bool send_batch(struct sender *s, struct batch *b, size_t *first)
{
    unsigned sent = 0;
    while (sent < b->count) {
        const int n = sendmmsg(s->socket, b->messages + sent, b->count - sent, 0);
        s->calls++;
        if (n < 0 && errno == EINTR)
            continue;
        if (n < 0)
            return false;
        s->messages += (unsigned)n;
        sent += (unsigned)n;
        *first = b->behind[sent - 1];
    }
    return true;
}

/* Whether an error may say that the kernel, or the device below it, doesn't cut this message. */
static bool is_refusal(int error)
{
    return error == EINVAL || error == EIO || error == ENOPROTOOPT || error == EOPNOTSUPP
        || error == EMSGSIZE;
}

bool send_packets(struct sender *s, const struct packets *p)
{
    struct batch b;
    size_t first = 0;
    while (first < p->count) {
        fill(&b, p, first, s->by_runs);
        if (send_batch(s, &b, &first))
            continue;
        if (!s->by_runs || !is_refusal(errno))
            return false;
        printf("the kernel refuses runs here (%s): each packet is a message of its own\n",
               strerror(errno));
        s->by_runs = false;
    }
    s->packets += p->count;
    return true;
}

bool receive(int socket, struct inbox *in)
{
    struct mmsghdr messages[INBOX];
    struct iovec bytes[INBOX];
    int n;
    memset(messages, 0, sizeof messages);
    for (int i = 0; i < INBOX; i++) {
        bytes[i] = (struct iovec){in->at[i], LONGEST_DATAGRAM};
        messages[i].msg_hdr.msg_iov = &bytes[i];
        messages[i].msg_hdr.msg_iovlen = 1;
    }
    /* The socket's own time limit: that of recvmmsg isn't looked at while it waits. */
    do
        n = recvmmsg(socket, messages, INBOX, MSG_WAITFORONE, NULL);
    while (n < 0 && errno == EINTR);
    in->count = n < 0 ? 0 : (size_t)n;
    for (size_t i = 0; i < in->count; i++)
        in->lens[i] = messages[i].msg_len;
    return n > 0;
}
