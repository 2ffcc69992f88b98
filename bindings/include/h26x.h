/** @file
 * H.264, H.265 and H.266 as RTP payloads (RFC 6184, RFC 7798, RFC 9328).
 *
 * A packetizer cuts units of coded video into the payloads of RTP packets, each within a limit. A depacketizer
 * writes the units of such payloads again, and a receiver does where packets are given with their sequence numbers,
 * and some of them may be missing. RTP's own header, RTX and some of RTCP are read and written, and RED is read, one
 * packet after the other, or by a receiver of datagrams, which gives out access units, and a sender of datagrams. Format
 * parameters of SDP are read and answered.
 *
 * A handle is a struct of one pointer. No call keeps a pointer that it is given, waits, prints, or has state beside
 * its handle; memory comes from malloc, realloc and free. A handle may go from one thread to another.
 *
 * `const` before a handle: the call only looks at it, and any number of threads may make such calls of one handle at
 * once while none changes it.
 *
 * What may be NULL: a buffer, which then has length 0 whatever is said to be its length or its room; the pointer to
 * what isn't wanted (at, begin, behind, codec, count, counted, counts, element, end, extra, in_time, len, level, media,
 * name_len, number, payload_type, place, profile, pushed, received, receives, said, sender, sends, sent, size, so_far,
 * taken, told, unit, value_len, why, written, the value of a number, and a format of RTX or of repair, an RTP packet,
 * a report, sources and streams that are told); and the pointer in a handle that is freed, which is then no handle: so
 * set it to {0} and free it in any case. The calls whose names end in _close free a handle and write NULL into it;
 * they are functions of this header over _free, and no exports.
 *
 * What a caller owes, since nothing checks it:
 * - a handle is one that a _new or _clone wrote, and was not freed since;
 * - while a call runs, no other call is given the same handle, unless both take it as a const one, and no other thread
 *   writes its buffers;
 * - a handle goes to another thread by a lock, a start or a join of a thread, or as ordered as that;
 * - a pointer that isn't NULL and its length are those of one buffer;
 * - what a call writes overlaps nothing else that it is given;
 * - a bool is 0 or 1;
 * - malloc and realloc align each block to every power of two up to 16 that divides its size;
 * - no call is made in a signal handler, or in the child that a program with threads forked.
 *
 * Words: `numbers` are decoding order numbers (DON; DONL and DOND in packets). The open unit is one of which
 * fragments came and the last one didn't yet; what came of it, in the depacketizer's reassembly buffer, is the run
 * (run_limit, h26x_give_up_run). `made` is where a new handle is written, `to` an output buffer, and `room` its
 * capacity in bytes. A unit is a NAL unit without its start code, a set a parameter set (VPS, SPS, PPS). */
#ifndef H26X_H
#define H26X_H

#include <stdbool.h>
#include <stddef.h>
#include <stdint.h>

/** The first number of this header's version. */
#define H26X_VERSION_MAJOR 0
/** The second. */
#define H26X_VERSION_MINOR 3
/** The third. */
#define H26X_VERSION_PATCH 0
/** All three in words. */
#define H26X_VERSION "0.3.0"
/** All three in one number. */
#define H26X_VERSION_NUMBER (H26X_VERSION_MAJOR << 16 | H26X_VERSION_MINOR << 8 | H26X_VERSION_PATCH)

/** Before each declaration: that the call is exported. */
#ifndef H26X_API
#if defined __GNUC__
#define H26X_API __attribute__((visibility("default")))
#else
#define H26X_API
#endif
#endif

/** Behind a declaration: the compiler warns where nobody looks at the answer. */
#ifndef H26X_MUST_USE
#if defined __GNUC__
#define H26X_MUST_USE __attribute__((warn_unused_result))
#else
#define H26X_MUST_USE
#endif
#endif

#ifdef __cplusplus
extern "C" {
#endif

/** The version of the library that is linked, as H26X_VERSION_NUMBER. */
H26X_API uint32_t h26x_version(void);

/** Which library that is, in three words: "proved" (the archive built from the proofs) or "source" (what cargo makes of
 * the translated sources), the version, and the target it was built for, as "proved 0.3.0 x86_64-unknown-linux-gnu". */
H26X_API const char *h26x_origin(void);

/** The codecs: H.264, H.265 and H.266. */
enum h26x_codec { H26X_H264 = 264, H26X_H265 = 265, H26X_H266 = 266 };

/** What SDP calls a codec: "H264", "H265" or "H266" (RFC 6184, 8.1; RFC 7798, 7.1; RFC 9328, 7.2). NULL for an unknown
 * one. */
H26X_API const char *h26x_codec_name(uint32_t codec);

/** What a call answers. All but H26X_OK are refusals, which change nothing but *written, *why, of packets that are made
 * *count and *size, and with H26X_NO_ROOM the lengths that are told; a call whose name ends in _all has taken *taken
 * packets. */
enum h26x_code {
    H26X_OK = 0,
    H26X_SHORT_PACKET = 1,
    H26X_NALU_TYPE_NOT_HANDLED = 2,   /**< H.264. why->first: the type */
    H26X_STAP_A_TOO_LONG = 3,         /**< H.264. why->first: the length of a unit; why->second: the bytes left for it */
    H26X_H265_CORRUPTED = 4,
    H26X_H265_PACI_PHES_TOO_LONG = 5,
    H26X_H266_CORRUPTED = 6,
    H26X_AVC_UNIT_TOO_LONG = 7,       /**< behind lengths: a unit of over 4,294,967,295 bytes */
    H26X_OUT_OF_MEMORY = 8,
    H26X_UNKNOWN_CODEC = 9,
    H26X_WRONG_END = 10,              /**< a handle of one kind where another is wanted */
    H26X_NOT_OF_THIS_CODEC = 11,      /**< decoding order numbers or a largest size for H.264 */
    H26X_OUT_OF_RANGE = 12,           /**< a largest size under 4, a window of 0 or over 16384, no packing of h26x_packing, a
                                       * payload that isn't in its buffer */
    H26X_NO_ROOM = 13,                /**< what is to be written doesn't fit in the caller's memory */
    H26X_NOTHING_YET = 14,            /**< no access unit has ended */
    /* Of units that are all to be sent. why->first: the place of the first that can't go, from 0; why->second: its
     * length in bytes. */
    H26X_UNIT_WITHOUT_HEADER = 15,    /**< it has no whole header: one byte of H.264, two of the others */
    H26X_UNIT_FORBIDDEN = 16,         /**< its forbidden bit is set */
    H26X_UNIT_OF_PACKET_TYPE = 17,    /**< its type is one of packets, or, of H.264, none of a unit */
    H26X_UNIT_TOO_LONG = 18,          /**< it is longer than a packet, and no fragment may go or has room for data */
    /* Of format parameters of SDP. why->first of those from 21 to 25: the place of the parameter, from 0, blank parts
     * not counted; of those from 29 to 32: the place of the unit; of those from 42 to 45: the place of the capability
     * point. why->second of 43 and 44: what is wrong there, one of the codes from 20 to 25. */
    H26X_SDP_OPEN_BRACE = 20,         /**< a `{` isn't closed */
    H26X_SDP_NOT_A_NUMBER = 21,
    H26X_SDP_OUT_OF_RANGE = 22,
    H26X_SDP_NOT_HEXADECIMAL = 23,    /**< no hexadecimal digits, or not as many as the parameter has */
    H26X_SDP_NOT_TX_MODE = 24,        /**< none of SRST, MRST and MRMT */
    H26X_SDP_TWICE = 25,
    H26X_SDP_UNKNOWN_NAME = 26,       /**< the codec's RFC has no such parameter */
    H26X_SDP_ABSENT = 27,             /**< it isn't given, or none is behind the last */
    H26X_SDP_OTHER_KIND = 28,         /**< the parameter is no number, or no units */
    H26X_SDP_NOT_BASE64 = 29,
    H26X_SDP_EMPTY_UNIT = 30,
    H26X_SDP_OTHER_TYPE = 31,         /**< a unit is of no type that the parameter is for */
    H26X_SDP_START_CODE = 32,         /**< a unit has a start code inside */
    H26X_SDP_NO_SET = 33,             /**< no parameter set that says a profile stands before the first slice */
    H26X_SDP_SHORT_SET = 34,          /**< it ends before it says one */
    H26X_SDP_NO_PROFILE = 35,         /**< H.266: its sps_ptl_dpb_hrd_params_present_flag is 0 */
    H26X_SDP_NO_ANSWER = 37,          /**< two formats have no configuration in common */
    H26X_SDP_PAYLOAD_TYPE = 38,       /**< no number of 7 bits */
    H26X_SDP_ENCODING_NAME = 39,      /**< none of H264, H265 and H266 */
    H26X_SDP_CLOCK_RATE = 40,         /**< it isn't 90000 */
    H26X_SDP_NO_BRACES = 41,          /**< H.265: capability points don't begin with `{` and end with `}` */
    H26X_SDP_NO_TOOL = 42,            /**< a point begins with neither `w:` nor `t:` */
    H26X_SDP_SEGMENTATION = 43,       /**< the number behind that is none from 1 to 4095 */
    H26X_SDP_LIMITS = 44,             /**< a point's limits aren't read as parameters are */
    H26X_SDP_NO_LIMIT = 45,           /**< a point has none of the five limits */
    H26X_SDP_CONSTRAINTS_NOT_BASE64 = 46, /**< H.266 */
    H26X_SDP_SHORT_CONSTRAINTS = 47,  /**< they end before they say all */
    H26X_SDP_LONG_CONSTRAINTS = 48,   /**< bytes stand behind them */
    H26X_SDP_NOT_A_VALUE = 49,        /**< the text has a `;` outside braces, or leaves one open */
    /* Why bytes are no RTP packet: the first fault from the left. */
    H26X_RTP_TOO_SHORT = 50,          /**< fewer than the 12 bytes that every header has */
    H26X_RTP_OTHER_VERSION = 51,      /**< its version isn't 2 */
    H26X_RTP_CSRCS_PAST_THE_END = 52,
    H26X_RTP_EXTENSION_PAST_THE_END = 53,
    H26X_RTP_PADDING_OF_ZERO = 54,    /**< P is set, and the last byte says that 0 bytes are padding */
    H26X_RTP_PADDING_TOO_LONG = 55,   /**< the padding is longer than what stands behind the header */
    /* Why an RTP packet isn't written: the first of its parts that has no place in one. */
    H26X_RTP_PAYLOAD_TYPE = 56,       /**< it is above 127 */
    H26X_RTP_CSRCS = 57,              /**< CSRCs that aren't whole, four bytes each, or more than 15 */
    H26X_RTP_EXTENSION = 58,          /**< an extension that isn't of whole words of four bytes, or has over 65,535 */
    H26X_RTP_PADDING = 59,            /**< padding whose last byte isn't its length */
    /* Of reading what a packet bears. */
    H26X_RTX_NO_ORIGINAL = 60,        /**< a retransmission of under two bytes of payload: padding, or a probe */
    /* Why bytes are no redundant payload: the first fault from the left. */
    H26X_RED_HEADERS_PAST_THE_END = 61, /**< no header of a block has F clear */
    H26X_RED_BLOCKS_PAST_THE_END = 62, /**< blocks are longer than what stands behind the headers */
    H26X_SDP_NO_APT = 63,             /**< a format of retransmission says no payload type that it belongs to */
    /* Which rule a format of one's own breaks (RFC 6184, 8.1; RFC 7798, 7.1; RFC 9328, 7.2), 69 that of payloads
     * here. why->first of 67 and 70: the place of the parameter, whose name h26x_sdp_name has. */
    H26X_SDP_RULE_PROFILE = 64,       /**< the standard has no such profile */
    H26X_SDP_RULE_LEVEL = 65,         /**< the standard has no such level */
    H26X_SDP_RULE_HIGHEST_LEVEL = 66, /**< the highest level that is received isn't above the level, or is none */
    H26X_SDP_RULE_BELOW_LEVEL = 67,   /**< a parameter is below what the highest level asks for */
    H26X_SDP_RULE_REORDERING = 68,    /**< what is said of packets out of order stands where there are none, or is absent */
    H26X_SDP_RULE_OUT_OF_ORDER = 69,  /**< units may be sent in another order than decoded, and nobody says H26X_SDP_ANY_ORDER */
    H26X_SDP_RULE_ABOVE_LEVEL = 70,   /**< a parameter is above 16 times what the highest level asks for */
    H26X_SDP_RULE_ASPECT_RATIOS = 71, /**< sar-supported is above sar-understood, and not 255 */
    H26X_SDP_RULE_IN_BAND_SETS = 72,  /**< parameter sets of levels are used where all go in band */
    H26X_SDP_RULE_HASH_TYPES = 73,    /**< include-dph is no list of numbers up to 255 */
    H26X_SDP_NO_LEVEL_SETS = 74,      /**< a level of sprop-level-parameter-sets has no sets; why->first: its place */
    /* Of the elements of a header extension. */
    H26X_RTP_NO_ELEMENT = 75,         /**< none begins from that place on */
    H26X_RTP_ELEMENT_PAST_THE_END = 76 /**< its length passes the end of the extension, or isn't there */
};

/** A code in words, without a full stop; never NULL. */
H26X_API const char *h26x_strerror(uint32_t code);

/** The handle of a packetizer; its pointer is the library's. */
typedef struct { void *at; /**< NULL: no handle */ } h26x_packetizer;
/** The handle of a depacketizer. */
typedef struct { void *at; /**< NULL: no handle */ } h26x_depacketizer;
/** The handle of a receiver; where a call takes both, it is given &r.at of a receiver. */
typedef struct { h26x_depacketizer at; /**< the receiver as a depacketizer */ } h26x_receiver;
/** The numbers of a refusal, as its code says. */
typedef struct {
    size_t first;  /**< 0 where the code has none */
    size_t second; /**< the same */
} h26x_refusal;

/* ---- Sending ---- */

/** A packetizer for which no parameter set waits, with 1200 bytes as the largest packet size. `numbers`: whether
 * packets bear decoding order numbers, which begin at 0 (DONL; H.265 and H.266). *made is written where the answer is
 * H26X_OK. Else H26X_UNKNOWN_CODEC, H26X_NOT_OF_THIS_CODEC or H26X_OUT_OF_MEMORY. */
H26X_API uint32_t h26x_packetizer_new(uint32_t codec, bool numbers, h26x_packetizer *made) H26X_MUST_USE;

/** The same packetizer again: the sets that wait for it, its next number, its settings; not the packets it holds.
 * H26X_OUT_OF_MEMORY, or H26X_WRONG_END. */
H26X_API uint32_t h26x_packetizer_clone(const h26x_packetizer *p, h26x_packetizer *made) H26X_MUST_USE;

/** Frees it with its packets. A handle of NULL is nothing to be freed. */
H26X_API void h26x_packetizer_free(h26x_packetizer p);

/** The same, and writes NULL into the handle, so that it may be closed again. A pointer of NULL is nothing to be freed
 * either. */
static inline void h26x_packetizer_close(h26x_packetizer *p)
{
    if (p != NULL) {
        const h26x_packetizer it = *p;
        p->at = NULL;
        h26x_packetizer_free(it);
    }
}

/** Turns numbers on, from 0 again, or off. Sets that wait stay. H26X_NOT_OF_THIS_CODEC for H.264;
 * H26X_WRONG_END. */
H26X_API uint32_t h26x_packetizer_set_numbers(h26x_packetizer *p, bool numbers);

/** Sets the largest packet size of H.265 and H.266, in bytes: 4 or more, else H26X_OUT_OF_RANGE. No packet of a later
 * call is longer, whatever its `mtu`; it is 1200 at first. H26X_NOT_OF_THIS_CODEC for H.264; H26X_WRONG_END. */
H26X_API uint32_t h26x_packetizer_set_max_size(h26x_packetizer *p, uint16_t bytes);

/** Sets whether h26x_packetize and h26x_packetize_into give the sets of H.265 that go in one packet the header that
 * RFC 7798, 4.4.2 asks for, as h26x_set_lowest_header does. Off at first: they have LayerId and TID of the unit behind
 * them (str0m's rule), 60 0b before a slice of TID 3. Where a forwarder drops packets by TID turn it on, or the sets
 * are dropped too. Those of H.266 have their header either way. H26X_NOT_OF_THIS_CODEC for H.264; H26X_WRONG_END. */
H26X_API uint32_t h26x_packetizer_set_lowest_header(h26x_packetizer *p, bool lowest);

/** Makes the packets of a payload, which is one unit, or units behind start codes: of an access unit, or a part of
 * one. They take the place of those of the call before, and *count is how many there are. No packet has more than
 * `mtu` bytes, RTP's header not counted, and of H.265 and H.266 none more than the largest packet size, which is
 * 1200 whatever the `mtu` until h26x_packetizer_set_max_size says otherwise. The marker bit goes on the last packet
 * of an access unit. H26X_OUT_OF_MEMORY leaves the packets of the call before, and *count is how many these are;
 * H26X_WRONG_END writes 0 to *count. The memory of packets is kept for later calls.
 *
 * Parameter sets wait for the next unit that is none, and go before it, in one packet where they fit it together,
 * else each alone. What a real stream meets:
 * - A set that no packet holds is dropped, and no answer says so, since sets aren't fragmented. Keep `mtu` (and the
 *   largest packet size) above the sets' lengths, by 2 bytes more with numbers; or give the sets to the peer in SDP.
 * - Of several sets of a kind that wait together only the latest goes, whatever their ids. Send each itself by
 *   h26x_packetize_unit, which is also how to send sets again every second.
 * - A PPS waits until there is an SPS, an SPS until there is a PPS, and a VPS until there are both; pictures go
 *   without them meanwhile. Where an encoder changes one alone, give the others again before it.
 * - Access unit delimiters aren't sent, nor units of H.266 of types 28 and 29.
 * - A unit of H.265 or H.266 that is a bare header of two bytes, as an end of sequence, is sent, but
 *   h26x_depacketize refuses it as H26X_SHORT_PACKET, which changes nothing: leave such units out, or pass over the
 *   refusal. */
H26X_API uint32_t h26x_packetize(h26x_packetizer *p, size_t mtu, const uint8_t *payload, size_t payload_len,
                                 size_t *count) H26X_MUST_USE;

/** Makes the packets of one unit as it is: no start code is looked for in it, and whatever its kind it is sent now,
 * itself or in fragments. So a caller who has units need not join them, and may send parameter sets himself. Sets
 * that wait stay. There are no packets of a unit without a whole header, nor where `mtu` is under 1 (H.264) or 4, nor
 * of a unit longer than a packet where no fragment has room for data: under 3 (H.264), 4, or 6 with numbers. The
 * answers are those of h26x_packetize. */
H26X_API uint32_t h26x_packetize_unit(h26x_packetizer *p, size_t mtu, const uint8_t *unit, size_t unit_len,
                                      size_t *count) H26X_MUST_USE;

/** Makes the packets of a payload as h26x_packetize does, straight in the caller's memory: one behind the other from
 * the front of `to`, each behind `headroom` bytes, which are left as they are for the headers of the layers below
 * (`mtu` does not count them). ends[n] is where the n-th of them ends in `to`; it begins, with its headroom, where
 * the one before it ends. *count is how many packets there are, *size how many bytes they take with their headroom.
 * Where they don't fit in `room` bytes, or their ends in `ends_room` numbers, the answer is H26X_NO_ROOM, and all
 * but *count and *size is left, so that the call can be made again with that much room. *size is SIZE_MAX where it
 * would be more. `to` may be filled by more than one call; ends[n] counts from the `to` of its call. The packets
 * that the handle holds, of h26x_packetize, stay. H26X_OUT_OF_MEMORY and H26X_WRONG_END write 0 to *count and *size.
 * Each call takes memory for the list of its packets while it runs, but none for their bytes. */
H26X_API uint32_t h26x_packetize_into(h26x_packetizer *p, size_t mtu, const uint8_t *payload, size_t payload_len,
                                      size_t headroom, uint8_t *to, size_t room, size_t *ends, size_t ends_room,
                                      size_t *count, size_t *size) H26X_MUST_USE;

/** How many packets h26x_packetize_into would make of a payload, and how many bytes they take with their headroom. The
 * packetizer is left. H26X_OUT_OF_MEMORY and H26X_WRONG_END write 0 to *count and *size. */
H26X_API uint32_t h26x_packets_size(const h26x_packetizer *p, size_t mtu, const uint8_t *payload, size_t payload_len,
                                    size_t headroom, size_t *count, size_t *size) H26X_MUST_USE;

/** The same as h26x_packetize_into of one unit as it is, as h26x_packetize_unit sends it. */
H26X_API uint32_t h26x_packetize_unit_into(h26x_packetizer *p, size_t mtu, const uint8_t *unit, size_t unit_len,
                                           size_t headroom, uint8_t *to, size_t room, size_t *ends, size_t ends_room,
                                           size_t *count, size_t *size) H26X_MUST_USE;

/** Which units of an access unit share packets. */
enum h26x_packing {
    H26X_TOGETHER = 0,      /**< those that fit one packet */
    H26X_BEFORE_SLICES = 1, /**< of these, those that are no slices: a slice goes out at once */
    H26X_APART = 2,         /**< none: with a packet one slice is lost */
    H26X_SINGLE = 3         /**< none, and no unit goes in fragments: packetization-mode 0 of H.264 (RFC 6184, 6.2) */
};

/** Sets which units share packets that h26x_packetize_units and its like make, by a number of h26x_packing:
 * H26X_TOGETHER at first. Any other is H26X_OUT_OF_RANGE; H26X_WRONG_END. */
H26X_API uint32_t h26x_packetizer_set_packing(h26x_packetizer *p, uint32_t packing);

/** Sets whether h26x_packetize_units and its like send access unit delimiters and filler data, of which a decoder needs
 * nothing (types 9 and 12 of H.264, 35 and 38 of H.265, 20 and 25 of H.266). They do at first; else an access unit is
 * sent as if these units weren't there, but that a unit that can't go is told by its place among all. A stream of H.266
 * of several layers has to have its delimiters (H.266, 7.4.2.4). H26X_WRONG_END. */
H26X_API uint32_t h26x_packetizer_set_delimiters(h26x_packetizer *p, bool delimiters);

/** Makes the packets of one access unit in Annex B form, as an encoder gives it: every unit, in order and as it is,
 * whatever its kind, but for delimiters and filler data where h26x_packetizer_set_delimiters says so. Units are cut as
 * h26x_next_unit does; an empty text has none. Those that may share a packet go together where they fit (RFC 6184,
 * 5.7.1; RFC 7798, 4.4.2; RFC 9328, 4.3.2), one that is longer than a packet goes in fragments, and no sender that
 * brings these units needs fewer packets than by H26X_TOGETHER. So several sets of a kind, sets that come alone and
 * delimiters all arrive. `mtu` and the largest packet size count as in h26x_packetize,
 * and with decoding order numbers each unit takes one. Sets that wait for h26x_packetize stay: one stream uses the
 * one call or the other. An aggregate has the header of its units, whatever h26x_packetizer_set_lowest_header set.
 *
 * Where a unit can't go nothing is sent, and *why names the first, by its place and its length: H26X_UNIT_WITHOUT_HEADER,
 * H26X_UNIT_FORBIDDEN, H26X_UNIT_OF_PACKET_TYPE or H26X_UNIT_TOO_LONG. The packets of the call before stay then, and
 * *count is how many these are. Else *count and the answers are those of h26x_packetize. H26X_OUT_OF_MEMORY writes 0 to
 * why->first and why->second; H26X_OK and H26X_WRONG_END leave *why.
 *
 * A unit of H.265 or H.266 that is a bare header of two bytes goes in an aggregate where it can; alone h26x_depacketize
 * refuses it. Each call takes memory for the list of its units while it runs. */
H26X_API uint32_t h26x_packetize_units(h26x_packetizer *p, size_t mtu, const uint8_t *access_unit,
                                       size_t access_unit_len, size_t *count, h26x_refusal *why) H26X_MUST_USE;

/** The same as h26x_packetize_into of one access unit, as h26x_packetize_units sends it. Units are refused as there:
 * then 0 is written to *count and *size. H26X_OK and H26X_NO_ROOM leave *why. It takes no memory for bytes of units. */
H26X_API uint32_t h26x_packetize_units_into(h26x_packetizer *p, size_t mtu, const uint8_t *access_unit,
                                            size_t access_unit_len, size_t headroom, uint8_t *to, size_t room,
                                            size_t *ends, size_t ends_room, size_t *count, size_t *size,
                                            h26x_refusal *why) H26X_MUST_USE;

/** How many packets h26x_packetize_units_into would make of an access unit, and how many bytes they take with their
 * headroom. The packetizer is left. Each refusal writes 0 to *count and *size, and names its unit as there. */
H26X_API uint32_t h26x_units_size(const h26x_packetizer *p, size_t mtu, const uint8_t *access_unit,
                                  size_t access_unit_len, size_t headroom, size_t *count, size_t *size,
                                  h26x_refusal *why) H26X_MUST_USE;

/** How many packets there are of the last h26x_packetize, h26x_packetize_unit or h26x_packetize_units; 0 for a handle of
 * another kind. */
H26X_API size_t h26x_packet_count(const h26x_packetizer *p);

/** The length of packet i of these, in bytes; 0 past the last. */
H26X_API size_t h26x_packet_len(const h26x_packetizer *p, size_t i);

/** How many bytes they are together: the room that h26x_packets_copy wants for all. */
H26X_API size_t h26x_packets_len(const h26x_packetizer *p);

/** Copies packet i to the front of `to` where it fits in `room` bytes, else leaves `to`. Answers the packet's length. */
H26X_API size_t h26x_packet_copy(const h26x_packetizer *p, size_t i, uint8_t *to, size_t room);

/** Copies packets, from packet `first` on, to the front of `to`, one behind the other, as many as fit in `room` bytes
 * and have room for their ends; ends[n] is where the n-th of them ends in `to`. Answers how many they are, and
 * leaves the rest of both buffers. */
H26X_API size_t h26x_packets_copy(const h26x_packetizer *p, size_t first, uint8_t *to, size_t room, size_t *ends,
                                  size_t ends_room);

/* ---- Receiving packets of which none before it is missing ---- */

/** A depacketizer with no fragmented unit open. `numbers`: whether packets bear decoding order numbers (H.265 and
 * H.266). The answers are those of h26x_packetizer_new. */
H26X_API uint32_t h26x_depacketizer_new(uint32_t codec, bool numbers, h26x_depacketizer *made) H26X_MUST_USE;

/** The same depacketizer again, with its open unit; not what its last packet completed. H26X_OUT_OF_MEMORY, or
 * H26X_WRONG_END. */
H26X_API uint32_t h26x_depacketizer_clone(const h26x_depacketizer *d, h26x_depacketizer *made) H26X_MUST_USE;

/** Frees it with its open unit. A handle of NULL is nothing to be freed. */
H26X_API void h26x_depacketizer_free(h26x_depacketizer d);

/** The same, and writes NULL into the handle, so that it may be closed again. A pointer of NULL is nothing to be freed
 * either. */
static inline void h26x_depacketizer_close(h26x_depacketizer *d)
{
    if (d != NULL) {
        const h26x_depacketizer it = *d;
        d->at = NULL;
        h26x_depacketizer_free(it);
    }
}

/** Whether both are depacketizers, are of one codec and have the same settings and the same open unit; of H.265 they
 * must have accepted the same packet last as well. */
H26X_API bool h26x_depacketizer_same(const h26x_depacketizer *a, const h26x_depacketizer *b);

/** Sets whether packets bear numbers. An open unit stays open. H26X_NOT_OF_THIS_CODEC for H.264;
 * H26X_WRONG_END. */
H26X_API uint32_t h26x_depacketizer_set_numbers(h26x_depacketizer *d, bool numbers);

/** Takes a packet. The units that it completes, each behind 00 00 00 01, or with `avc` behind its length in four
 * bytes (as MP4 files have them: avc1, hvc1, vvc1; the highest byte first), are written to the front of `to` where
 * they fit in `room` bytes; else `to` is left, and h26x_written_copy has them up to the next packet that is
 * accepted. *written is how many bytes they are. Without room the packet is read twice. `avc` counts for this call
 * alone.
 * *extra, in and out: 0 nothing told yet, 1 units but none of a keyframe, 2 a keyframe among them. A refusal
 * writes 0 to *written and its numbers to *why, and leaves all else: *extra, the open unit, and what the packet
 * before completed. So it is that packet's alone, and after H26X_OUT_OF_MEMORY the same one can be given again.
 * H26X_WRONG_END, which has no numbers, leaves *why.
 *
 * What a real stream meets:
 * - It has no sequence numbers, so it doesn't notice a lost packet: where a fragment is missing the unit is written
 *   without that one's data, and a recorder keeps it. Use h26x_receive; or call h26x_give_up_run wherever a number
 *   is missing.
 * - *extra tells of IDR pictures (H.264), IRAP pictures (H.265), IDR and CRA pictures (H.266), and not of a recovery
 *   point without one (intra refresh, gradual decoding refresh): who begins there looks into the units.
 * - A stranger's unit may hold a start code, so that a reader of its Annex B text finds two: 41 aa 00 00 00 01 65 88
 *   hides an IDR picture, of which *extra doesn't tell. Take such packets with `avc`, and ask h26x_unit_is_plain.
 * - A peer that never ends a unit makes the open unit as long as all it sends: h26x_receive has a limit; else add up
 *   the lengths of the fragments since one had its S bit, and call h26x_give_up_run. What was written is held too, as
 *   large as the longest so far, and of H.265 the packet shown. Beside these stay 1 MiB at most for the next unit, and
 *   of H.265 as much for the next packet and under half a megabyte for units of aggregates: h26x_give_up_run and
 *   h26x_receiver_restart free them. */
H26X_API uint32_t h26x_depacketize(h26x_depacketizer *d, bool avc, const uint8_t *packet, size_t packet_len,
                                   uint8_t *to, size_t room, size_t *written, uint8_t *extra,
                                   h26x_refusal *why) H26X_MUST_USE;

/** Copies what the last packet that was accepted completed, and had no room for, to the front of `to` where it fits,
 * else leaves `to`. Answers how many bytes it is: 0 where that packet's units had room, and for a packetizer. Of a
 * receiver, given as &r.at, it is so of the last packet that was taken. */
H26X_API size_t h26x_written_copy(const h26x_depacketizer *d, uint8_t *to, size_t room);

/** Gives up the open unit and frees its buffer, which grows by each fragment until the last one comes. A caller of
 * h26x_depacketize does so wherever a packet is missing, and where the unit has grown too long: h26x_receive does
 * both. What follows of that unit is accepted and completes nothing. H26X_WRONG_END. */
H26X_API uint32_t h26x_give_up_run(h26x_depacketizer *d);

/* ---- Receiving packets with their sequence numbers ---- */

/** What became of a packet (RFC 3550, 5.1). Numbers go round at 65536. */
enum h26x_received {
    H26X_IN_ORDER = 0, /**< taken: it is the one that was expected, or the first of all. *count is 0 */
    H26X_GAP = 1,      /**< taken: *count packets before it are missing, and the unit that was open is given up */
    H26X_TOO_LONG = 2, /**< taken, with *count missing before it, and the unit that it left open is given up, since it held
                        * more than the limit */
    H26X_LATE = 3      /**< not taken: it came late, or twice. *count is how far it is behind the one expected; 1 is the
                        * number that was taken last */
};

/** A receiver that takes any number as the first, and then writes no unit of which a packet is missing, whatever a
 * network loses, delays or brings twice, as long as gaps and delays are of fewer than 32768 packets. `numbers`:
 * whether packets bear decoding order numbers (H.265 and H.266). `avc`: whether units are written behind lengths of
 * four bytes, of every codec. `run_limit`: how many bytes of data, without the header, the open unit may hold from a
 * packet to the next; while a packet is taken it holds that packet's data too. Choose it above the units that are
 * expected: one that does not fit is left out whole. The answers are those of h26x_depacketizer_new. */
H26X_API uint32_t h26x_receiver_new(uint32_t codec, bool numbers, bool avc, size_t run_limit,
                                    h26x_receiver *made) H26X_MUST_USE;

/** The same receiver again, with its open unit and the number that it expects; not what its last packet completed.
 * H26X_OUT_OF_MEMORY, or H26X_WRONG_END. */
H26X_API uint32_t h26x_receiver_clone(const h26x_receiver *r, h26x_receiver *made) H26X_MUST_USE;

/** Frees it with its open unit. A handle of NULL is nothing to be freed. */
H26X_API void h26x_receiver_free(h26x_receiver r);

/** The same, and writes NULL into the handle, so that it may be closed again. A pointer of NULL is nothing to be freed
 * either. */
static inline void h26x_receiver_close(h26x_receiver *r)
{
    if (r != NULL) {
        const h26x_receiver it = *r;
        r->at.at = NULL;
        h26x_receiver_free(it);
    }
}

/** Sets whether packets bear decoding order numbers. An open unit stays open. H26X_NOT_OF_THIS_CODEC for H.264;
 * H26X_WRONG_END. */
H26X_API uint32_t h26x_receiver_set_numbers(h26x_receiver *r, bool numbers);

/** Sets whether units are written behind lengths, or behind start codes. H26X_WRONG_END. */
H26X_API uint32_t h26x_receiver_set_avc(h26x_receiver *r, bool avc);

/** Takes a packet with its sequence number. *received is an h26x_received, and *count the number that it speaks of.
 * What the packet completes is written to `to` where it fits, else h26x_written_copy(&r->at, ..) has it up to the
 * next packet that is taken; *written is how many bytes that is, and *extra, in and out, what is told, as in
 * h26x_depacketize. A unit is written only where each of its packets was taken, one behind the other; where one is
 * missing the others of that unit are taken and complete nothing. Packets must come in their order: put a buffer
 * before this call where a network changes it, since one that comes behind a later one is late. A packet that is
 * late or comes twice writes 0 to *written and leaves all else. A refusal writes 0 to *written and its numbers to
 * *why, and leaves all else, *received and *count too: it is as if the packet had not come, and one refused for want
 * of memory can be given again. A number 32768 or more ahead of the one expected is late, so where a peer's numbers
 * jump all its packets are late, one after the other: call h26x_receiver_restart. H26X_WRONG_END leaves *why. */
H26X_API uint32_t h26x_receive(h26x_receiver *r, uint16_t sequence, const uint8_t *packet, size_t packet_len,
                               uint8_t *to, size_t room, size_t *written, uint8_t *extra, uint32_t *received,
                               uint16_t *count, h26x_refusal *why) H26X_MUST_USE;

/** A packet whose payload lies in a buffer with others, as recvmmsg and UDP_GRO bring them: of its RTP header what
 * h26x_rtp_read says. */
typedef struct {
    size_t begin;         /**< where the payload begins in the buffer */
    size_t end;           /**< where it ends, not before that */
    uint32_t timestamp;   /**< h26x_receive_all doesn't look at it, nor at marker */
    uint16_t sequence;    /**< its number */
    bool marker;          /**< M */
} h26x_rtp_payload;

/** What h26x_receive tells of a packet, where *extra is 0 before. */
typedef struct {
    size_t written;       /**< how many bytes it completes */
    h26x_refusal why;     /**< the numbers of a refusal; both 0 where it wasn't refused */
    uint32_t code;        /**< what h26x_receive answers */
    uint32_t received;    /**< an h26x_received; 0 where the packet was refused */
    uint16_t count;       /**< the number that it speaks of; the same */
    uint8_t extra;        /**< 0 nothing told, 1 units but none of a keyframe, 2 a keyframe among them */
} h26x_receive_told;

/** Takes packets as by one h26x_receive after the other, each with the room behind what those before it wrote. So what they
 * complete stands one behind the other in `to`, *written bytes of it. told[n] says what became of the n-th; of those past
 * `told_room` nothing is told. A packet that is late or refused is passed over. *taken is how many packets aren't to be
 * given again, which are all where the answer is H26X_OK. H26X_NO_ROOM: the last of them, told[*taken - 1], completes what
 * has no room, and h26x_written_copy(&r->at, ..) has it; then go on with the next. H26X_OUT_OF_MEMORY: memory lacks for the
 * packet behind them, of which nothing is told. H26X_OUT_OF_RANGE, where a payload begins behind its end or ends behind
 * `bytes_len`, takes none and leaves `told`, as H26X_WRONG_END does; both write 0 to *taken and *written. */
H26X_API uint32_t h26x_receive_all(h26x_receiver *r, const uint8_t *bytes, size_t bytes_len,
                                   const h26x_rtp_payload *payloads, size_t payloads_len, uint8_t *to, size_t room,
                                   h26x_receive_told *told, size_t told_room, size_t *taken, size_t *written) H26X_MUST_USE;

/** Passes over a number that came and bears nothing of the stream: padding alone, as congestion control sends it,
 * forward error correction, another payload type. So it isn't missing. *received is H26X_IN_ORDER, and the open unit
 * stays; or H26X_GAP, where others before it are missing, and the open unit is given up; or H26X_LATE, which changes
 * nothing; with *count as in h26x_receive. What the last packet completed and had no room for stays. It takes no
 * memory. H26X_WRONG_END leaves both numbers. */
H26X_API uint32_t h26x_receiver_skip(h26x_receiver *r, uint16_t sequence, uint32_t *received, uint16_t *count);

/** Gives up the open unit, frees its buffer, and takes any number as the next. What the last packet completed and had
 * no room for stays. H26X_WRONG_END. */
H26X_API uint32_t h26x_receiver_restart(h26x_receiver *r);

/** How many bytes of data the open unit holds, up to the limit; 0 where none is open, and for a handle of another
 * kind. */
H26X_API size_t h26x_receiver_run_len(const h26x_receiver *r);

/* ---- Receiving access units, of packets as a network brings them ---- */

/** Packets wait for those before them by their numbers, and go into a receiver in order; what it writes up to a marker, or
 * of one timestamp, is an access unit. So packets may be lost, come twice and in any order. A marker without a slice ends
 * none, nor does any of a sender that marks each slice. Where no marker was believed yet, or timestamps stand still, one
 * ends, once a slice of it came, before a delimiter, parameter sets, SEI and the like, or a picture's first slice: so it is
 * given out with what begins the next one. */
typedef struct { void *at; /**< NULL: no handle */ } h26x_access_units;

/** What a caller sets. Ticks are his own: `now` in the calls below, max_wait and the deadline are in them. They go round
 * at 2^32, and never back. */
typedef struct {
    uint32_t codec;       /**< one of h26x_codec */
    uint32_t max_wait;    /**< a missing packet is waited for so long at most after one behind it came; UINT32_MAX: by the
                           * window alone */
    uint32_t begin_wait;  /**< a packet that begins the stream waits for so long, and no longer than max_wait, for
                           * those before it; 0: it doesn't */
    uint16_t window;      /**< packets missing before one that waits are waited for until one came so many places, less
                           * one, ahead of it; 1 to 16384 */
    uint16_t far_away;    /**< a number so far or farther ahead of the newest that waits (where none waits, of the one that
                           * is due), and far_behind behind the one that is due, waits alone until the next such number
                           * follows it, and then the stream begins anew with both, whatever held_limit is (RFC 3550,
                           * A.1, has 3000); 0: none is too far, and one behind is late */
    uint16_t far_behind;  /**< how far behind the one that is due such a number is at least (RFC 3550, A.1, has 100), but
                           * for the last 1024 that the stream passed, which are late or twice; 0: as far_away */
    bool numbers;         /**< packets bear decoding order numbers (H.265 and H.266) */
    bool avc;             /**< units are written behind lengths of four bytes, else behind 00 00 00 01 */
    bool has_sets;        /**< the decoder has the parameter sets, as from sprop-* of a session description, and can begin
                           * with a keyframe that bears none */
    size_t held_limit;    /**< bytes of payloads that may wait; past that none is waited for */
    size_t run_limit;     /**< bytes of data that an open unit may hold from a packet to the next */
    size_t unit_limit;    /**< bytes that an open access unit may hold from a packet to the next */
} h26x_access_units_config;

/** What became of a packet that was given. */
enum h26x_pushed {
    H26X_HELD = 0,        /**< it waits for those before it, or to be taken, or was taken */
    H26X_PUSHED_LATE = 1, /**< dropped: *behind is how far it is behind the one that is due; of all others *behind is 0 */
    H26X_TWICE = 2,       /**< dropped: a packet with its number waits, or was taken and is among the last 1024 */
    H26X_FULL = 3,        /**< dropped: more than held_limit bytes wait. Take access units, and give it again */
    H26X_STRAY = 4,       /**< it waits alone, in the place of another such packet: its number is too far from the one that
                           * is due, or more than a window, and than 100, ahead of those that wait */
    H26X_ANEW = 5,        /**< it follows the one that waited alone: the stream begins anew, and what waited of the old
                           * numbers is dropped */
    H26X_JUMPED = 6       /**< it is so far ahead, and no more than a window, or 100, from the one that waited alone: both
                           * wait */
};

/** What is told of an access unit. */
typedef struct {
    size_t len;           /**< its bytes */
    uint32_t timestamp;   /**< of its packets */
    uint32_t missing;     /**< how many numbers are missing between the access unit before and its end */
    uint16_t first;       /**< the number of the first packet that came of it */
    uint16_t last;        /**< the number of the last */
    uint8_t extra;        /**< 0 nothing told, 1 units but none of a keyframe, 2 a keyframe among them */
    bool is_whole;        /**< it is known that nothing of it is missing: its first packet follows the one before, or it
                           * begins with a delimiter, or is the first one and begins with its parameter sets */
    bool is_clean;        /**< a decoder can show it: nothing of it is missing, nor was since a keyframe that came from its
                           * first slice on with its parameter sets, in it or before it in order, or it is one. Pictures
                           * that are disposable may be missing in part, and packets that by frame numbers of H.264 bore
                           * no reference picture; sets that are lost with them aren't noticed. RASL
                           * pictures behind a CRA with which a decoder begins, which it passes over, are clean too. A first
                           * slice is looked for among 64 units. False: ask the sender for a keyframe */
    bool is_disposable;   /**< no other picture refers to its own: those after it can be clean where it is damaged */
    bool continues;       /**< a marker ended one of its timestamp right before it, with which it goes on, as where a peer
                           * sets the marker on each slice */
} h26x_access_unit;

/** What was counted since it was made. Each count stays at 2^64 - 1. */
typedef struct {
    uint64_t taken;          /**< packets that were taken, and not refused */
    uint64_t lost;           /**< numbers that are missing before packets taken, or numbers skipped or refused, and these */
    uint64_t late;           /**< packets that came after their place was passed */
    uint64_t twice;          /**< packets that came while one with their number waited, or after it was taken */
    uint64_t stray;          /**< packets that waited alone, those with which the stream began anew or jumped too */
    uint64_t refused;        /**< packets that were refused for what they are, but for those of no_unit */
    uint64_t skipped;        /**< numbers that came and bear nothing */
    uint64_t anew;           /**< how often the stream began anew */
    uint64_t units;          /**< access units that ended and were told of */
    uint64_t whole;          /**< those of them that are known to be whole */
    uint64_t units_given_up; /**< NAL units that were longer than run_limit */
    uint64_t texts_given_up; /**< texts of open access units that were longer than unit_limit */
    uint64_t no_unit;        /**< packets refused that bear nothing to be written, so that nothing is lost by them: a STAP-B,
                              * MTAP, FU-B or PACSI, and an end of sequence or bitstream of two bytes */
    uint64_t still;          /**< access units that began, by their units, at the timestamp of the one before */
    uint64_t unbelieved;     /**< markers that weren't believed: no slice of their access unit had come, or the sender
                              * marks each slice */
} h26x_access_units_counts;

/** A receiver of access units that takes any number as the first. H26X_UNKNOWN_CODEC, H26X_NOT_OF_THIS_CODEC (numbers for
 * H.264), H26X_OUT_OF_RANGE (a window of 0 or over 16384), H26X_OUT_OF_MEMORY. */
H26X_API uint32_t h26x_access_units_new(const h26x_access_units_config *config, h26x_access_units *made) H26X_MUST_USE;

/** Has the settings of *config from now on, for what waits and is open too, but for codec, numbers and avc, which stay and
 * aren't looked at. It takes no memory. H26X_OUT_OF_RANGE (a window of 0 or over 16384) and H26X_WRONG_END change
 * nothing. */
H26X_API uint32_t h26x_access_units_set_config(h26x_access_units *u, const h26x_access_units_config *config);

/** Frees it with all that waits. A handle of NULL is nothing to be freed. */
H26X_API void h26x_access_units_free(h26x_access_units u);

/** The same, and writes NULL into the handle, so that it may be closed again. A pointer of NULL is nothing to be freed
 * either. */
static inline void h26x_access_units_close(h26x_access_units *u)
{
    if (u != NULL) {
        const h26x_access_units it = *u;
        u->at = NULL;
        h26x_access_units_free(it);
    }
}

/** Takes a packet that came at this tick, and copies it where it waits: the one that is due is taken at once where none
 * waits or is missing right before it, and no access unit has ended that wasn't given out. *pushed and *behind tell
 * what became of it. One without a payload came and bears nothing, as h26x_access_units_skip has it. Then call
 * h26x_access_units_next until it has none. H26X_OUT_OF_MEMORY changes nothing, so the packet can be given again;
 * H26X_WRONG_END. Both leave *pushed and *behind. */
H26X_API uint32_t h26x_access_units_push(h26x_access_units *u, uint32_t now, uint16_t sequence, uint32_t timestamp,
                                         bool marker, const uint8_t *payload, size_t payload_len, uint32_t *pushed,
                                         uint16_t *behind) H26X_MUST_USE;

/** What h26x_access_units_push tells of a packet. */
typedef struct {
    uint32_t pushed;      /**< an h26x_pushed */
    uint16_t behind;      /**< how far it is behind the one that is due, of H26X_PUSHED_LATE; else 0 */
} h26x_push_told;

/** Takes packets that came at this tick as by one h26x_access_units_push after the other, up to the first that is H26X_FULL.
 * told[n] says what became of the n-th; of those past `told_room` nothing is told. *taken is how many packets aren't to be
 * given again. H26X_OK: all, or the one behind them is H26X_FULL, which told[*taken] says: take access units, and give it and
 * those behind it again. H26X_OUT_OF_MEMORY: memory lacks for the one behind them, of which nothing is told.
 * H26X_OUT_OF_RANGE, where a payload begins behind its end or ends behind `bytes_len`, takes none and leaves `told`, as
 * H26X_WRONG_END does; both write 0 to *taken. */
H26X_API uint32_t h26x_access_units_push_all(h26x_access_units *u, uint32_t now, const uint8_t *bytes, size_t bytes_len,
                                             const h26x_rtp_payload *payloads, size_t payloads_len, h26x_push_told *told,
                                             size_t told_room, size_t *taken) H26X_MUST_USE;

/** Passes over a number that came and bears nothing of the stream: padding alone, as congestion control sends it, forward
 * error correction, another payload type. So it isn't missing. The answers are those of h26x_access_units_push. */
H26X_API uint32_t h26x_access_units_skip(h26x_access_units *u, uint32_t now, uint16_t sequence, uint32_t *pushed,
                                         uint16_t *behind) H26X_MUST_USE;

/** The next access unit, if one has ended at this tick: its bytes to the front of `to`, and *unit. H26X_NOTHING_YET where
 * none has. H26X_NO_ROOM where it doesn't fit in `room` bytes: *unit is told, `to` is left, and the access unit is kept
 * for the next call. H26X_OUT_OF_MEMORY: the packet for which memory lacks is due still, and nothing is lost.
 * H26X_WRONG_END. Packets that are refused are passed over and counted. An access unit without bytes is not given out:
 * what is missing of it is told with the next one. All but H26X_OK and H26X_NO_ROOM leave *unit. */
H26X_API uint32_t h26x_access_units_next(h26x_access_units *u, uint32_t now, uint8_t *to, size_t room,
                                         h26x_access_unit *unit) H26X_MUST_USE;

/** What came so far of an access unit that is open. */
typedef struct {
    size_t len;         /**< how many bytes its NAL units that came whole have, from `from` on */
    uint32_t timestamp; /**< of its packets */
    uint8_t extra;      /**< what is told of these units, as of an access unit */
} h26x_so_far;

/** Whether an access unit is open, and its NAL units that came whole: for who decodes each as soon as it is complete. Their
 * text, in order, from byte `from` on, goes to the front of `to`, as much of it as there is room for, and *so_far is told.
 * Later packets put units behind it, and h26x_access_units_next gives all of it, with what is told of the whole, once it
 * has ended; so call that first until it has none, since before there is none here; one that ends is told there alone. A
 * text of more than unit_limit bytes is given up: `len` is less then. False leaves `to` and *so_far, as for a handle of
 * another kind. */
H26X_API bool h26x_access_units_so_far(const h26x_access_units *u, size_t from, uint8_t *to, size_t room,
                                       h26x_so_far *so_far);

/** Whether packets wait, and not by the window alone; *at is then the tick at which to call h26x_access_units_next at the
 * latest, and else left. False for a handle of another kind. */
H26X_API bool h26x_access_units_deadline(const h26x_access_units *u, uint32_t *at);

/** The numbers that are missing before packets that wait, in order: those to ask the sender for again (NACK; RFC 4585,
 * 6.2.1). Of a stream that begins none is before the first that waits. *count is how many they are, and the first ones
 * go to the front of `numbers`, up to `numbers_room` of them; the rest of it is left. H26X_OUT_OF_MEMORY and
 * H26X_WRONG_END write 0 to *count and leave `numbers`. */
H26X_API uint32_t h26x_access_units_missing(const h26x_access_units *u, uint16_t *numbers, size_t numbers_room,
                                            size_t *count) H26X_MUST_USE;

/** When h26x_access_units_nacks asks for a number that is missing. */
typedef struct {
    uint32_t first;       /**< ticks in which it may come by itself, since the call that found it missing; 0: it is asked
                           * for there */
    uint32_t again;       /**< ticks after which it is asked for again: a round trip, and some more */
    uint8_t most;         /**< how often it is asked for at most; 0: never */
} h26x_nack_times;

/** The numbers of h26x_access_units_missing that are to be asked for at this tick, in order (NACK; RFC 4585, 6.2.1): each is
 * asked for as `times` says. They go to the front of `numbers`, up to `numbers_room` of them, and count as asked for;
 * *count is how many they are, and others are due at the next call. A number counts as missing since the first of the
 * calls in a row that found it so: call it as often as `first` and `again` ask for. H26X_OUT_OF_MEMORY and
 * H26X_WRONG_END write 0 to *count, leave `numbers`, and nothing counts as asked for. */
H26X_API uint32_t h26x_access_units_nacks(h26x_access_units *u, uint32_t now, const h26x_nack_times *times,
                                          uint16_t *numbers, size_t numbers_room, size_t *count) H26X_MUST_USE;

/** Says the number of the first packet of the stream, as a peer tells it (RTP-Info of RTSP, RFC 2326, 12.33): packets
 * from it on are waited for, and the first access unit is known to be whole where they came. *in_time is 1, or 0 where
 * a packet came before, one was said, or h26x_access_units_next hasn't given out all behind h26x_access_units_finish;
 * nothing is changed then. H26X_WRONG_END leaves *in_time. */
H26X_API uint32_t h26x_access_units_begin_at(h26x_access_units *u, uint16_t sequence, uint32_t *in_time);

/** At the end of a stream: all that waits is due, and once it was taken the open access unit ends, not known to be whole.
 * h26x_access_units_next gives all of it, and then any number is the next. H26X_WRONG_END. */
H26X_API uint32_t h26x_access_units_finish(h26x_access_units *u);

/** For another sender (SSRC): drops all that waits or is open, and takes any number as the next. An access unit that had
 * no room, and what was counted, stay. H26X_WRONG_END. */
H26X_API uint32_t h26x_access_units_restart(h26x_access_units *u);

/** What was counted. H26X_WRONG_END leaves *counts. */
H26X_API uint32_t h26x_access_units_count(const h26x_access_units *u, h26x_access_units_counts *counts);

/* ---- The packets that a depacketizer or a receiver of H.265 shows ---- */

/** What a packet is (RFC 7798, 4.4.1 to 4.4.4). */
enum h26x_h265_kind { H26X_H265_SINGLE = 1, H26X_H265_FRAGMENT = 2, H26X_H265_AGGREGATE = 3, H26X_H265_PACI = 4 };

/** A packet in numbers. */
typedef struct {
    uint32_t kind;   /**< one of h26x_h265_kind */
    uint16_t header; /**< F, the type, the layer id and TID, from the highest bit down (1.1.4); 0 for an aggregate */
    uint16_t word;   /**< from the highest bit down: of a fragment S, E and the unit's type, in 8 bits (4.4.3); of a PACI
                      * packet A, cType, PHSsize, F0, F1, F2 and Y (4.4.4); else 0 */
    size_t parts;    /**< how many h26x_h265_part_copy copies */
} h26x_h265_packet;

/** The packet that was accepted last; before there is one, H26X_H265_SINGLE with a header of 0 and a part without
 * bytes. Of a receiver, given as &r.at, it is the packet that was taken last. H26X_NOT_OF_THIS_CODEC for H.264 and
 * H.266; H26X_WRONG_END for a packetizer. */
H26X_API uint32_t h26x_h265_shown(const h26x_depacketizer *d, h26x_h265_packet *shown) H26X_MUST_USE;

/** What *number is where none was read. */
enum { H26X_NO_NUMBER = 65536 };

/** Copies part i of that packet to the front of `to` where it fits in `room` bytes, else leaves `to`. Answers the
 * part's length; 0 past the last part, and where nothing is shown. Parts are: of H26X_H265_SINGLE and
 * H26X_H265_FRAGMENT what stands behind the headers and DONL; of H26X_H265_AGGREGATE each unit; of H26X_H265_PACI
 * the extension of the header, in which TSCI is the first three bytes where F0 is set (4.5), and then the unit
 * without its header. *number is the number that stands before the part, DONL, or DOND of a unit behind the first,
 * or H26X_NO_NUMBER. */
H26X_API size_t h26x_h265_part_copy(const h26x_depacketizer *d, size_t i, uint8_t *to, size_t room, uint32_t *number);

/** Packs a unit, its header first, into a PACI packet with an extension of the header (4.4.4), and copies that to the
 * front of `to` where it fits in `room` bytes, else leaves `to`; *len is the packet's length. F0 is set where the
 * extension has three bytes or more. H26X_SHORT_PACKET where the unit has under two bytes; else
 * H26X_H265_PACI_PHES_TOO_LONG where the extension has over 31; else H26X_OUT_OF_MEMORY. */
H26X_API uint32_t h26x_h265_paci_packet(const uint8_t *unit, size_t unit_len, const uint8_t *extension,
                                        size_t extension_len, uint8_t *to, size_t room, size_t *len) H26X_MUST_USE;

/* ---- Packets and payloads ---- */

/** Whether a packet may be the first of an access unit; false for an unknown codec. */
H26X_API bool h26x_is_partition_head(uint32_t codec, const uint8_t *packet, size_t packet_len);

/** Whether a packet is the last of an access unit, its marker bit given: of H.264 the marker; of H.265 and H.266 the
 * E bit of a fragment, whatever the marker, and the marker of every other packet. E is set where a unit ends, so an
 * access unit with a fragmented SEI message has more than one such packet: its end is told by the marker alone.
 * False for an unknown codec. */
H26X_API bool h26x_is_partition_tail(uint32_t codec, bool marker, const uint8_t *packet, size_t packet_len);

/** Whether a packet without numbers is known to hold a unit of a keyframe, or to be the first fragment of one; false
 * for an unknown codec. */
H26X_API bool h26x_detect_keyframe(uint32_t codec, const uint8_t *packet, size_t packet_len);

/** Whether a packet begins a unit of a keyframe: it holds one, alone or in an aggregate, or is its first fragment.
 * `numbers`: whether packets bear decoding order numbers; those of H.264 don't. So a forwarder finds where a keyframe begins, whichever units
 * share packets. Key units are slices of IDR pictures of H.264, of IRAP pictures of H.265, of IDR and CRA pictures of
 * H.266. False for a packet that a depacketizer refuses, and for an unknown codec. */
H26X_API bool h26x_begins_keyframe(uint32_t codec, bool numbers, const uint8_t *packet, size_t packet_len);

/** Whether an H.264 packet is known to hold a unit of this type, or to be the first fragment of one. */
H26X_API bool h26x_detect_h264_nalu(const uint8_t *packet, size_t packet_len, uint8_t type);

/** Gives an aggregation packet of H.265 the header that RFC 7798, 4.4.2 asks for: the lowest LayerId and the lowest TID
 * of the units in it, and F where one has it. `numbers`: whether packets bear decoding order numbers. Every other
 * packet stays, and those of H.264 and H.266 and of an unknown codec. */
H26X_API void h26x_set_lowest_header(uint32_t codec, bool numbers, uint8_t *packet, size_t packet_len);

/** Where the next unit of a payload stands, from `from` on: the bytes from *begin up to *end, which are written where
 * the answer is true. Begin with 0, and go on from *end. A payload without a start code is one unit, and an empty
 * unit is left out. False where no unit is left, or for an unknown codec. */
H26X_API bool h26x_next_unit(uint32_t codec, const uint8_t *payload, size_t payload_len, size_t from, size_t *begin,
                             size_t *end) H26X_MUST_USE;

/** Where the next unit of a text stands whose units are behind their lengths, as with `avc`, from `from` on: the bytes
 * from *begin up to *end, which are written where the answer is true. Begin with 0, and go on from *end. An empty unit
 * is left out. False where no unit is left, or fewer bytes than its length tells: of a whole text the last unit ends at
 * its end (ISO/IEC 14496-15). */
H26X_API bool h26x_next_avc_unit(const uint8_t *text, size_t text_len, size_t from, size_t *begin,
                                 size_t *end) H26X_MUST_USE;

/** Whether a unit, its header first, is plain: one of the video itself, in whose Annex B text no reader finds another.
 * Its header is whole, with F 0 (of H.266 Z too) and a type that no packets use: H.264 1 to 23, H.265 0 to 47, H.266
 * 0 to 27; it holds neither 00 00 00 nor 00 00 01, and doesn't end in a zero (H.264, 7.4.1 and B.2; H.265 and H.266,
 * 7.4.2 and B.3). False for an unknown codec.
 * A stranger's units may be others, and are written as they come. Where that matters take packets with `avc`, since
 * lengths tell units apart whatever stands in them, and ask this of each: the text of plain units is read as these
 * units in either form. Don't ask it of what h26x_next_unit cuts out of Annex B text, where the codes are gone. */
H26X_API bool h26x_unit_is_plain(uint32_t codec, const uint8_t *unit, size_t unit_len);

/** About how many bytes the units of packets of this many bytes take when they are written: these bytes, four more,
 * and four for each whole 1200 of them. It is no bound, since each unit of a short packet or an aggregate has four
 * bytes before it: 50 units of 100 bytes take 5200, and the hint is 5020. */
H26X_API size_t h26x_out_size_hint(size_t packets_size);

/* ---- Profiles and levels, as SDP names them ---- */

/** The profiles of H.264 (RFC 6184, 8.1). */
enum h26x_h264_profile {
    H26X_H264_BASELINE = 0,
    H26X_H264_CONSTRAINED_BASELINE = 1,
    H26X_H264_MAIN = 2,
    H26X_H264_EXTENDED = 3,
    H26X_H264_HIGH = 4,
    H26X_H264_CONSTRAINED_HIGH = 5,
    H26X_H264_HIGH_10 = 6,
    H26X_H264_HIGH_422 = 7,
    H26X_H264_HIGH_444_PREDICTIVE = 8,
    H26X_H264_HIGH_10_INTRA = 9,
    H26X_H264_HIGH_422_INTRA = 10,
    H26X_H264_HIGH_444_INTRA = 11,
    H26X_H264_CAVLC_444_INTRA = 12
};

/** The levels of H.264 by their places, so that `<` compares them. */
enum h26x_h264_level {
    H26X_H264_LEVEL_1 = 0,
    H26X_H264_LEVEL_1B = 1,
    H26X_H264_LEVEL_1_1 = 2,
    H26X_H264_LEVEL_1_2 = 3,
    H26X_H264_LEVEL_1_3 = 4,
    H26X_H264_LEVEL_2 = 5,
    H26X_H264_LEVEL_2_1 = 6,
    H26X_H264_LEVEL_2_2 = 7,
    H26X_H264_LEVEL_3 = 8,
    H26X_H264_LEVEL_3_1 = 9,
    H26X_H264_LEVEL_3_2 = 10,
    H26X_H264_LEVEL_4 = 11,
    H26X_H264_LEVEL_4_1 = 12,
    H26X_H264_LEVEL_4_2 = 13,
    H26X_H264_LEVEL_5 = 14,
    H26X_H264_LEVEL_5_1 = 15,
    H26X_H264_LEVEL_5_2 = 16
};

/** Whether the three bytes of a `profile-level-id`, the lower ones of the number, name a profile and a level of H.264
 * (RFC 6184, 8.1); *profile and *level are then the numbers above. Else both stay. 0x64001f is High at level 3.1. */
H26X_API bool h26x_h264_profile_level(uint32_t profile_level_id, uint8_t *profile, uint8_t *level);

/** `profile-id` of H.265 (RFC 7798, 7.1). */
enum h26x_h265_profile {
    H26X_H265_MAIN = 1,
    H26X_H265_MAIN_10 = 2,
    H26X_H265_MAIN_STILL_PICTURE = 3,
    H26X_H265_FORMAT_RANGE_EXTENSIONS = 4,
    H26X_H265_HIGH_THROUGHPUT = 5,
    H26X_H265_MULTIVIEW_MAIN = 6,
    H26X_H265_SCALABLE_MAIN = 7,
    H26X_H265_3D_MAIN = 8,
    H26X_H265_SCREEN_CONTENT_CODING = 9,
    H26X_H265_SCREEN_CONTENT_CODING_EXTENSIONS = 10,
    H26X_H265_HIGH_THROUGHPUT_SCREEN_CONTENT_CODING = 11
};

/** `level-id` of H.265, so that `<` compares levels. */
enum h26x_h265_level {
    H26X_H265_LEVEL_1 = 30,
    H26X_H265_LEVEL_2 = 60,
    H26X_H265_LEVEL_2_1 = 63,
    H26X_H265_LEVEL_3 = 90,
    H26X_H265_LEVEL_3_1 = 93,
    H26X_H265_LEVEL_4 = 120,
    H26X_H265_LEVEL_4_1 = 123,
    H26X_H265_LEVEL_5 = 150,
    H26X_H265_LEVEL_5_1 = 153,
    H26X_H265_LEVEL_5_2 = 156,
    H26X_H265_LEVEL_6 = 180,
    H26X_H265_LEVEL_6_1 = 183,
    H26X_H265_LEVEL_6_2 = 186
};

/** Whether `profile-id`, `tier-flag` (0 Main, 1 High) and `level-id` of H.265 are all known (RFC 7798, 7.1). Where a
 * format says nothing they are H26X_H265_MAIN, 0 and H26X_H265_LEVEL_3_1. */
H26X_API bool h26x_h265_is_known(uint8_t profile_id, uint8_t tier_flag, uint8_t level_id);

/** `profile-id` of H.266 (RFC 9328, 7.2). */
enum h26x_h266_profile {
    H26X_H266_MAIN_10 = 1,
    H26X_H266_MULTILAYER_MAIN_10 = 17,
    H26X_H266_MAIN_10_444 = 33,
    H26X_H266_MULTILAYER_MAIN_10_444 = 49,
    H26X_H266_MAIN_10_STILL_PICTURE = 65,
    H26X_H266_MULTILAYER_MAIN_10_STILL_PICTURE = 81,
    H26X_H266_MAIN_10_444_STILL_PICTURE = 97,
    H26X_H266_MULTILAYER_MAIN_10_444_STILL_PICTURE = 113
};

/** `level-id` of H.266, so that `<` compares levels. */
enum h26x_h266_level {
    H26X_H266_LEVEL_1 = 16,
    H26X_H266_LEVEL_2 = 32,
    H26X_H266_LEVEL_2_1 = 35,
    H26X_H266_LEVEL_3 = 48,
    H26X_H266_LEVEL_3_1 = 51,
    H26X_H266_LEVEL_4 = 64,
    H26X_H266_LEVEL_4_1 = 67,
    H26X_H266_LEVEL_5 = 80,
    H26X_H266_LEVEL_5_1 = 83,
    H26X_H266_LEVEL_5_2 = 86,
    H26X_H266_LEVEL_6 = 96,
    H26X_H266_LEVEL_6_1 = 99,
    H26X_H266_LEVEL_6_2 = 102,
    H26X_H266_LEVEL_6_3 = 105,
    H26X_H266_LEVEL_15_5 = 255
};

/** Whether `profile-id`, `tier-flag` (0 Main, 1 High) and `level-id` of H.266 are all known (RFC 9328, 7.2). Where a
 * format says nothing they are H26X_H266_MAIN_10, 0 and H26X_H266_LEVEL_3_1. */
H26X_API bool h26x_h266_is_known(uint8_t profile_id, uint8_t tier_flag, uint8_t level_id);

/* ---- What stands round payloads: RTP's header, RTX, RED and RTCP ---- */

/* None of these calls takes memory, and all read any bytes. Encrypted packets (SRTP) are read as any others: only their
 * headers make sense. */

/** Whether a datagram is RTCP and not RTP, where both share a port (RFC 5761, 4): ask this before h26x_rtp_read. So no
 * payload type of the session may be one from 64 to 95. */
H26X_API bool h26x_is_rtcp(const uint8_t *datagram, size_t datagram_len);

/** What the header of an RTP packet says (RFC 3550, 5.1). */
typedef struct {
    uint32_t timestamp;   /**< the same for all packets of an access unit */
    uint32_t ssrc;        /**< who sends it */
    uint16_t sequence;    /**< goes on by one a packet, and from 65535 to 0 */
    uint16_t profile;     /**< of a header extension the 16 bits before its length, else 0 */
    uint8_t payload_type; /**< below 128 */
    bool marker;          /**< M: it is the last packet of an access unit */
    bool has_extension;   /**< X */
} h26x_rtp_header;

/** An RTP packet in a datagram (RFC 3550, 5.1); lengths and places are in bytes, places from the datagram's front. */
typedef struct {
    h26x_rtp_header header; /**< what its header says */
    size_t csrcs_len;     /**< four bytes each; they begin at 12 */
    size_t extension_len; /**< whole words of four bytes; they begin at 16 + csrcs_len (5.3.1) */
    size_t payload;       /**< where the payload begins */
    size_t payload_len;   /**< 0 in a packet of padding alone, whose number is one to be skipped */
    size_t padding_len;   /**< what stands behind the payload; 0 where P is clear */
} h26x_rtp_packet;

/** Reads an RTP packet, or says why the bytes are none: one of the codes from H26X_RTP_TOO_SHORT to
 * H26X_RTP_PADDING_TOO_LONG, which leave *packet (RFC 3550, 5.1). */
H26X_API uint32_t h26x_rtp_read(const uint8_t *datagram, size_t datagram_len, h26x_rtp_packet *packet) H26X_MUST_USE;

/** An element of a header extension (RFC 8285, 4.1). */
typedef struct {
    size_t begin; /**< where its bytes begin, from the extension's front */
    size_t len;   /**< how many it has: by the header of one byte 1 to 16, by that of two at most 255 */
    uint8_t id;   /**< its local identifier, whose meaning an a=extmap line of SDP says (RFC 8285, 5) */
} h26x_rtp_element;

/** The next element of a header extension from a place on, behind padding (RFC 8285, 4.2 and 4.3): begin at 0, and go on
 * behind it, at begin + len. `profile` is that of the packet's header: 0xBEDE of elements with a header of one byte, which end
 * before an id of 15, or of 0 with a length; 0x1000 to 0x100F of those with two; an extension of another has none.
 * H26X_RTP_NO_ELEMENT behind the last, and behind the end; H26X_RTP_ELEMENT_PAST_THE_END of one that isn't wholly there;
 * both leave *element. */
H26X_API uint32_t h26x_rtp_element_next(uint16_t profile, const uint8_t *extension, size_t extension_len, size_t from,
                                        h26x_rtp_element *element) H26X_MUST_USE;

/** The packet that a retransmission packet bears, of the payload type and the SSRC of its stream, told as they are given
 * (RTX; RFC 4588, 4): its payload lies in the same datagram, and it has no padding. The codes of h26x_rtp_read, or
 * H26X_RTX_NO_ORIGINAL; all leave *packet. */
H26X_API uint32_t h26x_rtp_original(const uint8_t *datagram, size_t datagram_len, uint8_t payload_type, uint32_t ssrc,
                                    h26x_rtp_packet *packet) H26X_MUST_USE;

/** Writes an RTP packet to the front of `to`; *len is how many bytes it has (RFC 3550, 5.1). Padding is its bytes, of which
 * the last says how many they are. Where the header has no extension, that isn't looked at. The first that holds of
 * H26X_RTP_PAYLOAD_TYPE, H26X_RTP_CSRCS, H26X_RTP_EXTENSION, H26X_RTP_PADDING and H26X_NO_ROOM, which tells *len;
 * all leave `to`, and the others *len. */
H26X_API uint32_t h26x_rtp_write(const h26x_rtp_header *header, const uint8_t *csrcs, size_t csrcs_len,
                                 const uint8_t *extension, size_t extension_len, const uint8_t *payload, size_t payload_len,
                                 const uint8_t *padding, size_t padding_len, uint8_t *to, size_t room,
                                 size_t *len) H26X_MUST_USE;

/** Writes a header into `to` so that it ends at `place`, where a payload begins: in the headroom of a packet of
 * h26x_packetize_units_into; *len is how many bytes it has (RFC 3550, 5.1). `padded` is P: whether the packet ends in
 * padding. H26X_RTP_PAYLOAD_TYPE, H26X_RTP_CSRCS, H26X_RTP_EXTENSION, or H26X_NO_ROOM where `place` is below *len,
 * which is told, or above `room`; all leave `to`, and the others *len. */
H26X_API uint32_t h26x_rtp_write_before(const h26x_rtp_header *header, const uint8_t *csrcs, size_t csrcs_len,
                                        const uint8_t *extension, size_t extension_len, bool padded, size_t place,
                                        uint8_t *to, size_t room, size_t *len) H26X_MUST_USE;

/** Writes the retransmission packet of a packet, with a payload type, a sequence number and an SSRC of its own, to the front
 * of `to`; *len is how many bytes it has (RTX; RFC 4588, 4). Padding is left out. The codes of h26x_rtp_read;
 * H26X_RTP_PAYLOAD_TYPE; H26X_NO_ROOM, which tells *len; all leave `to`, and the others *len. */
H26X_API uint32_t h26x_rtx_write(const uint8_t *datagram, size_t datagram_len, uint8_t payload_type, uint16_t sequence,
                                 uint32_t ssrc, uint8_t *to, size_t room, size_t *len) H26X_MUST_USE;

/** The primary block of a redundant payload (RED; RFC 2198, 3): its payload type, which may be that of FEC (RFC 5109, 14.2),
 * and where it begins; it ends with the payload. To write one of a primary block alone, put a byte, its payload type,
 * before it. H26X_RED_HEADERS_PAST_THE_END, H26X_RED_BLOCKS_PAST_THE_END; both leave *payload_type and *place. */
H26X_API uint32_t h26x_red_primary(const uint8_t *payload, size_t payload_len, uint8_t *payload_type,
                                   size_t *place) H26X_MUST_USE;

/** A block before the primary one of a redundant payload (RFC 2198, 3). */
typedef struct {
    size_t begin;              /**< where its bytes begin, from the payload's front */
    size_t len;                /**< how many it has, at most 1023 */
    uint16_t timestamp_offset; /**< how much earlier than the packet's its timestamp is, below 16384 */
    uint8_t payload_type;      /**< by that of FEC it bears no payload of the stream (RFC 5109, 14.2) */
} h26x_red_block;

/** The blocks before the primary one of a redundant payload, in their order, to the front of `blocks`, as many as there is
 * room for; *count is how many they all are (RED; RFC 2198, 3). The rest of `blocks` is left. The codes of
 * h26x_red_primary, which leave both. */
H26X_API uint32_t h26x_red_blocks(const uint8_t *payload, size_t payload_len, h26x_red_block *blocks, size_t blocks_room,
                                  size_t *count) H26X_MUST_USE;

/** Writes a picture loss indication, which asks for a keyframe, to the front of `to`; *len is 12 (PLI; RFC 4585, 6.3.1).
 * `sender` is one's own SSRC, `media` that of which a picture is lost. H26X_NO_ROOM tells *len and leaves `to`; so of
 * the others here. Of several RTCP packets each goes behind the one before. Those that are read here have no padding. */
H26X_API uint32_t h26x_pli_write(uint32_t sender, uint32_t media, uint8_t *to, size_t room, size_t *len) H26X_MUST_USE;

/** Whether bytes are a picture loss indication, an RTCP packet alone, and what it says; *sender and *media are left where
 * they aren't. */
H26X_API bool h26x_pli_read(const uint8_t *packet, size_t packet_len, uint32_t *sender, uint32_t *media);

/** Writes a full intra request of one source; *len is 20 (FIR; RFC 5104, 4.3.1). `number` is one more, modulo 256, with each
 * request, and the same where one is sent again. */
H26X_API uint32_t h26x_fir_write(uint32_t sender, uint32_t media, uint8_t number, uint8_t *to, size_t room,
                                 size_t *len) H26X_MUST_USE;

/** Whether bytes are a full intra request of one source, an RTCP packet alone, and what it says; all three are left where
 * they aren't. */
H26X_API bool h26x_fir_read(const uint8_t *packet, size_t packet_len, uint32_t *sender, uint32_t *media, uint8_t *number);

/** What a receiver reports of a source (RFC 3550, 6.4.1). */
typedef struct {
    uint32_t ssrc;               /**< the source */
    int32_t lost;                /**< packets lost: -2^23 to 2^23 - 1, below 0 where more came than were expected */
    uint32_t highest;            /**< the highest number that came, extended by how often numbers went round */
    uint32_t jitter;             /**< in ticks of the timestamps' clock */
    uint32_t last_sender_report; /**< the middle 32 bits of the NTP timestamp of the last one; 0 where none came */
    uint32_t delay;              /**< how long ago that came, in 65536ths of a second; 0 where none came */
    uint8_t fraction_lost;       /**< of the packets since the last report, in 256ths */
} h26x_report;

/** Writes a receiver report of one source; *len is 32 (RFC 3550, 6.4.2). What is lost is written in 24 bits, as near as
 * these come. */
H26X_API uint32_t h26x_receiver_report_write(uint32_t sender, const h26x_report *report, uint8_t *to, size_t room,
                                             size_t *len) H26X_MUST_USE;

/** Whether bytes are a receiver report of one source, an RTCP packet alone, and what it says; both are left where they
 * aren't. */
H26X_API bool h26x_receiver_report_read(const uint8_t *packet, size_t packet_len, uint32_t *sender, h26x_report *report);

/** Writes a generic NACK, which asks for packets again by their sequence numbers, to the front of `to`, for as many of the
 * first ones as have room: *count of them, in *len bytes (RFC 4585, 6.2.1). Call it again with the rest, for a packet
 * behind it. Give them in ascending order: one shares four bytes with those of the sixteen behind it. No numbers make no
 * packet, and both are 0. H26X_NO_ROOM where there is no room for one pair: *len is 16, and `to` and *count are left. */
H26X_API uint32_t h26x_nack_write(uint32_t sender, uint32_t media, const uint16_t *numbers, size_t numbers_len, uint8_t *to,
                                  size_t room, size_t *len, size_t *count) H26X_MUST_USE;

/** Whether bytes are a generic NACK, an RTCP packet alone, and what it says: *count is how many numbers it asks for, and the
 * first ones go to the front of `numbers`, up to `numbers_room` of them; the rest of it is left. All are left where they
 * aren't. */
H26X_API bool h26x_nack_read(const uint8_t *packet, size_t packet_len, uint32_t *sender, uint32_t *media, uint16_t *numbers,
                             size_t numbers_room, size_t *count);

/** Whether an RTCP packet begins at a place of a datagram, which may be a compound of several, and *end where it ends (RFC
 * 3550, 6.1): its version is 2, and all of it is there (A.2). Begin at 0, and go on at *end; *end is left where none
 * does. The calls above read one such packet. */
H26X_API bool h26x_rtcp_next(const uint8_t *datagram, size_t datagram_len, size_t from, size_t *end);

/** What is counted of a source, an SSRC (RFC 3550, 6.4.1, A.1, A.3 and A.8): all 0 at first, as `= {0}` says; counts stay
 * at 2^64 - 1. */
typedef struct {
    uint64_t expected;        /**< how many numbers there are from the first to the highest */
    uint64_t received;        /**< packets that came since the source began, those that came twice as often as they came */
    uint64_t bytes;           /**< of payloads, also before the source began anew */
    uint64_t recovered;       /**< packets that came as retransmissions, which aren't among those received */
    uint64_t jitter;          /**< sixteen times the interarrival jitter, in ticks of the timestamps' clock */
    uint64_t expected_before; /**< expected at the last report */
    uint64_t received_before; /**< received at the last report */
    uint32_t transit;         /**< the transit time of the last packet, where has_transit */
    uint16_t base;            /**< the number of the first packet, or of that with which the source began anew */
    uint16_t highest;         /**< the highest number */
    uint16_t after_jump;      /**< the number with which the source begins anew, where has_jumped */
    bool has_transit;         /**< a packet came since the source began */
    bool has_jumped;          /**< a number jumped since the source began */
} h26x_rtp_statistics;

/** Counts a packet that came by its own SSRC, with so many bytes of payload; whether it counts: one whose number jumps does
 * only where it follows the one that jumped last (RFC 3550, A.1). `arrival` is when it came, in ticks of the
 * timestamps' clock, which go round at 2^32. */
H26X_API bool h26x_rtp_statistics_receive(h26x_rtp_statistics *statistics, uint32_t arrival, uint16_t sequence,
                                          uint32_t timestamp, size_t size);

/** Counts a packet that came as a retransmission, or was restored. */
H26X_API void h26x_rtp_statistics_recover(h26x_rtp_statistics *statistics);

/** What is reported of the source, with the part that was lost since the last report (RFC 3550, 6.4.1 and A.3).
 * `last_sender_report` and `delay` are 0 where no sender report came. */
H26X_API void h26x_rtp_statistics_report(h26x_rtp_statistics *statistics, uint32_t ssrc, uint32_t last_sender_report,
                                         uint32_t delay, h26x_report *report);

/* ---- Receiving access units, of datagrams as a socket brings them ---- */

/** A receiver of access units of one stream that is given whole datagrams: it reads RTP's header, undoes retransmissions
 * (RTX; RFC 4588) and redundant payloads (RED; RFC 2198), puts packets in order as h26x_access_units does, and tells what
 * to ask the sender for (RFC 4585) and what to report (RFC 3550). SRTP is the caller's to undo before. */
typedef struct { void *at; /**< NULL: no handle */ } h26x_rtp_receiver;

/** The payload types of one stream, as a session description tells them: only `media` need be set. None may be one from 64
 * to 95, which are taken for RTCP (RFC 5761, 4), and one above 127 no packet has. */
typedef struct {
    uint8_t media;        /**< of the codec */
    uint8_t rtx;          /**< of RTX whose apt is media (RFC 4588, 8.1), where has_rtx */
    uint8_t red;          /**< of RED, where has_red */
    uint8_t rtx_of_red;   /**< of RTX whose apt is red, as Chromium has it, where has_rtx_of_red; without has_red of none */
    uint8_t fec;          /**< of FEC, by itself or in RED (RFC 5109, 14), where has_fec */
    bool has_rtx;         /**< rtx is one */
    bool has_red;         /**< red is one */
    bool has_rtx_of_red;  /**< rtx_of_red is one */
    bool has_fec;         /**< fec is one */
} h26x_rtp_payload_types;

/** The sources of one stream, by their SSRCs (RFC 3550, 8). */
typedef struct {
    uint32_t media;       /**< of its packets, where has_media; else 0, as before the first packet of the codec or of RED */
    uint32_t rtx;         /**< of its retransmissions, where has_rtx; else 0 */
    bool has_media;       /**< media is known, or told; else that of the first packet of the codec or of RED is followed */
    bool has_rtx;         /**< rtx is known, or told, as by ssrc-group:FID (RFC 5576, 4.2); else it is that of the first
                           * retransmission that bears a missing number (RFC 4588, 5.3). Tell it where several streams of a
                           * session may miss the same number at a time, as of simulcast */
} h26x_rtp_sources;

/** What became of a datagram that was given. All but H26X_RTP_TAKEN change nothing. */
enum h26x_became {
    H26X_RTP_TAKEN = 0,       /**< it brought a packet of the stream */
    H26X_RTP_RTCP = 1,        /**< it is RTCP (RFC 5761) */
    H26X_RTP_PROBE = 2,       /**< it is a retransmission of no packet */
    H26X_RTP_NEW_SOURCE = 3,  /**< it is of the codec or RED, and from another source: another stream, or this one with a new
                               * SSRC, which h26x_rtp_receiver_follow takes */
    H26X_RTP_OTHER_SOURCE = 4 /**< it is any other packet from another source, as a retransmission of another stream */
};

/** Why a packet of the stream bears nothing of the codec; its number isn't missing all the same. */
enum h26x_no_media {
    H26X_RTP_MEDIA = 0,         /**< it bears a payload of the codec */
    H26X_RTP_PADDING_ALONE = 1, /**< it has no payload (RFC 3550, 5.1) */
    H26X_RTP_FEC = 2,           /**< it bears FEC (RFC 5109), which isn't decoded */
    H26X_RTP_OTHER_TYPE = 3     /**< it, or its primary block, has another payload type */
};

/** What is told of a datagram. */
typedef struct {
    uint32_t became;      /**< one of h26x_became; what is below is 0 where that doesn't say otherwise */
    uint32_t ssrc;        /**< of H26X_RTP_NEW_SOURCE and H26X_RTP_OTHER_SOURCE: the other source */
    uint32_t no_media;    /**< of H26X_RTP_TAKEN: one of h26x_no_media */
    uint32_t pushed;      /**< of H26X_RTP_TAKEN: one of h26x_pushed; of a retransmission of a packet that came H26X_TWICE or
                           * H26X_PUSHED_LATE */
    uint16_t behind;      /**< of H26X_PUSHED_LATE: how far it is behind the one that is due */
    uint16_t sequence;    /**< of H26X_RTP_TAKEN: its number in the stream, of a retransmission that of the original */
    uint8_t payload_type; /**< of H26X_RTP_OTHER_TYPE: which */
    bool is_recovered;    /**< it came as a retransmission */
} h26x_rtp_told;

/** A receiver of datagrams that follows the SSRC of the first packet of the codec or of RED. The answers are those of
 * h26x_access_units_new. */
H26X_API uint32_t h26x_rtp_receiver_new(const h26x_access_units_config *config, const h26x_rtp_payload_types *types,
                                        h26x_rtp_receiver *made) H26X_MUST_USE;

/** Has the settings of *config from now on, as h26x_access_units_set_config. */
H26X_API uint32_t h26x_rtp_receiver_set_config(h26x_rtp_receiver *r, const h26x_access_units_config *config);

/** Frees it with all that waits. A handle of NULL is nothing to be freed. */
H26X_API void h26x_rtp_receiver_free(h26x_rtp_receiver r);

/** The same, and writes NULL into the handle, so that it may be closed again. A pointer of NULL is nothing to be freed
 * either. */
static inline void h26x_rtp_receiver_close(h26x_rtp_receiver *r)
{
    if (r != NULL) {
        const h26x_rtp_receiver it = *r;
        r->at = NULL;
        h26x_rtp_receiver_free(it);
    }
}

/** Follows these sources from now on, as those of a session description, or of a new SSRC: all that waits or is open is
 * dropped, any number is the next, and statistics begin anew. An access unit that had no room, and what was counted, stay.
 * H26X_WRONG_END. */
H26X_API uint32_t h26x_rtp_receiver_follow(h26x_rtp_receiver *r, const h26x_rtp_sources *sources);

/** The sources that are followed, as far as they are known. H26X_WRONG_END leaves *sources. */
H26X_API uint32_t h26x_rtp_receiver_sources(const h26x_rtp_receiver *r, h26x_rtp_sources *sources);

/** Takes a datagram that came at this tick: RTX and RED are undone, and the packet of the stream goes where
 * h26x_access_units_push has it; *told tells what became of it. `arrival` is the same time in ticks of the timestamps'
 * clock, of 90000 in a second, which goes round at 2^32, for the jitter that is reported. Then call h26x_rtp_receiver_next
 * until it has none: so none is H26X_FULL, which is to be given again, and counts as received each time.
 * Refused is what is no RTP packet, by the codes of h26x_rtp_read, and what has no redundant payload where it should, by
 * those of h26x_red_primary: a stranger's bytes, which are passed over; the latter's number stays missing.
 * H26X_OUT_OF_MEMORY: the datagram can be given again; H26X_WRONG_END. All these change nothing, and leave *told. */
H26X_API uint32_t h26x_rtp_receiver_push(h26x_rtp_receiver *r, uint32_t now, uint32_t arrival, const uint8_t *datagram,
                                         size_t datagram_len, h26x_rtp_told *told) H26X_MUST_USE;

/** The next access unit, if one has ended at this tick, as of h26x_access_units_next. */
H26X_API uint32_t h26x_rtp_receiver_next(h26x_rtp_receiver *r, uint32_t now, uint8_t *to, size_t room,
                                         h26x_access_unit *unit) H26X_MUST_USE;

/** Whether an access unit is open, and its NAL units that came whole, as of h26x_access_units_so_far. */
H26X_API bool h26x_rtp_receiver_so_far(const h26x_rtp_receiver *r, size_t from, uint8_t *to, size_t room,
                                       h26x_so_far *so_far);

/** Whether packets wait, and not by the window alone; *at is then the tick at which to call h26x_rtp_receiver_next at the
 * latest, and else left. False for a handle of another kind. */
H26X_API bool h26x_rtp_receiver_deadline(const h26x_rtp_receiver *r, uint32_t *at);

/** The missing numbers that are to be asked for at this tick, as of h26x_access_units_nacks: h26x_nack_write makes a packet
 * of them, of the SSRC that h26x_rtp_receiver_sources tells. */
H26X_API uint32_t h26x_rtp_receiver_nacks(h26x_rtp_receiver *r, uint32_t now, const h26x_nack_times *times,
                                          uint16_t *numbers, size_t numbers_room, size_t *count) H26X_MUST_USE;

/** Whether to ask for a keyframe at this tick (PLI or FIR), which then counts as asked for: by the access units that ended
 * no decoder can go on, and none was asked for in the last `again` ticks, in which it may be on its way: a round trip and a
 * keyframe at least. Never before an access unit ended. False for a handle of another kind. */
H26X_API bool h26x_rtp_receiver_keyframe_wanted(h26x_rtp_receiver *r, uint32_t now, uint32_t again) H26X_MUST_USE;

/** What is counted of the packets of the SSRC that is followed (RFC 3550, 6.4.1): those that came by it as received, and
 * retransmissions that are kept as recovered. H26X_WRONG_END leaves *counted. */
H26X_API uint32_t h26x_rtp_receiver_statistics(const h26x_rtp_receiver *r, h26x_rtp_statistics *counted);

/** Whether the SSRC that is followed is known, and what is reported of it, as of h26x_rtp_statistics_report; else *report is
 * left. False for a handle of another kind. */
H26X_API bool h26x_rtp_receiver_report(h26x_rtp_receiver *r, uint32_t last_sender_report, uint32_t delay,
                                       h26x_report *report);

/** At the end of a stream, as h26x_access_units_finish. H26X_WRONG_END. */
H26X_API uint32_t h26x_rtp_receiver_finish(h26x_rtp_receiver *r);

/** What was counted, as of h26x_access_units_count. H26X_WRONG_END leaves *counts. */
H26X_API uint32_t h26x_rtp_receiver_count(const h26x_rtp_receiver *r, h26x_access_units_counts *counts);

/* ---- Sending access units, as datagrams ---- */

/** A sender of the packets of one stream: it writes RTP's header before each packet (RFC 3550), and holds the last ones, to
 * send those again that a peer misses, as retransmissions (RTX; RFC 4588) or as they were; and it counts what sender reports
 * tell. SRTP is the caller's to do behind it. */
typedef struct { void *at; /**< NULL: no handle */ } h26x_rtp_sender;

/** The streams of a sender (RFC 3550, 5.1): of its packets, and of their retransmissions (RFC 4588, 4), which has an SSRC
 * and numbers of its own. First numbers should be random. */
typedef struct {
    uint32_t ssrc;            /**< of the packets */
    uint32_t rtx_ssrc;        /**< of retransmissions, where has_rtx */
    uint16_t sequence;        /**< the number of the next packet */
    uint16_t rtx_sequence;    /**< the number of the next retransmission, where has_rtx */
    uint8_t payload_type;     /**< of the codec: below 128 */
    uint8_t rtx_payload_type; /**< of RTX whose apt is payload_type, where has_rtx: below 128 */
    bool has_rtx;             /**< packets go again as retransmissions; else as they were */
} h26x_rtp_streams;

/** What was sent, as sender reports of each SSRC tell it, in the low 32 bits (RFC 3550, 6.4.1). Bytes are those of payloads;
 * counts stay at 2^64 - 1. Packets that go again as they were are counted once more. */
typedef struct {
    uint64_t packets;     /**< packets of the stream */
    uint64_t bytes;       /**< of their payloads */
    uint64_t rtx_packets; /**< retransmissions */
    uint64_t rtx_bytes;   /**< of their payloads: the two bytes of the number and the payload that is sent again */
} h26x_rtp_sent;

/** A sender of these streams. It holds the last packets whose payloads have `history` bytes together at most, and 32768
 * packets at most. *made is written where the answer is H26X_OK. Else H26X_RTP_PAYLOAD_TYPE, of one above 127, where it is
 * looked at, or H26X_OUT_OF_MEMORY. */
H26X_API uint32_t h26x_rtp_sender_new(const h26x_rtp_streams *streams, size_t history, h26x_rtp_sender *made)
    H26X_MUST_USE;

/** Frees it with the packets that it holds. A handle of NULL is nothing to be freed. */
H26X_API void h26x_rtp_sender_free(h26x_rtp_sender s);

/** The same, and writes NULL into the handle, so that it may be closed again. A pointer of NULL is nothing to be freed
 * either. */
static inline void h26x_rtp_sender_close(h26x_rtp_sender *s)
{
    if (s != NULL) {
        const h26x_rtp_sender it = *s;
        s->at = NULL;
        h26x_rtp_sender_free(it);
    }
}

/** Makes RTP packets of all packets of an access unit, where they lie: in `packets` as h26x_packetize_units_into leaves
 * them, one behind the other, each behind `headroom` bytes, the n-th of ends_len up to ends[n]. The header of each is
 * written to the end of its headroom, and nothing else: the numbers follow each other, the timestamp is that of the
 * access unit, and the last has the marker (RFC 3550, 5.1). *len is how many bytes each header has, 12, and with an
 * extension 4 and its bytes more: so RTP packet n begins headroom - *len bytes behind the end of the one before (packet
 * 0: behind the front), and ends at ends[n]. With a headroom of just *len bytes they lie one behind the other. The
 * payloads of the last ones are copied, to be sent again.
 * `extension`: what each header has as an extension, of this profile (5.3.1); of 0 bytes there is none.
 * H26X_OUT_OF_RANGE where packets don't lie in `packets`: an end is before that of its headroom, or behind packets_len;
 * H26X_RTP_EXTENSION of an extension that isn't of whole words of four bytes, or has over 65,535; H26X_NO_ROOM where a
 * header has more bytes than the headroom, or than 272, which tells *len; H26X_OUT_OF_MEMORY; H26X_WRONG_END. All these
 * send nothing, and change nothing, and the others leave *len. */
H26X_API uint32_t h26x_rtp_sender_send(h26x_rtp_sender *s, uint32_t timestamp, uint16_t profile,
                                       const uint8_t *extension, size_t extension_len, size_t headroom,
                                       uint8_t *packets, size_t packets_len, const size_t *ends, size_t ends_len,
                                       size_t *len) H26X_MUST_USE;

/** Writes what goes again for the packet of this number to the front of `to`: its retransmission, or, without RTX, the same
 * packet (RFC 4588, 4). *len is how many bytes it has: 0 where that packet is held no longer, or was never sent. So call it
 * for each number that h26x_nack_read tells. It takes no memory. H26X_NO_ROOM tells *len; it and H26X_WRONG_END
 * leave `to` and the sender, the latter *len too. */
H26X_API uint32_t h26x_rtp_sender_resend(h26x_rtp_sender *s, uint16_t number, uint8_t *to, size_t room, size_t *len)
    H26X_MUST_USE;

/** The streams, with the numbers of the next packets; where there is no RTX its fields are 0. H26X_WRONG_END leaves
 * *streams. */
H26X_API uint32_t h26x_rtp_sender_streams(const h26x_rtp_sender *s, h26x_rtp_streams *streams);

/** What was sent. H26X_WRONG_END leaves *sent. */
H26X_API uint32_t h26x_rtp_sender_count(const h26x_rtp_sender *s, h26x_rtp_sent *sent);

/* ---- Format parameters of SDP ---- */

/** What an a=fmtp line says behind the payload type (RFC 6184, 8.1; RFC 7798, 7.1; RFC 9328, 7.2). Names are those of the
 * codec's RFC, as "profile-level-id", without regard to case. */
typedef struct { void *at; /**< NULL: no handle */ } h26x_sdp;

/** The parameters of a text. White space round `;` and `=` and blank parts are left out, a `;` in braces ends nothing, and
 * what the RFC doesn't have is kept. A text of one of the codes from 20 to 25 is refused, by its first fault;
 * H26X_UNKNOWN_CODEC, H26X_OUT_OF_MEMORY. *made is written where the answer is H26X_OK. */
H26X_API uint32_t h26x_sdp_read(uint32_t codec, const uint8_t *text, size_t text_len, h26x_sdp *made,
                                h26x_refusal *why) H26X_MUST_USE;

/** What a sender says of its stream, of the bytes that it begins with (Annex B): profile, tier and level of the first SPS,
 * and the sets before the first slice; of H.264 packetization-mode=1 too, as packetizers send. Of H.265 peers that say no
 * constraints answer only where h26x_sdp_unset takes interop-constraints and profile-compatibility-indicator away. One of
 * the codes from 33 to 35; H26X_UNKNOWN_CODEC, H26X_OUT_OF_MEMORY. */
H26X_API uint32_t h26x_sdp_of_payload(uint32_t codec, const uint8_t *payload, size_t payload_len, h26x_sdp *made)
    H26X_MUST_USE;

/** The answer to an offered format by one of ours, or H26X_SDP_NO_ANSWER, as of two codecs; H26X_OUT_OF_MEMORY,
 * H26X_WRONG_END. To answer an offer, go through its formats in their order and for each through ours in our order of
 * preference: the first that is made is the answer, with the payload type of the offered format (RFC 3264, 6.1). It is
 * for both directions, and for unicast (RFC 6184, 8.2.2; RFC 7798, 7.2.2; RFC 9328, 7.3.2). An offer of a profile or level
 * that the standard hasn't has none, nor has ours where its RFC forbids it, as a max-fs below the level's; nor have
 * formats whose units may be sent in another order than decoded: packetization-mode 2, sprop-max-don-diff above 0. */
H26X_API uint32_t h26x_sdp_answer(const h26x_sdp *offered, const h26x_sdp *ours, h26x_sdp *made) H26X_MUST_USE;

/** The same of an end that takes units in any order: that reads STAP-B, MTAP and FU-B of H.264, which depacketizers don't,
 * and puts units in order by their decoding order numbers. */
H26X_API uint32_t h26x_sdp_answer_any_order(const h26x_sdp *offered, const h26x_sdp *ours, h26x_sdp *made) H26X_MUST_USE;

/** The same as WebRTC's peers do it, of an end that takes units in decoding order or in any_order. H.264 without
 * profile-level-id is 42e01f, and not 42000a (libwebrtc, aiortc), so that an empty text, of a format without a=fmtp, is that
 * in packetization-mode 0; who decodes Baseline or High takes an offer of its constrained profile, 42e01f or 640c1f, and
 * answers with that, which it is to send. Of H.265 interop-constraints and profile-compatibility-indicator aren't compared
 * (libwebrtc). */
H26X_API uint32_t h26x_sdp_answer_webrtc(const h26x_sdp *offered, const h26x_sdp *ours, bool any_order, h26x_sdp *made)
    H26X_MUST_USE;

/** How an end answers, in the bits of a number; 0 is as h26x_sdp_answer. */
enum h26x_sdp_option {
    H26X_SDP_ANY_ORDER = 1, /**< it takes units in any order, as h26x_sdp_answer_any_order has it */
    H26X_SDP_WEBRTC = 2,    /**< as WebRTC's peers do it, as h26x_sdp_answer_webrtc has it */
    /* Its media flows one way (a=sendonly, a=recvonly; both at once are no options): parameters that aren't usable there
     * are ignored, and not answered (RFC 6184, 8.2.2, table 6; RFC 7798, 7.2.2, table 1; RFC 9328, 7.3.2.3). */
    H26X_SDP_SEND_ONLY = 4, /**< it sends alone: the offer is of who receives alone */
    H26X_SDP_RECV_ONLY = 8, /**< it receives alone */
    H26X_SDP_MULTICAST = 16 /**< media go by multicast: the offered level is kept, or there is no answer */
};

/** The answer by options. H26X_OUT_OF_RANGE of another bit. */
H26X_API uint32_t h26x_sdp_answer_with(const h26x_sdp *offered, const h26x_sdp *ours, uint32_t options, h26x_sdp *made)
    H26X_MUST_USE;

/** Where the parameter sets of a stream are (RFC 6184, 8.1). */
enum h26x_sdp_sets {
    H26X_SDP_SETS_IN_BAND = 0,      /**< in the stream: who sends it sends them with its units */
    H26X_SDP_SETS_TOLD = 1,         /**< in the sender's format: sprop-parameter-sets, or sprop-vps, sprop-sps and sprop-pps */
    H26X_SDP_SETS_TOLD_OF_LEVEL = 2 /**< in its sprop-level-parameter-sets, those of the stream's level */
};

/** A stream from one end to the other. Where there is none all of it is 0. */
typedef struct {
    uint64_t level; /**< the highest of it: of H.264 twice level_idc, and 21 for level 1b; else as `level-id` says it */
    uint64_t mode;  /**< `packetization-mode` of H.264; else 0 */
    uint32_t sets;  /**< where its parameter sets are: one of h26x_sdp_sets */
    bool is_there;  /**< whether there is one */
    bool has_mode;  /**< whether it has a mode */
} h26x_sdp_stream;

/** What an offered format and its answer agree on, of the end that wrote `own`, whichever of the two that is: what it sends,
 * and what it receives, where its direction has it (among `options`, which are those of h26x_sdp_answer_with).
 * H26X_OUT_OF_RANGE of another bit; H26X_SDP_NO_ANSWER of two codecs; H26X_WRONG_END. All but H26X_OK leave both. A receiver
 * starts with the sets of `other` where receives->sets says that they are told: h26x_sdp_unit has them, and those of a level
 * h26x_sdp_level_unit. */
H26X_API uint32_t h26x_sdp_agreed(const h26x_sdp *own, const h26x_sdp *other, uint32_t options, h26x_sdp_stream *sends,
                                  h26x_sdp_stream *receives) H26X_MUST_USE;

/** H26X_OK where one of our formats receives a declared one as it is, of a description that is no offer, as of RTSP and SAP
 * (RFC 6184, 8.2.3; RFC 7798, 7.2.3; RFC 9328, 7.3.3): what a declared format says is of its stream. Else H26X_SDP_NO_ANSWER,
 * as of two codecs. Of `options` H26X_SDP_ANY_ORDER and H26X_SDP_WEBRTC count; H26X_OUT_OF_RANGE of another bit;
 * H26X_WRONG_END. */
H26X_API uint32_t h26x_sdp_accepts_declared(const h26x_sdp *declared, const h26x_sdp *ours, uint32_t options)
    H26X_MUST_USE;

/** The first rule that they break as a format of one's own, which then gives no answer: one of the codes from 64 on, or
 * H26X_OK where they break none. `options` are those of the answer: H26X_OUT_OF_RANGE of another bit; H26X_WRONG_END. */
H26X_API uint32_t h26x_sdp_broken_rule(const h26x_sdp *h, uint32_t options, h26x_refusal *why) H26X_MUST_USE;

/** The name of parameter i of those of the codec's RFC, from 0, in the order in which they are written, to the front of
 * `to`. H26X_SDP_ABSENT past the last; H26X_NO_ROOM tells *len and leaves `to`; H26X_WRONG_END. */
H26X_API uint32_t h26x_sdp_name(const h26x_sdp *h, size_t i, uint8_t *to, size_t room, size_t *len) H26X_MUST_USE;

/** Frees them. A handle of NULL is nothing to be freed. */
H26X_API void h26x_sdp_free(h26x_sdp h);

/** The same, and writes NULL into the handle, so that it may be closed again. A pointer of NULL is nothing to be freed
 * either. */
static inline void h26x_sdp_close(h26x_sdp *h)
{
    if (h != NULL) {
        const h26x_sdp it = *h;
        h->at = NULL;
        h26x_sdp_free(it);
    }
}

/** Their codec; 0 for a handle of another kind. */
H26X_API uint32_t h26x_sdp_codec(const h26x_sdp *h);

/** Their text, to the front of `to`: those of the RFC in its order, and the others behind. It is read as the same ones.
 * *len is its length; where that is over `room` the answer is H26X_NO_ROOM, and `to` is left. H26X_OUT_OF_MEMORY and
 * H26X_WRONG_END leave *len too. */
H26X_API uint32_t h26x_sdp_write(const h26x_sdp *h, uint8_t *to, size_t room, size_t *len) H26X_MUST_USE;

/** Gives the parameter with a name a value, in the place of the one that it has; white space at its ends is left out.
 * H26X_SDP_UNKNOWN_NAME; H26X_SDP_NOT_A_VALUE, of what would be read as more than a value; one of the codes from 21 to 24;
 * H26X_OUT_OF_MEMORY; H26X_WRONG_END. */
H26X_API uint32_t h26x_sdp_set(h26x_sdp *h, const uint8_t *name, size_t name_len, const uint8_t *value,
                               size_t value_len) H26X_MUST_USE;

/** Takes away the value of the parameter with a name, if it has one. H26X_SDP_UNKNOWN_NAME; H26X_OUT_OF_MEMORY;
 * H26X_WRONG_END. */
H26X_API uint32_t h26x_sdp_unset(h26x_sdp *h, const uint8_t *name, size_t name_len) H26X_MUST_USE;

/** The value of the parameter with a name, as it came, to the front of `to`. Where it is absent: with `or_default` what
 * the RFC takes for it, if it says what; else H26X_SDP_ABSENT. H26X_SDP_UNKNOWN_NAME; H26X_NO_ROOM tells *len and leaves
 * `to`; H26X_WRONG_END. */
H26X_API uint32_t h26x_sdp_value(const h26x_sdp *h, const uint8_t *name, size_t name_len, bool or_default, uint8_t *to,
                                 size_t room, size_t *len) H26X_MUST_USE;

/** The same of its number. H26X_SDP_OTHER_KIND where the RFC has no number there. */
H26X_API uint32_t h26x_sdp_number(const h26x_sdp *h, const uint8_t *name, size_t name_len, bool or_default,
                                  uint64_t *value) H26X_MUST_USE;

/** How many units the parameter with a name has, out of base64: sprop-parameter-sets, sprop-vps and so on.
 * H26X_SDP_UNKNOWN_NAME, H26X_SDP_OTHER_KIND, H26X_SDP_ABSENT, or one of the codes from 29 to 32 by the first fault, since
 * h26x_sdp_read refuses none of them; H26X_WRONG_END. All but H26X_OK leave *count. */
H26X_API uint32_t h26x_sdp_units(const h26x_sdp *h, const uint8_t *name, size_t name_len, size_t *count,
                                 h26x_refusal *why) H26X_MUST_USE;

/** Unit i of them to the front of `to`. The same answers; H26X_SDP_ABSENT past the last; H26X_NO_ROOM tells *len and leaves
 * `to`. Give a peer's sets to the decoder before the first picture, each behind 00 00 00 01. All are read once, when the
 * parameters are made. */
H26X_API uint32_t h26x_sdp_unit(const h26x_sdp *h, const uint8_t *name, size_t name_len, size_t i, uint8_t *to,
                                size_t room, size_t *len, h26x_refusal *why) H26X_MUST_USE;

/** Unit i of those that sprop-level-parameter-sets of H.264 has for a level, as h26x_sdp_stream has it, to the front of `to`:
 * of the first there that is of that level. H26X_SDP_ABSENT past the last, and where none is of that level;
 * H26X_SDP_NOT_HEXADECIMAL, H26X_SDP_NO_LEVEL_SETS or one of the codes from 29 to 32 by the first fault of any level, whose
 * place is why->first, since h26x_sdp_read refuses none of them; H26X_NO_ROOM tells *len and leaves `to`;
 * H26X_NOT_OF_THIS_CODEC for H.265 and H.266; H26X_OUT_OF_MEMORY; H26X_WRONG_END. */
H26X_API uint32_t h26x_sdp_level_unit(const h26x_sdp *h, uint64_t level, size_t i, uint8_t *to, size_t room, size_t *len,
                                      h26x_refusal *why) H26X_MUST_USE;

/** Parameter i of those that the RFC doesn't have, in their order: its name and its value. H26X_NO_ROOM where either
 * doesn't fit: *name_len and *value_len are told, and both buffers are left. H26X_SDP_ABSENT past the last;
 * H26X_WRONG_END. */
H26X_API uint32_t h26x_sdp_other(const h26x_sdp *h, size_t i, uint8_t *name_to, size_t name_room, size_t *name_len,
                                 uint8_t *value_to, size_t value_room, size_t *value_len) H26X_MUST_USE;

/** `sprop-max-don-diff` of H.265 and H.266, or 0 where it is absent: packets bear decoding order numbers where it is over
 * 0, which is `numbers` of h26x_packetizer_new and so on. H26X_NOT_OF_THIS_CODEC for H.264; H26X_WRONG_END. */
H26X_API uint32_t h26x_sdp_max_don_diff(const h26x_sdp *h, uint32_t *value) H26X_MUST_USE;

/** What `interop-constraints` says (RFC 7798, 7.1; RFC 9328, 7.2). */
typedef struct {
    uint64_t flags;  /**< H.265: the 48 flags behind the compatibility flags, the first the highest bit; H.266: 0 */
    size_t len;      /**< how many bytes they are: of H.265 6, of H.266 1, or from 11 to 43 */
    bool frame_only; /**< each picture is a frame: general_ or ptl_frame_only_constraint_flag */
    bool multilayer; /**< H.266: ptl_multilayer_enabled_flag: there may be several layers */
    bool general;    /**< H.266: gci_present_flag: general constraints are among them */
} h26x_constraints;

/** What `interop-constraints` of H.265 or H.266 says, or where it is absent what the RFC takes for it, and its bytes, to
 * the front of `to`, as many as there is room for. One of the codes from 46 to 48, of H.266; H26X_OUT_OF_MEMORY;
 * H26X_NOT_OF_THIS_CODEC for H.264; H26X_WRONG_END. All but H26X_OK leave *said and `to`. */
H26X_API uint32_t h26x_sdp_constraints(const h26x_sdp *h, uint8_t *to, size_t room, h26x_constraints *said)
    H26X_MUST_USE;

/** How pictures are coded for parallel decoding. */
enum h26x_parallel_tool {
    H26X_NO_WAVEFRONTS = 0, /**< `t`: by tiles or slices */
    H26X_WAVEFRONTS = 1     /**< `w` */
};

/** What a decoder of H.265 can do where a stream is coded for parallel decoding, beyond what it can do with any (RFC
 * 7798, 7.1). Behind has_x, 1 or 0, is whether x is there; one that isn't is 0. */
typedef struct {
    uint64_t spatial_segmentation; /**< the least min_spatial_segmentation_idc of the stream, from 1 to 4095 */
    uint64_t tier_flag;            /**< 0 Main, 1 High */
    uint64_t level_id;             /**< the highest level, as in `level-id` */
    uint64_t max_lsr;              /**< the most luma samples in a second */
    uint64_t max_lps;              /**< the most luma samples of a picture */
    uint64_t max_br;               /**< the most bits a second, in units of CpbBrVclFactor or CpbBrNalFactor */
    uint8_t tool;                  /**< H26X_WAVEFRONTS or H26X_NO_WAVEFRONTS, which the stream uses */
    uint8_t has_tier_flag;         /**< 1: the point says it, else 0 */
    uint8_t has_level_id;          /**< so too, as those below */
    uint8_t has_max_lsr;           /**< so too */
    uint8_t has_max_lps;           /**< so too */
    uint8_t has_max_br;            /**< so too */
} h26x_capability_point;

/** The capability points of `dec-parallel-cap` of H.265, to the front of `points`, as many as there is room for; *count
 * is how many they all are. With `or_default` a limit that a point leaves out is what is said outside: `tier-flag`,
 * `max-recv-level-id`, or where that is absent `level-id`, `max-lsr`, `max-lps` and `max-br`. H26X_SDP_ABSENT; one of
 * the codes from 41 to 45 by the first fault, since h26x_sdp_read refuses none of them; H26X_OUT_OF_MEMORY;
 * H26X_NOT_OF_THIS_CODEC for H.264 and H.266; H26X_WRONG_END. All but H26X_OK leave *count and `points`. */
H26X_API uint32_t h26x_sdp_capability_points(const h26x_sdp *h, bool or_default, h26x_capability_point *points,
                                             size_t points_room, size_t *count, h26x_refusal *why) H26X_MUST_USE;

/** Whether a payload of H.264 can be sent where `packetization-mode` is 0, in packets of `limit` bytes: each of its units
 * fits a packet of its own (RFC 6184, 5.6 and 6.2). There, give an SPS and a PPS to h26x_packetize_unit, since
 * h26x_packetize puts both into one packet. */
H26X_API bool h26x_fits_single_units(const uint8_t *payload, size_t payload_len, size_t limit);

/** The clock rate of each payload type here, in Hz (RFC 6184, 8.2.1; RFC 7798, 7.2.1; RFC 9328, 7.3.1). */
#define H26X_CLOCK_RATE 90000

/** Reads what stands behind "a=rtpmap:", as "96 H264/90000" (RFC 8866, 6.6): H26X_SDP_PAYLOAD_TYPE,
 * H26X_SDP_ENCODING_NAME or H26X_SDP_CLOCK_RATE by the first that is wrong. All but H26X_OK leave *payload_type and
 * *codec. */
H26X_API uint32_t h26x_rtpmap_read(const uint8_t *text, size_t text_len, uint8_t *payload_type, uint32_t *codec)
    H26X_MUST_USE;

/** Writes it to the front of `to`. H26X_UNKNOWN_CODEC; H26X_SDP_PAYLOAD_TYPE where that is over 127; H26X_NO_ROOM tells
 * *len and leaves `to`; H26X_OUT_OF_MEMORY. */
H26X_API uint32_t h26x_rtpmap_write(uint8_t payload_type, uint32_t codec, uint8_t *to, size_t room, size_t *len)
    H26X_MUST_USE;

/** What goes beside video in a session. */
enum h26x_repair_format {
    H26X_REPAIR_RTX = 1,       /**< `rtx`: packets that are sent again (RFC 4588, 8.3) */
    H26X_REPAIR_RED = 2,       /**< `red`: payloads with others before them (RFC 2198, 5), which bear their payload types */
    H26X_REPAIR_ULPFEC = 3,    /**< `ulpfec`: forward error correction (RFC 5109, 13.2) */
    H26X_REPAIR_FLEXFEC = 4,   /**< `flexfec`: the same (RFC 8627, 5.1.2) */
    H26X_REPAIR_FLEXFEC_03 = 5 /**< `flexfec-03`: the same by the third draft of RFC 8627, as browsers send it */
};

/** Reads what stands behind "a=rtpmap:" of what goes beside video, as "97 rtx/90000": the payload type, and one of
 * h26x_repair_format. The same answers as of h26x_rtpmap_read; that of audio, as "63 red/48000/2", has another clock rate. */
H26X_API uint32_t h26x_repairmap_read(const uint8_t *text, size_t text_len, uint8_t *payload_type, uint32_t *format)
    H26X_MUST_USE;

/** Writes it to the front of `to`. H26X_OUT_OF_RANGE of no h26x_repair_format; else as h26x_rtpmap_write. */
H26X_API uint32_t h26x_repairmap_write(uint8_t payload_type, uint32_t format, uint8_t *to, size_t room, size_t *len)
    H26X_MUST_USE;

/** What an a=fmtp line says behind the payload type of H26X_REPAIR_RTX (RFC 4588, 8.3 and 8.6). */
typedef struct {
    uint64_t rtx_time;    /**< `rtx-time`: for how many milliseconds a packet can be sent again; 0 where it isn't said */
    uint8_t payload_type; /**< `apt`: the payload type that packets were first sent with, to which it belongs */
    bool has_rtx_time;    /**< whether that time is said */
} h26x_rtx_format;

/** Reads it, as "apt=96;rtx-time=3000". One of the codes from 20 to 22 and H26X_SDP_TWICE, as h26x_sdp_read, an apt above
 * 127 by H26X_SDP_OUT_OF_RANGE; H26X_SDP_NO_APT; H26X_OUT_OF_MEMORY. All but H26X_OK leave *format. What RFC 4588 doesn't
 * have is left out. */
H26X_API uint32_t h26x_rtx_format_read(const uint8_t *text, size_t text_len, h26x_rtx_format *format, h26x_refusal *why)
    H26X_MUST_USE;

/** Writes it to the front of `to`. H26X_SDP_PAYLOAD_TYPE where that is over 127; H26X_NO_ROOM tells *len and leaves `to`;
 * H26X_OUT_OF_MEMORY. */
H26X_API uint32_t h26x_rtx_format_write(const h26x_rtx_format *format, uint8_t *to, size_t room, size_t *len)
    H26X_MUST_USE;

#ifdef __cplusplus
}
#endif

#endif
