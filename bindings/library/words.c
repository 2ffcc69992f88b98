/* What C's calls say in words. An export of Rattle can't answer a pointer, so these are C. */
#include "h26x.h"

uint32_t h26x_version(void)
{
    return H26X_VERSION_NUMBER;
}

#ifndef H26X_TARGET
#error "bindings/build says by H26X_TARGET what this is compiled for"
#endif

const char *h26x_origin(void)
{
    return "proved " H26X_VERSION " " H26X_TARGET;
}

const char *h26x_strerror(uint32_t code)
{
    switch (code) {
    case H26X_OK:
        return "carried out";
    case H26X_SHORT_PACKET:
        return "the packet is shorter than its type asks for";
    case H26X_NALU_TYPE_NOT_HANDLED:
        return "an H.264 packet of this type is not handled";
    case H26X_STAP_A_TOO_LONG:
        return "a unit of the STAP-A is longer than what is left of the packet";
    case H26X_H265_CORRUPTED:
        return "the H.265 packet has its forbidden bit set";
    case H26X_H265_PACI_PHES_TOO_LONG:
        return "the extension of a PACI packet is longer than 31 bytes";
    case H26X_H266_CORRUPTED:
        return "the H.266 packet has its forbidden bit set, or aggregates a packet";
    case H26X_AVC_UNIT_TOO_LONG:
        return "the unit is too long for a length of four bytes";
    case H26X_OUT_OF_MEMORY:
        return "out of memory";
    case H26X_UNKNOWN_CODEC:
        return "no codec has this number";
    case H26X_WRONG_END:
        return "the handle is of another kind";
    case H26X_NOT_OF_THIS_CODEC:
        return "the codec has no such setting";
    case H26X_OUT_OF_RANGE:
        return "the number is out of range";
    case H26X_NO_ROOM:
        return "the output has no room for it";
    case H26X_NOTHING_YET:
        return "no access unit has ended";
    case H26X_UNIT_WITHOUT_HEADER:
        return "the unit has no whole header";
    case H26X_UNIT_FORBIDDEN:
        return "the unit has its forbidden bit set";
    case H26X_UNIT_OF_PACKET_TYPE:
        return "the unit has a type of packets, or that no unit has";
    case H26X_UNIT_TOO_LONG:
        return "the unit is too long for the packets";
    case H26X_SDP_OPEN_BRACE:
        return "a brace is left open";
    case H26X_SDP_NOT_A_NUMBER:
        return "the value is no decimal number";
    case H26X_SDP_OUT_OF_RANGE:
        return "the value is out of the parameter's range";
    case H26X_SDP_NOT_HEXADECIMAL:
        return "the value is not the hexadecimal digits that the parameter has";
    case H26X_SDP_NOT_TX_MODE:
        return "the value is none of SRST, MRST and MRMT";
    case H26X_SDP_TWICE:
        return "the parameter is given twice";
    case H26X_SDP_UNKNOWN_NAME:
        return "the RFC has no parameter of this name";
    case H26X_SDP_ABSENT:
        return "the parameter is not given, or none is behind the last";
    case H26X_SDP_OTHER_KIND:
        return "the parameter is no number, or no units";
    case H26X_SDP_NOT_BASE64:
        return "the unit is no base64";
    case H26X_SDP_EMPTY_UNIT:
        return "the unit has no byte";
    case H26X_SDP_OTHER_TYPE:
        return "the unit is of no type that the parameter is for";
    case H26X_SDP_START_CODE:
        return "the unit has a start code inside";
    case H26X_SDP_NO_SET:
        return "no parameter set says a profile and a level";
    case H26X_SDP_SHORT_SET:
        return "the parameter set is too short";
    case H26X_SDP_NO_PROFILE:
        return "the parameter set says no profile";
    case H26X_SDP_NO_ANSWER:
        return "the two formats have no configuration in common";
    case H26X_SDP_PAYLOAD_TYPE:
        return "the payload type is no number of 7 bits";
    case H26X_SDP_ENCODING_NAME:
        return "the encoding name is none of H264, H265 and H266";
    case H26X_SDP_CLOCK_RATE:
        return "the clock rate is not 90000";
    case H26X_SDP_NO_BRACES:
        return "the capability points are not in braces";
    case H26X_SDP_NO_TOOL:
        return "the capability point is for no tool";
    case H26X_SDP_SEGMENTATION:
        return "the number of the capability point is none from 1 to 4095";
    case H26X_SDP_LIMITS:
        return "the limits of the capability point are refused";
    case H26X_SDP_NO_LIMIT:
        return "the capability point has no limit";
    case H26X_SDP_CONSTRAINTS_NOT_BASE64:
        return "the constraints are no base64";
    case H26X_SDP_SHORT_CONSTRAINTS:
        return "the constraints are too short";
    case H26X_SDP_LONG_CONSTRAINTS:
        return "bytes stand behind the constraints";
    case H26X_SDP_NOT_A_VALUE:
        return "the text is more than a value";
    case H26X_RTP_TOO_SHORT:
        return "the datagram is shorter than an RTP header";
    case H26X_RTP_OTHER_VERSION:
        return "the RTP version is not 2";
    case H26X_RTP_CSRCS_PAST_THE_END:
        return "CSRCs pass the end of the packet";
    case H26X_RTP_EXTENSION_PAST_THE_END:
        return "the header extension passes the end of the packet";
    case H26X_RTP_PADDING_OF_ZERO:
        return "the padding has 0 bytes";
    case H26X_RTP_PADDING_TOO_LONG:
        return "the padding is longer than what is left of the packet";
    case H26X_RTP_PAYLOAD_TYPE:
        return "the payload type is above 127";
    case H26X_RTP_CSRCS:
        return "the CSRCs are not whole, or more than 15";
    case H26X_RTP_EXTENSION:
        return "the header extension has no whole words, or more than 65535";
    case H26X_RTP_PADDING:
        return "the last byte of the padding is not its length";
    case H26X_RTX_NO_ORIGINAL:
        return "the retransmission packet bears no original";
    case H26X_RED_HEADERS_PAST_THE_END:
        return "headers of redundant blocks pass the end of the payload";
    case H26X_RED_BLOCKS_PAST_THE_END:
        return "redundant blocks pass the end of the payload";
    case H26X_SDP_NO_APT:
        return "the format says no payload type that it belongs to";
    case H26X_SDP_RULE_PROFILE:
        return "the standard has no such profile";
    case H26X_SDP_RULE_LEVEL:
        return "the standard has no such level";
    case H26X_SDP_RULE_HIGHEST_LEVEL:
        return "the highest level is none above the level";
    case H26X_SDP_RULE_BELOW_LEVEL:
        return "the parameter is below what the level asks for";
    case H26X_SDP_RULE_REORDERING:
        return "what is said of packets out of order does not fit";
    case H26X_SDP_RULE_OUT_OF_ORDER:
        return "units may be sent in another order than decoded";
    case H26X_SDP_RULE_ABOVE_LEVEL:
        return "the parameter is above 16 times what the level asks for";
    case H26X_SDP_RULE_ASPECT_RATIOS:
        return "more aspect ratios are supported than understood";
    case H26X_SDP_RULE_IN_BAND_SETS:
        return "parameter sets of levels are used where all go in band";
    case H26X_SDP_RULE_HASH_TYPES:
        return "types of hashes are no list of numbers up to 255";
    case H26X_SDP_NO_LEVEL_SETS:
        return "a level has no parameter sets";
    case H26X_RTP_NO_ELEMENT:
        return "no element of the header extension is left";
    case H26X_RTP_ELEMENT_PAST_THE_END:
        return "an element passes the end of the header extension";
    default:
        return "unknown code";
    }
}

const char *h26x_codec_name(uint32_t codec)
{
    switch (codec) {
    case H26X_H264:
        return "H264";
    case H26X_H265:
        return "H265";
    case H26X_H266:
        return "H266";
    default:
        return NULL;
    }
}
