package h26x

// #include <h26x.h>
import "C"

import (
	"errors"
	"strconv"
)

// ErrClosed is answered by calls of what is closed.
var ErrClosed = errors.New("h26x: it is closed")

// A Code is why a call is refused. It is found in an [*Error] by errors.Is.
type Code uint32

// Why a call is refused. Those from ErrShortPacket to ErrAVCUnitTooLong are of a packet.
const (
	// ErrShortPacket: a packet ends before what its type asks for (RFC 6184, 5.6 to 5.8; RFC 7798, 4.4;
	// RFC 9328, 4.3). Of H.265 and H.266 a unit that is a bare header, as an end of sequence, comes to
	// it too.
	ErrShortPacket Code = C.H26X_SHORT_PACKET
	// ErrNALUTypeNotHandled: H.264: a packet of this type is none that is read. First is the type: 0, 25
	// to 27 or 29 to 31 (RFC 6184, 5.2).
	ErrNALUTypeNotHandled Code = C.H26X_NALU_TYPE_NOT_HANDLED
	// ErrSTAPATooLong: H.264: a STAP-A gives a unit a length, which is First, where fewer bytes are
	// left, as many as Second (RFC 6184, 5.7.1).
	ErrSTAPATooLong Code = C.H26X_STAP_A_TOO_LONG
	// ErrH265Corrupted: the packet's forbidden bit is set (RFC 7798, 1.1.4).
	ErrH265Corrupted Code = C.H26X_H265_CORRUPTED
	// ErrH265PACIPHESTooLong: an extension of a PACI packet has at most 31 bytes (RFC 7798, 4.4.4).
	ErrH265PACIPHESTooLong Code = C.H26X_H265_PACI_PHES_TOO_LONG
	// ErrH266Corrupted: the packet's forbidden bit is set, or an aggregate holds an aggregate or a
	// fragment (RFC 9328, 1.1.4 and 4.3.2).
	ErrH266Corrupted Code = C.H26X_H266_CORRUPTED
	// ErrAVCUnitTooLong: behind lengths, a unit has over 4,294,967,295 bytes. Only a peer that never
	// ends one comes to it: give up the open unit.
	ErrAVCUnitTooLong Code = C.H26X_AVC_UNIT_TOO_LONG
	// ErrOutOfMemory: the library had no memory. The same call can be made again.
	ErrOutOfMemory Code = C.H26X_OUT_OF_MEMORY
	// ErrUnknownCodec: no codec has this number.
	ErrUnknownCodec Code = C.H26X_UNKNOWN_CODEC
	// ErrWrongEnd: a handle is of another kind. No call here is given such a one.
	ErrWrongEnd Code = C.H26X_WRONG_END
	// ErrNotOfThisCodec: H.264 has no decoding order numbers, no largest packet size, and shows no
	// packets; H.266 shows none.
	ErrNotOfThisCodec Code = C.H26X_NOT_OF_THIS_CODEC
	// ErrOutOfRange: a largest packet size is under 4, a window is negative or over 16384, or an option of SDP is none.
	ErrOutOfRange Code = C.H26X_OUT_OF_RANGE
	// ErrNoRoom: a header doesn't fit before a payload, or a NACK of one number where it may go. First is how many bytes
	// it has.
	ErrNoRoom Code = C.H26X_NO_ROOM
	// ErrNothingYet: no access unit has ended. No call here answers it.
	ErrNothingYet Code = C.H26X_NOTHING_YET
)

// Why a unit of an access unit can't go. First is its place, from 0, and Second its length in bytes.
const (
	// ErrUnitWithoutHeader: it has no whole header: one byte of H.264, two of the others.
	ErrUnitWithoutHeader Code = C.H26X_UNIT_WITHOUT_HEADER
	// ErrUnitForbidden: its forbidden bit is set.
	ErrUnitForbidden Code = C.H26X_UNIT_FORBIDDEN
	// ErrUnitOfPacketType: its type is one of packets or, of H.264, none of a unit.
	ErrUnitOfPacketType Code = C.H26X_UNIT_OF_PACKET_TYPE
	// ErrUnitTooLong: it is longer than a packet, and no fragment may go or has room for data.
	ErrUnitTooLong Code = C.H26X_UNIT_TOO_LONG
)

// Why format parameters of SDP and payload types are refused. First of those from ErrSDPNotANumber to ErrSDPTwice is the
// place of the parameter, from 0, blank parts not counted; of those from ErrSDPNotBase64 to ErrSDPStartCode that of the
// unit.
const (
	// ErrSDPOpenBrace: a { isn't closed.
	ErrSDPOpenBrace Code = C.H26X_SDP_OPEN_BRACE
	// ErrSDPNotANumber: the value is no number.
	ErrSDPNotANumber Code = C.H26X_SDP_NOT_A_NUMBER
	// ErrSDPOutOfRange: the number is none of the parameter's.
	ErrSDPOutOfRange Code = C.H26X_SDP_OUT_OF_RANGE
	// ErrSDPNotHexadecimal: the value has other digits, or not as many as the parameter has.
	ErrSDPNotHexadecimal Code = C.H26X_SDP_NOT_HEXADECIMAL
	// ErrSDPNotTxMode: the value is none of SRST, MRST and MRMT.
	ErrSDPNotTxMode Code = C.H26X_SDP_NOT_TX_MODE
	// ErrSDPTwice: the parameter is given twice.
	ErrSDPTwice Code = C.H26X_SDP_TWICE
	// ErrSDPUnknownName: the codec's RFC has no such parameter.
	ErrSDPUnknownName Code = C.H26X_SDP_UNKNOWN_NAME
	// ErrSDPAbsent: the parameter isn't given.
	ErrSDPAbsent Code = C.H26X_SDP_ABSENT
	// ErrSDPOtherKind: the parameter is no number, or no units.
	ErrSDPOtherKind Code = C.H26X_SDP_OTHER_KIND
	// ErrSDPNotBase64: a unit isn't base64.
	ErrSDPNotBase64 Code = C.H26X_SDP_NOT_BASE64
	// ErrSDPEmptyUnit: a unit has no bytes.
	ErrSDPEmptyUnit Code = C.H26X_SDP_EMPTY_UNIT
	// ErrSDPOtherType: a unit is of no type that the parameter is for.
	ErrSDPOtherType Code = C.H26X_SDP_OTHER_TYPE
	// ErrSDPStartCode: a unit has a start code inside.
	ErrSDPStartCode Code = C.H26X_SDP_START_CODE
	// ErrSDPNoSet: no parameter set that says a profile stands before the first slice.
	ErrSDPNoSet Code = C.H26X_SDP_NO_SET
	// ErrSDPShortSet: it ends before it says one.
	ErrSDPShortSet Code = C.H26X_SDP_SHORT_SET
	// ErrSDPNoProfile: H.266: its sps_ptl_dpb_hrd_params_present_flag is 0.
	ErrSDPNoProfile Code = C.H26X_SDP_NO_PROFILE
	// ErrSDPNoAnswer: two formats have no configuration in common.
	ErrSDPNoAnswer Code = C.H26X_SDP_NO_ANSWER
	// ErrSDPPayloadType: it is no number of 7 bits.
	ErrSDPPayloadType Code = C.H26X_SDP_PAYLOAD_TYPE
	// ErrSDPEncodingName: it is none of H264, H265 and H266.
	ErrSDPEncodingName Code = C.H26X_SDP_ENCODING_NAME
	// ErrSDPClockRate: it isn't 90000.
	ErrSDPClockRate Code = C.H26X_SDP_CLOCK_RATE
	// ErrSDPNoBraces: capability points don't begin with { and end with }.
	ErrSDPNoBraces Code = C.H26X_SDP_NO_BRACES
	// ErrSDPNoTool: a capability point begins with neither w: nor t:.
	ErrSDPNoTool Code = C.H26X_SDP_NO_TOOL
	// ErrSDPSegmentation: the number behind that is none from 1 to 4095.
	ErrSDPSegmentation Code = C.H26X_SDP_SEGMENTATION
	// ErrSDPLimits: the limits of a capability point aren't read as parameters are.
	ErrSDPLimits Code = C.H26X_SDP_LIMITS
	// ErrSDPNoLimit: a capability point has none of the five limits.
	ErrSDPNoLimit Code = C.H26X_SDP_NO_LIMIT
	// ErrSDPConstraintsNotBase64: H.266: the constraints aren't base64.
	ErrSDPConstraintsNotBase64 Code = C.H26X_SDP_CONSTRAINTS_NOT_BASE64
	// ErrSDPShortConstraints: H.266: they end before they say all.
	ErrSDPShortConstraints Code = C.H26X_SDP_SHORT_CONSTRAINTS
	// ErrSDPLongConstraints: H.266: bytes stand behind them.
	ErrSDPLongConstraints Code = C.H26X_SDP_LONG_CONSTRAINTS
	// ErrSDPNotAValue: the text has a ; outside braces, or leaves one open.
	ErrSDPNotAValue Code = C.H26X_SDP_NOT_A_VALUE
)

// Why bytes are no RTP packet (RFC 3550, 5.1), no retransmission (RFC 4588, 4) and no redundant payload (RFC 2198, 3), and
// why a packet isn't written.
const (
	// ErrRTPTooShort: they are fewer than the 12 that every header has.
	ErrRTPTooShort Code = C.H26X_RTP_TOO_SHORT
	// ErrRTPOtherVersion: the version isn't 2.
	ErrRTPOtherVersion Code = C.H26X_RTP_OTHER_VERSION
	// ErrRTPCSRCsPastTheEnd: CSRCs pass the end.
	ErrRTPCSRCsPastTheEnd Code = C.H26X_RTP_CSRCS_PAST_THE_END
	// ErrRTPExtensionPastTheEnd: the header extension passes the end.
	ErrRTPExtensionPastTheEnd Code = C.H26X_RTP_EXTENSION_PAST_THE_END
	// ErrRTPPaddingOfZero: P is set, and the last byte says that 0 bytes are padding.
	ErrRTPPaddingOfZero Code = C.H26X_RTP_PADDING_OF_ZERO
	// ErrRTPPaddingTooLong: the padding is longer than what stands behind the header.
	ErrRTPPaddingTooLong Code = C.H26X_RTP_PADDING_TOO_LONG
	// ErrRTPPayloadType: the payload type is above 127.
	ErrRTPPayloadType Code = C.H26X_RTP_PAYLOAD_TYPE
	// ErrRTPCSRCs: the CSRCs aren't whole, four bytes each, or more than 15.
	ErrRTPCSRCs Code = C.H26X_RTP_CSRCS
	// ErrRTPExtension: the extension isn't of whole words of four bytes, or has over 65,535.
	ErrRTPExtension Code = C.H26X_RTP_EXTENSION
	// ErrRTPPadding: the last byte of the padding isn't its length.
	ErrRTPPadding Code = C.H26X_RTP_PADDING
	// ErrRTXNoOriginal: a retransmission has under two bytes of payload: it is padding, or a probe.
	ErrRTXNoOriginal Code = C.H26X_RTX_NO_ORIGINAL
	// ErrREDHeadersPastTheEnd: no header of a block has F clear.
	ErrREDHeadersPastTheEnd Code = C.H26X_RED_HEADERS_PAST_THE_END
	// ErrREDBlocksPastTheEnd: blocks are longer than what stands behind the headers.
	ErrREDBlocksPastTheEnd Code = C.H26X_RED_BLOCKS_PAST_THE_END
)

// Of the elements of a header extension (RFC 8285, 4.2 and 4.3).
const (
	// ErrRTPNoElement: none is left. No call here answers it.
	ErrRTPNoElement Code = C.H26X_RTP_NO_ELEMENT
	// ErrRTPElementPastTheEnd: its length passes the end of the extension, or isn't there.
	ErrRTPElementPastTheEnd Code = C.H26X_RTP_ELEMENT_PAST_THE_END
)

// ErrSDPNoAPT: a format of retransmission says no payload type that it belongs to.
const ErrSDPNoAPT Code = C.H26X_SDP_NO_APT

// ErrSDPNoLevelSets: a level of sprop-level-parameter-sets has no sets.
const ErrSDPNoLevelSets Code = C.H26X_SDP_NO_LEVEL_SETS

// Which rule a format of one's own breaks (RFC 6184, 8.1; RFC 7798, 7.1; RFC 9328, 7.2).
const (
	// ErrSDPRuleProfile: the standard has no such profile.
	ErrSDPRuleProfile Code = C.H26X_SDP_RULE_PROFILE
	// ErrSDPRuleLevel: the standard has no such level.
	ErrSDPRuleLevel Code = C.H26X_SDP_RULE_LEVEL
	// ErrSDPRuleHighestLevel: the highest level that is received isn't above the level, or is none.
	ErrSDPRuleHighestLevel Code = C.H26X_SDP_RULE_HIGHEST_LEVEL
	// ErrSDPRuleBelowLevel: a parameter is below what the highest level asks for.
	ErrSDPRuleBelowLevel Code = C.H26X_SDP_RULE_BELOW_LEVEL
	// ErrSDPRuleReordering: what is said of packets out of order stands where there are none, or is absent.
	ErrSDPRuleReordering Code = C.H26X_SDP_RULE_REORDERING
	// ErrSDPRuleOutOfOrder: units may be sent in another order than decoded, and AnyOrder isn't among the options.
	ErrSDPRuleOutOfOrder Code = C.H26X_SDP_RULE_OUT_OF_ORDER
	// ErrSDPRuleAboveLevel: a parameter is above 16 times what the highest level asks for.
	ErrSDPRuleAboveLevel Code = C.H26X_SDP_RULE_ABOVE_LEVEL
	// ErrSDPRuleAspectRatios: sar-supported is above sar-understood, and not 255.
	ErrSDPRuleAspectRatios Code = C.H26X_SDP_RULE_ASPECT_RATIOS
	// ErrSDPRuleInBandSets: parameter sets of levels are used where all go in band.
	ErrSDPRuleInBandSets Code = C.H26X_SDP_RULE_IN_BAND_SETS
	// ErrSDPRuleHashTypes: include-dph is no list of numbers up to 255.
	ErrSDPRuleHashTypes Code = C.H26X_SDP_RULE_HASH_TYPES
)

// Error is the code in the library's words.
func (c Code) Error() string {
	return "h26x: " + C.GoString(C.h26x_strerror(C.uint32_t(c)))
}

// An Error is a refusal: its code, and what it is of in numbers. A refused call changes nothing. One of a
// packet is that packet's alone: pass it over, and go on with the next.
type Error struct {
	Code          Code
	First, Second uint
}

// Error is the refusal in the library's words, with its numbers.
func (e *Error) Error() string {
	first, second := strconv.FormatUint(uint64(e.First), 10), strconv.FormatUint(uint64(e.Second), 10)
	switch e.Code {
	case ErrNALUTypeNotHandled:
		return e.Code.Error() + " (type " + first + ")"
	case ErrSTAPATooLong:
		return e.Code.Error() + " (" + first + " bytes, where " + second + " are left)"
	case ErrUnitWithoutHeader, ErrUnitForbidden, ErrUnitOfPacketType, ErrUnitTooLong:
		return e.Code.Error() + " (unit " + first + ", " + second + " bytes)"
	case ErrSDPNotANumber, ErrSDPOutOfRange, ErrSDPNotHexadecimal, ErrSDPNotTxMode, ErrSDPTwice:
		return e.Code.Error() + " (parameter " + first + ")"
	case ErrSDPNotBase64, ErrSDPEmptyUnit, ErrSDPOtherType, ErrSDPStartCode:
		return e.Code.Error() + " (unit " + first + ")"
	case ErrSDPNoTool, ErrSDPNoLimit:
		return e.Code.Error() + " (point " + first + ")"
	case ErrSDPSegmentation, ErrSDPLimits:
		return e.Code.Error() + " (point " + first + ", " + C.GoString(C.h26x_strerror(C.uint32_t(e.Second))) + ")"
	default:
		return e.Code.Error()
	}
}

// Unwrap is the code.
func (e *Error) Unwrap() error { return e.Code }

// IsPacketError tells whether an error is of a packet: what it holds is wrong, so it is to be passed over.
func IsPacketError(err error) bool {
	var e *Error
	return errors.As(err, &e) && e.Code >= ErrShortPacket && e.Code <= ErrAVCUnitTooLong
}

// refused is the error of what a call answered; nil where it was carried out.
func refused(code C.uint32_t, why C.h26x_refusal) error {
	if code == C.H26X_OK {
		return nil
	}
	return &Error{Code(code), uint(why.first), uint(why.second)}
}

// refusedBy is the same of a call that tells no numbers.
func refusedBy(code C.uint32_t) error {
	return refused(code, C.h26x_refusal{})
}
