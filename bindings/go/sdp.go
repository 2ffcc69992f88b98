package h26x

// #include <h26x.h>
import "C"

import (
	"encoding/hex"
	"errors"
	"fmt"
	"runtime"
	"strconv"
	"strings"
	"sync"
)

// FormatParameters are what an a=fmtp line says behind the payload type (RFC 6184, 8.1; RFC 7798, 7.1; RFC 9328, 7.2).
// They change by Set and Unset alone.
//
// Names are those of the codec's RFC, as "profile-level-id", without regard to case. A call that is given one answers
// ErrSDPUnknownName where the RFC has no such parameter, ErrSDPAbsent where it isn't given, and ErrClosed.
type FormatParameters struct {
	mu    sync.RWMutex
	codec Codec
	call  *format
}

// format is what C is given: it has no pointer of Go's. It is nil where the FormatParameters are closed.
type format struct {
	handle C.h26x_sdp
}

// ReadFormatParameters reads those of a text. White space round ; and = and blank parts are left out, a ; in braces
// ends nothing, and what the RFC doesn't have is kept.
//
// Its errors are ErrSDPOpenBrace; those of the first fault, of which First is the place of the parameter, from 0, blank
// parts not counted: ErrSDPNotANumber, ErrSDPOutOfRange, ErrSDPNotHexadecimal, ErrSDPNotTxMode and ErrSDPTwice; and
// ErrUnknownCodec and ErrOutOfMemory.
func ReadFormatParameters(codec Codec, text string) (*FormatParameters, error) {
	call, why, bytes := new(format), new(C.h26x_refusal), []byte(text)
	code := C.h26x_sdp_read(C.uint32_t(codec), at(bytes), C.size_t(len(bytes)), &call.handle, why)
	return call.made(refused(code, *why))
}

// FormatParametersOfPayload is what a sender says of its stream, of the bytes that it begins with (Annex B): profile,
// tier and level of the first SPS, and the sets before the first slice; of H.264 packetization-mode=1 too, as
// packetizers send.
//
// Its errors are ErrSDPNoSet, ErrSDPShortSet, ErrSDPNoProfile, ErrUnknownCodec and ErrOutOfMemory.
func FormatParametersOfPayload(codec Codec, payload []byte) (*FormatParameters, error) {
	call := new(format)
	code := C.h26x_sdp_of_payload(C.uint32_t(codec), at(payload), C.size_t(len(payload)), &call.handle)
	return call.made(refusedBy(code))
}

// made is what a call made, if it has no error.
func (call *format) made(err error) (*FormatParameters, error) {
	if err != nil {
		return nil, err
	}
	f := &FormatParameters{codec: Codec(C.h26x_sdp_codec(&call.handle)), call: call}
	runtime.SetFinalizer(f, (*FormatParameters).Close)
	return f, nil
}

// Close frees what the library holds, and answers nil. It may be called again.
func (f *FormatParameters) Close() error {
	f.mu.Lock()
	defer f.mu.Unlock()
	if f.call != nil {
		C.h26x_sdp_free(f.call.handle)
		f.call = nil
		runtime.SetFinalizer(f, nil)
	}
	return nil
}

// Codec is their codec.
func (f *FormatParameters) Codec() Codec { return f.codec }

// Answer is the answer to an offered format by one of ours. Its errors are ErrSDPNoAnswer where they have no
// configuration in common, as of two codecs, where the standard has no such profile or level, where the RFC forbids ours,
// as a max-fs below the level's, and where units may be sent in another order than decoded (packetization-mode 2,
// sprop-max-don-diff above 0); ErrOutOfMemory and ErrClosed.
//
// To answer an offer, go through its formats in their order and for each through ours in our order of preference: the
// first that is made is the answer, with the payload type of the offered format (RFC 3264, 6.1). It is for both
// directions, and for unicast (RFC 6184, 8.2.2; RFC 7798, 7.2.2; RFC 9328, 7.3.2).
func (f *FormatParameters) Answer(ours *FormatParameters) (*FormatParameters, error) {
	return f.answer(ours, func(offered, ours, made *C.h26x_sdp) C.uint32_t {
		return C.h26x_sdp_answer(offered, ours, made)
	})
}

// AnswerAnyOrder is the Answer of an end that takes units in any order: that reads STAP-B, MTAP and FU-B of H.264, which a
// Depacketizer doesn't, and puts units in order by their decoding order numbers.
func (f *FormatParameters) AnswerAnyOrder(ours *FormatParameters) (*FormatParameters, error) {
	return f.answer(ours, func(offered, ours, made *C.h26x_sdp) C.uint32_t {
		return C.h26x_sdp_answer_any_order(offered, ours, made)
	})
}

// AnswerWebRTC is the Answer as WebRTC's peers do it, of an end that takes units in decoding order or in any. H.264 without
// profile-level-id is 42e01f, and not 42000a (libwebrtc, aiortc), so that a format without any parameter is that in
// packetization-mode 0; who decodes Baseline or High takes an offer of its constrained profile, 42e01f or 640c1f, and
// answers with that, which it is to send. Of H.265 interop-constraints and profile-compatibility-indicator aren't compared
// (libwebrtc).
func (f *FormatParameters) AnswerWebRTC(ours *FormatParameters, anyOrder bool) (*FormatParameters, error) {
	return f.answer(ours, func(offered, ours, made *C.h26x_sdp) C.uint32_t {
		return C.h26x_sdp_answer_webrtc(offered, ours, C.bool(anyOrder), made)
	})
}

// AnswerOptions are how an end answers, by its bits: none is as Answer.
type AnswerOptions uint32

// The options.
const (
	// AnyOrder: it takes units in any order, as AnswerAnyOrder has it.
	AnyOrder AnswerOptions = C.H26X_SDP_ANY_ORDER
	// AsWebRTC: as WebRTC's peers do it, as AnswerWebRTC has it.
	AsWebRTC AnswerOptions = C.H26X_SDP_WEBRTC
	// SendOnly: it sends alone (a=sendonly), so that what isn't usable there, by the tables of the RFCs, is ignored and
	// not answered. With RecvOnly it is no option.
	SendOnly AnswerOptions = C.H26X_SDP_SEND_ONLY
	// RecvOnly: it receives alone (a=recvonly), likewise.
	RecvOnly AnswerOptions = C.H26X_SDP_RECV_ONLY
	// Multicast: media go by multicast, so that the offered level is kept, or there is no answer.
	Multicast AnswerOptions = C.H26X_SDP_MULTICAST
)

// AnswerWith is the Answer by options; ErrOutOfRange of a bit that none has.
func (f *FormatParameters) AnswerWith(ours *FormatParameters, options AnswerOptions) (*FormatParameters, error) {
	return f.answer(ours, func(offered, ours, made *C.h26x_sdp) C.uint32_t {
		return C.h26x_sdp_answer_with(offered, ours, C.uint32_t(options), made)
	})
}

// A RuleError is a rule that a format of one's own breaks, one from ErrSDPRuleProfile on.
type RuleError struct {
	Code Code
	// Parameter is the one that it is of; empty where it is of none.
	Parameter string
}

// Error is the rule in the library's words, with the parameter.
func (e *RuleError) Error() string {
	if e.Parameter == "" {
		return e.Code.Error()
	}
	return e.Code.Error() + " (" + e.Parameter + ")"
}

// Unwrap is the code.
func (e *RuleError) Unwrap() error { return e.Code }

// BrokenRule is the first rule that they break as a format of one's own, which then gives no answer by these options: a
// *RuleError, or nil where they break none. Its other errors are ErrOutOfRange of a bit that no option has, and ErrClosed.
func (f *FormatParameters) BrokenRule(options AnswerOptions) error {
	f.mu.RLock()
	defer f.mu.RUnlock()
	if f.call == nil {
		return ErrClosed
	}
	why := new(C.h26x_refusal)
	code := C.h26x_sdp_broken_rule(&f.call.handle, C.uint32_t(options), why)
	if code < C.H26X_SDP_RULE_PROFILE {
		return refusedBy(code)
	}
	rule := &RuleError{Code: Code(code)}
	if code == C.H26X_SDP_RULE_BELOW_LEVEL || code == C.H26X_SDP_RULE_ABOVE_LEVEL {
		name, err := written(func(to *C.uint8_t, room C.size_t, size *C.size_t) C.uint32_t {
			return C.h26x_sdp_name(&f.call.handle, why.first, to, room, size)
		})
		if err != nil {
			return err
		}
		rule.Parameter = name
	}
	return rule
}

// An AgreedSets says where the parameter sets of a stream are (RFC 6184, 8.1).
type AgreedSets uint32

// Where they are.
const (
	// SetsInBand: in the stream: who sends it sends them with its units.
	SetsInBand AgreedSets = C.H26X_SDP_SETS_IN_BAND
	// SetsTold: in the sender's format: Units has them of sprop-parameter-sets, or sprop-vps, sprop-sps and sprop-pps.
	SetsTold AgreedSets = C.H26X_SDP_SETS_TOLD
	// SetsToldOfLevel: in its sprop-level-parameter-sets: SetsOfLevel has them, of the stream's level.
	SetsToldOfLevel AgreedSets = C.H26X_SDP_SETS_TOLD_OF_LEVEL
)

// String is its name.
func (p AgreedSets) String() string {
	names := [...]string{"SetsInBand", "SetsTold", "SetsToldOfLevel"}
	if uint64(p) < uint64(len(names)) {
		return names[p]
	}
	return "AgreedSets(" + strconv.FormatUint(uint64(p), 10) + ")"
}

// An AgreedStream is a stream from one end to the other.
type AgreedStream struct {
	// Level is the highest of it: of H.264 twice level_idc, 21 for level 1b; else as level-id says it.
	Level uint64
	// Mode is packetization-mode of H.264; else 0.
	Mode uint64
	// Sets is where its parameter sets are.
	Sets AgreedSets
}

// Agreed is what an offered format and its answer agree on, of the end that wrote f, whichever of the two that is: the
// stream that it sends, and the one that it receives; nil where there is none, by its direction (SendOnly, RecvOnly among
// the options, which are those of AnswerWith) or since the formats say no level. A receiver starts with the sets of other,
// where these are told: give them to the decoder, and say HasSets.
//
// Its errors are ErrOutOfRange of a bit that no option has, ErrSDPNoAnswer of two codecs, and ErrClosed.
func (f *FormatParameters) Agreed(other *FormatParameters, options AnswerOptions) (sends, receives *AgreedStream, err error) {
	defer lockBoth(&f.mu, &other.mu)()
	if f.call == nil || other.call == nil {
		return nil, nil, ErrClosed
	}
	told := new([2]C.h26x_sdp_stream)
	code := C.h26x_sdp_agreed(&f.call.handle, &other.call.handle, C.uint32_t(options), &told[0], &told[1])
	if err := refusedBy(code); err != nil {
		return nil, nil, err
	}
	return agreedOf(&told[0]), agreedOf(&told[1]), nil
}

func agreedOf(it *C.h26x_sdp_stream) *AgreedStream {
	if !it.is_there {
		return nil
	}
	return &AgreedStream{uint64(it.level), uint64(it.mode), AgreedSets(it.sets)}
}

// AcceptsDeclared tells whether f, one of our formats, receives a declared one as it is, of a description that is no offer,
// as of RTSP and SAP (RFC 6184, 8.2.3; RFC 7798, 7.2.3; RFC 9328, 7.3.3): what a declared format says is of its stream. Not
// of two codecs. Of the options, which are those of AnswerWith, AnyOrder and AsWebRTC count.
//
// Its errors are ErrOutOfRange of a bit that no option has, and ErrClosed.
func (f *FormatParameters) AcceptsDeclared(declared *FormatParameters, options AnswerOptions) (bool, error) {
	defer lockBoth(&f.mu, &declared.mu)()
	if f.call == nil || declared.call == nil {
		return false, ErrClosed
	}
	code := C.h26x_sdp_accepts_declared(&declared.call.handle, &f.call.handle, C.uint32_t(options))
	if code == C.H26X_SDP_NO_ANSWER {
		return false, nil
	}
	return code == C.H26X_OK, refusedBy(code)
}

func (f *FormatParameters) answer(ours *FormatParameters,
	by func(offered, ours, made *C.h26x_sdp) C.uint32_t) (*FormatParameters, error) {
	defer lockBoth(&f.mu, &ours.mu)()
	if f.call == nil || ours.call == nil {
		return nil, ErrClosed
	}
	call := new(format)
	return call.made(refusedBy(by(&f.call.handle, &ours.call.handle, &call.handle)))
}

// Text is what stands behind the payload type in an a=fmtp line: the parameters of the RFC in its order, and the others
// behind. It is read as the same ones. Its errors are ErrOutOfMemory and ErrClosed.
func (f *FormatParameters) Text() (string, error) {
	f.mu.RLock()
	defer f.mu.RUnlock()
	if f.call == nil {
		return "", ErrClosed
	}
	return written(func(to *C.uint8_t, room C.size_t, size *C.size_t) C.uint32_t {
		return C.h26x_sdp_write(&f.call.handle, to, room, size)
	})
}

// String is the Text; empty where that has an error.
func (f *FormatParameters) String() string {
	text, _ := f.Text()
	return text
}

// written is the text that a call writes, which is first asked for its size.
func written(write func(to *C.uint8_t, room C.size_t, size *C.size_t) C.uint32_t) (string, error) {
	var room []byte
	size := new(C.size_t)
	code := write(nil, 0, size)
	if code == C.H26X_NO_ROOM {
		needed, err := length(*size)
		if err != nil {
			return "", err
		}
		room = make([]byte, needed)
		code = write(at(room), C.size_t(len(room)), size)
	}
	return string(room), refusedBy(code)
}

// Set gives a parameter a value, in the place of the one that it has; white space at its ends is left out. Nothing changes
// where it has an error: ErrSDPNotAValue of what would be read as more than a value, one that ReadFormatParameters has of a
// value that is none of the parameter, ErrSDPUnknownName, ErrOutOfMemory and ErrClosed.
func (f *FormatParameters) Set(name, value string) error {
	f.mu.Lock()
	defer f.mu.Unlock()
	if f.call == nil {
		return ErrClosed
	}
	named, given := []byte(name), []byte(value)
	return refusedBy(C.h26x_sdp_set(&f.call.handle, at(named), C.size_t(len(named)), at(given), C.size_t(len(given))))
}

// Unset takes a parameter's value away, if it has one. Its errors are ErrSDPUnknownName, ErrOutOfMemory and ErrClosed.
func (f *FormatParameters) Unset(name string) error {
	f.mu.Lock()
	defer f.mu.Unlock()
	if f.call == nil {
		return ErrClosed
	}
	named := []byte(name)
	return refusedBy(C.h26x_sdp_unset(&f.call.handle, at(named), C.size_t(len(named))))
}

// Value is the value of a parameter, as it came.
func (f *FormatParameters) Value(name string) (string, error) { return f.value(name, false) }

// ValueOrDefault is the same, or where it is absent what the RFC takes for it; ErrSDPAbsent where that says nothing, as
// where the level does.
func (f *FormatParameters) ValueOrDefault(name string) (string, error) { return f.value(name, true) }

func (f *FormatParameters) value(name string, orDefault bool) (string, error) {
	f.mu.RLock()
	defer f.mu.RUnlock()
	if f.call == nil {
		return "", ErrClosed
	}
	bytes := []byte(name)
	return written(func(to *C.uint8_t, room C.size_t, size *C.size_t) C.uint32_t {
		return C.h26x_sdp_value(&f.call.handle, at(bytes), C.size_t(len(bytes)), C.bool(orDefault), to, room, size)
	})
}

// Number is the number of a parameter; ErrSDPOtherKind where the RFC has none there.
func (f *FormatParameters) Number(name string) (uint64, error) { return f.number(name, false) }

// NumberOrDefault is the same, or where it is absent what the RFC takes for it; ErrSDPAbsent where that says nothing.
func (f *FormatParameters) NumberOrDefault(name string) (uint64, error) { return f.number(name, true) }

func (f *FormatParameters) number(name string, orDefault bool) (uint64, error) {
	f.mu.RLock()
	defer f.mu.RUnlock()
	if f.call == nil {
		return 0, ErrClosed
	}
	bytes, number := []byte(name), new(C.uint64_t)
	code := C.h26x_sdp_number(&f.call.handle, at(bytes), C.size_t(len(bytes)), C.bool(orDefault), number)
	return uint64(*number), refusedBy(code)
}

// Units are those of a parameter, out of base64: sprop-parameter-sets, sprop-vps and so on. Give a peer's sets to the
// decoder before the first picture, each behind 00 00 00 01.
//
// Its errors are ErrSDPOtherKind where the RFC has no units there; those of the first fault, of which First is the place
// of the unit, from 0: ErrSDPNotBase64, ErrSDPEmptyUnit, ErrSDPOtherType and ErrSDPStartCode; and ErrOutOfMemory.
func (f *FormatParameters) Units(name string) ([][]byte, error) {
	f.mu.RLock()
	defer f.mu.RUnlock()
	if f.call == nil {
		return nil, ErrClosed
	}
	bytes, count, why := []byte(name), new(C.size_t), new(C.h26x_refusal)
	code := C.h26x_sdp_units(&f.call.handle, at(bytes), C.size_t(len(bytes)), count, why)
	if err := refused(code, *why); err != nil {
		return nil, err
	}
	units := make([][]byte, 0, int(*count))
	for i := 0; i < int(*count); i++ {
		unit, err := written(func(to *C.uint8_t, room C.size_t, size *C.size_t) C.uint32_t {
			return C.h26x_sdp_unit(&f.call.handle, at(bytes), C.size_t(len(bytes)), C.size_t(i), to, room, size, nil)
		})
		if err != nil {
			return nil, err
		}
		units = append(units, []byte(unit))
	}
	return units, nil
}

// LevelSets are the parameter sets of a level of H.264 (RFC 6184, 8.1).
type LevelSets struct {
	ProfileLevelID [3]byte // profile_idc, profile_iop and level_idc, as in profile-level-id
	Sets           [][]byte
}

// LevelSets are those of sprop-level-parameter-sets, the sets of other levels: ErrSDPAbsent where it isn't given.
//
// What is no level is told with its place, as a LevelSetsError.
func (f *FormatParameters) LevelSets() ([]LevelSets, error) {
	value, err := f.Value("sprop-level-parameter-sets")
	if err != nil {
		return nil, err
	}
	texts := strings.Split(value, ":")
	var levels []LevelSets
	for ; len(texts) > 1; texts = texts[2:] {
		level, err := levelOf(texts[0], texts[1])
		if err != nil {
			return nil, &LevelSetsError{len(levels), err}
		}
		levels = append(levels, level)
	}
	if len(texts) == 1 {
		return nil, &LevelSetsError{len(levels), ErrSDPAbsent}
	}
	return levels, nil
}

// SetsOfLevel are those that sprop-level-parameter-sets of H.264 has for a level, as an AgreedStream says it: of the first
// there that is of that level; none where there is none. Give them to the decoder before the first picture, each behind
// 00 00 00 01.
//
// Its errors are a LevelSetsError of the first level that is none, which is of ErrSDPNotHexadecimal, ErrSDPNoLevelSets,
// ErrSDPNotBase64, ErrSDPEmptyUnit, ErrSDPOtherType or ErrSDPStartCode; ErrNotOfThisCodec for H.265 and H.266,
// ErrOutOfMemory and ErrClosed.
func (f *FormatParameters) SetsOfLevel(level uint64) ([][]byte, error) {
	f.mu.RLock()
	defer f.mu.RUnlock()
	if f.call == nil {
		return nil, ErrClosed
	}
	for sets, why := [][]byte(nil), new(C.h26x_refusal); ; {
		set, err := written(func(to *C.uint8_t, room C.size_t, size *C.size_t) C.uint32_t {
			i := C.size_t(len(sets))
			return C.h26x_sdp_level_unit(&f.call.handle, C.uint64_t(level), i, to, room, size, why)
		})
		switch {
		case err == nil:
			sets = append(sets, []byte(set))
		case errors.Is(err, ErrSDPAbsent):
			return sets, nil
		case errors.Is(err, ErrNotOfThisCodec), errors.Is(err, ErrOutOfMemory):
			return nil, err
		default:
			return nil, &LevelSetsError{int(why.first), err}
		}
	}
}

// levelOf is a level of its two texts, each of which is read as what it is outside.
func levelOf(id, sets string) (LevelSets, error) {
	var level LevelSets
	one, err := ReadFormatParameters(H264, "profile-level-id="+id+";sprop-parameter-sets="+sets)
	if err != nil {
		return level, err
	}
	defer one.Close()
	if _, err := hex.Decode(level.ProfileLevelID[:], []byte(id)); err != nil {
		return level, err
	}
	level.Sets, err = one.Units("sprop-parameter-sets")
	return level, err
}

// A LevelSetsError says which level, by its place from 0, of sprop-level-parameter-sets is none, and why.
type LevelSetsError struct {
	Place int
	Err   error
}

func (e *LevelSetsError) Error() string { return fmt.Sprintf("h26x: level %d: %v", e.Place, e.Err) }

// Unwrap is why.
func (e *LevelSetsError) Unwrap() error { return e.Err }

// A FormatParameter is a name and a value.
type FormatParameter struct {
	Name, Value string
}

// Others are the parameters that the RFC doesn't have, in their order. A name may be there twice. Its error is
// ErrClosed.
func (f *FormatParameters) Others() ([]FormatParameter, error) {
	f.mu.RLock()
	defer f.mu.RUnlock()
	if f.call == nil {
		return nil, ErrClosed
	}
	var others []FormatParameter
	for {
		other, code := f.call.other(len(others))
		switch code {
		case C.H26X_OK:
			others = append(others, other)
		case C.H26X_SDP_ABSENT:
			return others, nil
		default:
			return nil, refusedBy(code)
		}
	}
}

// other is one of them, which is first asked for its sizes.
func (call *format) other(i int) (FormatParameter, C.uint32_t) {
	sizes := new([2]C.size_t)
	var name, value []byte
	other := func() C.uint32_t {
		return C.h26x_sdp_other(&call.handle, C.size_t(i), at(name), C.size_t(len(name)), &sizes[0],
			at(value), C.size_t(len(value)), &sizes[1])
	}
	code := other()
	if code == C.H26X_NO_ROOM {
		ofName, ofValue, err := lengths(sizes[0], sizes[1])
		if err != nil {
			return FormatParameter{}, C.H26X_OUT_OF_MEMORY
		}
		name, value = make([]byte, ofName), make([]byte, ofValue)
		code = other()
	}
	return FormatParameter{string(name), string(value)}, code
}

// MaxDONDiff is sprop-max-don-diff of H.265 and H.266, or 0 where it is absent: packets bear decoding order numbers where
// it is over 0, which is DONL. Its errors are ErrNotOfThisCodec for H.264 and ErrClosed.
func (f *FormatParameters) MaxDONDiff() (uint32, error) {
	f.mu.RLock()
	defer f.mu.RUnlock()
	if f.call == nil {
		return 0, ErrClosed
	}
	most := new(C.uint32_t)
	code := C.h26x_sdp_max_don_diff(&f.call.handle, most)
	return uint32(*most), refusedBy(code)
}

// Constraints are what interop-constraints says (RFC 7798, 7.1; RFC 9328, 7.2).
type Constraints struct {
	// Flags are the 48 of H.265, behind the compatibility flags, the first the highest bit; of H.266 0.
	Flags uint64
	// Bytes are six of H.265; of H.266 one, or from 11 to 43.
	Bytes []byte
	// FrameOnly: each picture is a frame (general_ or ptl_frame_only_constraint_flag).
	FrameOnly bool
	// Multilayer: there may be several layers (ptl_multilayer_enabled_flag; H.266).
	Multilayer bool
	// General: general constraints are among them (gci_present_flag; H.266).
	General bool
}

// mostConstraints is how many bytes they are at most: 89 bits and 255 additional ones (Rec. ITU-T H.266, 7.3.3.2).
const mostConstraints = 43

// InteropConstraints are the Constraints of H.265 or H.266, or where they are absent what the RFC takes for them.
//
// Its errors are ErrSDPConstraintsNotBase64, ErrSDPShortConstraints and ErrSDPLongConstraints, of H.266;
// ErrNotOfThisCodec for H.264, ErrOutOfMemory and ErrClosed.
func (f *FormatParameters) InteropConstraints() (Constraints, error) {
	f.mu.RLock()
	defer f.mu.RUnlock()
	if f.call == nil {
		return Constraints{}, ErrClosed
	}
	room, said := make([]byte, mostConstraints), new(C.h26x_constraints)
	if err := refusedBy(C.h26x_sdp_constraints(&f.call.handle, at(room), C.size_t(len(room)), said)); err != nil {
		return Constraints{}, err
	}
	return Constraints{
		Flags:      uint64(said.flags),
		Bytes:      room[:said.len],
		FrameOnly:  bool(said.frame_only),
		Multilayer: bool(said.multilayer),
		General:    bool(said.general),
	}, nil
}

// A ParallelTool is how pictures are coded for parallel decoding.
type ParallelTool uint8

// The tools.
const (
	// NoWavefronts: by tiles or slices (t).
	NoWavefronts ParallelTool = C.H26X_NO_WAVEFRONTS
	// Wavefronts: by wavefronts (w).
	Wavefronts ParallelTool = C.H26X_WAVEFRONTS
)

// A CapabilityPoint is what a decoder of H.265 can do where a stream is coded for parallel decoding, beyond what it can
// do with any (RFC 7798, 7.1).
type CapabilityPoint struct {
	// Tool is the one that the stream uses.
	Tool ParallelTool
	// SpatialSegmentation is the least min_spatial_segmentation_idc of the stream, from 1 to 4095.
	SpatialSegmentation uint64
	// TierFlag is 0 for the Main tier, 1 for High; LevelID the highest level, as in level-id; MaxLSR the most luma
	// samples in a second, MaxLPS those of a picture, MaxBR the highest bit rate, in units of CpbBrVclFactor or
	// CpbBrNalFactor bits a second.
	TierFlag, LevelID, MaxLSR, MaxLPS, MaxBR Limit
}

// A Limit is a number of a capability point, if it is there.
type Limit struct {
	Number  uint64
	IsThere bool
}

// CapabilityPoints are those of dec-parallel-cap of H.265, as they came; ErrSDPAbsent where it isn't given.
//
// Its errors are those of the first fault, of which First is the place of the point, from 0: ErrSDPNoBraces,
// ErrSDPNoTool, ErrSDPSegmentation, ErrSDPLimits and ErrSDPNoLimit; Second of ErrSDPSegmentation and ErrSDPLimits is
// what is wrong there, as a Code from ErrSDPOpenBrace to ErrSDPTwice. And ErrNotOfThisCodec for H.264 and H.266,
// ErrOutOfMemory and ErrClosed.
func (f *FormatParameters) CapabilityPoints() ([]CapabilityPoint, error) { return f.points(false) }

// CapabilityPointsOrDefault are the same, where a limit that a point leaves out is what is said outside: tier-flag,
// max-recv-level-id, or where that is absent level-id, max-lsr, max-lps and max-br.
func (f *FormatParameters) CapabilityPointsOrDefault() ([]CapabilityPoint, error) {
	return f.points(true)
}

func (f *FormatParameters) points(orDefault bool) ([]CapabilityPoint, error) {
	f.mu.RLock()
	defer f.mu.RUnlock()
	if f.call == nil {
		return nil, ErrClosed
	}
	room, count, why := make([]C.h26x_capability_point, 4), new(C.size_t), new(C.h26x_refusal)
	for {
		code := C.h26x_sdp_capability_points(&f.call.handle, C.bool(orDefault), &room[0], C.size_t(len(room)), count,
			why)
		if err := refused(code, *why); err != nil {
			return nil, err
		}
		if int(*count) <= len(room) {
			break
		}
		room = make([]C.h26x_capability_point, int(*count))
	}
	points := make([]CapabilityPoint, int(*count))
	for i := range points {
		points[i] = pointOf(&room[i])
	}
	return points, nil
}

func pointOf(it *C.h26x_capability_point) CapabilityPoint {
	limit := func(number C.uint64_t, isThere C.uint8_t) Limit { return Limit{uint64(number), isThere != 0} }
	return CapabilityPoint{
		Tool:                ParallelTool(it.tool),
		SpatialSegmentation: uint64(it.spatial_segmentation),
		TierFlag:            limit(it.tier_flag, it.has_tier_flag),
		LevelID:             limit(it.level_id, it.has_level_id),
		MaxLSR:              limit(it.max_lsr, it.has_max_lsr),
		MaxLPS:              limit(it.max_lps, it.has_max_lps),
		MaxBR:               limit(it.max_br, it.has_max_br),
	}
}

// An RTPMap is a payload type, below 128, and its codec, with a clock rate of 90000 (RFC 8866, 6.6).
type RTPMap struct {
	PayloadType uint8
	Codec       Codec
}

// ReadRTPMap reads what stands behind "a=rtpmap:", as "96 H264/90000". Its errors are by the first that is wrong
// ErrSDPPayloadType, ErrSDPEncodingName, as of a line of another codec, and ErrSDPClockRate.
func ReadRTPMap(text string) (RTPMap, error) {
	bytes, payloadType, codec := []byte(text), new(C.uint8_t), new(C.uint32_t)
	code := C.h26x_rtpmap_read(at(bytes), C.size_t(len(bytes)), payloadType, codec)
	return RTPMap{uint8(*payloadType), Codec(*codec)}, refusedBy(code)
}

// Text is what stands behind "a=rtpmap:". Its errors are ErrSDPPayloadType where that is over 127, ErrUnknownCodec and
// ErrOutOfMemory.
func (m RTPMap) Text() (string, error) {
	return written(func(to *C.uint8_t, room C.size_t, size *C.size_t) C.uint32_t {
		return C.h26x_rtpmap_write(C.uint8_t(m.PayloadType), C.uint32_t(m.Codec), to, room, size)
	})
}

// String is the Text; empty where that has an error.
func (m RTPMap) String() string {
	text, _ := m.Text()
	return text
}

// FitsSingleUnits tells whether a payload of H.264 can be sent where packetization-mode is 0, in packets of so many
// bytes: each of its units fits a packet of its own (RFC 6184, 5.6 and 6.2). There, give an SPS and a PPS to
// PacketizeUnit, since Packetize puts both into one packet.
func FitsSingleUnits(payload []byte, limit uint) bool {
	return bool(C.h26x_fits_single_units(at(payload), C.size_t(len(payload)), C.size_t(limit)))
}
