package h26x

// #include <h26x.h>
import "C"

import (
	"runtime"
	"strconv"
	"sync"
)

// RTPPayloadTypes are the payload types of one stream, as a session description tells them. What is 0 isn't known, but
// for Media. None may be one from 64 to 95, which are taken for RTCP (RFC 5761, 4), and one above 127 no packet has.
type RTPPayloadTypes struct {
	// Media is that of the codec.
	Media uint8
	// RTX is that of retransmissions whose apt is Media (RFC 4588, 8.1).
	RTX uint8
	// RED is that of redundant payloads, and RTXOfRED of retransmissions of these, as Chromium has it.
	RED, RTXOfRED uint8
	// FEC is that of forward error correction, by itself or in RED (RFC 5109, 14).
	FEC uint8
}

func (t RTPPayloadTypes) given() *C.h26x_rtp_payload_types {
	return &C.h26x_rtp_payload_types{
		media:          C.uint8_t(t.Media),
		rtx:            C.uint8_t(t.RTX),
		red:            C.uint8_t(t.RED),
		rtx_of_red:     C.uint8_t(t.RTXOfRED),
		fec:            C.uint8_t(t.FEC),
		has_rtx:        C.bool(t.RTX != 0),
		has_red:        C.bool(t.RED != 0),
		has_rtx_of_red: C.bool(t.RTXOfRED != 0),
		has_fec:        C.bool(t.FEC != 0),
	}
}

// RTPSources are the sources of one stream, by their SSRCs (RFC 3550, 8).
type RTPSources struct {
	// Media is that of its packets, where HasMedia; else that of the first packet of the codec or of RED is followed.
	Media uint32
	// RTX is that of its retransmissions, where HasRTX, as ssrc-group:FID tells it (RFC 5576, 4.2); else it is that of the
	// first retransmission that bears a missing number (RFC 4588, 5.3). Tell it where several streams of a session may miss
	// the same number at a time, as of simulcast.
	RTX              uint32
	HasMedia, HasRTX bool
}

// An RTPBecame is what became of a datagram that was given to an RTPReceiver.
type RTPBecame uint32

// What becomes of a datagram. All but RTPTaken change nothing.
const (
	// RTPTaken: it brought a packet of the stream.
	RTPTaken RTPBecame = C.H26X_RTP_TAKEN
	// RTPIsRTCP: it is RTCP (RFC 5761), which RTCPPackets parts.
	RTPIsRTCP RTPBecame = C.H26X_RTP_RTCP
	// RTPProbe: it is a retransmission of no packet.
	RTPProbe RTPBecame = C.H26X_RTP_PROBE
	// RTPNewSource: it is of the codec or RED, and from another source: another stream, or this one with a new SSRC, which
	// Follow takes.
	RTPNewSource RTPBecame = C.H26X_RTP_NEW_SOURCE
	// RTPOtherSource: it is any other packet from another source, as a retransmission of another stream.
	RTPOtherSource RTPBecame = C.H26X_RTP_OTHER_SOURCE
)

// String is its name.
func (b RTPBecame) String() string {
	names := [...]string{"RTPTaken", "RTPIsRTCP", "RTPProbe", "RTPNewSource", "RTPOtherSource"}
	if uint64(b) < uint64(len(names)) {
		return names[b]
	}
	return "RTPBecame(" + strconv.FormatUint(uint64(b), 10) + ")"
}

// A NoMedia is why a packet of the stream bears nothing of the codec; its number isn't missing all the same.
type NoMedia uint32

// Why a packet bears nothing.
const (
	// BearsMedia: it bears a payload of the codec.
	BearsMedia NoMedia = C.H26X_RTP_MEDIA
	// PaddingAlone: it has no payload (RFC 3550, 5.1).
	PaddingAlone NoMedia = C.H26X_RTP_PADDING_ALONE
	// BearsFEC: it bears FEC (RFC 5109), which isn't decoded.
	BearsFEC NoMedia = C.H26X_RTP_FEC
	// OtherPayloadType: it, or its primary block, has another payload type.
	OtherPayloadType NoMedia = C.H26X_RTP_OTHER_TYPE
)

// String is its name.
func (n NoMedia) String() string {
	names := [...]string{"BearsMedia", "PaddingAlone", "BearsFEC", "OtherPayloadType"}
	if uint64(n) < uint64(len(names)) {
		return names[n]
	}
	return "NoMedia(" + strconv.FormatUint(uint64(n), 10) + ")"
}

// An RTPTold is what is told of a datagram. What it doesn't say of Became is 0.
type RTPTold struct {
	Became RTPBecame
	// SSRC is, of RTPNewSource and RTPOtherSource, the other source.
	SSRC uint32
	// Sequence is, of RTPTaken, its number in the stream: of a retransmission that of the original.
	Sequence uint16
	// IsRecovered: it came as a retransmission.
	IsRecovered bool
	// NoMedia is, of RTPTaken, whether and why it bears nothing, and PayloadType, of OtherPayloadType, which it has.
	NoMedia     NoMedia
	PayloadType uint8
	// Pushed is, of RTPTaken, what became of its packet, of a retransmission of one that came Twice or PushedLate; and
	// Behind how far it is behind the one that is due, where it is late.
	Pushed Pushed
	Behind uint16
}

// An RTPReceiver takes the datagrams of one stream as a socket brings them, and gives out access units: it reads RTP's
// header, undoes retransmissions (RTX; RFC 4588) and redundant payloads (RED; RFC 2198), puts packets in order as an
// AccessUnitReceiver does, and tells what to ask the sender for (RFC 4585) and what to report (RFC 3550). SRTP is the
// caller's to undo before.
//
// `now` is as an AccessUnitReceiver has it. Push what comes; take access units until there is none; and do so again at
// the Deadline.
type RTPReceiver struct {
	mu    sync.RWMutex
	codec Codec
	call  *receivingDatagrams
}

// receivingDatagrams is what C is given: it has no pointer of Go's. It is nil where the RTPReceiver is closed.
type receivingDatagrams struct {
	handle C.h26x_rtp_receiver
	told   C.h26x_rtp_told
	unit   C.h26x_access_unit
	soFar  C.h26x_so_far
}

// NewRTPReceiver makes a receiver that follows the SSRC of the first packet of the codec or of RED. Its errors are those
// of NewAccessUnitReceiver.
func NewRTPReceiver(codec Codec, types RTPPayloadTypes, config AccessUnitConfig) (*RTPReceiver, error) {
	call, settings := new(receivingDatagrams), config.settings(codec)
	if err := refusedBy(C.h26x_rtp_receiver_new(&settings, types.given(), &call.handle)); err != nil {
		return nil, err
	}
	r := &RTPReceiver{codec: codec, call: call}
	runtime.SetFinalizer(r, (*RTPReceiver).Close)
	return r, nil
}

// Close frees what the library holds, and answers nil. It may be called again.
func (r *RTPReceiver) Close() error {
	r.mu.Lock()
	defer r.mu.Unlock()
	if r.call != nil {
		C.h26x_rtp_receiver_free(r.call.handle)
		r.call = nil
		runtime.SetFinalizer(r, nil)
	}
	return nil
}

// Codec is its codec.
func (r *RTPReceiver) Codec() Codec { return r.codec }

// SetConfig gives it other settings from now on, as that of an AccessUnitReceiver.
func (r *RTPReceiver) SetConfig(config AccessUnitConfig) error {
	settings := config.settings(r.codec)
	return r.do(func(call *receivingDatagrams) C.uint32_t {
		return C.h26x_rtp_receiver_set_config(&call.handle, &settings)
	})
}

// Follow follows these sources from now on, as those of a session description, or of a new SSRC: all that waits or is
// open is dropped, any number is the next, and statistics begin anew. What was counted stays. Its error is ErrClosed.
func (r *RTPReceiver) Follow(sources RTPSources) error {
	given := C.h26x_rtp_sources{
		media:     C.uint32_t(sources.Media),
		rtx:       C.uint32_t(sources.RTX),
		has_media: C.bool(sources.HasMedia),
		has_rtx:   C.bool(sources.HasRTX),
	}
	return r.do(func(call *receivingDatagrams) C.uint32_t {
		return C.h26x_rtp_receiver_follow(&call.handle, &given)
	})
}

// do makes a call that changes the receiver.
func (r *RTPReceiver) do(change func(*receivingDatagrams) C.uint32_t) error {
	r.mu.Lock()
	defer r.mu.Unlock()
	if r.call == nil {
		return ErrClosed
	}
	return refusedBy(change(r.call))
}

// look makes a call that changes nothing.
func (r *RTPReceiver) look(look func(*receivingDatagrams) C.uint32_t) error {
	r.mu.RLock()
	defer r.mu.RUnlock()
	if r.call == nil {
		return ErrClosed
	}
	return refusedBy(look(r.call))
}

// Sources are the sources that are followed, as far as they are known. Its error is ErrClosed.
func (r *RTPReceiver) Sources() (RTPSources, error) {
	told := new(C.h26x_rtp_sources)
	err := r.look(func(call *receivingDatagrams) C.uint32_t {
		return C.h26x_rtp_receiver_sources(&call.handle, told)
	})
	return RTPSources{uint32(told.media), uint32(told.rtx), bool(told.has_media), bool(told.has_rtx)}, err
}

// Push takes a datagram that came at this tick: RTX and RED are undone, and the packet of the stream goes where
// AccessUnitReceiver.Push has it. arrival is the same time in ticks of the timestamps' clock, of 90000 in a second, which
// goes round at 2^32, for the jitter that is reported. Then call Next until it has none: so none is Full, which is to be
// given again, and counts as received each time.
//
// Its errors are those of ReadRTP of what is no RTP packet, and those of REDPrimary of what has no redundant payload where
// it should: a stranger's bytes, which are passed over; the latter's number stays missing. ErrOutOfMemory: the datagram
// can be given again. ErrClosed. All these change nothing.
func (r *RTPReceiver) Push(now, arrival uint32, datagram []byte) (RTPTold, error) {
	r.mu.Lock()
	defer r.mu.Unlock()
	call := r.call
	if call == nil {
		return RTPTold{}, ErrClosed
	}
	code := C.h26x_rtp_receiver_push(&call.handle, C.uint32_t(now), C.uint32_t(arrival), at(datagram),
		C.size_t(len(datagram)), &call.told)
	if code != C.H26X_OK {
		return RTPTold{}, refusedBy(code)
	}
	return RTPTold{
		Became:      RTPBecame(call.told.became),
		SSRC:        uint32(call.told.ssrc),
		Sequence:    uint16(call.told.sequence),
		IsRecovered: bool(call.told.is_recovered),
		NoMedia:     NoMedia(call.told.no_media),
		PayloadType: uint8(call.told.payload_type),
		Pushed:      Pushed(call.told.pushed),
		Behind:      uint16(call.told.behind),
	}, nil
}

// Next is the next access unit, if one has ended at this tick, as of an AccessUnitReceiver.
func (r *RTPReceiver) Next(now uint32) (*AccessUnit, error) {
	unit := new(AccessUnit)
	if ended, err := r.NextInto(now, unit); !ended {
		return nil, err
	}
	return unit, nil
}

// NextInto writes the next access unit to unit, as that of an AccessUnitReceiver.
func (r *RTPReceiver) NextInto(now uint32, unit *AccessUnit) (bool, error) {
	r.mu.Lock()
	defer r.mu.Unlock()
	call := r.call
	if call == nil {
		return false, ErrClosed
	}
	return nextUnit(unit, &call.unit, func(room []byte) C.uint32_t {
		return C.h26x_rtp_receiver_next(&call.handle, C.uint32_t(now), at(room), C.size_t(len(room)), &call.unit)
	})
}

// UnitsSoFar is the NAL units that came whole so far of the access unit that is open, from a byte on, as that of an
// AccessUnitReceiver.
func (r *RTPReceiver) UnitsSoFar(from int) (*UnitsSoFar, error) {
	r.mu.Lock()
	defer r.mu.Unlock()
	call := r.call
	if call == nil {
		return nil, ErrClosed
	}
	return unitsSoFar(&call.soFar, func(room []byte) C.bool {
		return C.h26x_rtp_receiver_so_far(&call.handle, C.size_t(larger(from, 0)), at(room), C.size_t(len(room)),
			&call.soFar)
	})
}

// Deadline is the tick at which to call Next at the latest, as that of an AccessUnitReceiver.
func (r *RTPReceiver) Deadline() (tick uint32, ok bool) {
	r.mu.RLock()
	defer r.mu.RUnlock()
	if r.call == nil {
		return 0, false
	}
	told := new(C.uint32_t)
	ok = bool(C.h26x_rtp_receiver_deadline(&r.call.handle, told))
	return uint32(*told), ok
}

// Nacks is the numbers that are missing and are to be asked for at this tick, in order, up to room of them, as those of an
// AccessUnitReceiver: NACK.Append makes a packet of them, of the SSRC that Sources tells. Its errors are ErrOutOfMemory
// and ErrClosed, and nothing counts as asked for then.
func (r *RTPReceiver) Nacks(now uint32, times NackTimes, room int) ([]uint16, error) {
	numbers, count := make([]uint16, within(room, 65536)), new(C.size_t)
	err := r.do(func(call *receivingDatagrams) C.uint32_t {
		return C.h26x_rtp_receiver_nacks(&call.handle, C.uint32_t(now), times.given(), numbersAt(numbers),
			C.size_t(len(numbers)), count)
	})
	if err != nil || *count == 0 {
		return nil, err
	}
	return numbers[:int(*count)], nil
}

// within is a number, but none below 0 nor above the largest.
func within(number, largest int) int {
	if number > largest {
		return largest
	}
	return larger(number, 0)
}

// KeyframeWanted tells whether to ask for a keyframe at this tick ([PictureLoss] or [FullIntraRequest]), which then counts
// as asked for: by the access units that ended no decoder can go on, and none was asked for in the last again ticks, in
// which it may be on its way: a round trip and a keyframe at least. Never before an access unit ended, nor behind Close.
func (r *RTPReceiver) KeyframeWanted(now, again uint32) bool {
	r.mu.Lock()
	defer r.mu.Unlock()
	if r.call == nil {
		return false
	}
	return bool(C.h26x_rtp_receiver_keyframe_wanted(&r.call.handle, C.uint32_t(now), C.uint32_t(again)))
}

// Statistics are what is counted of the packets of the SSRC that is followed (RFC 3550, 6.4.1): those that came by it as
// received, and retransmissions that are kept as recovered. Its error is ErrClosed.
func (r *RTPReceiver) Statistics() (RTPStatistics, error) {
	counted := new(RTPStatistics)
	err := r.look(func(call *receivingDatagrams) C.uint32_t {
		return C.h26x_rtp_receiver_statistics(&call.handle, &counted.counted)
	})
	return *counted, err
}

// Report is what is reported of the SSRC that is followed, as that of RTPStatistics, and whether this is known. Behind
// Close it isn't.
func (r *RTPReceiver) Report(lastSenderReport, delay uint32) (ReportBlock, bool) {
	r.mu.Lock()
	defer r.mu.Unlock()
	if r.call == nil {
		return ReportBlock{}, false
	}
	block := new(C.h26x_report)
	is := bool(C.h26x_rtp_receiver_report(&r.call.handle, C.uint32_t(lastSenderReport), C.uint32_t(delay), block))
	return blockOf(block), is
}

// Finish is for the end of a stream, as that of an AccessUnitReceiver.
func (r *RTPReceiver) Finish() error {
	return r.do(func(call *receivingDatagrams) C.uint32_t {
		return C.h26x_rtp_receiver_finish(&call.handle)
	})
}

// Counts is what was counted, as of an AccessUnitReceiver. Its error is ErrClosed.
func (r *RTPReceiver) Counts() (Counts, error) {
	told := new(C.h26x_access_units_counts)
	err := r.look(func(call *receivingDatagrams) C.uint32_t {
		return C.h26x_rtp_receiver_count(&call.handle, told)
	})
	return countsOf(told), err
}
