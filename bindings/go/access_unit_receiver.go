package h26x

// #include <h26x.h>
import "C"

import (
	"math"
	"runtime"
	"strconv"
	"sync"
	"unsafe"
)

// An RTPPacket is what a packet's header says of it, and its payload (RFC 3550, 5.1). Of Pion's rtp.Packet these are
// SequenceNumber, Timestamp, Marker and Payload.
type RTPPacket struct {
	Sequence  uint16
	Timestamp uint32
	Marker    bool
	Payload   []byte
}

// A Pushed is what became of a packet that was given to an AccessUnitReceiver.
type Pushed uint32

// What becomes of a packet.
const (
	// Held: it waits for those before it, or to be taken, or was taken.
	Held Pushed = C.H26X_HELD
	// PushedLate: dropped: it came after its place was passed.
	PushedLate Pushed = C.H26X_PUSHED_LATE
	// Twice: dropped: a packet with its number waits, or was taken and is among the last 1024.
	Twice Pushed = C.H26X_TWICE
	// Full: dropped: more bytes wait than the limit. Take access units, and give it again.
	Full Pushed = C.H26X_FULL
	// Stray: its number is too far from the one that is due, or more than a window, and than 100, ahead of those
	// that wait: it waits alone, in the place of another such packet.
	Stray Pushed = C.H26X_STRAY
	// Anew: it follows the one that waited alone: the stream begins anew, and what waited of the old numbers is
	// dropped.
	Anew Pushed = C.H26X_ANEW
	// Jumped: it is so far ahead, and no more than a window, or 100, from the one that waited alone: both wait.
	Jumped Pushed = C.H26X_JUMPED
)

// String is its name.
func (p Pushed) String() string {
	switch p {
	case Held:
		return "Held"
	case PushedLate:
		return "PushedLate"
	case Twice:
		return "Twice"
	case Full:
		return "Full"
	case Stray:
		return "Stray"
	case Anew:
		return "Anew"
	case Jumped:
		return "Jumped"
	default:
		return "Pushed(" + strconv.FormatUint(uint64(p), 10) + ")"
	}
}

// An AccessUnitConfig is a caller's settings of an AccessUnitReceiver. What is 0 is as it says there; so a negative
// number is how a 0 is asked for.
type AccessUnitConfig struct {
	// Window: a missing packet is waited for until one came so many places, less one, ahead of it, up to 16384.
	// 0: 512.
	Window int
	// Far: a number so far or farther ahead of the newest that waits (where none waits, of the one that is due), and
	// FarBehind behind the one that is due, waits alone until the next such number follows it, and then the stream begins
	// anew with both, whatever HeldLimit is (RFC 3550, A.1). 0: 3000; negative: none is too far, and one behind is late.
	Far int
	// FarBehind: how far behind the one that is due such a number is at least, but for the last 1024 that the stream
	// passed, which are late or twice. 0: 100; negative: as Far.
	FarBehind int
	// MaxWait: a missing packet is waited for so many ticks at most after one behind it came. 0, or 2^32 - 1 and more:
	// by the window alone; negative: not at all.
	MaxWait int
	// BeginWait: a packet that begins the stream, the first of all and that behind Finish, Restart or Anew, waits for those
	// before it for so many ticks at most, and no longer than MaxWait and Window have it. 0 or negative: it doesn't wait,
	// and those before it are late once Next was called; 2^32 - 1 and more: as long as these have it.
	BeginWait int
	// HeldLimit is how many bytes of payloads may wait; past that none is waited for. 0: 8,000,000.
	HeldLimit int
	// RunLimit is how many bytes of data an open unit may hold from a packet to the next. 0: 4,000,000.
	RunLimit int
	// UnitLimit is how many bytes an open access unit may hold from a packet to the next. 0: 8,000,000.
	UnitLimit int
	// DONL: packets bear decoding order numbers (H.265 and H.266).
	DONL bool
	// AVC: units are written behind lengths of four bytes, else behind 00 00 00 01.
	AVC bool
	// HasSets: the decoder has the parameter sets, as from the sprop-* of a session description, so that it can begin with
	// a keyframe that bears none.
	HasSets bool
}

// An AccessUnit is an access unit, and what is told of it.
type AccessUnit struct {
	// Timestamp is that of its packets.
	Timestamp uint32
	// Bytes is its units, each behind 00 00 00 01 or behind its length: none of which a packet is missing.
	Bytes []byte
	Extra CodecExtra
	// IsWhole: it is known that nothing of it is missing: its first packet follows the one before, or it begins with a
	// delimiter, or is the first one and begins with its parameter sets.
	IsWhole bool
	// IsClean: a decoder can show it. Nothing of it is missing, nor was since a keyframe that came from its first slice on
	// with its parameter sets, in it or before it in order, or it is one. Disposable pictures may be missing in part, and
	// packets that by frame numbers of H.264 bore no reference picture. Where it is false ask the sender for a keyframe.
	IsClean bool
	// IsDisposable: no other picture refers to its own: those after it can be clean where it is damaged.
	IsDisposable bool
	// Continues: a marker ended one of its timestamp right before it, with which it goes on, as where a peer sets the
	// marker on each slice.
	Continues bool
	// First and Last are the numbers of the first packet that came of it and of the last.
	First, Last uint16
	// Missing is how many numbers are missing between the access unit before and its end.
	Missing uint32
}

// Counts are what an AccessUnitReceiver has counted since it was made. Each stays at 2^64 - 1.
type Counts struct {
	// Taken: packets that were taken, and not refused.
	Taken uint64
	// Lost: numbers that are missing before packets taken, or numbers skipped or refused, and these.
	Lost uint64
	// Late: packets that came after their place was passed.
	Late uint64
	// Twice: packets that came while one with their number waited, or after it was taken.
	Twice uint64
	// Stray: packets that waited alone, those with which the stream began anew or jumped too.
	Stray uint64
	// Refused: packets that were refused for what they are, but for those of NoUnit.
	Refused uint64
	// Skipped: numbers that came and bear nothing.
	Skipped uint64
	// Anew: how often the stream began anew.
	Anew uint64
	// Units: access units that were given out.
	Units uint64
	// Whole: those of them that are known to be whole.
	Whole uint64
	// UnitsGivenUp: NAL units that were longer than the run's limit.
	UnitsGivenUp uint64
	// TextsGivenUp: texts of open access units that were longer than their limit.
	TextsGivenUp uint64
	// NoUnit: packets refused that bear nothing to be written, so that nothing is lost by them: a STAP-B, MTAP, FU-B or
	// PACSI, and an end of sequence or bitstream of two bytes.
	NoUnit uint64
	// Still: access units that began, by their units, at the timestamp of the one before.
	Still uint64
	// Unbelieved: markers that weren't believed: no slice of their access unit had come, or the sender marks each slice.
	Unbelieved uint64
}

// An AccessUnitReceiver takes packets as a network brings them, some lost, some twice and in any order, and gives out
// access units.
//
// `now` is the caller's clock, in ticks of his own, which goes round at 2^32 and never goes back. Push what comes; take
// access units until there is none; and do so again at the Deadline.
type AccessUnitReceiver struct {
	mu    sync.RWMutex
	codec Codec
	call  *receivingUnits
	// Memory for calls of many packets, which is kept.
	payloads []C.h26x_rtp_payload
	told     []C.h26x_push_told
}

// receivingUnits is what C is given: it has no pointer of Go's. It is nil where the AccessUnitReceiver is closed.
type receivingUnits struct {
	handle C.h26x_access_units
	pushed C.uint32_t
	behind C.uint16_t
	taken  C.size_t
	unit   C.h26x_access_unit
	soFar  C.h26x_so_far
}

// NewAccessUnitReceiver makes a receiver that takes any sequence number as the first. Its errors are ErrUnknownCodec,
// ErrNotOfThisCodec where DONL is set for H.264, ErrOutOfRange where the window is negative or over 16384, and
// ErrOutOfMemory.
func NewAccessUnitReceiver(codec Codec, config AccessUnitConfig) (*AccessUnitReceiver, error) {
	call, settings := new(receivingUnits), config.settings(codec)
	if err := refusedBy(C.h26x_access_units_new(&settings, &call.handle)); err != nil {
		return nil, err
	}
	r := &AccessUnitReceiver{codec: codec, call: call}
	runtime.SetFinalizer(r, (*AccessUnitReceiver).Close)
	return r, nil
}

func (c AccessUnitConfig) settings(codec Codec) C.h26x_access_units_config {
	return C.h26x_access_units_config{
		codec:      C.uint32_t(codec),
		max_wait:   C.uint32_t(setting(c.MaxWait, math.MaxUint32, math.MaxUint32)),
		begin_wait: C.uint32_t(setting(c.BeginWait, 0, math.MaxUint32)),
		window:     C.uint16_t(setting(c.Window, 512, math.MaxUint16)),
		far_away:   C.uint16_t(setting(c.Far, 3000, math.MaxUint16)),
		far_behind: C.uint16_t(setting(c.FarBehind, 100, math.MaxUint16)),
		numbers:    C.bool(c.DONL),
		avc:        C.bool(c.AVC),
		has_sets:   C.bool(c.HasSets),
		held_limit: C.size_t(setting(c.HeldLimit, 8_000_000, math.MaxInt)),
		run_limit:  C.size_t(setting(c.RunLimit, 4_000_000, math.MaxInt)),
		unit_limit: C.size_t(setting(c.UnitLimit, 8_000_000, math.MaxInt)),
	}
}

// setting is the number, up to the largest; 0 where it is negative, and another one where it is 0.
func setting(number int, other, largest int64) int64 {
	switch {
	case number == 0:
		return other
	case number < 0:
		return 0
	case int64(number) > largest:
		return largest
	default:
		return int64(number)
	}
}

// Close frees what the library holds, and answers nil. It may be called again.
func (r *AccessUnitReceiver) Close() error {
	r.mu.Lock()
	defer r.mu.Unlock()
	if r.call != nil {
		C.h26x_access_units_free(r.call.handle)
		r.call = nil
		runtime.SetFinalizer(r, nil)
	}
	return nil
}

// Codec is its codec.
func (r *AccessUnitReceiver) Codec() Codec { return r.codec }

// SetConfig gives it other settings from now on, for what waits and is open too, but for DONL and AVC, which stay. Its
// errors are ErrOutOfRange where the window is negative or over 16384, and ErrClosed; both change nothing.
func (r *AccessUnitReceiver) SetConfig(config AccessUnitConfig) error {
	r.mu.Lock()
	defer r.mu.Unlock()
	if r.call == nil {
		return ErrClosed
	}
	settings := config.settings(r.codec)
	return refusedBy(C.h26x_access_units_set_config(&r.call.handle, &settings))
}

// Push takes a packet that came at this tick, and copies it where it waits. It answers what became of it, and where it
// is late how far it is behind the one that is due. One without a payload came and bears nothing, as Skip has it. Then
// call Next until it has none.
//
// Its errors are ErrOutOfMemory, which changes nothing, so that the packet can be given again, and ErrClosed.
func (r *AccessUnitReceiver) Push(now uint32, packet RTPPacket) (pushed Pushed, behind uint16, err error) {
	r.mu.Lock()
	defer r.mu.Unlock()
	call := r.call
	if call == nil {
		return 0, 0, ErrClosed
	}
	code := C.h26x_access_units_push(&call.handle, C.uint32_t(now), C.uint16_t(packet.Sequence),
		C.uint32_t(packet.Timestamp), C.bool(packet.Marker), at(packet.Payload), C.size_t(len(packet.Payload)),
		&call.pushed, &call.behind)
	return call.became(code)
}

// Skip passes over a number that came and bears nothing of the stream, as that of padding alone, of forward error
// correction or of another payload type: so it isn't missing. What it answers is that of Push.
func (r *AccessUnitReceiver) Skip(now uint32, sequence uint16) (pushed Pushed, behind uint16, err error) {
	r.mu.Lock()
	defer r.mu.Unlock()
	call := r.call
	if call == nil {
		return 0, 0, ErrClosed
	}
	code := C.h26x_access_units_skip(&call.handle, C.uint32_t(now), C.uint16_t(sequence), &call.pushed, &call.behind)
	return call.became(code)
}

// became is what a call told of a packet.
func (call *receivingUnits) became(code C.uint32_t) (Pushed, uint16, error) {
	if code != C.H26X_OK {
		return 0, 0, refusedBy(code)
	}
	return Pushed(call.pushed), uint16(call.behind), nil
}

// Next is the next access unit, if one has ended at this tick, in memory that is the caller's; else nil. Call it until
// there is none. Packets that are refused are passed over, and counted. One without bytes isn't given out: what is missing
// of it is told with the next one.
//
// Its errors are ErrOutOfMemory, of which nothing is lost, so that the call can be made again, and ErrClosed.
func (r *AccessUnitReceiver) Next(now uint32) (*AccessUnit, error) {
	unit := new(AccessUnit)
	if ended, err := r.NextInto(now, unit); !ended {
		return nil, err
	}
	return unit, nil
}

// NextInto writes the next access unit, if one has ended at this tick, to unit, whose Bytes' memory it uses again
// where there is room in that, and answers whether one had; else unit stays. What stands at Next holds here too.
func (r *AccessUnitReceiver) NextInto(now uint32, unit *AccessUnit) (bool, error) {
	r.mu.Lock()
	defer r.mu.Unlock()
	call := r.call
	if call == nil {
		return false, ErrClosed
	}
	return nextUnit(unit, &call.unit, func(room []byte) C.uint32_t {
		return C.h26x_access_units_next(&call.handle, C.uint32_t(now), at(room), C.size_t(len(room)), &call.unit)
	})
}

// nextUnit writes the next access unit to unit, by a call that writes its bytes and tells the rest.
func nextUnit(unit *AccessUnit, told *C.h26x_access_unit, next func(room []byte) C.uint32_t) (bool, error) {
	room := unit.Bytes[:cap(unit.Bytes)]
	code := next(room)
	if code == C.H26X_NO_ROOM {
		size, err := length(told.len)
		if err != nil {
			return false, err
		}
		room = make([]byte, larger(size, 2*len(room)))
		code = next(room)
	}
	switch code {
	case C.H26X_OK:
		*unit = unitOf(told, room[:told.len])
		return true, nil
	case C.H26X_NOTHING_YET:
		return false, nil
	default:
		return false, refusedBy(code)
	}
}

// unitOf is an access unit of what a call told, with its bytes.
func unitOf(told *C.h26x_access_unit, bytes []byte) AccessUnit {
	return AccessUnit{
		Timestamp:    uint32(told.timestamp),
		Bytes:        bytes,
		Extra:        CodecExtra(told.extra),
		IsWhole:      bool(told.is_whole),
		IsClean:      bool(told.is_clean),
		IsDisposable: bool(told.is_disposable),
		Continues:    bool(told.continues),
		First:        uint16(told.first),
		Last:         uint16(told.last),
		Missing:      uint32(told.missing),
	}
}

// UnitsSoFar is what came of an access unit that is open.
type UnitsSoFar struct {
	// Timestamp is that of its packets.
	Timestamp uint32
	// Bytes is the NAL units that came whole, from the byte on that was asked for, in order.
	Bytes []byte
	// Extra is what is told of the units.
	Extra CodecExtra
}

// UnitsSoFar is the NAL units that came whole so far of the access unit that is open, from a byte on: for who decodes each
// as soon as it is complete. Later packets put units behind these, until Next gives all of it, with what is told of the
// whole. Nothing is open, and nil is answered, where Next hasn't given out what ended before. A text of more than UnitLimit
// bytes is given up. A byte below 0 is taken for 0. Its error is ErrClosed.
func (r *AccessUnitReceiver) UnitsSoFar(from int) (*UnitsSoFar, error) {
	r.mu.Lock()
	defer r.mu.Unlock()
	call := r.call
	if call == nil {
		return nil, ErrClosed
	}
	return unitsSoFar(&call.soFar, func(room []byte) C.bool {
		return C.h26x_access_units_so_far(&call.handle, C.size_t(larger(from, 0)), at(room), C.size_t(len(room)),
			&call.soFar)
	})
}

// unitsSoFar is what is shown by a call that writes its bytes and tells the rest.
func unitsSoFar(told *C.h26x_so_far, show func(room []byte) C.bool) (*UnitsSoFar, error) {
	if !bool(show(nil)) {
		return nil, nil
	}
	size, err := length(told.len)
	if err != nil {
		return nil, err
	}
	bytes := make([]byte, size)
	show(bytes)
	return &UnitsSoFar{
		Timestamp: uint32(told.timestamp),
		Bytes:     bytes,
		Extra:     CodecExtra(told.extra),
	}, nil
}

// Deadline is the tick at which to call Next at the latest, if packets wait and there is a MaxWait, or for the packet that
// begins the stream a BeginWait. Behind Close there is none.
func (r *AccessUnitReceiver) Deadline() (tick uint32, ok bool) {
	r.mu.RLock()
	defer r.mu.RUnlock()
	if r.call == nil {
		return 0, false
	}
	told := new(C.uint32_t)
	ok = bool(C.h26x_access_units_deadline(&r.call.handle, told))
	return uint32(*told), ok
}

// Missing is the numbers that are missing before packets that wait, in order: those to ask the sender for again (NACK;
// RFC 4585, 6.2.1). Of a stream that begins none is missing before the first packet that waits. Its errors are
// ErrOutOfMemory and ErrClosed.
func (r *AccessUnitReceiver) Missing() ([]uint16, error) {
	r.mu.RLock()
	defer r.mu.RUnlock()
	if r.call == nil {
		return nil, ErrClosed
	}
	count := new(C.size_t)
	if err := refusedBy(C.h26x_access_units_missing(&r.call.handle, nil, 0, count)); err != nil || *count == 0 {
		return nil, err
	}
	numbers := make([]uint16, int(*count))
	first := (*C.uint16_t)(unsafe.Pointer(&numbers[0]))
	if err := refusedBy(C.h26x_access_units_missing(&r.call.handle, first, *count, count)); err != nil {
		return nil, err
	}
	return numbers, nil
}

// NackTimes is when Nacks asks for a number that is missing, in the caller's ticks.
type NackTimes struct {
	// First is how long it may come by itself, since the call that found it missing; 0: it is asked for there.
	First uint32
	// Again is how long after it was asked for it is asked for again: a round trip, and some more.
	Again uint32
	// Most is how often it is asked for at most; 0: never.
	Most uint8
}

func (t NackTimes) given() *C.h26x_nack_times {
	return &C.h26x_nack_times{first: C.uint32_t(t.First), again: C.uint32_t(t.Again), most: C.uint8_t(t.Most)}
}

// Nacks is the numbers of Missing that are to be asked for at this tick, in order, up to room of them: each is asked for as
// times says, and counts as asked for. Others are due at the next call. A number counts as missing since the first of the
// calls in a row that found it so: call it as often as First and Again ask for. Its errors are ErrOutOfMemory and ErrClosed,
// and nothing counts as asked for then.
func (r *AccessUnitReceiver) Nacks(now uint32, times NackTimes, room int) ([]uint16, error) {
	r.mu.Lock()
	defer r.mu.Unlock()
	if r.call == nil {
		return nil, ErrClosed
	}
	count := new(C.size_t)
	if err := refusedBy(C.h26x_access_units_missing(&r.call.handle, nil, 0, count)); err != nil {
		return nil, err
	}
	if room > int(*count) {
		room = int(*count)
	}
	var numbers []uint16
	var first *C.uint16_t
	if room > 0 {
		numbers = make([]uint16, room)
		first = (*C.uint16_t)(unsafe.Pointer(&numbers[0]))
	}
	code := C.h26x_access_units_nacks(&r.call.handle, C.uint32_t(now), times.given(), first, C.size_t(len(numbers)), count)
	if err := refusedBy(code); err != nil {
		return nil, err
	}
	return numbers[:int(*count)], nil
}

// BeginAt says the number of the first packet of the stream, as a peer tells it (RTP-Info of RTSP, RFC 2326, 12.33):
// packets from it on are waited for, those before it are late, and the first access unit is known to be whole where all of
// it came. It answers whether it is said in time: once a packet came, or it was said, it changes nothing, nor behind Close.
func (r *AccessUnitReceiver) BeginAt(sequence uint16) bool {
	r.mu.Lock()
	defer r.mu.Unlock()
	if r.call == nil {
		return false
	}
	told := new(C.uint32_t)
	code := C.h26x_access_units_begin_at(&r.call.handle, C.uint16_t(sequence), told)
	return code == C.H26X_OK && *told == 1
}

// Finish is for the end of a stream: all that waits is due, and once it was taken the open access unit ends, not known
// to be whole. Next gives all of it, and then any number is the next. Its error is ErrClosed.
func (r *AccessUnitReceiver) Finish() error {
	r.mu.Lock()
	defer r.mu.Unlock()
	if r.call == nil {
		return ErrClosed
	}
	return refusedBy(C.h26x_access_units_finish(&r.call.handle))
}

// Restart is for another sender (SSRC): it drops all that waits or is open, and takes any number as the next. What was
// counted stays. Its error is ErrClosed.
func (r *AccessUnitReceiver) Restart() error {
	r.mu.Lock()
	defer r.mu.Unlock()
	if r.call == nil {
		return ErrClosed
	}
	return refusedBy(C.h26x_access_units_restart(&r.call.handle))
}

// Counts is what was counted. Its error is ErrClosed.
func (r *AccessUnitReceiver) Counts() (Counts, error) {
	r.mu.RLock()
	defer r.mu.RUnlock()
	if r.call == nil {
		return Counts{}, ErrClosed
	}
	told := new(C.h26x_access_units_counts)
	if err := refusedBy(C.h26x_access_units_count(&r.call.handle, told)); err != nil {
		return Counts{}, err
	}
	return countsOf(told), nil
}

func countsOf(told *C.h26x_access_units_counts) Counts {
	return Counts{
		Taken:        uint64(told.taken),
		Lost:         uint64(told.lost),
		Late:         uint64(told.late),
		Twice:        uint64(told.twice),
		Stray:        uint64(told.stray),
		Refused:      uint64(told.refused),
		Skipped:      uint64(told.skipped),
		Anew:         uint64(told.anew),
		Units:        uint64(told.units),
		Whole:        uint64(told.whole),
		UnitsGivenUp: uint64(told.units_given_up),
		TextsGivenUp: uint64(told.texts_given_up),
		NoUnit:       uint64(told.no_unit),
		Still:        uint64(told.still),
		Unbelieved:   uint64(told.unbelieved),
	}
}
