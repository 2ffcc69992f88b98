package h26x

// #include <h26x.h>
import "C"

import (
	"runtime"
	"strconv"
	"sync"
)

// An Outcome is what became of a packet (RFC 3550, 5.1). Sequence numbers go round at 65536.
type Outcome uint32

// What becomes of a packet.
const (
	// InOrder: taken: it is the one that was expected, or the first of all. The distance is 0.
	InOrder Outcome = C.H26X_IN_ORDER
	// Gap: taken: packets before it are missing, as many as the distance, and the unit that was open is
	// given up.
	Gap Outcome = C.H26X_GAP
	// TooLong: taken, with as many missing before it as the distance (0 too), and the unit that it left open
	// is given up, since it held more than the limit.
	TooLong Outcome = C.H26X_TOO_LONG
	// Late: not taken: it came late, or twice. The distance is how far it is behind the one expected; 1 is
	// the number that was taken last.
	Late Outcome = C.H26X_LATE
)

// String is the outcome's name.
func (o Outcome) String() string {
	switch o {
	case InOrder:
		return "InOrder"
	case Gap:
		return "Gap"
	case TooLong:
		return "TooLong"
	case Late:
		return "Late"
	default:
		return "Outcome(" + strconv.FormatUint(uint64(o), 10) + ")"
	}
}

// Received is what became of a packet, and what it completed.
type Received struct {
	Outcome Outcome
	// Distance is how many packets are missing before it, or how far it is behind: see Outcome.
	Distance uint16
	Extra    CodecExtra
	// Bytes is the units, each behind 00 00 00 01 or behind its length.
	Bytes []byte
}

// A Receiver writes the units of RTP payloads that come with their sequence numbers.
//
// It writes no unit of which a packet is missing, whatever a network loses, delays or brings twice, as long
// as gaps and delays are of fewer than 32768 packets. Packets must come in their order, since one behind a
// later one is late: where a network changes the order use an [AccessUnitReceiver].
type Receiver struct {
	mu       sync.RWMutex
	codec    Codec
	runLimit int
	call     *receiving
	// Memory in which units are written that go into slices of their own.
	kept []byte
	// Memory for calls of many packets, which is kept.
	payloads []C.h26x_rtp_payload
	told     []C.h26x_receive_told
}

// receiving is what C is given: it has no pointer of Go's. It is nil where the Receiver is closed.
type receiving struct {
	handle   C.h26x_receiver
	written  C.size_t
	taken    C.size_t
	extra    C.uint8_t
	outcome  C.uint32_t
	distance C.uint16_t
	why      C.h26x_refusal
}

// NewReceiver makes a receiver that takes any sequence number as the first, reads no decoding order numbers
// and writes start codes.
//
// The limit is how many bytes of data, without the header, an open unit may hold from a packet to the next.
// Choose it above the units that are expected: one that doesn't fit is left out whole. A negative one is 0.
// Its errors are ErrUnknownCodec and ErrOutOfMemory.
func NewReceiver(codec Codec, runLimit int) (*Receiver, error) {
	if runLimit < 0 {
		runLimit = 0
	}
	call := new(receiving)
	code := C.h26x_receiver_new(C.uint32_t(codec), false, false, C.size_t(runLimit), &call.handle)
	if err := refusedBy(code); err != nil {
		return nil, err
	}
	return ownReceiver(codec, runLimit, call), nil
}

func ownReceiver(codec Codec, runLimit int, call *receiving) *Receiver {
	r := &Receiver{codec: codec, runLimit: runLimit, call: call}
	runtime.SetFinalizer(r, (*Receiver).Close)
	return r
}

// Close frees what the library holds, and answers nil. It may be called again.
func (r *Receiver) Close() error {
	r.mu.Lock()
	defer r.mu.Unlock()
	if r.call != nil {
		C.h26x_receiver_free(r.call.handle)
		r.call = nil
		runtime.SetFinalizer(r, nil)
	}
	return nil
}

// Codec is its codec.
func (r *Receiver) Codec() Codec { return r.codec }

// RunLimit is how many bytes of data an open unit may hold from a packet to the next.
func (r *Receiver) RunLimit() int { return r.runLimit }

// Clone is the same receiver again, with its settings, its open unit and the number that it expects. Its
// errors are ErrOutOfMemory and ErrClosed.
func (r *Receiver) Clone() (*Receiver, error) {
	r.mu.RLock()
	defer r.mu.RUnlock()
	if r.call == nil {
		return nil, ErrClosed
	}
	call := new(receiving)
	if err := refusedBy(C.h26x_receiver_clone(&r.call.handle, &call.handle)); err != nil {
		return nil, err
	}
	return ownReceiver(r.codec, r.runLimit, call), nil
}

// SetDONL sets whether packets bear decoding order numbers, as SetDONL of a Depacketizer does.
func (r *Receiver) SetDONL(donl bool) error {
	r.mu.Lock()
	defer r.mu.Unlock()
	if r.call == nil {
		return ErrClosed
	}
	return refusedBy(C.h26x_receiver_set_numbers(&r.call.handle, C.bool(donl)))
}

// SetAVC sets whether units are written behind lengths, as SetAVC of a Depacketizer does.
func (r *Receiver) SetAVC(avc bool) error {
	r.mu.Lock()
	defer r.mu.Unlock()
	if r.call == nil {
		return ErrClosed
	}
	return refusedBy(C.h26x_receiver_set_avc(&r.call.handle, C.bool(avc)))
}

// Receive takes a packet with its sequence number, and answers what became of it and the units that it
// completes, in memory that is the caller's. What stands at ReceiveInto holds here too.
func (r *Receiver) Receive(sequence uint16, packet []byte) (Received, error) {
	r.mu.Lock()
	defer r.mu.Unlock()
	written, received, err := r.receiveInto(r.kept[:0], sequence, packet)
	if err != nil {
		return Received{}, err
	}
	r.kept = written
	received.Bytes = append([]byte(nil), written...)
	return received, nil
}

// ReceiveInto takes a packet with its sequence number, and appends the units that it completes to dst; Bytes
// is these, behind what stood in dst.
//
// Its errors are of the packet (see [IsPacketError]), ErrOutOfMemory and ErrClosed; each leaves all as it
// is, as if the packet had not come: pass it over, and go on with the next, which is behind a gap then. One
// refused for want of memory can be given again.
//
// A gap tells of packets that are missing, and nothing of what they held: ask the peer for a keyframe where
// decoding can't go on. A number 32768 or more ahead of the one expected is late, so where a peer's numbers
// jump all its packets are late, one after the other: call Restart.
func (r *Receiver) ReceiveInto(dst []byte, sequence uint16, packet []byte) ([]byte, Received, error) {
	r.mu.Lock()
	defer r.mu.Unlock()
	return r.receiveInto(dst, sequence, packet)
}

func (r *Receiver) receiveInto(dst []byte, sequence uint16, packet []byte) ([]byte, Received, error) {
	call := r.call
	if call == nil {
		return dst, Received{}, ErrClosed
	}
	out := withRoom(dst, len(packet)+beforeUnit)
	room := out[len(out):cap(out)]
	read := apart(packet, room)
	call.extra = 0
	code := C.h26x_receive(&call.handle, C.uint16_t(sequence), at(read), C.size_t(len(read)), at(room),
		C.size_t(len(room)), &call.written, &call.extra, &call.outcome, &call.distance, &call.why)
	if code != C.H26X_OK {
		return dst, Received{}, refused(code, call.why)
	}
	out, err := withWritten(out, &call.handle.at, call.written)
	if err != nil {
		return dst, Received{}, err
	}
	units := out[len(dst):len(out):len(out)]
	return out, Received{Outcome(call.outcome), uint16(call.distance), CodecExtra(call.extra), units}, nil
}

// Skip passes over a number that came and bears nothing of the stream, as that of padding alone, of forward
// error correction or of another payload type: so it isn't missing. InOrder leaves the open unit; behind a Gap it is
// given up; Late changes nothing. The distance is that of Receive. Its error is ErrClosed.
func (r *Receiver) Skip(sequence uint16) (outcome Outcome, distance uint16, err error) {
	r.mu.Lock()
	defer r.mu.Unlock()
	if r.call == nil {
		return 0, 0, ErrClosed
	}
	call := r.call
	code := C.h26x_receiver_skip(&call.handle, C.uint16_t(sequence), &call.outcome, &call.distance)
	return Outcome(call.outcome), uint16(call.distance), refusedBy(code)
}

// Restart gives up the open unit, frees its buffer, and takes any sequence number as the next. Its error is
// ErrClosed.
func (r *Receiver) Restart() error {
	r.mu.Lock()
	defer r.mu.Unlock()
	if r.call == nil {
		return ErrClosed
	}
	return refusedBy(C.h26x_receiver_restart(&r.call.handle))
}

// RunLen is how many bytes of data the open unit holds, up to the limit; 0 where none is open, and behind
// Close.
func (r *Receiver) RunLen() int {
	r.mu.RLock()
	defer r.mu.RUnlock()
	if r.call == nil {
		return 0
	}
	return int(C.h26x_receiver_run_len(&r.call.handle))
}

// Shown is, of H.265, the packet that was taken last. Its errors are ErrNotOfThisCodec of the other codecs,
// and ErrClosed.
func (r *Receiver) Shown() (ShownPacket, error) {
	r.mu.RLock()
	defer r.mu.RUnlock()
	if r.call == nil {
		return ShownPacket{}, ErrClosed
	}
	return shown(&r.call.handle.at)
}
