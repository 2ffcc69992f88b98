package h26x

// #include <h26x.h>
import "C"

import (
	"runtime"
	"sync"
)

// beforeUnit is how many bytes stand before a unit: a start code, or its length.
const beforeUnit = 4

// A CodecExtra is what is told of the units that a packet completed, or of those of an access unit.
type CodecExtra uint8

// What is told.
const (
	// NoUnits: there are none.
	NoUnits CodecExtra = 0
	// NoKeyframe: there are units, none of them of a keyframe.
	NoKeyframe CodecExtra = 1
	// Keyframe: a unit of a keyframe is among them: of an IDR picture (H.264), an IRAP picture (H.265), an
	// IDR or a CRA picture (H.266). A recovery point without one (intra refresh, gradual decoding refresh)
	// is none.
	Keyframe CodecExtra = 2
)

// IsKeyframe tells whether a unit of a keyframe is among them.
func (e CodecExtra) IsKeyframe() bool { return e == Keyframe }

// Depacketized is what a packet completed.
type Depacketized struct {
	// Bytes is the units, each behind 00 00 00 01 or behind its length.
	Bytes []byte
	Extra CodecExtra
}

// A Depacketizer writes the units of RTP payloads (RFC 6184, 5; RFC 7798, 4.4; RFC 9328, 4.3). It has the
// methods of Pion's rtp.Depacketizer.
//
// It has no sequence numbers, so it doesn't notice a lost packet: where a fragment is missing, the unit is
// written without that one's data. Over a network use a [Receiver]; or call GiveUpRun wherever a number is
// missing.
type Depacketizer struct {
	mu    sync.RWMutex
	codec Codec
	avc   bool
	call  *taking
	// Memory in which units are written that go into slices of their own.
	kept []byte
}

// taking is what C is given: it has no pointer of Go's. It is nil where the Depacketizer is closed.
type taking struct {
	handle  C.h26x_depacketizer
	written C.size_t
	extra   C.uint8_t
	why     C.h26x_refusal
}

// NewDepacketizer makes a depacketizer with no unit open, which reads no decoding order numbers and writes
// start codes. Its errors are ErrUnknownCodec and ErrOutOfMemory.
func NewDepacketizer(codec Codec) (*Depacketizer, error) {
	call := new(taking)
	if err := refusedBy(C.h26x_depacketizer_new(C.uint32_t(codec), false, &call.handle)); err != nil {
		return nil, err
	}
	return ownDepacketizer(codec, call), nil
}

func ownDepacketizer(codec Codec, call *taking) *Depacketizer {
	d := &Depacketizer{codec: codec, call: call}
	runtime.SetFinalizer(d, (*Depacketizer).Close)
	return d
}

// Close frees what the library holds, and answers nil. It may be called again.
func (d *Depacketizer) Close() error {
	d.mu.Lock()
	defer d.mu.Unlock()
	if d.call != nil {
		C.h26x_depacketizer_free(d.call.handle)
		d.call = nil
		runtime.SetFinalizer(d, nil)
	}
	return nil
}

// Codec is its codec.
func (d *Depacketizer) Codec() Codec { return d.codec }

// Clone is the same depacketizer again, with its settings and its open unit. Its errors are ErrOutOfMemory
// and ErrClosed.
func (d *Depacketizer) Clone() (*Depacketizer, error) {
	d.mu.RLock()
	defer d.mu.RUnlock()
	if d.call == nil {
		return nil, ErrClosed
	}
	call := new(taking)
	if err := refusedBy(C.h26x_depacketizer_clone(&d.call.handle, &call.handle)); err != nil {
		return nil, err
	}
	made := ownDepacketizer(d.codec, call)
	made.avc = d.avc
	return made, nil
}

// SetDONL sets whether packets bear decoding order numbers (H.265 and H.266). Nothing in a packet tells it:
// set otherwise than the sender's, numbers are read as bytes of units, or bytes of units as numbers. An open
// unit stays open. Its errors are ErrNotOfThisCodec of H.264, and ErrClosed.
func (d *Depacketizer) SetDONL(donl bool) error {
	d.mu.Lock()
	defer d.mu.Unlock()
	if d.call == nil {
		return ErrClosed
	}
	return refusedBy(C.h26x_depacketizer_set_numbers(&d.call.handle, C.bool(donl)))
}

// SetAVC sets whether units are written behind lengths of four bytes, as MP4 files have them (avc1, hvc1,
// vvc1), and not behind start codes. A unit has the form that is set when the packet comes that completes
// it. Its error is ErrClosed.
func (d *Depacketizer) SetAVC(avc bool) error {
	d.mu.Lock()
	defer d.mu.Unlock()
	if d.call == nil {
		return ErrClosed
	}
	d.avc = avc
	return nil
}

// Depacketize takes a packet, and answers the units that it completes, in memory that is the caller's. What
// stands at DepacketizeInto holds here too.
func (d *Depacketizer) Depacketize(packet []byte) (Depacketized, error) {
	d.mu.Lock()
	defer d.mu.Unlock()
	written, extra, err := d.depacketizeInto(d.kept[:0], packet)
	if err != nil {
		return Depacketized{}, err
	}
	d.kept = written
	return Depacketized{append([]byte(nil), written...), extra}, nil
}

// Unmarshal is Depacketize for Pion: it answers the bytes alone, nil where the packet completes no unit.
func (d *Depacketizer) Unmarshal(packet []byte) ([]byte, error) {
	got, err := d.Depacketize(packet)
	return got.Bytes, err
}

// DepacketizeInto takes a packet, and appends the units that it completes to dst, each behind 00 00 00 01 or
// behind its length.
//
// Its errors are of the packet (see [IsPacketError]), ErrOutOfMemory and ErrClosed; each leaves dst and the
// depacketizer as they are, so pass the packet over and go on with the next. One refused for want of memory
// can be given again.
//
// A peer that never ends a unit makes the open unit as long as all that it sends: a Receiver has a limit;
// else add up the lengths of the fragments since one had its S bit, and call GiveUpRun.
func (d *Depacketizer) DepacketizeInto(dst, packet []byte) ([]byte, CodecExtra, error) {
	d.mu.Lock()
	defer d.mu.Unlock()
	return d.depacketizeInto(dst, packet)
}

func (d *Depacketizer) depacketizeInto(dst, packet []byte) ([]byte, CodecExtra, error) {
	call := d.call
	if call == nil {
		return dst, NoUnits, ErrClosed
	}
	out := withRoom(dst, len(packet)+beforeUnit)
	room := out[len(out):cap(out)]
	read := apart(packet, room)
	call.extra = 0
	code := C.h26x_depacketize(&call.handle, C.bool(d.avc), at(read), C.size_t(len(read)), at(room),
		C.size_t(len(room)), &call.written, &call.extra, &call.why)
	if code != C.H26X_OK {
		return dst, NoUnits, refused(code, call.why)
	}
	out, err := withWritten(out, &call.handle, call.written)
	if err != nil {
		return dst, NoUnits, err
	}
	return out, CodecExtra(call.extra), nil
}

// withWritten is out with the bytes that a call wrote behind it, or had no room for. Its error is ErrOutOfMemory, where
// no slice has room for them; the packet is taken then.
func withWritten(out []byte, handle *C.h26x_depacketizer, size C.size_t) ([]byte, error) {
	written, err := length(size)
	if err != nil {
		return nil, err
	}
	if room := cap(out) - len(out); written > room {
		out = withRoom(out, written)
		C.h26x_written_copy(handle, at(out[len(out):cap(out)]), C.size_t(cap(out)-len(out)))
	}
	return out[:len(out)+written], nil
}

// GiveUpRun gives up the open unit and frees its buffer: for where a packet is missing, or where the unit
// has grown too long. What follows of that unit is accepted and completes nothing. Its error is ErrClosed.
func (d *Depacketizer) GiveUpRun() error {
	d.mu.Lock()
	defer d.mu.Unlock()
	if d.call == nil {
		return ErrClosed
	}
	return refusedBy(C.h26x_give_up_run(&d.call.handle))
}

// Shown is, of H.265, the packet that was accepted last. Its errors are ErrNotOfThisCodec of the other
// codecs, and ErrClosed.
func (d *Depacketizer) Shown() (ShownPacket, error) {
	d.mu.RLock()
	defer d.mu.RUnlock()
	if d.call == nil {
		return ShownPacket{}, ErrClosed
	}
	return shown(&d.call.handle)
}

// IsPartitionHead tells whether a packet may be the first of an access unit; see the function.
func (d *Depacketizer) IsPartitionHead(packet []byte) bool {
	return IsPartitionHead(d.codec, packet)
}

// IsPartitionTail tells whether a packet is the last of an access unit, as Pion's sample builder asks: by its
// marker alone, which is what ends one (RFC 6184, 5.1; RFC 7798, 4.1; RFC 9328, 4.1). The function of this name
// tells of H.265 and H.266 also where a fragmented unit ends.
func (d *Depacketizer) IsPartitionTail(marker bool, _ []byte) bool {
	return marker
}
