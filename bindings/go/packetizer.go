package h26x

/*
#include <h26x.h>

// What a call makes packets of: a payload, one unit as it is, or the units of an access unit.
enum { OF_PAYLOAD, OF_UNIT, OF_UNITS };

static uint32_t packets_into(int of, h26x_packetizer *p, size_t mtu, const uint8_t *bytes, size_t len,
                             size_t headroom, uint8_t *to, size_t room, size_t *ends, size_t ends_room,
                             size_t *count, size_t *size, h26x_refusal *why)
{
    if (of == OF_UNITS)
        return h26x_packetize_units_into(p, mtu, bytes, len, headroom, to, room, ends, ends_room, count, size, why);
    return of == OF_UNIT
               ? h26x_packetize_unit_into(p, mtu, bytes, len, headroom, to, room, ends, ends_room, count, size)
               : h26x_packetize_into(p, mtu, bytes, len, headroom, to, room, ends, ends_room, count, size);
}

static uint32_t size_of(int of, const h26x_packetizer *p, size_t mtu, const uint8_t *bytes, size_t len,
                        size_t headroom, size_t *count, size_t *size, h26x_refusal *why)
{
    return of == OF_UNITS ? h26x_units_size(p, mtu, bytes, len, headroom, count, size, why)
                          : h26x_packets_size(p, mtu, bytes, len, headroom, count, size);
}
*/
import "C"

import (
	"runtime"
	"strconv"
	"sync"
)

// A Packetizer cuts encoded video into RTP payloads within a limit (RFC 6184, 5; RFC 7798, 4.4; RFC 9328,
// 4.3). It has the method of Pion's rtp.Payloader.
type Packetizer struct {
	mu    sync.RWMutex
	codec Codec
	call  *sending
	// Memory in which packets are made that go into slices of their own.
	kept Packets
}

// sending is what C is given: it has no pointer of Go's. It is nil where the Packetizer is closed.
type sending struct {
	handle      C.h26x_packetizer
	count, size C.size_t
	why         C.h26x_refusal
}

// A Packing says which units of an access unit share packets.
type Packing uint32

// PackTogether: those that fit one packet. PackBeforeSlices: of these, those that are no slices, since a slice
// goes out at once. PackApart: none, so with a packet one slice is lost. PackSingle: none, and no unit goes in
// fragments (packetization-mode 0 of H.264; RFC 6184, 6.2).
const (
	PackTogether     Packing = C.H26X_TOGETHER
	PackBeforeSlices Packing = C.H26X_BEFORE_SLICES
	PackApart        Packing = C.H26X_APART
	PackSingle       Packing = C.H26X_SINGLE
)

// String is its name.
func (p Packing) String() string {
	switch p {
	case PackTogether:
		return "PackTogether"
	case PackBeforeSlices:
		return "PackBeforeSlices"
	case PackApart:
		return "PackApart"
	case PackSingle:
		return "PackSingle"
	default:
		return "Packing(" + strconv.FormatUint(uint64(p), 10) + ")"
	}
}

// NewPacketizer makes a packetizer for which no parameter set waits, whose packets bear no decoding order
// numbers. Its errors are ErrUnknownCodec and ErrOutOfMemory.
func NewPacketizer(codec Codec) (*Packetizer, error) {
	call := new(sending)
	if err := refusedBy(C.h26x_packetizer_new(C.uint32_t(codec), false, &call.handle)); err != nil {
		return nil, err
	}
	return ownPacketizer(codec, call), nil
}

func ownPacketizer(codec Codec, call *sending) *Packetizer {
	p := &Packetizer{codec: codec, call: call}
	runtime.SetFinalizer(p, (*Packetizer).Close)
	return p
}

// Close frees what the library holds, and answers nil. It may be called again.
func (p *Packetizer) Close() error {
	p.mu.Lock()
	defer p.mu.Unlock()
	if p.call != nil {
		C.h26x_packetizer_free(p.call.handle)
		p.call = nil
		runtime.SetFinalizer(p, nil)
	}
	return nil
}

// Codec is its codec.
func (p *Packetizer) Codec() Codec { return p.codec }

// Clone is the same packetizer again: the sets that wait, its next number, its settings. Its errors are
// ErrOutOfMemory and ErrClosed.
func (p *Packetizer) Clone() (*Packetizer, error) {
	p.mu.RLock()
	defer p.mu.RUnlock()
	if p.call == nil {
		return nil, ErrClosed
	}
	call := new(sending)
	if err := refusedBy(C.h26x_packetizer_clone(&p.call.handle, &call.handle)); err != nil {
		return nil, err
	}
	return ownPacketizer(p.codec, call), nil
}

// SetDONL sets whether packets bear decoding order numbers, from 0 on (H.265 and H.266), as
// sprop-max-don-diff says. Sets that wait stay. Its errors are ErrNotOfThisCodec of H.264, and ErrClosed.
func (p *Packetizer) SetDONL(donl bool) error {
	p.mu.Lock()
	defer p.mu.Unlock()
	if p.call == nil {
		return ErrClosed
	}
	return refusedBy(C.h26x_packetizer_set_numbers(&p.call.handle, C.bool(donl)))
}

// SetLowestHeader sets whether parameter sets of H.265 that go in one packet have the header that RFC 7798,
// 4.4.2 asks for: the lowest layer and the lowest temporal id of these sets. It is off at first, and then they
// have those of the unit behind them, as str0m's have.
//
// Where a forwarder drops packets by temporal id, turn it on: else sets before a slice of a high one are
// dropped with it. Receivers read both alike. Those of H.266 have their header in any case. Its errors are
// ErrNotOfThisCodec of H.264, and ErrClosed.
func (p *Packetizer) SetLowestHeader(lowest bool) error {
	p.mu.Lock()
	defer p.mu.Unlock()
	if p.call == nil {
		return ErrClosed
	}
	return refusedBy(C.h26x_packetizer_set_lowest_header(&p.call.handle, C.bool(lowest)))
}

// SetMaxPacketSize sets the largest packet size of H.265 and H.266, in bytes: no packet of a later call is
// longer, whatever its mtu. It is 1200 at first. Its errors are ErrOutOfRange under 4, ErrNotOfThisCodec of
// H.264, and ErrClosed.
func (p *Packetizer) SetMaxPacketSize(bytes uint16) error {
	p.mu.Lock()
	defer p.mu.Unlock()
	if p.call == nil {
		return ErrClosed
	}
	return refusedBy(C.h26x_packetizer_set_max_size(&p.call.handle, C.uint16_t(bytes)))
}

// SetPacking sets which units share packets that PacketizeUnits makes: PackTogether at first. Its errors are
// ErrOutOfRange of a Packing that is none, and ErrClosed.
func (p *Packetizer) SetPacking(packing Packing) error {
	p.mu.Lock()
	defer p.mu.Unlock()
	if p.call == nil {
		return ErrClosed
	}
	return refusedBy(C.h26x_packetizer_set_packing(&p.call.handle, C.uint32_t(packing)))
}

// SetDelimiters sets whether PacketizeUnits sends access unit delimiters and filler data, of which a decoder needs
// nothing. It does at first; else an access unit is sent as if these units weren't there, but that a unit that can't go
// is told by its place among all. A stream of H.266 of several layers has to have its delimiters (H.266, 7.4.2.4). Its
// error is ErrClosed.
func (p *Packetizer) SetDelimiters(delimiters bool) error {
	p.mu.Lock()
	defer p.mu.Unlock()
	if p.call == nil {
		return ErrClosed
	}
	return refusedBy(C.h26x_packetizer_set_delimiters(&p.call.handle, C.bool(delimiters)))
}

// Payload is Packetize for Pion: it answers nil where that answers an error, which is for want of memory or
// behind Close.
func (p *Packetizer) Payload(mtu uint16, payload []byte) [][]byte {
	packets, _ := p.Packetize(mtu, payload)
	return packets
}

// Packetize answers the RTP payloads of a payload, in order, each of at most mtu bytes and in memory that
// is the caller's.
//
// The payload is one NAL unit, or units behind start codes (Annex B), of an access unit or a part of one.
// The mtu doesn't count RTP's header and what is below it. The marker bit goes on the last packet of an
// access unit. Its errors are ErrOutOfMemory, which changes nothing, and ErrClosed.
//
// What bites:
//
//   - Packets of H.265 and H.266 have at most 1200 bytes whatever the mtu, until SetMaxPacketSize says
//     otherwise.
//   - Parameter sets wait for the next unit that is none, and go before it. One that no packet holds is
//     dropped, and no answer says so, since sets aren't fragmented. Keep the mtu (and the largest packet
//     size) above their lengths, by 2 bytes more with decoding order numbers; or give them to the peer in
//     SDP.
//   - Of several sets of a kind that wait together the latest alone goes, whatever their ids. Send each by
//     PacketizeUnit.
//   - A PPS waits until there is an SPS, an SPS until there is a PPS, and a VPS until there are both;
//     pictures go without them meanwhile.
//   - Access unit delimiters aren't sent, nor units of H.266 of types 28 and 29.
//   - A unit of H.265 or H.266 that is a bare header of two bytes is sent, and depacketizers refuse its
//     packet as ErrShortPacket, which changes nothing.
func (p *Packetizer) Packetize(mtu uint16, payload []byte) ([][]byte, error) {
	return p.copies(C.OF_PAYLOAD, mtu, payload)
}

// PacketizeUnit answers the RTP payloads of one NAL unit as it is: no start code is looked for in it, and
// whatever its kind it is sent now, itself or in fragments. Sets that wait stay.
//
// There are no packets where the unit has no whole header (one byte of H.264, two of the others), under an
// mtu of 1 (H.264) or 4, and of a unit longer than a packet where no fragment has room for data. Its errors
// are those of Packetize.
func (p *Packetizer) PacketizeUnit(mtu uint16, unit []byte) ([][]byte, error) {
	return p.copies(C.OF_UNIT, mtu, unit)
}

// PacketizeUnits answers the RTP payloads of one access unit in Annex B form, as an encoder gives it: every
// unit, in order and as it is, whatever its kind (but see SetDelimiters), so several sets of a kind and
// delimiters arrive too. By PackTogether no sender that brings these units needs fewer packets (RFC 6184, 5.7.1; RFC 7798, 4.4.2; RFC 9328,
// 4.3.2). Sets that wait for Packetize stay: one stream uses the one call or the other.
//
// Where a unit can't go nothing is sent, and an Error names the first, First by its place and Second by its
// length: ErrUnitWithoutHeader, ErrUnitForbidden, ErrUnitOfPacketType or ErrUnitTooLong. The other errors are
// those of Packetize.
func (p *Packetizer) PacketizeUnits(mtu uint16, accessUnit []byte) ([][]byte, error) {
	return p.copies(C.OF_UNITS, mtu, accessUnit)
}

// PacketizeInto makes the packets of Packetize in the place of those in into, each behind its headroom. It
// asks for no memory where they fit what into has from the calls before. An error leaves them; the errors
// are those of Packetize.
func (p *Packetizer) PacketizeInto(mtu uint16, payload []byte, into *Packets) error {
	p.mu.Lock()
	defer p.mu.Unlock()
	return p.makes(C.OF_PAYLOAD, mtu, payload, into)
}

// PacketizeUnitInto makes the packets of PacketizeUnit in the place of those in into, as PacketizeInto does.
func (p *Packetizer) PacketizeUnitInto(mtu uint16, unit []byte, into *Packets) error {
	p.mu.Lock()
	defer p.mu.Unlock()
	return p.makes(C.OF_UNIT, mtu, unit, into)
}

// PacketizeUnitsInto makes the packets of PacketizeUnits in the place of those in into, as PacketizeInto does.
func (p *Packetizer) PacketizeUnitsInto(mtu uint16, accessUnit []byte, into *Packets) error {
	p.mu.Lock()
	defer p.mu.Unlock()
	return p.makes(C.OF_UNITS, mtu, accessUnit, into)
}

// PacketsSize tells how many packets PacketizeInto would make of a payload, and how many bytes they take with
// so much headroom before each. The packetizer is left as it is. It panics where NewPackets does; its errors are
// those of Packetize.
func (p *Packetizer) PacketsSize(mtu uint16, payload []byte, headroom int) (count, size int, err error) {
	return p.sizes(C.OF_PAYLOAD, mtu, payload, headroom)
}

// UnitsSize tells the same of PacketizeUnitsInto; its errors are those of PacketizeUnits.
func (p *Packetizer) UnitsSize(mtu uint16, accessUnit []byte, headroom int) (count, size int, err error) {
	return p.sizes(C.OF_UNITS, mtu, accessUnit, headroom)
}

func (p *Packetizer) sizes(of C.int, mtu uint16, bytes []byte, headroom int) (count, size int, err error) {
	checkHeadroom(headroom)
	p.mu.RLock()
	defer p.mu.RUnlock()
	if p.call == nil {
		return 0, 0, ErrClosed
	}
	told, why := new([2]C.size_t), new(C.h26x_refusal)
	code := C.size_of(of, &p.call.handle, C.size_t(mtu), at(bytes), C.size_t(len(bytes)), C.size_t(headroom),
		&told[0], &told[1], why)
	if err := refused(code, *why); err != nil {
		return 0, 0, err
	}
	return lengths(told[0], told[1])
}

// copies makes packets in memory of their own.
func (p *Packetizer) copies(of C.int, mtu uint16, bytes []byte) ([][]byte, error) {
	p.mu.Lock()
	defer p.mu.Unlock()
	if err := p.makes(of, mtu, bytes, &p.kept); err != nil {
		return nil, err
	}
	return p.kept.copies(), nil
}

// makes makes packets in the place of those in into, whose room grows where they don't fit. The caller has
// the lock.
func (p *Packetizer) makes(of C.int, mtu uint16, bytes []byte, into *Packets) error {
	call := p.call
	if call == nil {
		return ErrClosed
	}
	read := apart(bytes, into.bytes)
	for {
		call.why = C.h26x_refusal{}
		code := C.packets_into(of, &call.handle, C.size_t(mtu), at(read), C.size_t(len(read)),
			C.size_t(into.headroom), at(into.bytes), C.size_t(len(into.bytes)), into.endsAt(),
			C.size_t(len(into.ends)), &call.count, &call.size, &call.why)
		if code != C.H26X_NO_ROOM {
			if err := refused(code, call.why); err != nil {
				return err
			}
			into.count = int(call.count)
			return nil
		}
		count, size, err := lengths(call.count, call.size)
		if err != nil {
			return err
		}
		into.grow(count, size)
	}
}
