package h26x

// #include <h26x.h>
import "C"

// A Kind is what a packet of H.265 is (RFC 7798, 4.4.1 to 4.4.4).
type Kind uint32

// The kinds.
const (
	Single    Kind = C.H26X_H265_SINGLE
	Fragment  Kind = C.H26X_H265_FRAGMENT
	Aggregate Kind = C.H26X_H265_AGGREGATE
	PACI      Kind = C.H26X_H265_PACI
)

// A ShownPacket is a packet of H.265 by its parts (RFC 7798, 4.4). Before any it is Single with a header of 0
// and a part without bytes.
type ShownPacket struct {
	Kind Kind
	// Header is F, the type, the layer id and TID, from the highest bit down (1.1.4); 0 for an aggregate.
	Header uint16
	// Word is from the highest bit down: of a fragment S, E and the unit's type, in 8 bits (4.4.3); of a PACI
	// packet A, cType, PHSsize, F0, F1, F2 and Y (4.4.4); else 0.
	Word uint16
	// Parts are: of Single and Fragment what stands behind the headers and DONL; of Aggregate each unit; of
	// PACI the extension of the header, in which TSCI is the first three bytes where F0 is set (4.5), and then
	// the unit without its header.
	Parts []Part
}

// A Part is a part of a packet.
type Part struct {
	Bytes []byte
	// Number is what stands before it: DONL, or DOND of a unit behind the first. It is -1 without one.
	Number int
}

func shown(handle *C.h26x_depacketizer) (ShownPacket, error) {
	told := new(C.h26x_h265_packet)
	if err := refusedBy(C.h26x_h265_shown(handle, told)); err != nil {
		return ShownPacket{}, err
	}
	parts := make([]Part, int(told.parts))
	for i := range parts {
		parts[i] = part(handle, C.size_t(i))
	}
	return ShownPacket{Kind(told.kind), uint16(told.header), uint16(told.word), parts}, nil
}

func part(handle *C.h26x_depacketizer, i C.size_t) Part {
	number := new(C.uint32_t)
	data := make([]byte, int(C.h26x_h265_part_copy(handle, i, nil, 0, number)))
	C.h26x_h265_part_copy(handle, i, at(data), C.size_t(len(data)), number)
	if *number == C.H26X_NO_NUMBER {
		return Part{data, -1}
	}
	return Part{data, int(*number)}
}

// PACIPacket is a PACI packet of a unit of H.265, its header first, with an extension of the header (RFC
// 7798, 4.4.4). F0 is set where the extension has three bytes or more. Its errors are ErrShortPacket where
// the unit has under two bytes; else ErrH265PACIPHESTooLong where the extension has over 31; else
// ErrOutOfMemory.
func PACIPacket(unit, extension []byte) ([]byte, error) {
	// The word of the packet, of two bytes, is all that stands in it besides.
	to, size := make([]byte, len(unit)+len(extension)+2), new(C.size_t)
	err := refusedBy(C.h26x_h265_paci_packet(at(unit), C.size_t(len(unit)), at(extension),
		C.size_t(len(extension)), at(to), C.size_t(len(to)), size))
	if err != nil {
		return nil, err
	}
	return to[:*size], nil
}
