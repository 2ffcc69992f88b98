package h26x

// #include <h26x.h>
import "C"

// IsPartitionHead tells whether a packet may be the first of an access unit: one of two bytes or more that is
// no fragment, or the first of its unit. False for an unknown codec.
func IsPartitionHead(codec Codec, packet []byte) bool {
	return bool(C.h26x_is_partition_head(C.uint32_t(codec), at(packet), C.size_t(len(packet))))
}

// IsPartitionTail tells whether a packet is told to be the last of an access unit; marker is its marker bit.
//
// Of H.264 it is the marker. Of a fragment of H.265 or H.266 it is the E bit, whatever the marker, and the
// marker of every other packet. E is set where a unit ends, so an access unit may have more than one such
// packet: its end is told by the marker alone. False for an unknown codec.
func IsPartitionTail(codec Codec, marker bool, packet []byte) bool {
	return bool(C.h26x_is_partition_tail(C.uint32_t(codec), C.bool(marker), at(packet), C.size_t(len(packet))))
}

// DetectKeyframe tells whether a packet without decoding order numbers is known to hold a unit of a keyframe,
// or to be the first fragment of one. False for an unknown codec.
func DetectKeyframe(codec Codec, packet []byte) bool {
	return bool(C.h26x_detect_keyframe(C.uint32_t(codec), at(packet), C.size_t(len(packet))))
}

// BeginsKeyframe tells whether a packet begins a unit of a keyframe: it holds one, alone or in an aggregate, or is its
// first fragment. donl tells whether packets bear decoding order numbers; those of H.264 don't. So a forwarder finds where a keyframe begins,
// whichever units share packets. Key units are slices of IDR pictures of H.264, of IRAP pictures of H.265, of IDR and
// CRA pictures of H.266. False for a packet that a Depacketizer refuses, and for an unknown codec.
func BeginsKeyframe(codec Codec, donl bool, packet []byte) bool {
	return bool(C.h26x_begins_keyframe(C.uint32_t(codec), C.bool(donl), at(packet), C.size_t(len(packet))))
}

// DetectH264NALU tells whether an H.264 packet is known to hold a unit of this type, or to be the first
// fragment of one.
func DetectH264NALU(packet []byte, naluType uint8) bool {
	return bool(C.h26x_detect_h264_nalu(at(packet), C.size_t(len(packet)), C.uint8_t(naluType)))
}

// SetLowestHeader gives an aggregation packet of H.265 the header that RFC 7798, 4.4.2 asks for: the lowest layer and
// the lowest temporal id of the units in it, and F where one has it. donl tells whether packets bear decoding order
// numbers. Every other packet stays, and those of H.264 and H.266 and of an unknown codec.
func SetLowestHeader(codec Codec, donl bool, packet []byte) {
	C.h26x_set_lowest_header(C.uint32_t(codec), C.bool(donl), at(packet), C.size_t(len(packet)))
}

// OutSizeHint is about how many bytes the units of packets of this many bytes take when they are written. It
// is no bound, since each unit of a short packet has four bytes before it: 50 units of 100 bytes take 5200,
// and the hint is 5020.
func OutSizeHint(packetsSize uint) uint {
	return uint(C.h26x_out_size_hint(C.size_t(packetsSize)))
}

// IsPlainUnit tells whether a unit, its header first, is plain: one of the video itself, in whose Annex B text no
// reader finds another. False for an unknown codec.
//
// Its header is whole, with F 0 (of H.266 Z too) and a type that no packets use: H.264 1 to 23, H.265 0 to 47,
// H.266 0 to 27. It holds neither 00 00 00 nor 00 00 01, and doesn't end in a zero. A stranger's units may be
// others, and are written as they come: where that matters, have units written behind lengths (SetAVC) and ask this
// of each. What UnitsOf cuts out of Annex B text has lost the codes.
func IsPlainUnit(codec Codec, unit []byte) bool {
	return bool(C.h26x_unit_is_plain(C.uint32_t(codec), at(unit), C.size_t(len(unit))))
}

// Units goes through the units of a payload, in order: call Next, and Unit or Place where it answers true. A payload
// without a start code is one unit, and an empty unit is left out.
type Units struct {
	codec      Codec
	avc        bool
	payload    []byte
	begin, end C.size_t
	found      bool
}

// UnitsOf goes through the units of a payload. It has none for an unknown codec.
func UnitsOf(codec Codec, payload []byte) *Units {
	return &Units{codec: codec, payload: payload}
}

// AVCUnitsOf goes through the units of a text, each behind its length of four bytes, as SetAVC has them written. It
// ends where fewer bytes are left than a length tells.
func AVCUnitsOf(text []byte) *Units {
	return &Units{avc: true, payload: text}
}

// Next goes to the next unit. False where none is left.
func (u *Units) Next() bool {
	if u.avc {
		u.found = bool(C.h26x_next_avc_unit(at(u.payload), C.size_t(len(u.payload)), u.end, &u.begin, &u.end))
		return u.found
	}
	u.found = bool(C.h26x_next_unit(C.uint32_t(u.codec), at(u.payload), C.size_t(len(u.payload)), u.end,
		&u.begin, &u.end))
	return u.found
}

// Unit is the unit that Next went to, without its start code or length: a part of the payload, not a copy. It is nil
// where Next answered false.
func (u *Units) Unit() []byte {
	if !u.found {
		return nil
	}
	return u.payload[u.begin:u.end:u.end]
}

// Place is where that unit begins in the payload, and where it ends. Both are 0 where Next answered false.
func (u *Units) Place() (begin, end int) {
	if !u.found {
		return 0, 0
	}
	return int(u.begin), int(u.end)
}
