package h26x

// #include <h26x.h>
import "C"

import "strconv"

// A Codec is a codec by its number.
type Codec uint32

// The codecs.
const (
	H264 Codec = C.H26X_H264
	H265 Codec = C.H26X_H265
	H266 Codec = C.H26X_H266
)

// String is what SDP calls the codec: "H264", "H265" or "H266" (RFC 6184, 8.1; RFC 7798, 7.1; RFC 9328,
// 7.2).
func (c Codec) String() string {
	name := C.h26x_codec_name(C.uint32_t(c))
	if name == nil {
		return "Codec(" + strconv.FormatUint(uint64(c), 10) + ")"
	}
	return C.GoString(name)
}

// Version is the version of the library that is linked, as "0.3.0".
func Version() string {
	number := uint64(C.h26x_version())
	part := func(shift uint) string { return strconv.FormatUint(number>>shift&255, 10) }
	return part(16) + "." + part(8) + "." + part(0)
}

// Origin is which library is linked, in three words: "proved" (the archive built from the proofs) or "source" (what
// cargo makes of the translated sources), its version, and the target it was built for.
func Origin() string {
	return C.GoString(C.h26x_origin())
}
