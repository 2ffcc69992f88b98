package h26x

// #include <h26x.h>
import "C"

// ClockRate is that of each payload type here, in Hz (RFC 6184, 8.2.1; RFC 7798, 7.2.1; RFC 9328, 7.3.1).
const ClockRate = C.H26X_CLOCK_RATE

// A RepairFormat is what goes beside video in a session.
type RepairFormat uint32

// The formats, by the names that stand in an a=rtpmap line.
const (
	// RepairRTX, rtx: packets that are sent again (RFC 4588, 8.3).
	RepairRTX RepairFormat = C.H26X_REPAIR_RTX
	// RepairRED, red: payloads with others before them (RFC 2198, 5), which bear their payload types.
	RepairRED RepairFormat = C.H26X_REPAIR_RED
	// RepairULPFEC, ulpfec: forward error correction (RFC 5109, 13.2).
	RepairULPFEC RepairFormat = C.H26X_REPAIR_ULPFEC
	// RepairFlexFEC, flexfec: forward error correction (RFC 8627, 5.1.2).
	RepairFlexFEC RepairFormat = C.H26X_REPAIR_FLEXFEC
	// RepairFlexFEC03, flexfec-03: the same by the third draft of RFC 8627, as browsers send it.
	RepairFlexFEC03 RepairFormat = C.H26X_REPAIR_FLEXFEC_03
)

// A RepairMap is a payload type, from 0 to 127, of what goes beside video, with a clock rate of ClockRate: what stands
// behind a=rtpmap: (RFC 8866, 6.6). To whom it belongs says of RepairRTX an RTXFormat.
type RepairMap struct {
	PayloadType uint8
	Format      RepairFormat
}

// ReadRepairMap reads that of a text, the name without regard to case. Its errors are ErrSDPPayloadType,
// ErrSDPEncodingName and ErrSDPClockRate by the first that is wrong, as of audio's "63 red/48000/2".
func ReadRepairMap(text string) (RepairMap, error) {
	bytes, payloadType, format := []byte(text), new(C.uint8_t), new(C.uint32_t)
	err := refusedBy(C.h26x_repairmap_read(at(bytes), C.size_t(len(bytes)), payloadType, format))
	if err != nil {
		return RepairMap{}, err
	}
	return RepairMap{uint8(*payloadType), RepairFormat(*format)}, nil
}

// Text is what stands behind a=rtpmap:. Its errors are ErrOutOfRange of no RepairFormat, ErrSDPPayloadType above 127, and
// ErrOutOfMemory.
func (m RepairMap) Text() (string, error) {
	return written(func(to *C.uint8_t, room C.size_t, size *C.size_t) C.uint32_t {
		return C.h26x_repairmap_write(C.uint8_t(m.PayloadType), C.uint32_t(m.Format), to, room, size)
	})
}

// String is the Text; empty where that has an error.
func (m RepairMap) String() string {
	text, _ := m.Text()
	return text
}

// An RTXFormat is what an a=fmtp line says behind the payload type of RepairRTX (RFC 4588, 8.3 and 8.6).
type RTXFormat struct {
	// PayloadType is apt: the one that packets were first sent with, to which it belongs, from 0 to 127.
	PayloadType uint8
	// HasRTXTime is whether RTXTime is said.
	HasRTXTime bool
	// RTXTime is rtx-time: for how many milliseconds a packet can be sent again.
	RTXTime uint64
}

// ReadRTXFormat reads that of a text. What RFC 4588 doesn't have is left out. Its errors are those of ReadFormatParameters,
// an apt above 127 being ErrSDPOutOfRange; ErrSDPNoAPT; and ErrOutOfMemory.
func ReadRTXFormat(text string) (RTXFormat, error) {
	bytes, format, why := []byte(text), new(C.h26x_rtx_format), new(C.h26x_refusal)
	code := C.h26x_rtx_format_read(at(bytes), C.size_t(len(bytes)), format, why)
	if err := refused(code, *why); err != nil {
		return RTXFormat{}, err
	}
	return RTXFormat{uint8(format.payload_type), bool(format.has_rtx_time), uint64(format.rtx_time)}, nil
}

// Text is what stands behind the payload type. Its errors are ErrSDPPayloadType above 127 and ErrOutOfMemory.
func (f RTXFormat) Text() (string, error) {
	format := &C.h26x_rtx_format{
		rtx_time:     C.uint64_t(f.RTXTime),
		payload_type: C.uint8_t(f.PayloadType),
		has_rtx_time: C.bool(f.HasRTXTime),
	}
	return written(func(to *C.uint8_t, room C.size_t, size *C.size_t) C.uint32_t {
		return C.h26x_rtx_format_write(format, to, room, size)
	})
}

// String is the Text; empty where that has an error.
func (f RTXFormat) String() string {
	text, _ := f.Text()
	return text
}
