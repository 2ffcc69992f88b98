package h26x

// #include <h26x.h>
import "C"

// IsRTCP tells whether a datagram is RTCP and not RTP, where both share a port (RFC 5761, 4): ask this before
// [ReadRTP].
func IsRTCP(datagram []byte) bool {
	return bool(C.h26x_is_rtcp(at(datagram), C.size_t(len(datagram))))
}

// An RTPHeader is the header of an RTP packet (RFC 3550, 5.1).
type RTPHeader struct {
	// PayloadType is below 128.
	PayloadType uint8
	Marker      bool
	Sequence    uint16
	Timestamp   uint32
	SSRC        uint32
	// CSRCs are four bytes each, at most 15.
	CSRCs []byte
	// HasExtension is X: whether there is a header extension (5.3.1).
	HasExtension bool
	// Profile is of an extension the 16 bits before its length, and Extension what stands behind that: whole words of
	// four bytes.
	Profile   uint16
	Extension []byte
}

// An RTPDatagram is an RTP packet (RFC 3550, 5.1). Of one that was read the slices are parts of the datagram, nil where
// these have no bytes. Encrypted packets (SRTP) are read as any others: only their headers make sense.
type RTPDatagram struct {
	RTPHeader
	// Payload has no bytes in a packet of padding alone, whose number is one to Skip.
	Payload []byte
	// Padding is what stands behind the payload, its last byte how many bytes it has; none where P is clear.
	Padding []byte
}

// ReadRTP reads an RTP packet. Its errors are by the first fault from the left ErrRTPTooShort, ErrRTPOtherVersion,
// ErrRTPCSRCsPastTheEnd, ErrRTPExtensionPastTheEnd, ErrRTPPaddingOfZero and ErrRTPPaddingTooLong (RFC 3550, 5.1).
func ReadRTP(datagram []byte) (RTPDatagram, error) {
	told := new(C.h26x_rtp_packet)
	code := C.h26x_rtp_read(at(datagram), C.size_t(len(datagram)), told)
	return datagramOf(datagram, told, code)
}

// ReadOriginal reads the packet that a retransmission packet bears, of the payload type and the SSRC of its stream (RTX;
// RFC 4588, 4). It has no padding. Its errors are those of ReadRTP, and ErrRTXNoOriginal.
func ReadOriginal(datagram []byte, payloadType uint8, ssrc uint32) (RTPDatagram, error) {
	told := new(C.h26x_rtp_packet)
	code := C.h26x_rtp_original(at(datagram), C.size_t(len(datagram)), C.uint8_t(payloadType), C.uint32_t(ssrc), told)
	return datagramOf(datagram, told, code)
}

func datagramOf(datagram []byte, told *C.h26x_rtp_packet, code C.uint32_t) (RTPDatagram, error) {
	if err := refusedBy(code); err != nil {
		return RTPDatagram{}, err
	}
	header, payload := &told.header, int(told.payload)
	return RTPDatagram{
		RTPHeader: RTPHeader{
			PayloadType:  uint8(header.payload_type),
			Marker:       bool(header.marker),
			Sequence:     uint16(header.sequence),
			Timestamp:    uint32(header.timestamp),
			SSRC:         uint32(header.ssrc),
			CSRCs:        piece(datagram, 12, told.csrcs_len),
			HasExtension: bool(header.has_extension),
			Profile:      uint16(header.profile),
			Extension:    piece(datagram, 16+int(told.csrcs_len), told.extension_len),
		},
		Payload: piece(datagram, payload, told.payload_len),
		Padding: piece(datagram, payload+int(told.payload_len), told.padding_len),
	}, nil
}

// piece is so many bytes from a place on; nil where there are none.
func piece(b []byte, begin int, size C.size_t) []byte {
	if size == 0 {
		return nil
	}
	end := begin + int(size)
	return b[begin:end:end]
}

// Packet is what an AccessUnitReceiver takes of it.
func (d RTPDatagram) Packet() RTPPacket {
	return RTPPacket{d.Sequence, d.Timestamp, d.Marker, d.Payload}
}

func (h *RTPHeader) numbers() *C.h26x_rtp_header {
	return &C.h26x_rtp_header{
		timestamp:     C.uint32_t(h.Timestamp),
		ssrc:          C.uint32_t(h.SSRC),
		sequence:      C.uint16_t(h.Sequence),
		profile:       C.uint16_t(h.Profile),
		payload_type:  C.uint8_t(h.PayloadType),
		marker:        C.bool(h.Marker),
		has_extension: C.bool(h.HasExtension),
	}
}

// Append appends the packet to dst (RFC 3550, 5.1). Its errors are by the first that has no place in a packet
// ErrRTPPayloadType, ErrRTPCSRCs, ErrRTPExtension and ErrRTPPadding; dst is answered then.
func (d RTPDatagram) Append(dst []byte) ([]byte, error) {
	most := 16 + len(d.CSRCs) + len(d.Extension) + len(d.Payload) + len(d.Padding)
	return appended(dst, most, func(to []byte, size *C.size_t) C.uint32_t {
		csrcs, extension, payload, padding := apart(d.CSRCs, to), apart(d.Extension, to), apart(d.Payload, to), apart(d.Padding, to)
		return C.h26x_rtp_write(d.numbers(), at(csrcs), C.size_t(len(csrcs)), at(extension), C.size_t(len(extension)),
			at(payload), C.size_t(len(payload)), at(padding), C.size_t(len(padding)), at(to), C.size_t(len(to)), size)
	})
}

// An RTPElement is an element of a header extension (RFC 8285, 4.1).
type RTPElement struct {
	// ID is its local identifier, whose meaning an a=extmap line of SDP says (RFC 8285, 5).
	ID uint8
	// Bytes are a part of the extension; nil where there are none.
	Bytes []byte
}

// Elements are the elements of the header extension, in their order (RFC 8285, 4.2 and 4.3): by Profile those with a
// header of one byte, which end before an ID of 15, or of 0 with a length, or of two; of another Profile there are none.
// Where one passes the end the error is ErrRTPElementPastTheEnd, with those before it.
func (h RTPHeader) Elements() ([]RTPElement, error) {
	var elements []RTPElement
	if !h.HasExtension {
		return nil, nil
	}
	it, from, extension := new(C.h26x_rtp_element), C.size_t(0), h.Extension
	for {
		code := C.h26x_rtp_element_next(C.uint16_t(h.Profile), at(extension), C.size_t(len(extension)), from, it)
		if code == C.H26X_RTP_NO_ELEMENT {
			return elements, nil
		}
		if err := refusedBy(code); err != nil {
			return elements, err
		}
		elements = append(elements, RTPElement{uint8(it.id), piece(extension, int(it.begin), it.len)})
		from = it.begin + it.len
	}
}

// WriteBefore writes the header into a buffer so that it ends at a place, where a payload begins: the headroom of a
// packet of [Packets]. padded is P: whether the packet ends in padding. It answers where the header begins. Its errors
// are ErrRTPPayloadType, ErrRTPCSRCs, ErrRTPExtension, and ErrNoRoom where it has more bytes than stand before the
// place, with First how many, or the place is outside the buffer; the buffer stays then.
func (h RTPHeader) WriteBefore(buffer []byte, place int, padded bool) (begin int, err error) {
	csrcs, extension, size := apart(h.CSRCs, buffer), apart(h.Extension, buffer), new(C.size_t)
	code := C.h26x_rtp_write_before(h.numbers(), at(csrcs), C.size_t(len(csrcs)), at(extension), C.size_t(len(extension)),
		C.bool(padded), C.size_t(place), at(buffer), C.size_t(len(buffer)), size)
	if err := refused(code, C.h26x_refusal{first: *size}); err != nil {
		return 0, err
	}
	return place - int(*size), nil
}

// AppendRTX appends the retransmission packet of a packet to dst, with a payload type, a sequence number and an SSRC of
// its own (RTX; RFC 4588, 4). Padding is left out. Its errors are those of ReadRTP, and ErrRTPPayloadType; dst is
// answered then.
func AppendRTX(dst, datagram []byte, payloadType uint8, sequence uint16, ssrc uint32) ([]byte, error) {
	return appended(dst, len(datagram)+2, func(to []byte, size *C.size_t) C.uint32_t {
		datagram := apart(datagram, to)
		return C.h26x_rtx_write(at(datagram), C.size_t(len(datagram)), C.uint8_t(payloadType), C.uint16_t(sequence),
			C.uint32_t(ssrc), at(to), C.size_t(len(to)), size)
	})
}

// REDPrimary is the primary block of a redundant payload, a part of it, and its payload type, which may be that of FEC
// (RED; RFC 2198, 3; RFC 5109, 14.2). To send one of a primary block alone, put a byte, its payload type, before it. Its
// errors are ErrREDHeadersPastTheEnd and ErrREDBlocksPastTheEnd.
func REDPrimary(payload []byte) (payloadType uint8, primary []byte, err error) {
	told, place := new(C.uint8_t), new(C.size_t)
	if err := refusedBy(C.h26x_red_primary(at(payload), C.size_t(len(payload)), told, place)); err != nil {
		return 0, nil, err
	}
	return uint8(*told), payload[*place:], nil
}

// A REDBlock is a block before the primary one of a redundant payload (RFC 2198, 3).
type REDBlock struct {
	// PayloadType is that of FEC where it bears no payload of the stream (RFC 5109, 14.2).
	PayloadType uint8
	// TimestampOffset is how much earlier than the packet's its timestamp is, below 16384.
	TimestampOffset uint16
	// Bytes are a part of the payload, at most 1023; nil where there are none.
	Bytes []byte
}

// REDBlocks are the blocks before the primary one of a redundant payload, in their order (RED; RFC 2198, 3). Its errors are
// those of REDPrimary.
func REDBlocks(payload []byte) ([]REDBlock, error) {
	count := new(C.size_t)
	if err := refusedBy(C.h26x_red_blocks(at(payload), C.size_t(len(payload)), nil, 0, count)); err != nil || *count == 0 {
		return nil, err
	}
	told := make([]C.h26x_red_block, *count)
	if err := refusedBy(C.h26x_red_blocks(at(payload), C.size_t(len(payload)), &told[0], *count, count)); err != nil {
		return nil, err
	}
	blocks := make([]REDBlock, len(told))
	for i := range told {
		it := &told[i]
		blocks[i] = REDBlock{uint8(it.payload_type), uint16(it.timestamp_offset), piece(payload, int(it.begin), it.len)}
	}
	return blocks, nil
}

// appended is dst with what a call writes behind it, at most so many bytes.
func appended(dst []byte, most int, write func(to []byte, size *C.size_t) C.uint32_t) ([]byte, error) {
	out, size := withRoom(dst, most), new(C.size_t)
	if err := refusedBy(write(out[len(out):cap(out)], size)); err != nil {
		return dst, err
	}
	return out[:len(out)+int(*size)], nil
}
