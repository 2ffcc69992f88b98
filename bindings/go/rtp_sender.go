package h26x

// #include <h26x.h>
import "C"

import (
	"runtime"
	"sync"
)

// RTPStreams are the streams of an RTPSender: that of its packets (RFC 3550, 5.1), and that of their retransmissions (RFC
// 4588, 4), which has an SSRC and numbers of its own. First numbers should be random.
type RTPStreams struct {
	// SSRC is that of the packets, PayloadType that of the codec, below 128, and Sequence the number of the next packet.
	SSRC        uint32
	PayloadType uint8
	Sequence    uint16
	// HasRTX: packets go again as retransmissions, else as they were, and what is below is 0.
	HasRTX bool
	// RTXSSRC is that of retransmissions, RTXPayloadType that whose apt is PayloadType, below 128, and RTXSequence the
	// number of the next one.
	RTXSSRC        uint32
	RTXPayloadType uint8
	RTXSequence    uint16
}

func (s RTPStreams) given() *C.h26x_rtp_streams {
	return &C.h26x_rtp_streams{
		ssrc:             C.uint32_t(s.SSRC),
		rtx_ssrc:         C.uint32_t(s.RTXSSRC),
		sequence:         C.uint16_t(s.Sequence),
		rtx_sequence:     C.uint16_t(s.RTXSequence),
		payload_type:     C.uint8_t(s.PayloadType),
		rtx_payload_type: C.uint8_t(s.RTXPayloadType),
		has_rtx:          C.bool(s.HasRTX),
	}
}

// RTPSent is what was sent, as sender reports of each SSRC tell it, in the low 32 bits (RFC 3550, 6.4.1). Counts stay at
// 2^64-1. Packets that go again as they were are counted once more.
type RTPSent struct {
	// Packets of the stream, and the bytes of their payloads.
	Packets, Bytes uint64
	// RTXPackets are retransmissions, and RTXBytes those of their payloads: the two of the number, and the payload that is
	// sent again.
	RTXPackets, RTXBytes uint64
}

// An RTPSender sends the packets of one stream: it writes RTP's header before each (RFC 3550), and holds the last ones, to
// send those again that a peer misses, as retransmissions (RTX; RFC 4588) or as they were. SRTP is the caller's to do
// behind it; a track of Pion's takes what it answers by Write.
type RTPSender struct {
	mu   sync.RWMutex
	call *sendingDatagrams
	// Memory in which datagrams are made that go into slices of their own.
	kept Packets
}

// sendingDatagrams is what C is given: it has no pointer of Go's. It is nil where the RTPSender is closed.
type sendingDatagrams struct {
	handle C.h26x_rtp_sender
	size   C.size_t
}

// rtpHeader is how many bytes a header has that has no CSRCs and no extension.
const rtpHeader = 12

// NewRTPSender makes a sender of these streams. It holds the last packets whose payloads have so many bytes together at
// most, and 32768 packets at most; each takes some 100 bytes more. A negative history is 0. Its errors are
// ErrRTPPayloadType, of one above 127, and ErrOutOfMemory.
func NewRTPSender(streams RTPStreams, history int) (*RTPSender, error) {
	call := new(sendingDatagrams)
	code := C.h26x_rtp_sender_new(streams.given(), C.size_t(larger(history, 0)), &call.handle)
	if err := refusedBy(code); err != nil {
		return nil, err
	}
	s := &RTPSender{call: call, kept: Packets{headroom: rtpHeader}}
	runtime.SetFinalizer(s, (*RTPSender).Close)
	return s, nil
}

// Close frees what the library holds, and answers nil. It may be called again.
func (s *RTPSender) Close() error {
	s.mu.Lock()
	defer s.mu.Unlock()
	if s.call != nil {
		C.h26x_rtp_sender_free(s.call.handle)
		s.call = nil
		runtime.SetFinalizer(s, nil)
	}
	return nil
}

// Send answers the RTP packets of all packets of an access unit, as a Packetizer makes them, in memory that is the caller's:
// the numbers follow each other, the timestamp is that of the access unit, and the last has the marker (RFC 3550, 5.1). An
// mtu of 12 less leaves room for the header. Its errors are ErrOutOfMemory, which sends nothing, and ErrClosed.
func (s *RTPSender) Send(timestamp uint32, payloads [][]byte) ([][]byte, error) {
	s.mu.Lock()
	defer s.mu.Unlock()
	s.kept.put(payloads)
	if _, err := s.heads(timestamp, 0, nil, &s.kept); err != nil {
		return nil, err
	}
	return s.kept.copies(), nil
}

// SendPackets does as Send where the packets lie: each header is written to the end of its packet's headroom, and nothing
// else. It answers how many bytes each header has, 12: with a headroom of just so many Datagram is the RTP packet, and else
// that without what its headroom has more in front. It asks Go for no memory.
//
// Its errors are ErrNoRoom where a header has more bytes than the headroom, with First how many; ErrOutOfMemory; and
// ErrClosed. All send nothing, and change nothing.
func (s *RTPSender) SendPackets(timestamp uint32, packets *Packets) (size int, err error) {
	return s.SendExtended(timestamp, 0, nil, packets)
}

// SendExtended is SendPackets with a header extension of this profile in each packet (RFC 3550, 5.3.1; RFC 8285), whose
// bytes a header has more, and four; none where there are no bytes. ErrRTPExtension where they aren't whole words of four,
// and ErrNoRoom where a header has over 272 bytes too.
func (s *RTPSender) SendExtended(timestamp uint32, profile uint16, extension []byte, packets *Packets) (size int, err error) {
	s.mu.Lock()
	defer s.mu.Unlock()
	return s.heads(timestamp, profile, extension, packets)
}

// heads writes the headers. The caller has the lock.
func (s *RTPSender) heads(timestamp uint32, profile uint16, extension []byte, packets *Packets) (int, error) {
	call := s.call
	if call == nil {
		return 0, ErrClosed
	}
	bytes := packets.Bytes()
	read := apart(extension, bytes)
	code := C.h26x_rtp_sender_send(&call.handle, C.uint32_t(timestamp), C.uint16_t(profile), at(read), C.size_t(len(read)),
		C.size_t(packets.headroom), at(bytes), C.size_t(len(bytes)), packets.endsAt(), C.size_t(packets.count), &call.size)
	if code == C.H26X_NO_ROOM {
		return 0, refused(code, C.h26x_refusal{first: call.size})
	}
	if err := refusedBy(code); err != nil {
		return 0, err
	}
	return int(call.size), nil
}

// Resend answers what goes again for the packet of this number: its retransmission, or without RTX the same packet (RFC
// 4588, 4); nil where that packet is held no longer, or was never sent. So call it for each number of a NACK. Its error is
// ErrClosed.
func (s *RTPSender) Resend(sequence uint16) ([]byte, error) { return s.ResendInto(nil, sequence) }

// ResendInto appends the same to dst, nothing where Resend answers nil. It asks Go for no memory where dst has room.
func (s *RTPSender) ResendInto(dst []byte, sequence uint16) ([]byte, error) {
	s.mu.Lock()
	defer s.mu.Unlock()
	call := s.call
	if call == nil {
		return dst, ErrClosed
	}
	for out := dst; ; {
		room := out[len(out):cap(out)]
		code := C.h26x_rtp_sender_resend(&call.handle, C.uint16_t(sequence), at(room), C.size_t(len(room)), &call.size)
		if code == C.H26X_OK {
			return out[:len(out)+int(call.size)], nil
		}
		if code != C.H26X_NO_ROOM {
			return dst, refusedBy(code)
		}
		size, err := length(call.size)
		if err != nil {
			return dst, err
		}
		out = withRoom(out, size)
	}
}

// Streams are its streams, with the numbers of the next packets. Its error is ErrClosed.
func (s *RTPSender) Streams() (RTPStreams, error) {
	told := new(C.h26x_rtp_streams)
	err := s.look(func(call *sendingDatagrams) C.uint32_t {
		return C.h26x_rtp_sender_streams(&call.handle, told)
	})
	return RTPStreams{
		SSRC:           uint32(told.ssrc),
		PayloadType:    uint8(told.payload_type),
		Sequence:       uint16(told.sequence),
		HasRTX:         bool(told.has_rtx),
		RTXSSRC:        uint32(told.rtx_ssrc),
		RTXPayloadType: uint8(told.rtx_payload_type),
		RTXSequence:    uint16(told.rtx_sequence),
	}, err
}

// Sent is what was sent. Its error is ErrClosed.
func (s *RTPSender) Sent() (RTPSent, error) {
	told := new(C.h26x_rtp_sent)
	err := s.look(func(call *sendingDatagrams) C.uint32_t {
		return C.h26x_rtp_sender_count(&call.handle, told)
	})
	return RTPSent{uint64(told.packets), uint64(told.bytes), uint64(told.rtx_packets), uint64(told.rtx_bytes)}, err
}

// look makes a call that changes nothing.
func (s *RTPSender) look(look func(*sendingDatagrams) C.uint32_t) error {
	s.mu.RLock()
	defer s.mu.RUnlock()
	if s.call == nil {
		return ErrClosed
	}
	return refusedBy(look(s.call))
}
