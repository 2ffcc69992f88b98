package h26x

// #include <h26x.h>
import "C"

import "unsafe"

// RTCPPackets is the packets of a datagram of RTCP in their order, parts of it: most RTCP is sent in compounds (RFC 3550,
// 6.1). It ends before the first that isn't of version 2, or isn't all there (A.2).
func RTCPPackets(datagram []byte) [][]byte {
	var packets [][]byte
	from, end := 0, new(C.size_t)
	for bool(C.h26x_rtcp_next(at(datagram), C.size_t(len(datagram)), C.size_t(from), end)) {
		packets = append(packets, datagram[from:int(*end):int(*end)])
		from = int(*end)
	}
	return packets
}

// A PictureLoss is a picture loss indication, which asks for a keyframe (PLI; RFC 4585, 6.3.1).
type PictureLoss struct {
	// Sender is the SSRC of who sends it, and Media that of which a picture is lost.
	Sender, Media uint32
}

// Append appends its 12 bytes to dst. Of several RTCP packets each goes behind the one before.
func (p PictureLoss) Append(dst []byte) []byte {
	return always(dst, 12, func(to *C.uint8_t, room C.size_t) C.uint32_t {
		return C.h26x_pli_write(C.uint32_t(p.Sender), C.uint32_t(p.Media), to, room, nil)
	})
}

// ReadPictureLoss reads one, an RTCP packet alone; false where the bytes are another.
func ReadPictureLoss(packet []byte) (PictureLoss, bool) {
	sender, media := new(C.uint32_t), new(C.uint32_t)
	is := bool(C.h26x_pli_read(at(packet), C.size_t(len(packet)), sender, media))
	return PictureLoss{uint32(*sender), uint32(*media)}, is
}

// A FullIntraRequest asks one source for a keyframe (FIR; RFC 5104, 4.3.1).
type FullIntraRequest struct {
	// Sender is the SSRC of who sends it, and Media that of which a keyframe is wanted.
	Sender, Media uint32
	// Number is one more, modulo 256, with each request, and the same where one is sent again.
	Number uint8
}

// Append appends its 20 bytes to dst.
func (r FullIntraRequest) Append(dst []byte) []byte {
	return always(dst, 20, func(to *C.uint8_t, room C.size_t) C.uint32_t {
		return C.h26x_fir_write(C.uint32_t(r.Sender), C.uint32_t(r.Media), C.uint8_t(r.Number), to, room, nil)
	})
}

// ReadFullIntraRequest reads one of one source, an RTCP packet alone; false where the bytes are another.
func ReadFullIntraRequest(packet []byte) (FullIntraRequest, bool) {
	sender, media, number := new(C.uint32_t), new(C.uint32_t), new(C.uint8_t)
	is := bool(C.h26x_fir_read(at(packet), C.size_t(len(packet)), sender, media, number))
	return FullIntraRequest{uint32(*sender), uint32(*media), uint8(*number)}, is
}

// A NACK asks for packets of one source again (generic NACK; RFC 4585, 6.2.1).
type NACK struct {
	// Sender is the SSRC of who sends it, and Media that whose packets are asked for.
	Sender, Media uint32
	// Numbers are the sequence numbers that it asks for, of which there is one at least in what was read. Give them in
	// ascending order, round 65536: one shares four bytes with those of the sixteen behind it.
	Numbers []uint16
}

// Append appends a packet of at most so many bytes to dst, which asks for the first of Numbers, as many as have room, and
// answers how many these are: append another one with the rest. No numbers make no packet. Where most is below 16, which
// one number takes, the error is ErrNoRoom, with First 16, and dst is answered.
func (n NACK) Append(dst []byte, most int) (out []byte, count int, err error) {
	// (the length of a packet says 65533 pairs at most)
	pairs := len(n.Numbers)
	if pairs > 65533 {
		pairs = 65533
	}
	room := 12 + 4*pairs
	if room > most {
		room = larger(most, 0)
	}
	out = withRoom(dst, room)
	size, told := new(C.size_t), new(C.size_t)
	code := C.h26x_nack_write(C.uint32_t(n.Sender), C.uint32_t(n.Media), numbersAt(n.Numbers),
		C.size_t(len(n.Numbers)), at(out[len(out):len(out)+room]), C.size_t(room), size, told)
	if err := refused(code, C.h26x_refusal{first: *size}); err != nil {
		return dst, 0, err
	}
	return out[:len(out)+int(*size)], int(*told), nil
}

// ReadNACK reads one, an RTCP packet alone; false where the bytes are another.
func ReadNACK(packet []byte) (NACK, bool) {
	sender, media, count := new(C.uint32_t), new(C.uint32_t), new(C.size_t)
	read := func(numbers []uint16) bool {
		return bool(C.h26x_nack_read(at(packet), C.size_t(len(packet)), sender, media, numbersAt(numbers),
			C.size_t(len(numbers)), count))
	}
	if !read(nil) {
		return NACK{}, false
	}
	numbers := make([]uint16, int(*count))
	read(numbers)
	return NACK{uint32(*sender), uint32(*media), numbers}, true
}

// numbersAt is where numbers stand; nil where there are none.
func numbersAt(numbers []uint16) *C.uint16_t {
	if len(numbers) == 0 {
		return nil
	}
	return (*C.uint16_t)(unsafe.Pointer(&numbers[0]))
}

// A ReportBlock is what a receiver reports of a source (RFC 3550, 6.4.1).
type ReportBlock struct {
	// SSRC is the source.
	SSRC uint32
	// FractionLost is the part of packets that was lost since the last report, in 256ths.
	FractionLost uint8
	// Lost is how many packets were lost, below 0 where more came than were expected: -2^23 to 2^23-1.
	Lost int32
	// Highest is the highest number that came, extended by how often numbers went round.
	Highest uint32
	// Jitter is the interarrival jitter, in ticks of the timestamps' clock.
	Jitter uint32
	// LastSenderReport is the middle 32 bits of the NTP timestamp of the last one, and Delay how long ago that came, in
	// 65536ths of a second; 0 where none came.
	LastSenderReport, Delay uint32
}

// A ReceiverReport is a receiver report of one source (RFC 3550, 6.4.2).
type ReceiverReport struct {
	// Sender is the SSRC of who sends it.
	Sender uint32
	// Report is what is reported of the source.
	Report ReportBlock
}

// Append appends its 32 bytes to dst. What is lost is written in 24 bits, as near as these come.
func (r ReceiverReport) Append(dst []byte) []byte {
	block := &C.h26x_report{
		ssrc:               C.uint32_t(r.Report.SSRC),
		lost:               C.int32_t(r.Report.Lost),
		highest:            C.uint32_t(r.Report.Highest),
		jitter:             C.uint32_t(r.Report.Jitter),
		last_sender_report: C.uint32_t(r.Report.LastSenderReport),
		delay:              C.uint32_t(r.Report.Delay),
		fraction_lost:      C.uint8_t(r.Report.FractionLost),
	}
	return always(dst, 32, func(to *C.uint8_t, room C.size_t) C.uint32_t {
		return C.h26x_receiver_report_write(C.uint32_t(r.Sender), block, to, room, nil)
	})
}

// ReadReceiverReport reads one of one source, an RTCP packet alone; false where the bytes are another.
func ReadReceiverReport(packet []byte) (ReceiverReport, bool) {
	sender, block := new(C.uint32_t), new(C.h26x_report)
	is := bool(C.h26x_receiver_report_read(at(packet), C.size_t(len(packet)), sender, block))
	return ReceiverReport{uint32(*sender), blockOf(block)}, is
}

func blockOf(it *C.h26x_report) ReportBlock {
	return ReportBlock{
		SSRC:             uint32(it.ssrc),
		FractionLost:     uint8(it.fraction_lost),
		Lost:             int32(it.lost),
		Highest:          uint32(it.highest),
		Jitter:           uint32(it.jitter),
		LastSenderReport: uint32(it.last_sender_report),
		Delay:            uint32(it.delay),
	}
}

// always is dst with what a call writes behind it, which has so many bytes.
func always(dst []byte, size int, write func(to *C.uint8_t, room C.size_t) C.uint32_t) []byte {
	out := withRoom(dst, size)
	end := len(out) + size
	write(at(out[len(out):end]), C.size_t(size))
	return out[:end]
}

// RTPStatistics are what is counted of the packets of one source, an SSRC, for the reports of a receiver (RFC 3550,
// 6.4.1, A.1, A.3 and A.8). Of the zero value nothing was counted yet; counts stay at 2^64-1. It may be copied, and one
// goroutine at a time may use it.
type RTPStatistics struct {
	counted C.h26x_rtp_statistics
}

// Receive counts a packet that came by its own SSRC, by its number, its timestamp and the bytes of its payload. arrival is
// when it came, in ticks of the timestamps' clock, which go round at 2^32. It answers whether the packet counts: one whose
// number jumps does only where it follows the one that jumped last, and with it the source begins anew (RFC 3550, A.1).
func (s *RTPStatistics) Receive(arrival uint32, sequence uint16, timestamp uint32, size int) bool {
	return bool(C.h26x_rtp_statistics_receive(&s.counted, C.uint32_t(arrival), C.uint16_t(sequence),
		C.uint32_t(timestamp), C.size_t(size)))
}

// Recover counts a packet that came as a retransmission, or was restored.
func (s *RTPStatistics) Recover() { C.h26x_rtp_statistics_recover(&s.counted) }

// Report is what is reported of the source, with the part that was lost since the last report (RFC 3550, 6.4.1 and A.3).
// lastSenderReport and delay are 0 where no sender report came.
func (s *RTPStatistics) Report(ssrc, lastSenderReport, delay uint32) ReportBlock {
	block := new(C.h26x_report)
	C.h26x_rtp_statistics_report(&s.counted, C.uint32_t(ssrc), C.uint32_t(lastSenderReport), C.uint32_t(delay), block)
	return blockOf(block)
}

// Expected is how many numbers there are from the first to the highest.
func (s *RTPStatistics) Expected() uint64 { return uint64(s.counted.expected) }

// Received is how many packets came since the source began, those that came twice as often as they came.
func (s *RTPStatistics) Received() uint64 { return uint64(s.counted.received) }

// Bytes is how many bytes of payload came.
func (s *RTPStatistics) Bytes() uint64 { return uint64(s.counted.bytes) }

// Recovered is how many packets came as retransmissions, which aren't among those received.
func (s *RTPStatistics) Recovered() uint64 { return uint64(s.counted.recovered) }
