package h26x_test

import (
	"bytes"
	"errors"
	"reflect"
	"testing"

	"emupedestal/h26x"
)

// A packet with a CSRC, an extension of one word and a byte of padding (RFC 3550, 5.1 and 5.3.1).
const wholeDatagram = "b1ff ffff 00000000 ffffffff 0a0b0c0d bede0001 10aa0000 41 01"

var wholeHeader = h26x.RTPHeader{
	PayloadType: 127, Marker: true, Sequence: 65535, SSRC: 1<<32 - 1, CSRCs: []byte{10, 11, 12, 13}, HasExtension: true,
	Profile: 0xbede, Extension: []byte{0x10, 0xaa, 0, 0},
}

func TestDatagrams(t *testing.T) {
	for digits, wanted := range map[string]h26x.RTPDatagram{
		wholeDatagram: {RTPHeader: wholeHeader, Payload: []byte{0x41}, Padding: []byte{1}},
		"8060 1234 01020304 a1a2a3a4": {
			RTPHeader: h26x.RTPHeader{PayloadType: 96, Sequence: 0x1234, Timestamp: 0x01020304, SSRC: 0xa1a2a3a4},
		},
		"a060 0007 00000000 00000001 000003": {
			RTPHeader: h26x.RTPHeader{PayloadType: 96, Sequence: 7, SSRC: 1}, Padding: []byte{0, 0, 3},
		},
		"9060 0007 00000000 00000001 10000000 65": {
			RTPHeader: h26x.RTPHeader{PayloadType: 96, Sequence: 7, SSRC: 1, HasExtension: true, Profile: 0x1000},
			Payload:   []byte{0x65},
		},
	} {
		datagram := some(digits)
		got, err := h26x.ReadRTP(datagram)
		done(t, err)
		if !reflect.DeepEqual(got, wanted) {
			t.Errorf("%s: %+v", digits, got)
		}
		// What is read is written as the same, behind what stands there, also where that lies in front of it.
		out, err := got.Append([]byte{7})
		done(t, err)
		same(t, out, append([]byte{7}, datagram...))
		out, err = got.Append(datagram[:0])
		done(t, err)
		same(t, out, some(digits))
	}
}

func TestPartsOfDatagrams(t *testing.T) {
	datagram := some(wholeDatagram)
	got, err := h26x.ReadRTP(datagram)
	done(t, err)
	if &got.Payload[0] != &datagram[24] || cap(got.Payload) != 1 || &got.CSRCs[0] != &datagram[12] {
		t.Error("the parts are copies")
	}
	packet := got.Packet()
	if packet.Sequence != 65535 || packet.Timestamp != 0 || !packet.Marker || &packet.Payload[0] != &datagram[24] {
		t.Errorf("%+v", packet)
	}
}

func TestRefusedDatagrams(t *testing.T) {
	for digits, code := range map[string]h26x.Code{
		"":                                   h26x.ErrRTPTooShort,
		"8060 0001 00000000 000000":          h26x.ErrRTPTooShort,
		"4160 0001 00000000 00000000":        h26x.ErrRTPOtherVersion,
		"b160 0001 00000000 00000000 0a0b00": h26x.ErrRTPCSRCsPastTheEnd,
		"b060 0001 00000000 00000000 bede0001 000000": h26x.ErrRTPExtensionPastTheEnd,
		"a060 0001 00000000 00000000 4100":            h26x.ErrRTPPaddingOfZero,
		"a060 0001 00000000 00000000 4103":            h26x.ErrRTPPaddingTooLong,
	} {
		_, err := h26x.ReadRTP(some(digits))
		refuses(t, err, code)
		_, err = h26x.ReadOriginal(some(digits), 96, 1)
		refuses(t, err, code)
		out, err := h26x.AppendRTX([]byte{7}, some(digits), 97, 5, 2)
		refuses(t, err, code)
		same(t, out, []byte{7})
	}
}

func TestUnwrittenDatagrams(t *testing.T) {
	for _, it := range []struct {
		change func(d *h26x.RTPDatagram)
		code   h26x.Code
	}{
		{func(d *h26x.RTPDatagram) { d.Padding = []byte{0, 3} }, h26x.ErrRTPPadding},
		{func(d *h26x.RTPDatagram) { d.Extension = make([]byte, 262144) }, h26x.ErrRTPExtension},
		{func(d *h26x.RTPDatagram) { d.CSRCs = make([]byte, 64) }, h26x.ErrRTPCSRCs},
		{func(d *h26x.RTPDatagram) { d.CSRCs = make([]byte, 3) }, h26x.ErrRTPCSRCs},
		{func(d *h26x.RTPDatagram) { d.PayloadType = 128 }, h26x.ErrRTPPayloadType},
	} {
		d := h26x.RTPDatagram{RTPHeader: wholeHeader}
		it.change(&d)
		out, err := d.Append([]byte{7})
		refuses(t, err, it.code)
		same(t, out, []byte{7})
		if it.code != h26x.ErrRTPPadding {
			_, err := d.WriteBefore(make([]byte, 100), 100, false)
			refuses(t, err, it.code, 0)
		}
	}
}

func TestHeadersBeforePackets(t *testing.T) {
	buffer := bytes.Repeat([]byte{7}, 30)
	_, err := wholeHeader.WriteBefore(buffer, 23, true)
	refuses(t, err, h26x.ErrNoRoom, 24)
	for _, place := range []int{31, -1} {
		_, err = wholeHeader.WriteBefore(buffer, place, true)
		refuses(t, err, h26x.ErrNoRoom, 24)
	}
	same(t, buffer, bytes.Repeat([]byte{7}, 30))
	begin, err := wholeHeader.WriteBefore(buffer, 26, true)
	done(t, err)
	same(t, buffer[begin:26], some(wholeDatagram)[:24])
	same(t, buffer[26:], []byte{7, 7, 7, 7})

	packets := h26x.NewPackets(12)
	done(t, newPacketizer(t, h26x.H264, false).PacketizeUnitsInto(30, some("00000001 67420a 00000001 68cb 00000001 6501"), packets))
	for i := 0; i < packets.Len(); i++ {
		header := h26x.RTPHeader{PayloadType: 96, Sequence: uint16(65535 + i), Timestamp: 3000, SSRC: 7, Marker: i+1 == packets.Len()}
		_, err := header.WriteBefore(packets.Datagram(i), packets.Headroom(), false)
		done(t, err)
		got, err := h26x.ReadRTP(packets.Datagram(i))
		done(t, err)
		if !reflect.DeepEqual(got, h26x.RTPDatagram{RTPHeader: header, Payload: packets.Packet(i)}) {
			t.Errorf("%+v", got)
		}
	}
}

func TestRetransmissions(t *testing.T) {
	sent, resent := some("80e0 1234 00000009 00000001 65"), "80e1 0005 00000009 00000002 1234 65"
	wanted, err := h26x.ReadRTP(sent)
	done(t, err)
	for _, packet := range []string{"80e0 1234 00000009 00000001 65", "a0e0 1234 00000009 00000001 65 01"} {
		out, err := h26x.AppendRTX(nil, some(packet), 97, 5, 2)
		done(t, err)
		same(t, out, some(resent))
		datagram := some(packet)
		out, err = h26x.AppendRTX(datagram[:0], datagram, 97, 5, 2)
		done(t, err)
		same(t, out, some(resent))
	}
	for _, packet := range []string{resent, "a0e1 0005 00000009 00000002 1234 65 01"} {
		got, err := h26x.ReadOriginal(some(packet), 96, 1)
		done(t, err)
		if !reflect.DeepEqual(got, wanted) {
			t.Errorf("%+v", got)
		}
	}
	for _, packet := range []string{"8061 0005 00000009 00000002 12", "a061 0005 00000009 00000002 01"} {
		_, err := h26x.ReadOriginal(some(packet), 96, 1)
		refuses(t, err, h26x.ErrRTXNoOriginal)
	}
	_, err = h26x.AppendRTX(nil, sent, 128, 5, 2)
	refuses(t, err, h26x.ErrRTPPayloadType)
}

func TestRedundantPayloads(t *testing.T) {
	for digits, wanted := range map[string]struct {
		payloadType uint8
		primary     string
	}{"60 65": {96, "65"}, "05": {5, ""}, "87028002 05 aabb cc": {5, "cc"}, "87028002 ff000001 7f aabb dd ee": {127, "ee"}} {
		payloadType, primary, err := h26x.REDPrimary(some(digits))
		done(t, err)
		same(t, primary, some(wanted.primary))
		if payloadType != wanted.payloadType {
			t.Errorf("%s: %d", digits, payloadType)
		}
	}
	for digits, code := range map[string]h26x.Code{
		"": h26x.ErrREDHeadersPastTheEnd, "87028002": h26x.ErrREDHeadersPastTheEnd, "87028002 05 aa": h26x.ErrREDBlocksPastTheEnd,
	} {
		_, primary, err := h26x.REDPrimary(some(digits))
		refuses(t, err, code)
		same(t, primary, nil)
	}
}

func TestRedundantBlocks(t *testing.T) {
	for digits, wanted := range map[string][]h26x.REDBlock{
		"60 65":                nil,
		"87028002 05 aabb cc":  {{PayloadType: 7, TimestampOffset: 160, Bytes: []byte{0xaa, 0xbb}}},
		"80000000 fffffc00 00": {{}, {PayloadType: 127, TimestampOffset: 16383}},
		"87028002 ff000001 7f aabb dd": {
			{PayloadType: 7, TimestampOffset: 160, Bytes: []byte{0xaa, 0xbb}}, {PayloadType: 127, Bytes: []byte{0xdd}}},
	} {
		blocks, err := h26x.REDBlocks(some(digits))
		if err != nil || !reflect.DeepEqual(blocks, wanted) {
			t.Error(digits, blocks, err)
		}
	}
	for digits, wanted := range map[string]error{"": h26x.ErrREDHeadersPastTheEnd, "87028002 05 aa": h26x.ErrREDBlocksPastTheEnd} {
		if blocks, err := h26x.REDBlocks(some(digits)); blocks != nil || !errors.Is(err, wanted) {
			t.Error(digits, blocks, err)
		}
	}
}

// Elements by RFC 8285, 4.2 and 4.3.
func TestElements(t *testing.T) {
	one := h26x.RTPElement{ID: 1, Bytes: []byte{0xaa}}
	for _, row := range []struct {
		profile uint16
		digits  string
		wanted  []h26x.RTPElement
		err     error
	}{
		{0xbede, "10aa 21bbcc 0000 33d0d1d2d3",
			[]h26x.RTPElement{one, {ID: 2, Bytes: []byte{0xbb, 0xcc}}, {ID: 3, Bytes: []byte{0xd0, 0xd1, 0xd2, 0xd3}}}, nil},
		{0x1000, "0100 0201bb 00", []h26x.RTPElement{{ID: 1}, {ID: 2, Bytes: []byte{0xbb}}}, nil},
		{0x100f, "0f01aa ff00", []h26x.RTPElement{{ID: 15, Bytes: []byte{0xaa}}, {ID: 255}}, nil},
		{0xbede, "", nil, nil},
		{0xbede, "10aa f000 20bb", []h26x.RTPElement{one}, nil},
		{0xbede, "10aa 01aabb 10cc", []h26x.RTPElement{one}, nil},
		{0x1010, "10aa", nil, nil},
		{0xbede, "10aa 11aa", []h26x.RTPElement{one}, h26x.ErrRTPElementPastTheEnd},
		{0x1000, "11", nil, h26x.ErrRTPElementPastTheEnd},
	} {
		header := h26x.RTPHeader{HasExtension: true, Profile: row.profile, Extension: some(row.digits)}
		elements, err := header.Elements()
		if !errors.Is(err, row.err) || !reflect.DeepEqual(elements, row.wanted) {
			t.Error(row.digits, elements, err)
		}
		header.HasExtension = false
		if elements, err := header.Elements(); elements != nil || err != nil {
			t.Error(row.digits, elements, err)
		}
	}
}

func TestRTCP(t *testing.T) {
	for second := 0; second < 256; second++ {
		if h26x.IsRTCP([]byte{0x80, uint8(second)}) != (second >= 192 && second <= 223) {
			t.Error(second)
		}
	}
	if h26x.IsRTCP([]byte{200}) || h26x.IsRTCP(nil) {
		t.Error("a byte is RTCP")
	}
}

// By the figures of RFC 4585, 6.1, RFC 5104, 4.3.1, and RFC 3550, 6.4.2.
func TestFeedback(t *testing.T) {
	loss := h26x.PictureLoss{Sender: 0x01020304, Media: 0xa1a2a3a4}
	request := h26x.FullIntraRequest{Sender: 1, Media: 0xa1a2a3a4, Number: 7}
	report := h26x.ReceiverReport{Sender: 1, Report: h26x.ReportBlock{
		SSRC: 2, FractionLost: 0x40, Lost: -2, Highest: 0x00020003, Jitter: 0x44, LastSenderReport: 0xa1a2a3a4, Delay: 0x10000,
	}}
	const pli, fir = "81ce0002 01020304 a1a2a3a4", "84ce0004 00000001 00000000 a1a2a3a4 07000000"
	const rr = "81c90007 00000001 00000002 40fffffe 00020003 00000044 a1a2a3a4 00010000"
	same(t, report.Append(request.Append(loss.Append([]byte{7}))), some("07"+pli+fir+rr))
	if got, is := h26x.ReadPictureLoss(some(pli)); !is || got != loss {
		t.Errorf("%+v", got)
	}
	if got, is := h26x.ReadFullIntraRequest(some(fir)); !is || got != request {
		t.Errorf("%+v", got)
	}
	if got, is := h26x.ReadReceiverReport(some(rr)); !is || got != report {
		t.Errorf("%+v", got)
	}
	for _, other := range []string{"", "81ce0002 01020304 a1a2a3", pli + "00", "a1ce0002 01020304 a1a2a304", fir + rr, rr + pli} {
		_, first := h26x.ReadPictureLoss(some(other))
		_, second := h26x.ReadFullIntraRequest(some(other))
		_, third := h26x.ReadReceiverReport(some(other))
		if first || second || third {
			t.Error(other)
		}
	}
	report.Report.Lost = 1 << 23
	got, is := h26x.ReadReceiverReport(report.Append(nil))
	if !is || got.Report.Lost != 1<<23-1 {
		t.Errorf("%+v", got)
	}
}

// By the figure of RFC 4585, 6.2.1: a number, and bits for the sixteen behind it.
func TestNACKs(t *testing.T) {
	for _, row := range []struct {
		numbers []uint16
		digits  string
	}{
		{[]uint16{0x1234}, "81cd0003 00000001 a1a2a3a4 12340000"},
		{[]uint16{5, 6, 21}, "81cd0003 00000001 a1a2a3a4 00058001"},
		{[]uint16{65535, 0}, "81cd0003 00000001 a1a2a3a4 ffff0001"},
		{[]uint16{5, 22}, "81cd0004 00000001 a1a2a3a4 00050000 00160000"},
	} {
		nack := h26x.NACK{Sender: 1, Media: 0xa1a2a3a4, Numbers: row.numbers}
		out, count, err := nack.Append([]byte{7}, 1200)
		done(t, err)
		same(t, out, some("07"+row.digits))
		got, is := h26x.ReadNACK(some(row.digits))
		if count != len(row.numbers) || !is || !reflect.DeepEqual(got, nack) {
			t.Errorf("%d, %+v", count, got)
		}
	}
	for _, other := range []string{
		"", "81cd0002 00000001 00000002", "8fcd0003 00000001 00000002 00050000", "81cd0003 00000001 00000002 0005000000",
	} {
		if got, is := h26x.ReadNACK(some(other)); is || got.Numbers != nil {
			t.Error(other)
		}
	}
}

// What has no room goes into a packet behind it.
func TestRoomOfNACKs(t *testing.T) {
	nack := h26x.NACK{Sender: 1, Media: 2, Numbers: []uint16{5, 6, 22}}
	for _, most := range []int{-1, 0, 15} {
		out, count, err := nack.Append([]byte{7}, most)
		refuses(t, err, h26x.ErrNoRoom, 16)
		same(t, out, []byte{7})
		if count != 0 {
			t.Error(count)
		}
	}
	out, count, err := nack.Append(nil, 19)
	done(t, err)
	rest := h26x.NACK{Sender: 1, Media: 2, Numbers: nack.Numbers[count:]}
	out, behind, err := rest.Append(out, 16)
	done(t, err)
	same(t, out, some("81cd0003 00000001 00000002 00050001 81cd0003 00000001 00000002 00160000"))
	if count != 2 || behind != 1 {
		t.Error(count, behind)
	}
	out, count, err = h26x.NACK{Sender: 1, Media: 2}.Append(nil, 0)
	done(t, err)
	if len(out) != 0 || count != 0 {
		t.Error(out, count)
	}
	// The length of a packet says 65533 pairs at most.
	long := h26x.NACK{Numbers: make([]uint16, 65534)}
	out, count, err = long.Append(nil, 1<<20)
	done(t, err)
	got, is := h26x.ReadNACK(out)
	if len(out) != 262144 || count != 65533 || !is || len(got.Numbers) != count {
		t.Error(len(out), count, is)
	}
}

// A compound is cut into its packets up to the first that isn't all there, or is of another version (RFC 3550, 6.1, A.2).
func TestCompounds(t *testing.T) {
	const report = "81c90007 00000001 00000002 40fffffe 00020003 00000044 a1a2a3a4 00010000"
	const nack, pli = "81cd0003 00000001 a1a2a3a4 00058001", "81ce0002 01020304 a1a2a3a4"
	all := []string{report, nack, pli}
	for digits, wanted := range map[string]int{
		report + nack + pli: 3, report + nack + pli[:len(pli)-2]: 2, report + "41" + nack[2:] + pli: 1, "41" + pli[2:]: 0,
		report + nack + pli + "81cb00": 3, "81cb00": 0, "": 0,
	} {
		packets := h26x.RTCPPackets(some(digits))
		if len(packets) != wanted {
			t.Fatalf("%s: %x", digits, packets)
		}
		for i, packet := range packets {
			same(t, packet, some(all[i]))
		}
	}
	// They are parts of the datagram, behind which nothing is appended.
	datagram := some(report + pli)
	packets := h26x.RTCPPackets(datagram)
	if &packets[1][0] != &datagram[32] || cap(packets[0]) != 32 {
		t.Error("copied")
	}
}

// By RFC 3550, A.1, A.3 and A.8: 1 is lost, and 65535 comes late; then of three more one comes, and 5000 jumps.
func TestStatistics(t *testing.T) {
	var it h26x.RTPStatistics
	for _, number := range []uint16{65534, 0, 65535, 2} {
		if !it.Receive(100, number, 0, 10) {
			t.Error(number)
		}
	}
	if it.Expected() != 5 || it.Received() != 4 || it.Bytes() != 40 || it.Recovered() != 0 {
		t.Errorf("%+v", it)
	}
	before := it
	wanted := h26x.ReportBlock{SSRC: 9, FractionLost: 51, Lost: 1, Highest: 0x10002, LastSenderReport: 7, Delay: 8}
	if got := it.Report(9, 7, 8); got != wanted {
		t.Errorf("%+v", got)
	}
	if got := before.Report(9, 7, 8); got != wanted {
		t.Errorf("of a copy %+v", got)
	}
	it.Recover()
	if !it.Receive(4100, 5, 3000, 10) || it.Receive(100, 5000, 0, 10) || it.Recovered() != 1 {
		t.Errorf("%+v", it)
	}
	if got := it.Report(9, 0, 0); got != (h26x.ReportBlock{SSRC: 9, FractionLost: 170, Lost: 3, Highest: 0x10005, Jitter: 62}) {
		t.Errorf("%+v", got)
	}
	if !it.Receive(100, 5001, 0, 10) || it.Expected() != 1 {
		t.Errorf("%+v", it)
	}
}
