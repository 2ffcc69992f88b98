package h26x_test

import (
	"bytes"
	"errors"
	"math/rand"
	"reflect"
	"sync"
	"testing"

	"emupedestal/h26x"
)

// Headers by the figure of RFC 3550, 5.1, and retransmissions by that of RFC 4588, 4, written out by hand.

var sentStreams = h26x.RTPStreams{SSRC: 0x01020304, PayloadType: 96, Sequence: 65535, HasRTX: true, RTXSSRC: 0xa1a2a3a4,
	RTXPayloadType: 97, RTXSequence: 500}

func newRTPSender(t testing.TB, streams h26x.RTPStreams, history int) *h26x.RTPSender {
	t.Helper()
	s, err := h26x.NewRTPSender(streams, history)
	if err != nil {
		t.Fatal(err)
	}
	t.Cleanup(func() { s.Close() })
	return s
}

// streamsAre compares the streams, of which the next packets have these numbers, and what was sent.
func streamsAre(t *testing.T, s *h26x.RTPSender, wanted h26x.RTPStreams, sent h26x.RTPSent) {
	t.Helper()
	streams, err := s.Streams()
	done(t, err)
	counted, err := s.Sent()
	done(t, err)
	if streams != wanted || counted != sent {
		t.Errorf("%+v, %+v", streams, counted)
	}
}

func TestHeadersOfAnAccessUnit(t *testing.T) {
	s := newRTPSender(t, sentStreams, 100)
	streamsAre(t, s, sentStreams, h26x.RTPSent{})
	got, err := s.Send(0x90, many("6742c01f|658884"))
	done(t, err)
	sameAll(t, got, many("8060 ffff 00000090 01020304 6742c01f|80e0 0000 00000090 01020304 658884"))
	got, err = s.Send(0xffffffff, many("619a"))
	done(t, err)
	sameAll(t, got, many("80e0 0001 ffffffff 01020304 619a"))
	none, err := s.Send(1, nil)
	done(t, err)
	next := sentStreams
	next.Sequence = 2
	streamsAre(t, s, next, h26x.RTPSent{Packets: 3, Bytes: 9})
	if none != nil {
		t.Error(none)
	}
	// They are in memory of their own.
	_, err = s.Send(2, many("619b"))
	done(t, err)
	sameAll(t, got, many("80e0 0001 ffffffff 01020304 619a"))
}

// Nothing but the headers is written, and with them stands what an extension has (RFC 8285, 4.2).
func TestHeadersWherePacketsLie(t *testing.T) {
	s, packets := newRTPSender(t, sentStreams, 100), h26x.NewPackets(22)
	done(t, newPacketizer(t, h26x.H264, false).PacketizeUnitsInto(5, some("00000001 6742c01f 00000001 658884"), packets))
	for i, b := range packets.Bytes() {
		if b == 0 {
			packets.Bytes()[i] = 0xee
		}
	}
	before := append([]byte(nil), packets.Bytes()...)
	for _, it := range []struct {
		extension     string
		size          int
		first, second string
	}{
		{"", 12, "8060 ffff 00000090 01020304 6742c01f", "80e0 0000 00000090 01020304 658884"},
		{"10aa0000", 20, "9060 0001 00000090 01020304 bede0001 10aa0000 6742c01f",
			"90e0 0002 00000090 01020304 bede0001 10aa0000 658884"},
	} {
		copy(packets.Bytes(), before)
		var size int
		var err error
		if it.extension == "" {
			size, err = s.SendPackets(0x90, packets)
		} else {
			size, err = s.SendExtended(0x90, 0xbede, some(it.extension), packets)
		}
		done(t, err)
		free := packets.Headroom() - size
		if size != it.size || packets.Len() != 2 {
			t.Fatal(size, packets.Len())
		}
		same(t, packets.Datagram(0)[free:], some(it.first))
		same(t, packets.Datagram(1)[free:], some(it.second))
		end := packets.End(0)
		same(t, packets.Bytes()[:free], before[:free])
		same(t, packets.Bytes()[end:end+free], before[end:end+free])
	}
	// An extension that lies in the packets is read before they are written.
	size, err := s.SendExtended(0x90, 0x1000, packets.Bytes()[20:24], packets)
	done(t, err)
	got, err := h26x.ReadRTP(packets.Datagram(0)[packets.Headroom()-size:])
	done(t, err)
	same(t, got.Extension, append(some("0000"), some("6742")...))
}

func TestWhatASenderRefuses(t *testing.T) {
	for _, streams := range []h26x.RTPStreams{{PayloadType: 128}, {HasRTX: true, RTXPayloadType: 255}} {
		_, err := h26x.NewRTPSender(streams, 0)
		refuses(t, err, h26x.ErrRTPPayloadType)
	}
	newRTPSender(t, h26x.RTPStreams{PayloadType: 127, RTXPayloadType: 255}, -1)
	s := newRTPSender(t, sentStreams, 100)
	refusal := func(headroom int, extension []byte, code h26x.Code, numbers ...uint) {
		t.Helper()
		packets := h26x.NewPackets(headroom)
		done(t, newPacketizer(t, h26x.H264, false).PacketizeUnitsInto(100, some("00000001 658884"), packets))
		before := append([]byte(nil), packets.Bytes()...)
		_, err := s.SendExtended(1, 0xbede, extension, packets)
		refuses(t, err, code, numbers...)
		same(t, packets.Bytes(), before)
	}
	refusal(11, nil, h26x.ErrNoRoom, 12)
	refusal(0, nil, h26x.ErrNoRoom, 12)
	refusal(19, make([]byte, 4), h26x.ErrNoRoom, 20)
	refusal(300, make([]byte, 260), h26x.ErrNoRoom, 276)
	refusal(300, make([]byte, 3), h26x.ErrRTPExtension)
	streamsAre(t, s, sentStreams, h26x.RTPSent{})
	packets := h26x.NewPackets(272)
	done(t, newPacketizer(t, h26x.H264, false).PacketizeUnitsInto(100, some("00000001 658884"), packets))
	size, err := s.SendExtended(1, 0xbede, make([]byte, 256), packets)
	done(t, err)
	if size != 272 {
		t.Error(size)
	}
}

func TestPacketsThatGoAgain(t *testing.T) {
	s := newRTPSender(t, sentStreams, 6)
	_, err := s.Send(0x90, many("6742c01f|658884"))
	done(t, err)
	// The first is held no longer, since seven bytes are over the bound.
	for _, number := range []uint16{65535, 1, 65534} {
		got, err := s.Resend(number)
		done(t, err)
		if got != nil {
			t.Errorf("%d: %x", number, got)
		}
	}
	streamsAre(t, s, h26x.RTPStreams{SSRC: 0x01020304, PayloadType: 96, Sequence: 1, HasRTX: true, RTXSSRC: 0xa1a2a3a4,
		RTXPayloadType: 97, RTXSequence: 500}, h26x.RTPSent{Packets: 2, Bytes: 7})
	got, err := s.Resend(0)
	done(t, err)
	same(t, got, some("80e1 01f4 00000090 a1a2a3a4 0000 658884"))
	out, err := s.ResendInto(some("77"), 0)
	done(t, err)
	same(t, out, some("77 80e1 01f5 00000090 a1a2a3a4 0000 658884"))
	out, err = s.ResendInto(some("77"), 9)
	done(t, err)
	same(t, out, some("77"))
	streamsAre(t, s, h26x.RTPStreams{SSRC: 0x01020304, PayloadType: 96, Sequence: 1, HasRTX: true, RTXSSRC: 0xa1a2a3a4,
		RTXPayloadType: 97, RTXSequence: 502}, h26x.RTPSent{Packets: 2, Bytes: 7, RTXPackets: 2, RTXBytes: 10})
}

func TestPacketsThatGoAgainAsTheyWere(t *testing.T) {
	streams := h26x.RTPStreams{SSRC: 0x01020304, PayloadType: 96, Sequence: 7}
	s, packets := newRTPSender(t, streams, 100), h26x.NewPackets(20)
	done(t, newPacketizer(t, h26x.H264, false).PacketizeUnitsInto(100, some("00000001 658884"), packets))
	_, err := s.SendExtended(0x90, 0xbede, some("10aa0000"), packets)
	done(t, err)
	got, err := s.Resend(7)
	done(t, err)
	same(t, got, some("90e0 0007 00000090 01020304 bede0001 10aa0000 658884"))
	same(t, got, packets.Datagram(0))
	streams.Sequence = 8
	streamsAre(t, s, streams, h26x.RTPSent{Packets: 2, Bytes: 6})
}

// What is lost on the way is asked for and sent again, until each access unit came whole: streams of three codecs, of which a
// tenth of the packets is lost, and three tenths of those that go again.
func TestLossesNACKsAndRetransmissions(t *testing.T) {
	for _, codec := range codecs {
		for _, hasRTX := range []bool{true, false} {
			streams := sentStreams
			streams.Sequence = 65500
			if streams.HasRTX = hasRTX; !hasRTX {
				streams.RTXSSRC, streams.RTXPayloadType, streams.RTXSequence = 0, 0, 0
			}
			sentAgain(t, codec, streams)
		}
	}
}

func sentAgain(t *testing.T, codec h26x.Codec, streams h26x.RTPStreams) {
	t.Helper()
	packets, all := sentUnits(t, codec, 150)
	s := newRTPSender(t, streams, 1<<20)
	types := h26x.RTPPayloadTypes{Media: streams.PayloadType, RTX: streams.RTXPayloadType}
	r, err := h26x.NewRTPReceiver(codec, types, h26x.AccessUnitConfig{MaxWait: 1 << 20})
	done(t, err)
	defer r.Close()
	draw, resent, now := rand.New(rand.NewSource(1)), 0, uint32(0)
	var got []h26x.AccessUnit
	push := func(datagram []byte, lost float64) {
		if draw.Float64() >= lost {
			_, err := r.Push(now, 0, datagram)
			done(t, err)
		}
		got = append(got, ended(t, r.Next, now)...)
	}
	answer := func() {
		numbers, err := r.Nacks(now, h26x.NackTimes{Again: 20, Most: 100}, 64)
		done(t, err)
		rtcp, _, err := h26x.NACK{Sender: 9, Media: streams.SSRC, Numbers: numbers}.Append(nil, 1200)
		done(t, err)
		nack, _ := h26x.ReadNACK(rtcp)
		for _, number := range nack.Numbers {
			datagram, err := s.Resend(number)
			done(t, err)
			push(datagram, 0.3)
			resent++
		}
	}
	for i, one := range all {
		datagrams, err := s.Send(3000*uint32(i), packets[one.first:one.last+1])
		done(t, err)
		for n, datagram := range datagrams {
			lost := 0.1
			if i == 0 && n == 0 || i+1 == len(all) {
				lost = 0 // where a stream begins is known by its first packet, and where it ends by its last
			}
			push(datagram, lost)
		}
		now += 10
		answer()
	}
	for i := 0; i < 100; i++ {
		now += 10
		answer()
	}
	done(t, r.Finish())
	got = append(got, ended(t, r.Next, now)...)
	if len(got) != len(all) || resent == 0 {
		t.Fatalf("%v: %d access units of %d, %d sent again", codec, len(got), len(all), resent)
	}
	for i, one := range all {
		var units [][]byte
		for _, unit := range one.units {
			units = append(units, unit.unit)
		}
		same(t, got[i].Bytes, text(false, units...))
		if got[i].Timestamp != 3000*uint32(i) || got[i].Missing != 0 {
			t.Errorf("%v: %+v", codec, got[i])
		}
	}
	sent, err := s.Sent()
	done(t, err)
	if again := sent.RTXPackets + sent.Packets - uint64(len(packets)); again != uint64(resent) {
		t.Errorf("%v: %+v, %d", codec, sent, resent)
	}
}

// In memory that has room a call asks Go for no memory.
func TestNoMemoryForEachDatagram(t *testing.T) {
	s, packets, out := newRTPSender(t, sentStreams, 1<<20), h26x.NewPackets(12), make([]byte, 0, 1500)
	p, unit := newPacketizer(t, h26x.H265, false), append(some("2601"), make([]byte, 20000)...)
	run := func() {
		if err := p.PacketizeInto(1200, unit, packets); err != nil {
			t.Fatal(err)
		}
		if size, err := s.SendPackets(1, packets); size != 12 || err != nil {
			t.Fatal(size, err)
		}
		streams, err := s.Streams()
		if err != nil {
			t.Fatal(err)
		}
		again, err := s.ResendInto(out, streams.Sequence-1)
		if err != nil || !bytes.Equal(again[14:], packets.Packet(packets.Len()-1)) {
			t.Fatal("another packet", err)
		}
	}
	run()
	// (of Streams)
	if times := testing.AllocsPerRun(20, run); times > 2 {
		t.Errorf("%v allocations", times)
	}
}

// Each number goes once, whichever goroutine sends it.
func TestGoroutinesThatSend(t *testing.T) {
	s, seen, mu, group := newRTPSender(t, sentStreams, 1<<20), map[uint16]bool{}, sync.Mutex{}, sync.WaitGroup{}
	for n := 0; n < 4; n++ {
		group.Add(1)
		go func() {
			defer group.Done()
			for i := 0; i < 100; i++ {
				datagrams, err := s.Send(uint32(i), many("6742c01f|658884"))
				if err != nil {
					t.Error(err)
					return
				}
				packet, err := h26x.ReadRTP(datagrams[0])
				if _, again := s.Resend(packet.Sequence); err != nil || again != nil {
					t.Error(err, again)
				}
				mu.Lock()
				seen[packet.Sequence] = true
				mu.Unlock()
			}
		}()
	}
	group.Wait()
	if sent, err := s.Sent(); len(seen) != 400 || sent.Packets != 800 || sent.RTXPackets != 400 || err != nil {
		t.Errorf("%d, %+v, %v", len(seen), sent, err)
	}
}

func TestAnRTPSenderThatIsClosedMakesNoCall(t *testing.T) {
	s := newRTPSender(t, sentStreams, 100)
	done(t, s.Close())
	done(t, s.Close())
	for _, s := range []*h26x.RTPSender{s, new(h26x.RTPSender)} {
		for name, call := range map[string]func() error{
			"Send":         func() error { _, err := s.Send(0, many("658884")); return err },
			"SendPackets":  func() error { _, err := s.SendPackets(0, h26x.NewPackets(12)); return err },
			"SendExtended": func() error { _, err := s.SendExtended(0, 0, nil, h26x.NewPackets(12)); return err },
			"Resend":       func() error { _, err := s.Resend(0); return err },
			"ResendInto":   func() error { _, err := s.ResendInto(nil, 0); return err },
			"Streams":      func() error { _, err := s.Streams(); return err },
			"Sent":         func() error { _, err := s.Sent(); return err },
		} {
			if err := call(); !errors.Is(err, h26x.ErrClosed) {
				t.Errorf("%s: %v", name, err)
			}
		}
	}
	if got, err := s.ResendInto(some("77"), 0); !reflect.DeepEqual(got, some("77")) || !errors.Is(err, h26x.ErrClosed) {
		t.Error(got, err)
	}
}
