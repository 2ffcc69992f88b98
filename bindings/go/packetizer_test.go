package h26x_test

import (
	"bytes"
	"errors"
	"testing"

	"emupedestal/h26x"
)

const (
	sets    = "000001 070001 000001 080203"
	sets265 = "000001 40010c 000001 420101 000001 4401c1"
)

// sends compares the packets of a payload in every way to make them: answered by each call, and in one buffer
// behind headroom. Clones make them, so that each begins alike; then the packetizer does.
func sends(t *testing.T, p *h26x.Packetizer, mtu uint16, payload, packets string) {
	t.Helper()
	in, wanted := some(payload), many(packets)
	clone := func() *h26x.Packetizer {
		c, err := p.Clone()
		done(t, err)
		t.Cleanup(func() { c.Close() })
		return c
	}
	sameAll(t, clone().Payload(mtu, in), wanted)
	for _, headroom := range []int{0, 1, 12} {
		into := h26x.NewPackets(headroom)
		done(t, clone().PacketizeInto(mtu, in, into))
		compare(t, into, wanted)
	}
	got, err := p.Packetize(mtu, in)
	done(t, err)
	sameAll(t, got, wanted)
}

// compare compares packets in one buffer, whose headroom no call wrote to.
func compare(t *testing.T, p *h26x.Packets, wanted [][]byte) {
	t.Helper()
	if p.Len() != len(wanted) {
		t.Fatalf("got %d packets, wanted %d", p.Len(), len(wanted))
	}
	var all []byte
	for i, packet := range wanted {
		same(t, p.Packet(i), packet)
		datagram := append(make([]byte, p.Headroom()), packet...)
		same(t, p.Datagram(i), datagram)
		all = append(all, datagram...)
		if p.End(i) != len(all) || cap(p.Datagram(i)) != len(datagram) {
			t.Fatalf("packet %d ends at %d, wanted %d", i, p.End(i), len(all))
		}
	}
	same(t, p.Bytes(), all)
}

func sendsUnit(t *testing.T, p *h26x.Packetizer, mtu uint16, unit, packets string) {
	t.Helper()
	clone, err := p.Clone()
	done(t, err)
	defer clone.Close()
	into := h26x.NewPackets(2)
	done(t, clone.PacketizeUnitInto(mtu, some(unit), into))
	compare(t, into, many(packets))
	got, err := p.PacketizeUnit(mtu, some(unit))
	done(t, err)
	sameAll(t, got, many(packets))
}

func TestPacketsOfH264(t *testing.T) {
	p := newPacketizer(t, h26x.H264, false)
	sends(t, p, 4, "65010203", "65010203")
	sends(t, p, 5, "000001 90 000001 90", "90|90")
	sends(t, p, 3, "65010203", "7c8501|7c0502|7c4503")
	sends(t, p, 2, "65010203", "")
	sends(t, p, 0, "65", "")
	sends(t, p, 5, "", "")
	sends(t, p, 5, "090000", "")
	sends(t, p, 11, sets+"000001 050405", "78 0003 070001 0003 080203|050405")
	sends(t, p, 10, sets+"000001 050405", "070001|080203|050405")
	// Sets wait.
	sends(t, p, 1500, sets, "")
	sends(t, p, 1500, "050405", "78 0003 070001 0003 080203|050405")
	sends(t, p, 1500, "050405", "050405")
}

func TestPacketsOfH265(t *testing.T) {
	p := newPacketizer(t, h26x.H265, false)
	sends(t, p, 4, "2601aabbcc", "620193aa|620113bb|620153cc")
	sends(t, p, 3, "0201aa", "")
	units := sets265 + "000001 2601af"
	sends(t, p, 17, units, "6001 0003 40010c 0003 420101 0003 4401c1|2601af")
	sends(t, p, 16, units, "40010c|420101|4401c1|2601af")
	done(t, p.SetDONL(true))
	sends(t, p, 100, units, "6001 0000 0003 40010c 00 0003 420101 00 0003 4401c1|26010003af")
	sends(t, p, 6, "0201aabbcc", "6201810004aa|620141bbcc")
	done(t, p.SetDONL(true))
	sends(t, p, 100, "0201aa", "02010000aa")
	done(t, p.SetDONL(false))
	sends(t, p, 100, "0201aa", "0201aa")
}

func TestPacketsOfH266(t *testing.T) {
	p := newPacketizer(t, h26x.H266, true)
	sends(t, p, 1200, "000001 0079bb 000001 0081cc 000001 0039dd", "00e1 0000 0003 0079bb 0003 0081cc|00390002dd")
	p = newPacketizer(t, h26x.H266, false)
	sends(t, p, 4, "0039aabb", "0039aabb")
	sends(t, p, 4, "0039aabbcc", "00e987aa|00e907bb|00e947cc")
	sends(t, p, 1200, "000001 0009aa00 00000001 0011bb", "0009aa00|0011bb")
}

func TestUnitsAsTheyAre(t *testing.T) {
	p := newPacketizer(t, h26x.H264, false)
	sends(t, p, 1500, sets, "")
	sendsUnit(t, p, 1500, "67aa", "67aa")
	sendsUnit(t, p, 1500, "65 000001 66", "65 000001 66")
	sendsUnit(t, p, 3, "65010203", "7c8501|7c0502|7c4503")
	sendsUnit(t, p, 2, "65010203", "")
	sendsUnit(t, p, 1500, "", "")
	sends(t, p, 1500, "050405", "78 0003 070001 0003 080203|050405")
	p = newPacketizer(t, h26x.H265, true)
	sendsUnit(t, p, 100, "4201aa", "42010000aa")
	sendsUnit(t, p, 100, "0201bb", "02010001bb")
	p = newPacketizer(t, h26x.H266, false)
	sendsUnit(t, p, 4, "0039aabbcc", "00e987aa|00e907bb|00e947cc")
}

// The largest size of H.265 and H.266 is 1200 at first.
func TestLargestSize(t *testing.T) {
	for codec, header := range map[h26x.Codec]string{h26x.H265: "2601", h26x.H266: "0039"} {
		p := newPacketizer(t, codec, false)
		unit := append(some(header), bytes.Repeat([]byte{0xaa}, 1199)...)
		packets := p.Payload(5000, unit)
		if len(packets) != 2 || len(packets[0]) != 1200 || len(packets[1]) != 5 {
			t.Fatalf("%v: got %d packets", codec, len(packets))
		}
		refuses(t, p.SetMaxPacketSize(3), h26x.ErrOutOfRange)
		done(t, p.SetMaxPacketSize(1201))
		sameAll(t, p.Payload(5000, unit), [][]byte{unit})
		done(t, p.SetMaxPacketSize(4))
		if got := len(p.Payload(5000, unit)); got != 1199 {
			t.Fatalf("%v: got %d packets", codec, got)
		}
	}
}

func TestSettingsThatH264HasNot(t *testing.T) {
	p := newPacketizer(t, h26x.H264, false)
	refuses(t, p.SetDONL(true), h26x.ErrNotOfThisCodec)
	refuses(t, p.SetDONL(false), h26x.ErrNotOfThisCodec)
	refuses(t, p.SetMaxPacketSize(1000), h26x.ErrNotOfThisCodec)
	refuses(t, newDepacketizer(t, h26x.H264, false, false).SetDONL(true), h26x.ErrNotOfThisCodec)
	refuses(t, newReceiver(t, h26x.H264, 9, false, false).SetDONL(true), h26x.ErrNotOfThisCodec)
}

func TestUnknownCodecs(t *testing.T) {
	for _, codec := range []h26x.Codec{0, 263, 267, 1<<16 + 264} {
		_, err := h26x.NewPacketizer(codec)
		refuses(t, err, h26x.ErrUnknownCodec)
		_, err = h26x.NewDepacketizer(codec)
		refuses(t, err, h26x.ErrUnknownCodec)
		_, err = h26x.NewReceiver(codec, 9)
		refuses(t, err, h26x.ErrUnknownCodec)
	}
}

// A buffer is used again, and what stands in its headroom stays.
func TestOneBufferForManyCalls(t *testing.T) {
	p, into := newPacketizer(t, h26x.H264, false), h26x.NewPackets(2)
	for n := 1; n < 200; n++ {
		unit := append([]byte{0x65}, bytes.Repeat([]byte{byte(n)}, n*7%200+2)...)
		done(t, p.PacketizeInto(100, unit, into))
		if last := into.Packet(into.Len() - 1); last[len(last)-1] != byte(n) {
			t.Fatalf("call %d: got %x", n, last)
		}
		// What the caller wrote there before is there, also where the buffer grew.
		if n > 1 && !bytes.HasPrefix(into.Bytes(), []byte("##")) {
			t.Fatal("the headroom is not the caller's")
		}
		copy(into.Datagram(0), "##")
	}
	done(t, p.PacketizeInto(100, nil, into))
	compare(t, into, nil)
}

// No packet lies in memory of another call, nor has room to grow into the next one.
func TestPacketsAreTheCallers(t *testing.T) {
	p := newPacketizer(t, h26x.H264, false)
	first := p.Payload(4, some("6501020304"))
	_ = append(first[0], 0xff)
	p.Payload(4, some("61ffffffff"))
	sameAll(t, first, many("7c850102|7c450304"))
}

// A payload in the buffer that packets are made in is copied first.
func TestPayloadInTheSameMemory(t *testing.T) {
	p, into := newPacketizer(t, h26x.H264, false), h26x.NewPackets(0)
	// The buffer has room, so that it need not grow.
	done(t, p.PacketizeInto(1500, make([]byte, 1000), into))
	done(t, p.PacketizeInto(1500, some("65010203040506070809"), into))
	done(t, p.PacketizeInto(4, into.Bytes(), into))
	compare(t, into, many("7c850102|7c050304|7c050506|7c050708|7c4509"))
	done(t, p.PacketizeUnitInto(1500, into.Packet(4), into))
	compare(t, into, many("7c4509"))
}

func TestHeadroomOutOfRange(t *testing.T) {
	p := newPacketizer(t, h26x.H264, false)
	for _, headroom := range []int{-1, 65536} {
		for _, call := range []func(){
			func() { h26x.NewPackets(headroom) },
			func() { p.PacketsSize(1500, some("65"), headroom) },
		} {
			func() {
				defer func() {
					if recover() == nil {
						t.Errorf("headroom of %d is taken", headroom)
					}
				}()
				call()
			}()
		}
	}
}

// By hand: an FU-A has two bytes before its data, a STAP-A three and two for each further set (RFC 6184, 5.7 and 5.8).
func TestHowMuchMemoryPacketsTake(t *testing.T) {
	p := newPacketizer(t, h26x.H264, false)
	for _, one := range []struct {
		mtu                   uint16
		payload               string
		headroom, count, size int
	}{
		{4, "6501020304", 0, 2, 8},
		{4, "6501020304", 2, 2, 12},
		{4, "6501020304", 65535, 2, 2 * 65539},
		{1500, "000001 0799 000001 0899 000001 05", 1, 2, 1 + 9 + 1 + 1},
		{1500, "000001 0799", 1, 0, 0},
		{1500, "", 1, 0, 0},
	} {
		count, size, err := p.PacketsSize(one.mtu, some(one.payload), one.headroom)
		done(t, err)
		if count != one.count || size != one.size {
			t.Errorf("%+v: got %d packets of %d bytes", one, count, size)
		}
	}
	// It left the packetizer: no set waits.
	sends(t, p, 1500, "05", "05")
}

// Sets of layer 0 and temporal id 1 before a slice of layer 1 and temporal id 3 (RFC 7798, 4.4.2).
func TestSetsWithTheHeaderOfSets(t *testing.T) {
	const (
		units  = "000001 4001 000001 4201 000001 4401 000001 020baa"
		sent   = "600b 0002 4001 0002 4201 0002 4401"
		wanted = "6001 0002 4001 0002 4201 0002 4401"
		withF  = "e001 0002 c001 0002 4201 0002 4401"
	)
	p, err := h26x.NewPacketizer(h26x.H265)
	done(t, err)
	defer p.Close()
	sends(t, p, 1200, units, sent+"|020baa")
	done(t, p.SetLowestHeader(true))
	sends(t, p, 1200, units, wanted+"|020baa")
	// F of a set is that of the packet, and F of the slice isn't. A unit that is sent as it is stays.
	sends(t, p, 1200, "000001 c001 000001 4201 000001 4401 000001 020baa", withF+"|020baa")
	sends(t, p, 1200, "000001 4001 000001 4201 000001 4401 000001 820baa", wanted+"|820baa")
	sendsUnit(t, p, 1200, sent, sent)
	done(t, p.SetDONL(true))
	sends(t, p, 1200, "000001 4201 000001 4401 000001 0203aa", "6001 0000 0002 4201 00 0002 4401|02030002aa")
	done(t, p.SetDONL(false))
	done(t, p.SetLowestHeader(false))
	sends(t, p, 1200, units, sent+"|020baa")
}

// Those of H.266 have it in any case (RFC 9328, 4.3.2), and H.264 has none.
func TestHeaderOfSetsOfOtherCodecs(t *testing.T) {
	p, err := h26x.NewPacketizer(h26x.H266)
	done(t, err)
	defer p.Close()
	done(t, p.SetLowestHeader(true))
	sends(t, p, 1200, "000001 027abb 000001 0183cc 000001 0039dd", "01e2 0003 027abb 0003 0183cc|0039dd")
	other, err := h26x.NewPacketizer(h26x.H264)
	done(t, err)
	if got := other.SetLowestHeader(true); !errors.Is(got, h26x.ErrNotOfThisCodec) {
		t.Errorf("got %v", got)
	}
	done(t, other.Close())
	if got := other.SetLowestHeader(true); !errors.Is(got, h26x.ErrClosed) {
		t.Errorf("got %v", got)
	}
}
