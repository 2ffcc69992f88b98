package h26x_test

import (
	"bytes"
	"math/rand"
	"sort"
	"testing"

	"emupedestal/h26x"
)

var mtus = []uint16{1200, 150, 70}

func TestUnitsOfStreams(t *testing.T) {
	for _, codec := range codecs {
		units, found := h26x.UnitsOf(codec, stream(t, codec)), [][]byte(nil)
		for units.Next() {
			found = append(found, units.Unit())
		}
		sameAll(t, found, split(stream(t, codec)))
	}
}

// Streams there and back, through Pion's methods, with start codes and with lengths.
func TestStreamsThereAndBack(t *testing.T) {
	for _, codec := range codecs {
		for _, mtu := range mtus {
			packets := newPacketizer(t, codec, false).Payload(mtu, stream(t, codec))
			units := [][]byte(nil)
			wanted := map[int]h26x.CodecExtra{}
			for _, one := range placedIn(t, codec, packets) {
				units = append(units, one.unit)
				if isKey(codec, one.unit) {
					wanted[one.last] = h26x.Keyframe
				} else if wanted[one.last] == h26x.NoUnits {
					wanted[one.last] = h26x.NoKeyframe
				}
			}
			sameAll(t, units, sent(t, codec))
			for _, avc := range []bool{false, true} {
				d, again := newDepacketizer(t, codec, false, avc), newDepacketizer(t, codec, false, avc)
				var back, appended []byte
				for n, packet := range packets {
					if len(packet) > int(mtu) {
						t.Fatalf("a packet of %d bytes", len(packet))
					}
					out, err := d.Unmarshal(packet)
					done(t, err)
					back = append(back, out...)
					var told h26x.CodecExtra
					appended, told, err = again.DepacketizeInto(appended, packet)
					done(t, err)
					if told != wanted[n] {
						t.Fatalf("packet %d: told %d, wanted %d", n, told, wanted[n])
					}
				}
				same(t, back, text(avc, sent(t, codec)...))
				same(t, appended, back)
			}
		}
	}
}

func TestStreamsWithDecodingOrderNumbers(t *testing.T) {
	for _, codec := range codecs[1:] {
		for _, mtu := range mtus {
			p, r := newPacketizer(t, codec, true), newReceiver(t, codec, 1<<20, true, false)
			var back []byte
			for n, packet := range p.Payload(mtu, stream(t, codec)) {
				got, err := r.Receive(uint16(n), packet)
				done(t, err)
				back = append(back, got.Bytes...)
			}
			same(t, back, text(false, sent(t, codec)...))
		}
	}
}

// Units one by one, as a server sends that has units, in one buffer behind RTP's header.
func TestStreamsUnitByUnit(t *testing.T) {
	for _, codec := range codecs {
		p, r := newPacketizer(t, codec, false), newReceiver(t, codec, 1<<20, false, false)
		into, sequence, back := h26x.NewPackets(12), uint16(65000), []byte(nil)
		for _, unit := range sent(t, codec) {
			done(t, p.PacketizeUnitInto(40, unit, into))
			for i := 0; i < into.Len(); i++ {
				out, got, err := r.ReceiveInto(back, sequence, into.Packet(i))
				done(t, err)
				if got.Outcome != h26x.InOrder || len(into.Datagram(i)) > 52 {
					t.Fatalf("%v, %d bytes", got.Outcome, len(into.Datagram(i)))
				}
				back = out
				sequence++
			}
		}
		same(t, back, text(false, sent(t, codec)...))
	}
}

func TestHeadsTailsAndKeyframesOfStreams(t *testing.T) {
	for _, codec := range codecs {
		packets, d := newPacketizer(t, codec, false).Payload(150, stream(t, codec)), newDepacketizer(t, codec, false, false)
		for _, one := range placedIn(t, codec, packets) {
			if isKey(codec, one.unit) && !h26x.DetectKeyframe(codec, packets[one.first]) {
				t.Errorf("%v: packet %d is of a keyframe", codec, one.first)
			}
			for n := one.first; n <= one.last; n++ {
				isFragment := typeOf(codec, packets[n]) == typesOf(codec).fragment
				ends := codec != h26x.H264 && isFragment && n == one.last
				if d.IsPartitionHead(packets[n]) != (n == one.first) || h26x.IsPartitionTail(codec, false, packets[n]) != ends {
					t.Errorf("%v: packet %d is no head or tail", codec, n)
				}
			}
		}
	}
}

// rates are how many packets of 1000 are lost, come twice, or come behind later ones.
type rates struct{ lost, twice, behind int }

// network is the packets that come, in their order.
func network(count int, r rates, seed int64) []int {
	type coming struct {
		time float64
		n    int
	}
	draw, all := rand.New(rand.NewSource(seed)), []coming(nil)
	for n := 0; n < count; n++ {
		if draw.Intn(1000) < r.lost {
			continue
		}
		late := 0.0
		if draw.Intn(1000) < r.behind {
			late = float64(1 + draw.Intn(5))
		}
		all = append(all, coming{float64(n) + late, n})
		if draw.Intn(1000) < r.twice {
			all = append(all, coming{float64(n+1+draw.Intn(5)) + 0.5, n})
		}
	}
	sort.SliceStable(all, func(i, j int) bool { return all[i].time < all[j].time })
	numbers := make([]int, len(all))
	for i, one := range all {
		numbers[i] = one.n
	}
	return numbers
}

// outcome is what must be answered to each packet: computed from the order in which packets come, and from
// nothing that a receiver says.
func outcome(units []placed, coming []int) []h26x.Received {
	answers, taken, upTo := []h26x.Received(nil), map[int]bool{}, -1
	for _, n := range coming {
		if upTo >= 0 && n < upTo {
			answers = append(answers, h26x.Received{Outcome: h26x.Late, Distance: uint16(upTo - n)})
			continue
		}
		answer := h26x.Received{Outcome: h26x.InOrder}
		if upTo >= 0 && n > upTo {
			answer = h26x.Received{Outcome: h26x.Gap, Distance: uint16(n - upTo)}
		}
		taken[n] = true
		upTo = n + 1
		for _, one := range units {
			if one.last == n && isWhole(one, taken) {
				answer.Bytes = append(answer.Bytes, text(false, one.unit)...)
			}
		}
		answers = append(answers, answer)
	}
	return answers
}

func isWhole(one placed, taken map[int]bool) bool {
	for n := one.first; n <= one.last; n++ {
		if !taken[n] {
			return false
		}
	}
	return true
}

func TestStreamsThroughLosses(t *testing.T) {
	for _, codec := range codecs {
		for _, mtu := range mtus[1:] {
			packets := newPacketizer(t, codec, false).Payload(mtu, stream(t, codec))
			units := placedIn(t, codec, packets)
			for _, r := range []rates{{100, 0, 0}, {0, 200, 0}, {20, 50, 200}} {
				lost := 0
				for seed := int64(0); seed < 20; seed++ {
					lost += throughLosses(t, codec, packets, units, network(len(packets), r, seed))
				}
				if (lost > 0) != (r.lost+r.behind > 0) {
					t.Errorf("%v, %v: %d bytes are lost", codec, r, lost)
				}
			}
		}
	}
}

// throughLosses gives packets as they come, and compares each answer. It answers how many bytes are lost.
func throughLosses(t *testing.T, codec h26x.Codec, packets [][]byte, units []placed, coming []int) int {
	t.Helper()
	r := newReceiver(t, codec, 1<<20, false, false)
	// The numbers go round at 65536 in the middle of the stream.
	first, whole := 65536-len(packets)/2, 0
	for _, one := range units {
		whole += 4 + len(one.unit)
	}
	for i, wanted := range outcome(units, coming) {
		got, err := r.Receive(uint16(first+coming[i]), packets[coming[i]])
		done(t, err)
		if got.Outcome != wanted.Outcome || got.Distance != wanted.Distance || !bytes.Equal(got.Bytes, wanted.Bytes) {
			t.Fatalf("packet %d: got %v of %d, wanted %v of %d", coming[i], got.Outcome, got.Distance,
				wanted.Outcome, wanted.Distance)
		}
		whole -= len(got.Bytes)
	}
	return whole
}

// As the caveat says: a Depacketizer sees no numbers.
func TestLostFragmentDamagesAUnit(t *testing.T) {
	for _, codec := range codecs {
		packets, d := newPacketizer(t, codec, false).Payload(70, stream(t, codec)), newDepacketizer(t, codec, false, false)
		for _, one := range placedIn(t, codec, packets) {
			if one.last-one.first < 2 {
				continue
			}
			var out []byte
			for n := one.first; n <= one.last; n++ {
				if n != one.first+1 {
					written, err := d.Unmarshal(packets[n])
					done(t, err)
					out = append(out, written...)
				}
			}
			_, _, _, lost := fragmentOf(codec, packets[one.first+1])
			if len(out) != 4+len(one.unit)-len(lost) {
				t.Errorf("%v: %d bytes of %d", codec, len(out), len(one.unit))
			}
			break
		}
	}
}

// Whatever a stranger sends, packets are taken or refused, and a refused one leaves the depacketizer as it is.
func TestAnyBytes(t *testing.T) {
	draw := rand.New(rand.NewSource(1))
	for _, codec := range codecs {
		for _, donl := range []bool{false, codec != h26x.H264} {
			d, r := newDepacketizer(t, codec, donl, false), newReceiver(t, codec, 1000, donl, false)
			f, refusals := fragmentsOf(codec), 0
			for n := 0; n < 20000; n++ {
				packet := make([]byte, draw.Intn(40))
				draw.Read(packet)
				_, err := d.Unmarshal(packet)
				_, again := r.Receive(uint16(n), packet)
				if (err == nil) != (again == nil) || err != nil && !h26x.IsPacketError(err) {
					t.Fatalf("%x: %v, %v", packet, err, again)
				}
				if err != nil {
					refusals++
				}
				if r.RunLen() > 1000 {
					t.Fatalf("%d bytes are open", r.RunLen())
				}
			}
			if refusals == 0 || refusals == 20000 {
				t.Errorf("%v: %d refusals", codec, refusals)
			}
			if donl {
				continue
			}
			done(t, r.Restart())
			receives(t, r, step{1, f.start, h26x.InOrder, 0, nil, 2}, step{2, f.middle, h26x.InOrder, 0, nil, 4},
				step{3, f.end, h26x.InOrder, 0, annexB(f.unit), 0})
		}
	}
}
