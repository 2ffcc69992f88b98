package h26x_test

import (
	"bytes"
	"encoding/binary"
	"testing"

	"emupedestal/h26x"
)

const (
	// The longest packet that UDP brings, and the limit on an open unit.
	longestPacket = 65507
	smallRunLimit = 1000
	// How many bytes a receiver of H.265 may hold for what it shows of packets.
	shownMost = 3 << 20
	// What it may hold beside that, with what is completed; and the test.
	besideShown, besideReceivers = 1 << 20, 32 << 20
	hostileReceivers             = 4
)

// aggregate is an aggregation packet of so many units of H.265, as long as a packet may be: the unit at one place
// takes all that is left, the others no byte (RFC 7798, 4.4.2).
func aggregate(units, at int) []byte {
	packet := []byte{0x60, 1}
	for i := 0; i < units; i++ {
		size := 0
		if i == at {
			size = longestPacket - 2 - 2*units
		}
		packet = binary.BigEndian.AppendUint16(packet, uint16(size))
		packet = append(packet, bytes.Repeat([]byte{0x0a}, size)...)
	}
	return packet
}

// No packets make a receiver hold more: each place of an aggregate is long once, in both lists that are shown by
// turns; then come many empty units, and fragments without an end.
func TestWhatAPeerMakesAReceiverHold(t *testing.T) {
	var sequence uint16
	start := append(some("620193"), make([]byte, longestPacket-3)...)
	var packets [][]byte
	for place := 1; place <= 256; place++ {
		packets = append(packets, aggregate(257, place))
	}
	packets = append(packets, aggregate(3, 1), aggregate(32700, 0), start)
	var receivers [hostileReceivers]*h26x.Receiver
	for i := range receivers {
		receivers[i] = newReceiver(t, h26x.H265, smallRunLimit, false, false)
	}
	out := make([]byte, 0, 2*longestPacket+smallRunLimit)
	before := resident(t)
	for _, r := range receivers {
		for _, packet := range packets {
			for i := 0; i < 2; i++ {
				_, _, err := r.ReceiveInto(out, sequence, packet)
				done(t, err)
				sequence++
			}
		}
	}
	more, most := resident(t)-before, hostileReceivers*(shownMost+besideShown)+besideReceivers
	if more > most {
		t.Errorf("%d receivers hold %d bytes, and %d may be", hostileReceivers, more, most)
	}
	for _, r := range receivers {
		done(t, r.Restart())
		if r.RunLen() != 0 {
			t.Error("a unit is open")
		}
	}
}

const (
	// What may wait in a receiver of access units, and how long an open one may be.
	smallHeldLimit, smallUnitLimit = 1 << 20, 100_000
	// What each packet that waits takes beside its payload.
	besidePayload = 200
	// What a receiver may hold: what waits, with a packet more and a stray, an access unit that is open and one that is
	// kept, with a packet; each in memory that may be twice as long.
	accessUnitsMost = 2*(smallHeldLimit+2*longestPacket) + besidePayload<<14 + 4*(smallUnitLimit+2*longestPacket)
)

// No packets make a receiver of access units hold more, by what waits, by strays and by what is open.
func TestWhatAPeerMakesAnAccessUnitReceiverHold(t *testing.T) {
	var receivers [hostileReceivers]*h26x.AccessUnitReceiver
	for i := range receivers {
		receivers[i] = newAccessUnitReceiver(t, h26x.H265, h26x.AccessUnitConfig{
			Window: 1 << 14, Far: 20000, HeldLimit: smallHeldLimit, RunLimit: smallRunLimit, UnitLimit: smallUnitLimit,
		})
	}
	unit := h26x.AccessUnit{Bytes: make([]byte, 0, 4*longestPacket)}
	before := resident(t)
	for _, u := range receivers {
		peer := hostilePeer{t: t, to: u}
		peer.leavesGaps()
		peer.jumps()
		for _, takes := range []bool{false, true} {
			peer.neverEnds(takes, &unit)
		}
		more := resident(t) - before
		if most := hostileReceivers*accessUnitsMost + besideReceivers; more > most {
			t.Fatalf("%d bytes are held, and %d may be", more, most)
		}
	}
	for _, u := range receivers {
		done(t, u.Finish())
		for ended := true; ended; {
			var err error
			ended, err = u.NextInto(0, &unit)
			done(t, err)
		}
	}
}

// hostilePeer sends packets that are there to be held.
type hostilePeer struct {
	t        *testing.T
	to       *h26x.AccessUnitReceiver
	sequence uint16
	seen     map[h26x.Pushed]int
}

func (p *hostilePeer) sends(timestamp uint32, payload []byte) {
	p.t.Helper()
	pushed, _, err := p.to.Push(0, h26x.RTPPacket{Sequence: p.sequence, Timestamp: timestamp, Payload: payload})
	done(p.t, err)
	if p.seen == nil {
		p.seen = map[h26x.Pushed]int{}
	}
	p.seen[pushed]++
}

// leavesGaps: long packets behind each of which one is missing, and then short ones without a payload, for which no
// limit on bytes stands.
func (p *hostilePeer) leavesGaps() {
	long := append(some("0201"), make([]byte, longestPacket-2)...)
	for n := 0; n < 1500; n++ {
		p.sends(uint32(n), long)
		p.sequence += 2
	}
	if p.seen[h26x.Full] < 1400 {
		p.t.Errorf("%v of packets past the limit", p.seen)
	}
	done(p.t, p.to.Restart())
	for n := 0; n < 1<<14; n++ {
		p.sends(0, nil)
		p.sequence++
	}
	done(p.t, p.to.Restart())
}

// jumps: strays, and streams that begin anew.
func (p *hostilePeer) jumps() {
	long := append(some("0201"), make([]byte, longestPacket-2)...)
	for n := 0; n < 300; n++ {
		p.sends(uint32(n), long)
		p.sequence += uint16(1 + n%2*24999)
	}
	if p.seen[h26x.Stray] < 100 || p.seen[h26x.Anew] < 100 {
		p.t.Errorf("%v of packets that jump", p.seen)
	}
	done(p.t, p.to.Restart())
}

// neverEnds: an access unit without an end, of long units, of many empty ones, and of a unit without an end.
func (p *hostilePeer) neverEnds(takes bool, unit *h26x.AccessUnit) {
	start := append(some("620193"), make([]byte, longestPacket-3)...)
	middle := append(some("620113"), make([]byte, longestPacket-3)...)
	long := append(some("0201"), make([]byte, longestPacket-2)...)
	sends := func(packet []byte) {
		p.sends(7, packet)
		p.sequence++
		if takes {
			_, err := p.to.NextInto(0, unit)
			done(p.t, err)
		}
	}
	for n := 0; n < 150; n++ {
		sends(long)
		sends(aggregate(32700, 0))
	}
	sends(start)
	for n := 0; n < 300; n++ {
		sends(middle)
	}
}
