package h26x

// #include <h26x.h>
import "C"

import "strconv"

// Packets are the packets of a call, one behind the other in one buffer, which keeps its memory from call
// to call. The zero value has none, and no headroom.
//
// Before each packet so many bytes are left as [NewPackets] says, for the headers of the layers below.
// What stands there is the caller's: a call leaves it as it is, so write all of it. Slices of the buffer
// are good up to the next call that makes packets in it. One goroutine at a time may use it.
type Packets struct {
	// Both have all that they ever had room for; the packets stand in front.
	bytes    []byte
	ends     []C.size_t
	count    int
	headroom int
}

// NewPackets has no packets yet, and leaves so many bytes before each of those that come. It panics where
// headroom is negative or over 65535, which no headers of a packet are.
func NewPackets(headroom int) *Packets {
	checkHeadroom(headroom)
	return &Packets{headroom: headroom}
}

func checkHeadroom(headroom int) {
	if headroom < 0 || headroom > 65535 {
		panic("h26x: headroom is " + strconv.Itoa(headroom))
	}
}

// Headroom is how many bytes are before each packet.
func (p *Packets) Headroom() int { return p.headroom }

// Len is how many packets there are.
func (p *Packets) Len() int { return p.count }

// Packet is packet i, counted from 0, without what is before it. It panics past the last.
func (p *Packets) Packet(i int) []byte { return p.Datagram(i)[p.headroom:] }

// Datagram is packet i behind its headroom: what goes to a socket once the headers stand there. It
// panics past the last.
func (p *Packets) Datagram(i int) []byte {
	begin, end := 0, p.End(i)
	if i > 0 {
		begin = p.End(i - 1)
	}
	return p.bytes[begin:end:end]
}

// End is where packet i ends in Bytes. It begins, with its headroom, where the one before it ends. It
// panics past the last.
func (p *Packets) End(i int) int { return int(p.ends[:p.count][i]) }

// Bytes is all packets, one behind the other, each behind its headroom.
func (p *Packets) Bytes() []byte {
	end := 0
	if p.count > 0 {
		end = p.End(p.count - 1)
	}
	return p.bytes[:end:end]
}

// copies is the packets, which have no headroom, in memory of their own.
func (p *Packets) copies() [][]byte {
	if p.count == 0 {
		return nil
	}
	all := append([]byte(nil), p.Bytes()...)
	copies, begin := make([][]byte, p.count), 0
	for i := range copies {
		end := p.End(i)
		copies[i] = all[begin:end:end]
		begin = end
	}
	return copies
}

// put puts payloads that lie elsewhere in the place of the packets.
func (p *Packets) put(payloads [][]byte) {
	size := 0
	for _, payload := range payloads {
		size += p.headroom + len(payload)
	}
	p.grow(len(payloads), size)
	end := 0
	for i, payload := range payloads {
		begin := end + p.headroom
		end = begin + copy(p.bytes[begin:], payload)
		p.ends[i] = C.size_t(end)
	}
	p.count = len(payloads)
}

// grow makes room for so many packets, of so many bytes with what is before them. Those that stand here
// stay.
func (p *Packets) grow(count, size int) {
	if len(p.bytes) < size {
		grown := make([]byte, larger(size, 2*len(p.bytes)))
		copy(grown, p.bytes)
		p.bytes = grown
	}
	if len(p.ends) < count {
		grown := make([]C.size_t, larger(count, 2*len(p.ends)))
		copy(grown, p.ends)
		p.ends = grown
	}
}

// endsAt is where the ends stand; nil where there is no room for any.
func (p *Packets) endsAt() *C.size_t {
	if len(p.ends) == 0 {
		return nil
	}
	return &p.ends[0]
}

func larger(a, b int) int {
	if a > b {
		return a
	}
	return b
}
