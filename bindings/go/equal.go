package h26x

// #include <h26x.h>
import "C"

import (
	"bytes"
	"sync"
	"unsafe"
)

// What has no method Equal here is compared by ==.

// lockBoth locks two for looking, in the order of their addresses, so that no two calls wait for each other. It answers
// what unlocks them.
func lockBoth(a, b *sync.RWMutex) (unlock func()) {
	if uintptr(unsafe.Pointer(b)) < uintptr(unsafe.Pointer(a)) {
		a, b = b, a
	}
	a.RLock()
	if a == b {
		return a.RUnlock
	}
	b.RLock()
	return func() {
		b.RUnlock()
		a.RUnlock()
	}
}

// Equal tells whether both are of one codec and have the same settings and the same open unit; of H.265 they must have
// accepted the same packet last as well. What is closed equals itself alone.
func (d *Depacketizer) Equal(other *Depacketizer) bool {
	if d == other {
		return true
	}
	defer lockBoth(&d.mu, &other.mu)()
	return d.call != nil && other.call != nil && d.avc == other.avc &&
		bool(C.h26x_depacketizer_same(&d.call.handle, &other.call.handle))
}

// Equal tells whether both are of one codec and have the same values as texts, 42e01f being another than 42E01F, and the
// same others in the same order. What is closed, or can't be written for want of memory, equals itself alone.
func (f *FormatParameters) Equal(other *FormatParameters) bool {
	if f == other {
		return true
	}
	one, err := f.Text()
	if err != nil {
		return false
	}
	two, err := other.Text()
	return err == nil && f.codec == other.codec && one == two
}

// Equal tells whether both have the same packets with the same bytes before them.
func (p *Packets) Equal(other *Packets) bool {
	if p.headroom != other.headroom || p.count != other.count || !bytes.Equal(p.Bytes(), other.Bytes()) {
		return false
	}
	for i := range p.ends[:p.count] {
		if p.ends[i] != other.ends[i] {
			return false
		}
	}
	return true
}

// Equal tells whether the packets completed the same.
func (d Depacketized) Equal(other Depacketized) bool {
	return d.Extra == other.Extra && bytes.Equal(d.Bytes, other.Bytes)
}

// Equal tells whether the same became of the packets, and they completed the same.
func (r Received) Equal(other Received) bool {
	return r.Outcome == other.Outcome && r.Distance == other.Distance && r.Extra == other.Extra &&
		bytes.Equal(r.Bytes, other.Bytes)
}

// Equal tells whether the headers say the same, and the payloads are the same.
func (p RTPPacket) Equal(other RTPPacket) bool {
	return p.Sequence == other.Sequence && p.Timestamp == other.Timestamp && p.Marker == other.Marker &&
		bytes.Equal(p.Payload, other.Payload)
}

// Equal tells whether both have the same bytes, and the same is told of them.
func (u AccessUnit) Equal(other AccessUnit) bool {
	return u.Timestamp == other.Timestamp && u.Extra == other.Extra && u.IsWhole == other.IsWhole &&
		u.IsClean == other.IsClean && u.IsDisposable == other.IsDisposable && u.Continues == other.Continues &&
		u.First == other.First && u.Last == other.Last && u.Missing == other.Missing && bytes.Equal(u.Bytes, other.Bytes)
}

// Equal tells whether both are the same packet.
func (s ShownPacket) Equal(other ShownPacket) bool {
	if s.Kind != other.Kind || s.Header != other.Header || s.Word != other.Word || len(s.Parts) != len(other.Parts) {
		return false
	}
	for i := range s.Parts {
		if !s.Parts[i].Equal(other.Parts[i]) {
			return false
		}
	}
	return true
}

// Equal tells whether both have the same bytes behind the same number.
func (p Part) Equal(other Part) bool {
	return p.Number == other.Number && bytes.Equal(p.Bytes, other.Bytes)
}

// Equal tells whether both say the same.
func (c Constraints) Equal(other Constraints) bool {
	return c.Flags == other.Flags && c.FrameOnly == other.FrameOnly && c.Multilayer == other.Multilayer &&
		c.General == other.General && bytes.Equal(c.Bytes, other.Bytes)
}

// Equal tells whether both are of one level, and have the same sets in the same order.
func (l LevelSets) Equal(other LevelSets) bool {
	if l.ProfileLevelID != other.ProfileLevelID || len(l.Sets) != len(other.Sets) {
		return false
	}
	for i := range l.Sets {
		if !bytes.Equal(l.Sets[i], other.Sets[i]) {
			return false
		}
	}
	return true
}
