package h26x_test

import (
	"bytes"
	"errors"
	"os"
	"runtime"
	"strconv"
	"strings"
	"sync"
	"testing"
	"time"

	"emupedestal/h26x"
)

// closedCalls are calls of what is closed.
func closedCalls(p *h26x.Packetizer, d *h26x.Depacketizer, r *h26x.Receiver, u *h26x.AccessUnitReceiver) map[string]func() error {
	unit := []byte{2, 1, 3, 4, 5}
	return map[string]func() error{
		"Packetize":         func() error { _, err := p.Packetize(99, unit); return err },
		"PacketizeUnit":     func() error { _, err := p.PacketizeUnit(99, unit); return err },
		"PacketizeInto":     func() error { return p.PacketizeInto(99, unit, h26x.NewPackets(0)) },
		"PacketizeUnitInto": func() error { return p.PacketizeUnitInto(99, unit, h26x.NewPackets(0)) },
		"SetDONL":           func() error { return p.SetDONL(true) },
		"SetMaxPacketSize":  func() error { return p.SetMaxPacketSize(9) },
		"SetLowestHeader":   func() error { return p.SetLowestHeader(true) },
		"SetDelimiters":     func() error { return p.SetDelimiters(true) },
		"Clone":             func() error { _, err := p.Clone(); return err },
		"PacketsSize":       func() error { _, _, err := p.PacketsSize(99, unit, 0); return err },
		"Unmarshal":         func() error { _, err := d.Unmarshal(unit); return err },
		"Depacketize":       func() error { _, err := d.Depacketize(unit); return err },
		"DepacketizeInto":   func() error { _, _, err := d.DepacketizeInto(nil, unit); return err },
		"d.SetDONL":         func() error { return d.SetDONL(true) },
		"d.SetAVC":          func() error { return d.SetAVC(true) },
		"GiveUpRun":         func() error { return d.GiveUpRun() },
		"d.Clone":           func() error { _, err := d.Clone(); return err },
		"d.Shown":           func() error { _, err := d.Shown(); return err },
		"Receive":           func() error { _, err := r.Receive(1, unit); return err },
		"ReceiveInto":       func() error { _, _, err := r.ReceiveInto(nil, 1, unit); return err },
		"r.SetDONL":         func() error { return r.SetDONL(true) },
		"r.SetAVC":          func() error { return r.SetAVC(true) },
		"Restart":           func() error { return r.Restart() },
		"r.Clone":           func() error { _, err := r.Clone(); return err },
		"r.Shown":           func() error { _, err := r.Shown(); return err },
		"r.Skip":            func() error { _, _, err := r.Skip(1); return err },
		"Push":              func() error { _, _, err := u.Push(0, h26x.RTPPacket{Payload: unit}); return err },
		"u.Skip":            func() error { _, _, err := u.Skip(0, 1); return err },
		"Next":              func() error { _, err := u.Next(0); return err },
		"NextInto":          func() error { _, err := u.NextInto(0, new(h26x.AccessUnit)); return err },
		"Missing":           func() error { _, err := u.Missing(); return err },
		"Finish":            func() error { return u.Finish() },
		"u.Restart":         func() error { return u.Restart() },
		"Counts":            func() error { _, err := u.Counts(); return err },
	}
}

func TestWhatIsClosedMakesNoCall(t *testing.T) {
	p, d, r := newPacketizer(t, h26x.H265, false), newDepacketizer(t, h26x.H265, false, false),
		newReceiver(t, h26x.H265, 9, false, false)
	u := newAccessUnitReceiver(t, h26x.H265, h26x.AccessUnitConfig{MaxWait: 9})
	for name, call := range closedCalls(p, d, r, u) {
		if err := call(); err != nil {
			t.Errorf("%s: %v", name, err)
		}
	}
	// Twice, since it may be.
	for i := 0; i < 2; i++ {
		done(t, p.Close())
		done(t, d.Close())
		done(t, r.Close())
		done(t, u.Close())
	}
	for name, call := range closedCalls(p, d, r, u) {
		if err := call(); !errors.Is(err, h26x.ErrClosed) {
			t.Errorf("%s: %v", name, err)
		}
	}
	if _, ok := u.Deadline(); ok || u.BeginAt(1) || p.Payload(99, []byte{2, 1, 3}) != nil || r.RunLen() != 0 {
		t.Error("a call is made")
	}
	for name, call := range closedCalls(new(h26x.Packetizer), new(h26x.Depacketizer), new(h26x.Receiver), new(h26x.AccessUnitReceiver)) {
		if err := call(); !errors.Is(err, h26x.ErrClosed) {
			t.Errorf("%s of a zero value: %v", name, err)
		}
	}
}

// resident is how many bytes of memory the process has.
func resident(t *testing.T) int {
	t.Helper()
	told, err := os.ReadFile("/proc/self/statm")
	if err != nil {
		t.Skip("the system doesn't tell how much memory a process has")
	}
	pages, err := strconv.Atoi(strings.Fields(string(told))[1])
	done(t, err)
	return pages * os.Getpagesize()
}

// What isn't closed is freed some time after it can't be reached; what is closed at once.
func TestMemoryIsGivenBack(t *testing.T) {
	packet, before := append(some("7c85"), make([]byte, 1<<20)...), resident(t)
	for n := 0; n < 400; n++ {
		d, err := h26x.NewDepacketizer(h26x.H264)
		done(t, err)
		_, _, err = d.DepacketizeInto(nil, packet)
		done(t, err)
		if n%2 == 0 {
			d.Close()
		}
		if n%10 == 0 {
			runtime.GC()
			time.Sleep(time.Millisecond)
		}
	}
	// The open units are 400 MiB together.
	if more := resident(t) - before; more > 150<<20 {
		t.Errorf("%d bytes more", more)
	}
}

// So it is of packets that wait.
func TestMemoryOfWhatWaitsIsGivenBack(t *testing.T) {
	packet, before := append(some("61"), make([]byte, 1<<16)...), resident(t)
	for n := 0; n < 400; n++ {
		u, err := h26x.NewAccessUnitReceiver(h26x.H264, h26x.AccessUnitConfig{})
		done(t, err)
		for i := uint16(0); i < 16; i++ {
			pushes(t, u, 0, i, 0, false, packet, h26x.Held)
		}
		if n%2 == 0 {
			u.Close()
		}
		if n%10 == 0 {
			runtime.GC()
			time.Sleep(time.Millisecond)
		}
	}
	// They are 400 MiB together.
	if more := resident(t) - before; more > 150<<20 {
		t.Errorf("%d bytes more", more)
	}
}

// One object in several goroutines: each call has the handle alone.
func TestGoroutines(t *testing.T) {
	p, d := newPacketizer(t, h26x.H264, false), newDepacketizer(t, h26x.H264, false, false)
	r := newReceiver(t, h26x.H264, 99, false, false)
	var group sync.WaitGroup
	for n := 1; n <= 4; n++ {
		unit := append([]byte{0x65}, bytes.Repeat([]byte{byte(n)}, 20000+3000*n)...)
		group.Add(1)
		go func() {
			defer group.Done()
			for i := 0; i < 100; i++ {
				var data []byte
				for _, packet := range p.Payload(102, unit) {
					data = append(data, packet[2:]...)
				}
				if !bytes.Equal(data, unit[1:]) {
					t.Error("packets of another call")
				}
				out, err := d.Unmarshal(unit)
				if err != nil || !bytes.Equal(out[4:], unit) {
					t.Error("a unit of another call")
				}
				got, err := r.Receive(uint16(i), unit)
				if err != nil || got.Outcome != h26x.Late && !bytes.Equal(got.Bytes[4:], unit) {
					t.Error("a unit of another packet")
				}
			}
		}()
	}
	group.Wait()
}

// Goroutines that only look at an object do so at once, while another changes it in between.
func TestGoroutinesThatLook(t *testing.T) {
	d, r := newDepacketizer(t, h26x.H265, false, false), newReceiver(t, h26x.H265, 99, false, false)
	first, unit := some("6201 93 aabbcc"), some("0201 0102")
	for _, packet := range [][]byte{unit, first} {
		_, err := d.Unmarshal(packet)
		done(t, err)
	}
	_, err := r.Receive(7, first)
	done(t, err)
	var group sync.WaitGroup
	for n := 0; n < 4; n++ {
		group.Add(1)
		go func() {
			defer group.Done()
			for i := 0; i < 100; i++ {
				if shown, err := d.Shown(); err != nil || shown.Kind != h26x.Fragment {
					t.Error("another packet is shown")
				}
				if copied, err := r.Clone(); err != nil || copied.RunLen() != 3 || copied.Close() != nil {
					t.Error("another copy")
				}
				if r.RunLen() != 3 {
					t.Error("another run")
				}
				if err := d.SetAVC(i%2 == 0); err != nil {
					t.Error(err)
				}
			}
		}()
	}
	group.Wait()
}

// A number is taken once, and an access unit is given out once, in one piece, while others look.
func TestGoroutinesOfAccessUnits(t *testing.T) {
	const goroutines, packets = 4, 1000
	u := newAccessUnitReceiver(t, h26x.H264, h26x.AccessUnitConfig{MaxWait: 1 << 20, BeginWait: 1 << 20})
	var group sync.WaitGroup
	var mu sync.Mutex
	given := map[uint16]int{}
	take := func() {
		for {
			unit, err := u.Next(0)
			if err != nil {
				t.Error(err)
			}
			if unit == nil {
				return
			}
			if unit.First != unit.Last || !bytes.Equal(unit.Bytes[5:], bytes.Repeat([]byte{byte(unit.First)}, 1000)) {
				t.Error("bytes of another access unit")
			}
			mu.Lock()
			given[unit.First]++
			mu.Unlock()
		}
	}
	for n := 0; n < goroutines; n++ {
		group.Add(1)
		go func() {
			defer group.Done()
			for i := uint16(0); i < packets; i++ {
				payload := append([]byte{0x61}, bytes.Repeat([]byte{byte(i)}, 1000)...)
				_, _, err := u.Push(0, h26x.RTPPacket{Sequence: i, Timestamp: uint32(i), Marker: true, Payload: payload})
				if _, again := u.Missing(); err != nil || again != nil {
					t.Error(err, again)
				}
				if counted, err := u.Counts(); err != nil || counted.Taken > packets {
					t.Error("other counts")
				}
				if tick, ok := u.Deadline(); ok && tick != 1<<20 {
					t.Error("another deadline")
				}
				take()
			}
		}()
	}
	group.Wait()
	done(t, u.Finish())
	take()
	if len(given) != packets {
		t.Errorf("%d access units", len(given))
	}
	for number, times := range given {
		if times != 1 {
			t.Errorf("%d is given out %d times", number, times)
		}
	}
}

func TestClosingWhileAnotherCalls(t *testing.T) {
	for n := 0; n < 50; n++ {
		d, unit := newDepacketizer(t, h26x.H264, false, false), bytes.Repeat([]byte{0x61}, 2000)
		var group sync.WaitGroup
		for i := 0; i < 2; i++ {
			group.Add(1)
			go func() {
				defer group.Done()
				for {
					if _, err := d.Unmarshal(unit); errors.Is(err, h26x.ErrClosed) {
						return
					}
				}
			}()
		}
		d.Close()
		group.Wait()
	}
}

// In a buffer that has room a call asks Go for no memory.
func TestNoMemoryForEachPacket(t *testing.T) {
	p, r, into := newPacketizer(t, h26x.H265, false), newReceiver(t, h26x.H265, 1<<20, false, false), h26x.NewPackets(12)
	unit, out, sequence := append(some("2601"), make([]byte, 20000)...), make([]byte, 0, 30000), uint16(0)
	run := func() {
		if err := p.PacketizeInto(1200, unit, into); err != nil {
			t.Fatal(err)
		}
		rest := out
		for i := 0; i < into.Len(); i++ {
			var err error
			if rest, _, err = r.ReceiveInto(rest, sequence, into.Packet(i)); err != nil {
				t.Fatal(err)
			}
			sequence++
		}
		if !bytes.Equal(rest[4:], unit) {
			t.Fatal("another unit")
		}
	}
	run()
	if times := testing.AllocsPerRun(20, run); times > 0 {
		t.Errorf("%v allocations", times)
	}
}

// The same of access units, of which the memory is used again.
func TestNoMemoryForEachAccessUnit(t *testing.T) {
	u, sequence := newAccessUnitReceiver(t, h26x.H264, h26x.AccessUnitConfig{Window: 1}), uint16(0)
	packet, unit := append([]byte{0x61}, make([]byte, 1199)...), h26x.AccessUnit{}
	run := func() {
		_, _, err := u.Push(0, h26x.RTPPacket{Sequence: sequence, Timestamp: uint32(sequence), Marker: true, Payload: packet})
		if err != nil {
			t.Fatal(err)
		}
		sequence++
		if ended, err := u.NextInto(0, &unit); !ended || err != nil || !bytes.Equal(unit.Bytes[4:], packet) {
			t.Fatal("another access unit", err)
		}
	}
	run()
	if times := testing.AllocsPerRun(20, run); times > 0 {
		t.Errorf("%v allocations", times)
	}
}

func BenchmarkPacketizeInto(b *testing.B) {
	p, err := h26x.NewPacketizer(h26x.H264)
	if err != nil {
		b.Fatal(err)
	}
	defer p.Close()
	unit, into := append([]byte{0x65}, make([]byte, 100_000)...), h26x.NewPackets(12)
	b.SetBytes(int64(len(unit)))
	b.ReportAllocs()
	for i := 0; i < b.N; i++ {
		if err := p.PacketizeInto(1200, unit, into); err != nil {
			b.Fatal(err)
		}
	}
}

func BenchmarkReceive(b *testing.B) {
	r, err := h26x.NewReceiver(h26x.H264, 1<<20)
	if err != nil {
		b.Fatal(err)
	}
	defer r.Close()
	packet, out := append([]byte{0x61}, make([]byte, 1199)...), make([]byte, 0, 4096)
	b.SetBytes(int64(len(packet)))
	b.ReportAllocs()
	for i := 0; i < b.N; i++ {
		if _, _, err := r.ReceiveInto(out, uint16(i), packet); err != nil {
			b.Fatal(err)
		}
	}
}

func BenchmarkAccessUnits(b *testing.B) {
	u := newAccessUnitReceiver(b, h26x.H264, h26x.AccessUnitConfig{Window: 16})
	packet, unit := append([]byte{0x61}, make([]byte, 1199)...), h26x.AccessUnit{}
	b.SetBytes(int64(len(packet)))
	b.ReportAllocs()
	for i := 0; i < b.N; i++ {
		it := h26x.RTPPacket{Sequence: uint16(i), Timestamp: uint32(i / 10), Marker: i%10 == 9, Payload: packet}
		if _, _, err := u.Push(0, it); err != nil {
			b.Fatal(err)
		}
		if _, err := u.NextInto(0, &unit); err != nil {
			b.Fatal(err)
		}
	}
}
