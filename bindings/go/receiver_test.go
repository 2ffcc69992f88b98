package h26x_test

import (
	"testing"

	"emupedestal/h26x"
)

// step is a packet, and what must become of it.
type step struct {
	sequence uint16
	packet   []byte
	outcome  h26x.Outcome
	distance uint16
	data     []byte
	runLen   int
}

func receives(t *testing.T, r *h26x.Receiver, steps ...step) {
	t.Helper()
	for i, s := range steps {
		clone, err := r.Clone()
		done(t, err)
		out, appended, err := clone.ReceiveInto([]byte("before"), s.sequence, s.packet)
		done(t, err)
		same(t, out, append([]byte("before"), s.data...))
		same(t, appended.Bytes, s.data)
		clone.Close()
		got, err := r.Receive(s.sequence, s.packet)
		done(t, err)
		same(t, got.Bytes, s.data)
		if got.Outcome != s.outcome || got.Distance != s.distance || r.RunLen() != s.runLen {
			t.Fatalf("step %d: got %v of %d, and %d bytes open", i, got.Outcome, got.Distance, r.RunLen())
		}
		told := h26x.NoUnits
		if len(s.data) > 0 {
			told = h26x.Keyframe
		}
		if got.Extra != told || appended.Extra != told || appended.Outcome != s.outcome {
			t.Fatalf("step %d: told %d", i, got.Extra)
		}
	}
}

func annexB(unit []byte) []byte { return append([]byte{0, 0, 0, 1}, unit...) }

// No unit of which a packet is missing is written; the others are, whole.
func TestLosses(t *testing.T) {
	for _, codec := range codecs {
		f, r := fragmentsOf(codec), newReceiver(t, codec, 100, false, false)
		whole := annexB(f.unit)
		receives(t, r,
			step{65534, f.start, h26x.InOrder, 0, nil, 2},
			step{65535, f.middle, h26x.InOrder, 0, nil, 4},
			step{0, f.end, h26x.InOrder, 0, whole, 0},
			// The middle is missing, and then the start.
			step{1, f.start, h26x.InOrder, 0, nil, 2},
			step{3, f.end, h26x.Gap, 1, nil, 0},
			step{5, f.middle, h26x.Gap, 1, nil, 0},
			step{6, f.end, h26x.InOrder, 0, nil, 0},
			// Those that are late or come twice leave the open unit.
			step{7, f.start, h26x.InOrder, 0, nil, 2},
			step{7, f.start, h26x.Late, 1, nil, 2},
			step{2, f.middle, h26x.Late, 6, nil, 2},
			step{32776, f.middle, h26x.Late, 32768, nil, 2})
		// So does one that is refused.
		_, err := r.Receive(9, nil)
		refuses(t, err, h26x.ErrShortPacket)
		receives(t, r,
			step{8, f.middle, h26x.InOrder, 0, nil, 4},
			step{9, f.end, h26x.InOrder, 0, whole, 0},
			step{32777, f.start, h26x.Gap, 32767, nil, 2})
	}
	_, err := newReceiver(t, h26x.H264, 100, false, false).Receive(1, some("7f01"))
	refuses(t, err, h26x.ErrNALUTypeNotHandled, 31)
}

func TestNumbersThatBearNothing(t *testing.T) {
	for _, codec := range codecs {
		f, r := fragmentsOf(codec), newReceiver(t, codec, 100, false, false)
		skips := func(sequence uint16, outcome h26x.Outcome, distance uint16, runLen int) {
			t.Helper()
			got, d, err := r.Skip(sequence)
			done(t, err)
			if got != outcome || d != distance || r.RunLen() != runLen {
				t.Fatalf("%d: got %v of %d, and %d bytes open", sequence, got, d, r.RunLen())
			}
		}
		receives(t, r, step{65534, f.start, h26x.InOrder, 0, nil, 2})
		skips(65535, h26x.InOrder, 0, 2)
		receives(t, r,
			step{0, f.middle, h26x.InOrder, 0, nil, 4},
			step{1, f.end, h26x.InOrder, 0, annexB(f.unit), 0},
			step{2, f.start, h26x.InOrder, 0, nil, 2})
		skips(2, h26x.Late, 1, 2)
		skips(5, h26x.Gap, 2, 0)
		receives(t, r, step{6, f.end, h26x.InOrder, 0, nil, 0})
		r.Close()
		if _, _, err := r.Skip(7); err != h26x.ErrClosed {
			t.Fatalf("got %v", err)
		}
	}
}

func TestLimit(t *testing.T) {
	for _, codec := range codecs {
		f, r := fragmentsOf(codec), newReceiver(t, codec, 4, false, false)
		receives(t, r,
			step{1, f.start, h26x.InOrder, 0, nil, 2},
			step{2, f.middle, h26x.InOrder, 0, nil, 4},
			step{3, f.middle, h26x.TooLong, 0, nil, 0},
			step{4, f.end, h26x.InOrder, 0, nil, 0})
		for _, limit := range []int{0, -1} {
			receives(t, newReceiver(t, codec, limit, false, false),
				step{1, f.start, h26x.TooLong, 0, nil, 0},
				step{4, f.start, h26x.TooLong, 2, nil, 0})
		}
	}
}

func TestReceiverSettings(t *testing.T) {
	for _, codec := range codecs {
		f, r := fragmentsOf(codec), newReceiver(t, codec, 100, false, true)
		receives(t, r, step{1, f.start, h26x.InOrder, 0, nil, 2}, step{2, f.middle, h26x.InOrder, 0, nil, 4})
		clone, err := r.Clone()
		done(t, err)
		lengths := append([]byte{0, 0, 0, byte(len(f.unit))}, f.unit...)
		receives(t, clone, step{3, f.end, h26x.InOrder, 0, lengths, 0}, step{3, f.end, h26x.Late, 1, nil, 0})
		if clone.RunLimit() != 100 || clone.Codec() != codec {
			t.Fatal("a clone has other settings")
		}
		done(t, r.SetAVC(false))
		receives(t, r,
			step{3, f.end, h26x.InOrder, 0, annexB(f.unit), 0},
			step{4, f.start, h26x.InOrder, 0, nil, 2},
			step{40000, f.end, h26x.Late, 25541, nil, 2})
		done(t, r.Restart())
		receives(t, r, step{40000, f.end, h26x.InOrder, 0, nil, 0})
	}
	r := newReceiver(t, h26x.H266, 100, true, false)
	receives(t, r, step{1, some("00390002dd"), h26x.InOrder, 0, some("00000001 0039dd"), 0})
	r = newReceiver(t, h26x.H265, 100, true, false)
	receives(t, r, step{1, some("26010005aa"), h26x.InOrder, 0, some("00000001 2601aa"), 0})
	done(t, r.SetDONL(false))
	receives(t, r, step{2, some("2601bbcc"), h26x.InOrder, 0, some("00000001 2601bbcc"), 0})
	shown, err := r.Shown()
	done(t, err)
	if shown.Kind != h26x.Single || shown.Parts[0].Number != -1 {
		t.Fatalf("got %+v", shown)
	}
}

// No answer lies in memory that a later call writes to.
func TestAnswersAreTheCallers(t *testing.T) {
	d, r := newDepacketizer(t, h26x.H264, false, false), newReceiver(t, h26x.H264, 9, false, false)
	for i, first := range []string{"65010203", "61ff"} {
		unmarshalled, err := d.Unmarshal(some(first))
		done(t, err)
		received, err := r.Receive(uint16(2*i), some(first))
		done(t, err)
		_, err = d.Unmarshal(some("6199999999"))
		done(t, err)
		_, err = r.Receive(uint16(2*i+1), some("6199999999"))
		done(t, err)
		same(t, unmarshalled, annexB(some(first)))
		same(t, received.Bytes, annexB(some(first)))
	}
}
