package h26x_test

import (
	"bytes"
	"errors"
	"fmt"
	"testing"

	"emupedestal/h26x"
)

// Expected answers are written out by the definitions of crates/h26x_access_units: which packet is due, what is told of
// an access unit, and what is counted.

func newAccessUnitReceiver(t testing.TB, codec h26x.Codec, config h26x.AccessUnitConfig) *h26x.AccessUnitReceiver {
	t.Helper()
	r, err := h26x.NewAccessUnitReceiver(codec, config)
	if err != nil {
		t.Fatal(err)
	}
	t.Cleanup(func() { r.Close() })
	return r
}

// small is a window of 4 packets, a wait of 100 ticks, at the beginning too, and 20 bytes of payloads; no number is too
// far, and the decoder has the parameter sets.
func small() h26x.AccessUnitConfig {
	return h26x.AccessUnitConfig{
		Window: 4, Far: -1, MaxWait: 100, BeginWait: 100, HeldLimit: 20, RunLimit: 1000, UnitLimit: 1000, HasSets: true,
	}
}

// pictures are the first slices of a keyframe and of another picture, which are packets as they stand.
func pictures(codec h26x.Codec) (key, slice []byte) {
	units := many(map[h26x.Codec]string{
		h26x.H264: "6588|619a", h26x.H265: "2601ac|0201d0", h26x.H266: "0041c0|0001c0",
	}[codec])
	return units[0], units[1]
}

// later is the second slice of a keyframe's picture.
func later(codec h26x.Codec) []byte {
	return some(map[h26x.Codec]string{h26x.H264: "6540", h26x.H265: "26012c", h26x.H266: "004140"}[codec])
}

// pushes gives a packet, and compares what became of it; behind is how far behind it is late.
func pushes(t *testing.T, r *h26x.AccessUnitReceiver, now uint32, sequence uint16, timestamp uint32, marker bool,
	payload []byte, wanted h26x.Pushed, behind ...uint16) {
	t.Helper()
	pushed, by, err := r.Push(now, h26x.RTPPacket{Sequence: sequence, Timestamp: timestamp, Marker: marker, Payload: payload})
	done(t, err)
	if pushed != wanted || by != append(behind, 0)[0] {
		t.Fatalf("%d: got %v of %d, wanted %v of %d", sequence, pushed, by, wanted, behind)
	}
}

// told is an access unit in words, so that two compare.
func told(unit h26x.AccessUnit) string { return fmt.Sprintf("%+v", unit) }

// gives compares all access units that have ended at a tick.
func gives(t *testing.T, r *h26x.AccessUnitReceiver, now uint32, wanted ...h26x.AccessUnit) {
	t.Helper()
	for _, one := range wanted {
		got, err := r.Next(now)
		done(t, err)
		if got == nil {
			t.Fatalf("got none, wanted %s", told(one))
		}
		if told(*got) != told(one) {
			t.Fatalf("got %s, wanted %s", told(*got), told(one))
		}
	}
	got, err := r.Next(now)
	done(t, err)
	if got != nil {
		t.Fatalf("got %s, wanted none", told(*got))
	}
}

// waits compares the deadline: -1 is none.
func waits(t *testing.T, r *h26x.AccessUnitReceiver, wanted int64) {
	t.Helper()
	tick, ok := r.Deadline()
	if ok != (wanted >= 0) || ok && int64(tick) != wanted {
		t.Fatalf("got a deadline of %d, %v, wanted %d", tick, ok, wanted)
	}
}

func lacks(t *testing.T, r *h26x.AccessUnitReceiver, wanted ...uint16) {
	t.Helper()
	got, err := r.Missing()
	done(t, err)
	if fmt.Sprint(got) != fmt.Sprint(wanted) {
		t.Fatalf("got %v missing, wanted %v", got, wanted)
	}
}

func counts(t *testing.T, r *h26x.AccessUnitReceiver, wanted h26x.Counts) {
	t.Helper()
	got, err := r.Counts()
	done(t, err)
	if got != wanted {
		t.Fatalf("got %+v, wanted %+v", got, wanted)
	}
}

// one is an access unit of one packet.
func one(codec h26x.Codec, timestamp uint32, sequence uint16, unit []byte) h26x.AccessUnit {
	told := h26x.NoKeyframe
	if isKey(codec, unit) {
		told = h26x.Keyframe
	}
	return h26x.AccessUnit{Timestamp: timestamp, Bytes: annexB(unit), Extra: told, First: sequence, Last: sequence}
}

func whole(unit h26x.AccessUnit) h26x.AccessUnit {
	unit.IsWhole = true
	return unit
}

// start is one with which a decoder can begin; nobody knows whether one is missing before it.
func start(unit h26x.AccessUnit) h26x.AccessUnit {
	unit.IsClean = true
	return unit
}

func clean(unit h26x.AccessUnit) h26x.AccessUnit { return start(whole(unit)) }

func missing(unit h26x.AccessUnit, count uint32) h26x.AccessUnit {
	unit.Missing = count
	return unit
}

// The numbers and the ticks go round, and each packet is waited for so long, or by the window.
func TestPacketsMissingLateAndTwice(t *testing.T) {
	for _, codec := range codecs {
		r, f := newAccessUnitReceiver(t, codec, small()), fragmentsOf(codec)
		key, slice := pictures(codec)
		waits(t, r, -1)
		pushes(t, r, 0xffff_fff0, 65534, 0, true, key, h26x.Held)
		// Packets before the first may come still.
		gives(t, r, 0xffff_fff0)
		lacks(t, r)
		waits(t, r, 0x54)
		gives(t, r, 0x53)
		// Nobody knows whether one is missing before the first.
		gives(t, r, 0x54, start(one(codec, 0, 65534, key)))
		waits(t, r, -1)
		// The middle fragment comes last, the others twice.
		pushes(t, r, 100, 65535, 3000, false, f.start, h26x.Held)
		gives(t, r, 100)
		pushes(t, r, 101, 1, 3000, true, f.end, h26x.Held)
		pushes(t, r, 101, 1, 3000, true, f.end, h26x.Twice)
		pushes(t, r, 101, 65535, 3000, false, f.start, h26x.Twice)
		gives(t, r, 101)
		lacks(t, r, 0)
		pushes(t, r, 102, 0, 3000, false, f.middle, h26x.Held)
		lacks(t, r)
		unit := clean(one(codec, 3000, 65535, f.unit))
		unit.Last = 1
		gives(t, r, 102, unit)
		// 2 and 4 are missing: 6 is a window, less one, ahead of 3.
		pushes(t, r, 103, 3, 6000, true, slice, h26x.Held)
		pushes(t, r, 104, 5, 9000, true, slice, h26x.Held)
		lacks(t, r, 2, 4)
		gives(t, r, 104)
		pushes(t, r, 105, 6, 12000, true, slice, h26x.Held)
		gives(t, r, 105, missing(one(codec, 6000, 3, slice), 1))
		waits(t, r, 204)
		gives(t, r, 203)
		gives(t, r, 204, missing(one(codec, 9000, 5, slice), 1), whole(one(codec, 12000, 6, slice)))
		pushes(t, r, 205, 4, 9000, true, slice, h26x.PushedLate, 3)
		counts(t, r, h26x.Counts{Taken: 7, Lost: 2, Late: 1, Twice: 2, Units: 5, Whole: 2})
	}
}

// shows compares what came so far of the access unit that is open, from a byte on.
func shows(t *testing.T, r *h26x.AccessUnitReceiver, from int, wanted *h26x.UnitsSoFar) {
	t.Helper()
	got, err := r.UnitsSoFar(from)
	done(t, err)
	if fmt.Sprintf("%+v", got) != fmt.Sprintf("%+v", wanted) {
		t.Fatalf("got %+v, wanted %+v", got, wanted)
	}
}

// A unit is shown with its last fragment, and once its access unit has ended that is given out first.
func TestUnitsBeforeTheirAccessUnitHasEnded(t *testing.T) {
	for _, codec := range codecs {
		r, f := newAccessUnitReceiver(t, codec, h26x.AccessUnitConfig{}), fragmentsOf(codec)
		shows(t, r, 0, nil)
		for i, fragment := range [][]byte{f.start, f.middle} {
			pushes(t, r, 0, uint16(7+i), 3000, false, fragment, h26x.Held)
			gives(t, r, 0)
			shows(t, r, 0, &h26x.UnitsSoFar{Timestamp: 3000, Bytes: []byte{}})
		}
		pushes(t, r, 0, 9, 3000, false, f.end, h26x.Held)
		text := annexB(f.unit)
		shows(t, r, -1, &h26x.UnitsSoFar{Timestamp: 3000, Bytes: text, Extra: h26x.Keyframe})
		shows(t, r, 10, &h26x.UnitsSoFar{Timestamp: 3000, Bytes: text[10:], Extra: h26x.Keyframe})
		shows(t, r, 99, &h26x.UnitsSoFar{Timestamp: 3000, Bytes: []byte{}, Extra: h26x.Keyframe})
		pushes(t, r, 0, 10, 3000, true, later(codec), h26x.Held)
		shows(t, r, 0, nil)
		unit, err := r.Next(0)
		done(t, err)
		if unit == nil || !bytes.Equal(unit.Bytes, append(annexB(f.unit), annexB(later(codec))...)) {
			t.Fatalf("got %+v", unit)
		}
		shows(t, r, 0, nil)
		done(t, r.Close())
		if _, err := r.UnitsSoFar(0); !errors.Is(err, h26x.ErrClosed) {
			t.Fatal(err)
		}
	}
}

// Settings that change while a packet waits: with a window of 1 it is due.
func TestSettingsThatChange(t *testing.T) {
	for _, codec := range codecs {
		config := small()
		r := newAccessUnitReceiver(t, codec, config)
		key, slice := pictures(codec)
		pushes(t, r, 0, 10, 0, true, key, h26x.Held)
		gives(t, r, 100, start(one(codec, 0, 10, key)))
		pushes(t, r, 100, 12, 3000, true, slice, h26x.Held)
		for _, window := range []int{-1, 1<<14 + 1} {
			config.Window = window
			refuses(t, r.SetConfig(config), h26x.ErrOutOfRange)
			gives(t, r, 100)
			waits(t, r, 200)
		}
		config.Window = 1
		done(t, r.SetConfig(config))
		gives(t, r, 100, missing(one(codec, 3000, 12, slice), 1))
		done(t, r.Close())
		if err := r.SetConfig(config); !errors.Is(err, h26x.ErrClosed) {
			t.Fatalf("got %v of one that is closed", err)
		}
	}
}

// No marker, one on a fragment in the middle, and one on each slice.
func TestMarkersOfPeers(t *testing.T) {
	for _, codec := range codecs {
		config := small()
		config.Window = 1
		r, f := newAccessUnitReceiver(t, codec, config), fragmentsOf(codec)
		key, slice := pictures(codec)
		more := later(codec)
		pushes(t, r, 0, 10, 0, true, key, h26x.Held)
		gives(t, r, 0, start(one(codec, 0, 10, key)))
		// Without a marker the next timestamp is the end.
		pushes(t, r, 0, 11, 3000, false, slice, h26x.Held)
		pushes(t, r, 0, 12, 3000, false, more, h26x.Held)
		gives(t, r, 0)
		pushes(t, r, 0, 13, 6000, true, key, h26x.Held)
		two := clean(one(codec, 3000, 11, more))
		two.Bytes, two.Last = append(annexB(slice), annexB(more)...), 12
		gives(t, r, 0, two, clean(one(codec, 6000, 13, key)))
		// The run that is open at the marker goes with it, and the last fragment is left alone: neither half has bytes.
		pushes(t, r, 0, 14, 9000, false, f.start, h26x.Held)
		pushes(t, r, 0, 15, 9000, true, f.middle, h26x.Held)
		gives(t, r, 0)
		pushes(t, r, 0, 16, 9000, true, f.end, h26x.Held)
		gives(t, r, 0)
		pushes(t, r, 0, 17, 12000, true, key, h26x.Held)
		gives(t, r, 0, clean(one(codec, 12000, 17, key)))
		// Nothing is missing, but nobody knows whether the picture goes on again; from then on the next timestamp is the end.
		pushes(t, r, 0, 18, 12000, true, more, h26x.Held)
		gives(t, r, 0)
		pushes(t, r, 0, 19, 15000, true, slice, h26x.Held)
		goesOn := start(one(codec, 12000, 18, more))
		goesOn.Continues = true
		gives(t, r, 0, goesOn)
		counts(t, r, h26x.Counts{Taken: 10, Units: 5, Whole: 3, Unbelieved: 2})
	}
}

// Padding alone has no payload; forward error correction and other payload types are skipped. None is missing, and a
// unit around them stays open.
func TestNumbersThatBearNothingInAUnit(t *testing.T) {
	for _, codec := range codecs {
		config := small()
		config.Window = 1
		r, f := newAccessUnitReceiver(t, codec, config), fragmentsOf(codec)
		key, slice := pictures(codec)
		pushes(t, r, 0, 65533, 0, true, key, h26x.Held)
		gives(t, r, 0, start(one(codec, 0, 65533, key)))
		pushes(t, r, 0, 65534, 3000, false, f.start, h26x.Held)
		pushes(t, r, 0, 65535, 3000, true, nil, h26x.Held)
		if pushed, behind, err := r.Skip(0, 0); pushed != h26x.Held || behind != 0 || err != nil {
			t.Fatalf("got %v of %d, %v", pushed, behind, err)
		}
		pushes(t, r, 0, 1, 3000, false, f.middle, h26x.Held)
		pushes(t, r, 0, 2, 3000, true, f.end, h26x.Held)
		unit := clean(one(codec, 3000, 65534, f.unit))
		unit.Last = 2
		gives(t, r, 0, unit)
		// Behind one that is missing, a number that bears nothing hides no loss.
		if pushed, behind, err := r.Skip(0, 4); pushed != h26x.Held || behind != 0 || err != nil {
			t.Fatalf("got %v of %d, %v", pushed, behind, err)
		}
		pushes(t, r, 0, 5, 6000, true, slice, h26x.Held)
		gives(t, r, 0, missing(one(codec, 6000, 5, slice), 1))
		if pushed, behind, err := r.Skip(0, 4); pushed != h26x.Twice || behind != 0 || err != nil {
			t.Fatalf("got %v of %d, %v", pushed, behind, err)
		}
		counts(t, r, h26x.Counts{Taken: 5, Lost: 1, Twice: 1, Skipped: 3, Units: 3, Whole: 1})
	}
}

// A number too far away waits alone, and begins the stream anew where the next one follows it (RFC 3550, A.1).
func TestStraysAndAStreamThatBeginsAnew(t *testing.T) {
	for _, codec := range codecs {
		config := small()
		config.Far = 100
		r := newAccessUnitReceiver(t, codec, config)
		key, slice := pictures(codec)
		pushes(t, r, 0, 10, 0, true, key, h26x.Held)
		gives(t, r, 100, start(one(codec, 0, 10, key)))
		// 11 is due: 110 is 99 ahead. So 111 is a stray, and is 10111, which takes its place.
		pushes(t, r, 100, 111, 3000, true, slice, h26x.Stray)
		pushes(t, r, 100, 10111, 3000, true, slice, h26x.Stray)
		pushes(t, r, 100, 112, 3000, true, slice, h26x.Stray)
		pushes(t, r, 100, 11, 3000, false, slice, h26x.Held)
		gives(t, r, 100)
		pushes(t, r, 100, 13, 4500, false, slice, h26x.Held)
		// The sender begins anew 20,000 back: what is open ends, and what waits is dropped.
		pushes(t, r, 100, 45547, 6000, true, key, h26x.Stray)
		pushes(t, r, 100, 45548, 9000, true, slice, h26x.Anew)
		gives(t, r, 100, one(codec, 3000, 11, slice))
		gives(t, r, 199)
		gives(t, r, 200, start(one(codec, 6000, 45547, key)), clean(one(codec, 9000, 45548, slice)))
		counts(t, r, h26x.Counts{Taken: 4, Lost: 1, Stray: 4, Anew: 1, Units: 4, Whole: 1})
		// Where none is too far, one behind is late.
		r = newAccessUnitReceiver(t, codec, small())
		pushes(t, r, 0, 10, 0, true, key, h26x.Held)
		gives(t, r, 100, start(one(codec, 0, 10, key)))
		pushes(t, r, 100, 45547, 3000, true, key, h26x.PushedLate, 20000)
	}
}

func TestLimitsOfWhatWaits(t *testing.T) {
	for _, codec := range codecs {
		slice := later(codec)
		long := append(append([]byte(nil), slice...), make([]byte, 15-len(slice))...)
		r := newAccessUnitReceiver(t, codec, small())
		// 15 bytes wait, then 30, which is past 20: no more, and the first are due.
		pushes(t, r, 0, 10, 0, false, long, h26x.Held)
		gives(t, r, 0)
		pushes(t, r, 0, 11, 0, false, long, h26x.Held)
		pushes(t, r, 0, 12, 0, true, long, h26x.Full)
		gives(t, r, 0)
		pushes(t, r, 0, 12, 0, true, long, h26x.Held)
		unit := one(codec, 0, 10, slice)
		unit.Bytes, unit.Last = bytes.Repeat(annexB(long), 3), 12
		gives(t, r, 0, unit)
	}
}

// The limits on an open unit and on an open access unit: what is longer is given up, and nothing else.
func TestLimitsOfWhatIsOpen(t *testing.T) {
	for _, codec := range codecs {
		config, f := small(), fragmentsOf(codec)
		key, slice := pictures(codec)
		config.Window, config.RunLimit = 1, 3
		r := newAccessUnitReceiver(t, codec, config)
		pushes(t, r, 0, 10, 0, true, key, h26x.Held)
		pushes(t, r, 0, 11, 3000, false, slice, h26x.Held)
		pushes(t, r, 0, 12, 3000, false, f.start, h26x.Held)
		pushes(t, r, 0, 13, 3000, false, f.middle, h26x.Held)
		pushes(t, r, 0, 14, 3000, true, f.end, h26x.Held)
		unit := one(codec, 3000, 11, slice)
		unit.Last = 14
		gives(t, r, 0, start(one(codec, 0, 10, key)), unit)
		counts(t, r, h26x.Counts{Taken: 5, Units: 2, UnitsGivenUp: 1})

		config.RunLimit, config.UnitLimit = 1000, 2*len(annexB(slice))
		r = newAccessUnitReceiver(t, codec, config)
		pushes(t, r, 0, 10, 0, true, key, h26x.Held)
		gives(t, r, 0, start(one(codec, 0, 10, key)))
		for sequence := uint16(11); sequence < 14; sequence++ {
			pushes(t, r, 0, sequence, 3000, false, slice, h26x.Held)
			gives(t, r, 0)
			counts(t, r, h26x.Counts{Taken: uint64(sequence - 9), Units: 1, TextsGivenUp: uint64(sequence / 13)})
		}
		pushes(t, r, 0, 14, 3000, true, key, h26x.Held)
		unit = one(codec, 3000, 11, key)
		unit.Last = 14
		gives(t, r, 0, unit)
	}
}

func TestTheEndOfAStreamAndAnotherSender(t *testing.T) {
	for _, codec := range codecs {
		r := newAccessUnitReceiver(t, codec, small())
		key, slice := pictures(codec)
		pushes(t, r, 0, 10, 0, true, key, h26x.Held)
		pushes(t, r, 0, 12, 3000, false, slice, h26x.Held)
		gives(t, r, 0)
		done(t, r.Finish())
		gives(t, r, 0, start(one(codec, 0, 10, key)), missing(one(codec, 3000, 12, slice), 1))
		waits(t, r, -1)
		// Any number is next, and then what waits is dropped.
		pushes(t, r, 0, 40000, 6000, true, key, h26x.Held)
		waits(t, r, 100)
		done(t, r.Restart())
		waits(t, r, -1)
		gives(t, r, 100)
		pushes(t, r, 100, 7, 9000, false, key, h26x.Held)
		gives(t, r, 200)
		// So is what is open.
		done(t, r.Restart())
		done(t, r.Finish())
		gives(t, r, 200)
		counts(t, r, h26x.Counts{Taken: 3, Lost: 1, Units: 2})
	}
}

// What is refused is passed over, and counts as missing.
func TestRefusedPackets(t *testing.T) {
	refused := map[h26x.Codec][]byte{h26x.H264: some("7c"), h26x.H265: some("a601ff"), h26x.H266: some("8039ff")}
	for _, codec := range codecs {
		config := small()
		config.Window = 1
		r := newAccessUnitReceiver(t, codec, config)
		key, slice := pictures(codec)
		pushes(t, r, 0, 10, 0, true, key, h26x.Held)
		pushes(t, r, 0, 11, 3000, true, refused[codec], h26x.Held)
		pushes(t, r, 0, 12, 6000, true, slice, h26x.Held)
		gives(t, r, 0, start(one(codec, 0, 10, key)), missing(one(codec, 6000, 12, slice), 1))
		counts(t, r, h26x.Counts{Taken: 2, Lost: 1, Refused: 1, Units: 2})
	}
}

// Behind 0 stand the defaults, and a negative number asks for 0.
func TestDefaultsOfSettings(t *testing.T) {
	key, slice := pictures(h26x.H264)
	first := one(h26x.H264, 0, 1000, key)
	r := newAccessUnitReceiver(t, h26x.H264, h26x.AccessUnitConfig{})
	if r.Codec() != h26x.H264 {
		t.Error("another codec")
	}
	// The first packet waits for none, and without parameter sets it isn't clean.
	pushes(t, r, 7, 1000, 0, true, key, h26x.Held)
	waits(t, r, 7)
	gives(t, r, 7, first)
	// 1512 is 510 ahead of the one behind which 1001 is missing, 1513 a window of 512, less one.
	pushes(t, r, 7, 1002, 3000, true, slice, h26x.Held)
	waits(t, r, -1)
	pushes(t, r, 0xffff_ffff, 1512, 6000, true, slice, h26x.Held)
	gives(t, r, 0xffff_ffff)
	pushes(t, r, 0xffff_ffff, 1513, 9000, true, slice, h26x.Held)
	gives(t, r, 0xffff_ffff, missing(one(h26x.H264, 3000, 1002, slice), 1))
	// The newest that waits is 1513: 4512 is 2999 ahead.
	pushes(t, r, 0, 4513, 12000, true, slice, h26x.Stray)
	pushes(t, r, 0, 4512, 12000, true, slice, h26x.Jumped)

	r = newAccessUnitReceiver(t, h26x.H264, h26x.AccessUnitConfig{MaxWait: -1, Far: -1})
	pushes(t, r, 5, 1000, 0, true, key, h26x.Held)
	waits(t, r, 5)
	gives(t, r, 5, first)
	pushes(t, r, 5, 33768, 3000, true, key, h26x.Stray)
	pushes(t, r, 5, 33769, 3000, true, key, h26x.PushedLate, 32768)

	// A limit of 0 bytes: what waits is due, and what is open between packets is given up.
	r = newAccessUnitReceiver(t, h26x.H264, h26x.AccessUnitConfig{HeldLimit: -1, RunLimit: -1, UnitLimit: -1})
	f := fragmentsOf(h26x.H264)
	pushes(t, r, 0, 1000, 0, true, key, h26x.Held)
	pushes(t, r, 0, 1001, 3000, true, key, h26x.Full)
	gives(t, r, 0, first)
	pushes(t, r, 0, 1001, 3000, false, slice, h26x.Held)
	gives(t, r, 0)
	pushes(t, r, 0, 1002, 3000, true, f.start, h26x.Held)
	gives(t, r, 0)
	counts(t, r, h26x.Counts{Taken: 3, Units: 1, UnitsGivenUp: 1, TextsGivenUp: 1})

	// Without a setting 8,000,000 bytes may wait, and a packet.
	r = newAccessUnitReceiver(t, h26x.H264, h26x.AccessUnitConfig{Window: 1 << 14})
	packet := append([]byte{0x61}, make([]byte, 49_999)...)
	for n := 0; n <= 160; n++ {
		pushes(t, r, 0, uint16(2*n), 0, false, packet, h26x.Held)
	}
	pushes(t, r, 0, 400, 0, false, packet, h26x.Full)
}

// bytesIn is how many bytes an access unit has: one without bytes isn't given out.
func bytesIn(unit *h26x.AccessUnit) int {
	if unit == nil {
		return 0
	}
	return len(unit.Bytes)
}

// An open unit may hold 4,000,000 bytes without a setting, an open access unit 8,000,000.
func TestDefaultLimitsOfWhatIsOpen(t *testing.T) {
	for more := 0; more < 2; more++ {
		r := newAccessUnitReceiver(t, h26x.H264, h26x.AccessUnitConfig{Window: 1})
		pushes(t, r, 0, 1, 0, false, append(some("7c85"), make([]byte, 4_000_000+more)...), h26x.Held)
		pushes(t, r, 0, 2, 0, true, some("7c45ff"), h26x.Held)
		unit, err := r.Next(0)
		done(t, err)
		counted, err := r.Counts()
		done(t, err)
		if wanted := (1 - more) * (4 + 1 + 4_000_000 + 1); bytesIn(unit) != wanted || counted.UnitsGivenUp != uint64(more) {
			t.Errorf("%d bytes more: got %d, and %d given up", more, bytesIn(unit), counted.UnitsGivenUp)
		}
		r = newAccessUnitReceiver(t, h26x.H264, h26x.AccessUnitConfig{Window: 1})
		pushes(t, r, 0, 1, 0, false, append(some("61"), make([]byte, 8_000_000-4-1+more)...), h26x.Held)
		done(t, r.Finish())
		unit, err = r.Next(0)
		done(t, err)
		counted, err = r.Counts()
		done(t, err)
		if bytesIn(unit) != (1-more)*8_000_000 || counted.TextsGivenUp != uint64(more) {
			t.Errorf("%d bytes more: got %d, and %d given up", more, bytesIn(unit), counted.TextsGivenUp)
		}
	}
}

func TestSettingsThatAreRefused(t *testing.T) {
	for _, it := range []struct {
		codec  h26x.Codec
		config h26x.AccessUnitConfig
		code   h26x.Code
	}{
		{263, h26x.AccessUnitConfig{}, h26x.ErrUnknownCodec},
		{h26x.H264, h26x.AccessUnitConfig{DONL: true}, h26x.ErrNotOfThisCodec},
		{h26x.H264, h26x.AccessUnitConfig{Window: -1}, h26x.ErrOutOfRange},
		{h26x.H264, h26x.AccessUnitConfig{Window: 1<<14 + 1}, h26x.ErrOutOfRange},
		{h26x.H264, h26x.AccessUnitConfig{Window: 1<<16 + 1}, h26x.ErrOutOfRange},
	} {
		r, err := h26x.NewAccessUnitReceiver(it.codec, it.config)
		refuses(t, err, it.code)
		if r != nil {
			t.Errorf("%+v: a receiver", it.config)
		}
	}
	for _, config := range []h26x.AccessUnitConfig{{Window: 1 << 14}, {Far: 1 << 20}, {MaxWait: 1<<31 - 1}, {BeginWait: 1<<31 - 1}} {
		newAccessUnitReceiver(t, h26x.H264, config)
	}
}

func TestFormsOfUnits(t *testing.T) {
	config := small()
	config.Window, config.AVC, config.DONL = 1, true, true
	for codec, packet := range map[h26x.Codec]string{h26x.H265: "2601 0005 aa", h26x.H266: "0039 0005 aa"} {
		r := newAccessUnitReceiver(t, codec, config)
		pushes(t, r, 0, 1, 0, true, some(packet), h26x.Held)
		unit := append(some(packet)[:2:2], 0xaa)
		wanted := start(one(codec, 0, 1, unit))
		wanted.Bytes = append([]byte{0, 0, 0, 3}, unit...)
		gives(t, r, 0, wanted)
	}
}

// An access unit goes into the memory that it is given, or into more where there is no room.
func TestMemoryOfAccessUnits(t *testing.T) {
	config := small()
	config.Window, config.UnitLimit, config.HeldLimit = 1, 1<<20, 1<<20
	r := newAccessUnitReceiver(t, h26x.H264, config)
	var unit h26x.AccessUnit
	next := func(wanted []byte) {
		t.Helper()
		ended, err := r.NextInto(0, &unit)
		done(t, err)
		if !ended {
			t.Fatal("none has ended")
		}
		same(t, unit.Bytes, annexB(wanted))
	}
	long := append([]byte{0x61}, bytes.Repeat([]byte{7}, 60000)...)
	pushes(t, r, 0, 1, 0, true, some("6501"), h26x.Held)
	next(some("6501"))
	pushes(t, r, 0, 2, 3000, true, long, h26x.Held)
	next(long)
	at := &unit.Bytes[0]
	pushes(t, r, 0, 3, 6000, true, some("6103"), h26x.Held)
	next(some("6103"))
	if &unit.Bytes[0] != at || cap(unit.Bytes) < len(long)+4 {
		t.Error("the memory isn't used again")
	}
	// None stays what was there before.
	if ended, err := r.NextInto(0, &unit); ended || err != nil || unit.Last != 3 {
		t.Errorf("got %v, %v", ended, err)
	}
	// What Next answers is the caller's, and no later call writes to it.
	pushes(t, r, 0, 4, 9000, true, long, h26x.Held)
	pushes(t, r, 0, 5, 12000, true, bytes.Repeat([]byte{0x61}, 60001), h26x.Held)
	first, err := r.Next(0)
	done(t, err)
	second, err := r.Next(0)
	done(t, err)
	same(t, first.Bytes, annexB(long))
	same(t, second.Bytes, annexB(bytes.Repeat([]byte{0x61}, 60001)))
	// Nor is the payload kept.
	payload := some("6109")
	pushes(t, r, 0, 6, 15000, true, payload, h26x.Held)
	copy(payload, "xx")
	next(some("6109"))
}

func TestNamesOfWhatBecomesOfPackets(t *testing.T) {
	names := fmt.Sprint(h26x.Held, h26x.PushedLate, h26x.Twice, h26x.Full, h26x.Stray, h26x.Anew, h26x.Jumped, h26x.Pushed(9))
	if names != "Held PushedLate Twice Full Stray Anew Jumped Pushed(9)" {
		t.Error(names)
	}
}
