package h26x_test

import (
	"errors"
	"fmt"
	"reflect"
	"testing"

	"emupedestal/h26x"
)

// Datagrams of a stream, with RTX (RFC 4588, 4), RED (RFC 2198, 3), FEC in RED (RFC 5109, 14.2) and padding alone. What is
// expected is written out by hand.

var streamTypes = h26x.RTPPayloadTypes{Media: 96, RTX: 97, RED: 98, RTXOfRED: 99, FEC: 100}

// A slice of a picture that others refer to, and one of a keyframe behind its parameter sets.
var (
	anySlice = some("619a01")
	keySlice = some("78 0004 6742c01f 0002 68ce 0002 6588")
)

func newRTPReceiver(t testing.TB, config h26x.AccessUnitConfig) *h26x.RTPReceiver {
	t.Helper()
	r, err := h26x.NewRTPReceiver(h26x.H264, streamTypes, config)
	if err != nil {
		t.Fatal(err)
	}
	t.Cleanup(func() { r.Close() })
	return r
}

// datagramOf is a packet with the marker, whose payload is what stands in front of a slice and that.
func datagramOf(payloadType uint8, sequence uint16, timestamp, ssrc uint32, payload ...[]byte) []byte {
	d := h26x.RTPDatagram{RTPHeader: h26x.RTPHeader{PayloadType: payloadType, Marker: true, Sequence: sequence,
		Timestamp: timestamp, SSRC: ssrc}}
	for _, part := range payload {
		d.Payload = append(d.Payload, part...)
	}
	out, err := d.Append(nil)
	if err != nil {
		panic(err)
	}
	return out
}

// takesDatagram gives a datagram, and compares what is told of it.
func takesDatagram(t *testing.T, r *h26x.RTPReceiver, now uint32, datagram []byte, wanted h26x.RTPTold) {
	t.Helper()
	got, err := r.Push(now, 0, datagram)
	done(t, err)
	if got != wanted {
		t.Fatalf("got %+v, wanted %+v", got, wanted)
	}
}

// ended is all access units that have ended at a tick.
func ended(t *testing.T, next func(uint32) (*h26x.AccessUnit, error), now uint32) []h26x.AccessUnit {
	t.Helper()
	var all []h26x.AccessUnit
	for {
		unit, err := next(now)
		done(t, err)
		if unit == nil {
			return all
		}
		all = append(all, *unit)
	}
}

func TestOriginalsOfOneStream(t *testing.T) {
	r := newRTPReceiver(t, h26x.AccessUnitConfig{})
	if _, ok := r.Report(0, 0); ok {
		t.Error("a source is known")
	}
	var units []h26x.AccessUnit
	for _, it := range []struct {
		datagram []byte
		told     h26x.RTPTold
	}{
		{datagramOf(96, 7, 1, 1, keySlice), h26x.RTPTold{Sequence: 7}},
		{datagramOf(98, 8, 2, 1, []byte{96}, anySlice), h26x.RTPTold{Sequence: 8}},
		{datagramOf(96, 11, 5, 1, anySlice), h26x.RTPTold{Sequence: 11}},
		{datagramOf(97, 200, 3, 2, []byte{0, 9}, anySlice), h26x.RTPTold{Sequence: 9, IsRecovered: true}},
		{datagramOf(99, 201, 4, 2, []byte{0, 10, 96}, anySlice), h26x.RTPTold{Sequence: 10, IsRecovered: true}},
		{datagramOf(98, 12, 5, 1, []byte{100, 1}), h26x.RTPTold{Sequence: 12, NoMedia: h26x.BearsFEC}},
		{datagramOf(96, 13, 5, 1), h26x.RTPTold{Sequence: 13, NoMedia: h26x.PaddingAlone}},
		{datagramOf(101, 14, 5, 1, []byte{1}),
			h26x.RTPTold{Sequence: 14, NoMedia: h26x.OtherPayloadType, PayloadType: 101}},
		{datagramOf(96, 15, 6, 1, anySlice), h26x.RTPTold{Sequence: 15}},
	} {
		takesDatagram(t, r, 0, it.datagram, it.told)
		units = append(units, ended(t, r.Next, 0)...)
	}
	for i, unit := range units {
		if unit.Timestamp != uint32(i+1) || !unit.IsClean {
			t.Errorf("%d: %+v", i, unit)
		}
	}
	sources, err := r.Sources()
	done(t, err)
	statistics, err := r.Statistics()
	done(t, err)
	counted, err := r.Counts()
	done(t, err)
	if len(units) != 6 || sources != (h26x.RTPSources{Media: 1, RTX: 2, HasMedia: true, HasRTX: true}) ||
		statistics.Received() != 7 || statistics.Recovered() != 2 || counted.Skipped != 3 || counted.Lost != 0 {
		t.Errorf("%d units, %+v, %+v, %+v", len(units), sources, statistics, counted)
	}
	report, ok := r.Report(5, 6)
	if !ok || report.SSRC != 1 || report.Lost != 2 || report.LastSenderReport != 5 || report.Delay != 6 {
		t.Errorf("%+v", report)
	}
}

func TestDatagramsThatChangeNothing(t *testing.T) {
	r := newRTPReceiver(t, h26x.AccessUnitConfig{})
	takesDatagram(t, r, 0, datagramOf(96, 7, 1, 1, keySlice), h26x.RTPTold{Sequence: 7})
	takesDatagram(t, r, 0, datagramOf(72, 8, 1, 1), h26x.RTPTold{Became: h26x.RTPIsRTCP})
	takesDatagram(t, r, 0, datagramOf(96, 8, 1, 3, anySlice), h26x.RTPTold{Became: h26x.RTPNewSource, SSRC: 3})
	takesDatagram(t, r, 0, datagramOf(97, 200, 1, 2, []byte{0, 7}, anySlice), h26x.RTPTold{Became: h26x.RTPOtherSource, SSRC: 2})
	takesDatagram(t, r, 0, datagramOf(97, 8, 1, 1, []byte{0}), h26x.RTPTold{Became: h26x.RTPProbe})
	_, err := r.Push(0, 0, []byte{0x80, 96})
	refuses(t, err, h26x.ErrRTPTooShort)
	_, err = r.Push(0, 0, datagramOf(98, 8, 1, 1, []byte{0xe0}))
	refuses(t, err, h26x.ErrREDHeadersPastTheEnd)
	statistics, err := r.Statistics()
	done(t, err)
	sources, err := r.Sources()
	done(t, err)
	if statistics.Received() != 1 || sources != (h26x.RTPSources{Media: 1, HasMedia: true}) {
		t.Errorf("%+v, %+v", statistics, sources)
	}
	done(t, r.Follow(h26x.RTPSources{Media: 3, HasMedia: true}))
	takesDatagram(t, r, 0, datagramOf(96, 8, 1, 1, anySlice), h26x.RTPTold{Became: h26x.RTPNewSource, SSRC: 1})
	takesDatagram(t, r, 0, datagramOf(96, 8, 1, 3, anySlice), h26x.RTPTold{Sequence: 8})
}

func TestWhatIsAskedFor(t *testing.T) {
	r := newRTPReceiver(t, h26x.AccessUnitConfig{})
	times := h26x.NackTimes{First: 10, Again: 50, Most: 2}
	for _, it := range []struct {
		now      uint32
		sequence uint16
		payload  []byte
		numbers  []uint16
	}{{0, 7, keySlice, nil}, {5, 9, anySlice, nil}, {15, 10, anySlice, []uint16{8}}, {60, 11, anySlice, nil}, {65, 12, anySlice, []uint16{8}}} {
		takesDatagram(t, r, it.now, datagramOf(96, it.sequence, uint32(it.sequence), 1, it.payload), h26x.RTPTold{Sequence: it.sequence})
		ended(t, r.Next, it.now)
		numbers, err := r.Nacks(it.now, times, 8)
		done(t, err)
		if !reflect.DeepEqual(numbers, it.numbers) || r.KeyframeWanted(it.now, 100) {
			t.Errorf("%d: %v", it.now, numbers)
		}
	}
	done(t, r.Finish())
	ended(t, r.Next, 70)
	if !r.KeyframeWanted(70, 100) || r.KeyframeWanted(169, 100) || !r.KeyframeWanted(170, 100) {
		t.Error("a keyframe is wanted each hundred ticks")
	}
	takesDatagram(t, r, 171, datagramOf(96, 20, 9, 1, keySlice), h26x.RTPTold{Sequence: 20})
	ended(t, r.Next, 171)
	if r.KeyframeWanted(300, 100) {
		t.Error("a keyframe came")
	}
}

// Both receivers are given the same packets, the one as datagrams, of which each third is a retransmission.
func TestItIsAnAccessUnitReceiverGivenTheOriginals(t *testing.T) {
	r, u := newRTPReceiver(t, h26x.AccessUnitConfig{}), newAccessUnitReceiver(t, h26x.H264, h26x.AccessUnitConfig{})
	done(t, r.Follow(h26x.RTPSources{Media: 1, RTX: 2, HasMedia: true, HasRTX: true}))
	for number := byte(0); number < 60; number++ {
		payload := append([]byte{}, keySlice...)
		if number%20 != 0 {
			payload = append(append([]byte{}, anySlice...), number)
		}
		original := datagramOf(96, uint16(number), 10*uint32(number), 1, payload)
		datagram := original
		if number%3 == 2 {
			datagram = datagramOf(97, uint16(number), 10*uint32(number), 2, []byte{0, number}, payload)
		}
		_, err := r.Push(uint32(number), 0, datagram)
		done(t, err)
		packet, err := h26x.ReadRTP(original)
		done(t, err)
		_, _, err = u.Push(uint32(number), packet.Packet())
		done(t, err)
		got, wanted := ended(t, r.Next, uint32(number)), ended(t, u.Next, uint32(number))
		if !reflect.DeepEqual(got, wanted) {
			t.Fatalf("%d: got %v, wanted %v", number, got, wanted)
		}
	}
	got, err := r.Counts()
	done(t, err)
	counts(t, u, got)
}

func TestRTPReceiversSettings(t *testing.T) {
	r := newRTPReceiver(t, h26x.AccessUnitConfig{MaxWait: 9})
	takesDatagram(t, r, 0, datagramOf(96, 7, 1, 1, keySlice), h26x.RTPTold{Sequence: 7})
	takesDatagram(t, r, 0, datagramOf(96, 9, 3, 1, anySlice), h26x.RTPTold{Sequence: 9})
	if got := ended(t, r.Next, 0); len(got) != 1 || got[0].Timestamp != 1 {
		t.Fatalf("%v", got)
	}
	if tick, ok := r.Deadline(); tick != 9 || !ok || r.Codec() != h26x.H264 {
		t.Errorf("%d, %v, %v", tick, ok, r.Codec())
	}
	refuses(t, r.SetConfig(h26x.AccessUnitConfig{Window: -1}), h26x.ErrOutOfRange)
	done(t, r.SetConfig(h26x.AccessUnitConfig{MaxWait: -1}))
	if got := ended(t, r.Next, 0); len(got) != 1 || got[0].Timestamp != 3 {
		t.Fatalf("%v", got)
	}
	_, err := h26x.NewRTPReceiver(7, streamTypes, h26x.AccessUnitConfig{})
	refuses(t, err, h26x.ErrUnknownCodec)
}

func TestAnRTPReceiverThatIsClosedMakesNoCall(t *testing.T) {
	r := newRTPReceiver(t, h26x.AccessUnitConfig{})
	done(t, r.Close())
	done(t, r.Close())
	for name, call := range map[string]func() error{
		"SetConfig":  func() error { return r.SetConfig(h26x.AccessUnitConfig{}) },
		"Follow":     func() error { return r.Follow(h26x.RTPSources{}) },
		"Sources":    func() error { _, err := r.Sources(); return err },
		"Push":       func() error { _, err := r.Push(0, 0, nil); return err },
		"Next":       func() error { _, err := r.Next(0); return err },
		"NextInto":   func() error { _, err := r.NextInto(0, new(h26x.AccessUnit)); return err },
		"Nacks":      func() error { _, err := r.Nacks(0, h26x.NackTimes{}, 1); return err },
		"Statistics": func() error { _, err := r.Statistics(); return err },
		"Finish":     func() error { return r.Finish() },
		"Counts":     func() error { _, err := r.Counts(); return err },
	} {
		if err := call(); !errors.Is(err, h26x.ErrClosed) {
			t.Errorf("%s: %v", name, err)
		}
	}
	_, due := r.Deadline()
	_, known := r.Report(0, 0)
	if due || known || r.KeyframeWanted(0, 0) {
		t.Error("a call is made")
	}
}

func TestNamesOfWhatIsTold(t *testing.T) {
	got := fmt.Sprint(h26x.RTPTaken, h26x.RTPIsRTCP, h26x.RTPProbe, h26x.RTPNewSource, h26x.RTPOtherSource, h26x.RTPBecame(9),
		h26x.BearsMedia, h26x.PaddingAlone, h26x.BearsFEC, h26x.OtherPayloadType, h26x.NoMedia(9))
	wanted := "RTPTaken RTPIsRTCP RTPProbe RTPNewSource RTPOtherSource RTPBecame(9) BearsMedia PaddingAlone BearsFEC " +
		"OtherPayloadType NoMedia(9)"
	if got != wanted {
		t.Error(got)
	}
}
