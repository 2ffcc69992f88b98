package h26x_test

import (
	"errors"
	"math/rand"
	"reflect"
	"testing"

	"emupedestal/h26x"
)

// arrivals is packets of some pictures as a network brings them, some lost, some twice and some too early, in one buffer.
func arrivals(t *testing.T, drawn *rand.Rand) (buffer []byte, payloads []h26x.RTPPayload) {
	t.Helper()
	p, err := h26x.NewPacketizer(h26x.H264)
	done(t, err)
	t.Cleanup(func() { p.Close() })
	sequence := uint16(65500)
	for picture := uint32(0); picture < 20; picture++ {
		unit := append(some("0000016742001eda 00000168ce3c80 0000016588"), make([]byte, drawn.Intn(5000))...)
		for i := range unit[20:] {
			unit[20+i] = 0x55
		}
		packets, err := p.PacketizeUnits(700, unit)
		done(t, err)
		for i, packet := range packets {
			fate := drawn.Intn(20)
			sequence++
			if fate == 0 {
				continue
			}
			for times := 0; times < 1+fate/19; times++ {
				begin := len(buffer) + drawn.Intn(12)
				buffer = append(append(buffer, make([]byte, begin-len(buffer))...), packet...)
				payloads = append(payloads, h26x.RTPPayload{Begin: begin, End: len(buffer), Timestamp: picture * 3000,
					Sequence: sequence, Marker: i+1 == len(packets)})
			}
			if last := len(payloads) - 1; fate == 1 && last > 2 {
				payloads[last], payloads[last-2] = payloads[last-2], payloads[last]
			}
		}
	}
	return append(buffer, 0x7c), append(payloads, h26x.RTPPayload{Begin: len(buffer), End: len(buffer) + 1, Sequence: sequence + 1})
}

func TestPacketsPushedTogetherAsOneByOne(t *testing.T) {
	drawn := rand.New(rand.NewSource(1))
	for _, held := range []int{0, 2000} {
		buffer, payloads := arrivals(t, drawn)
		config := h26x.AccessUnitConfig{Window: 8, MaxWait: 100, HeldLimit: held}
		one, all := newAccessUnitReceiver(t, h26x.H264, config), newAccessUnitReceiver(t, h26x.H264, config)
		for now := uint32(0); len(payloads) > 0; now += 20 {
			count := 1 + drawn.Intn(24)
			if count > len(payloads) {
				count = len(payloads)
			}
			wanted := make([]h26x.PushResult, count)
			each := 0
			for ; each < count; each++ {
				it := payloads[each]
				pushed, behind, err := one.Push(now, h26x.RTPPacket{Sequence: it.Sequence, Timestamp: it.Timestamp,
					Marker: it.Marker, Payload: buffer[it.Begin:it.End]})
				done(t, err)
				wanted[each] = h26x.PushResult{Pushed: pushed, Behind: behind}
				if pushed == h26x.Full {
					break
				}
			}
			results := make([]h26x.PushResult, drawn.Intn(count+1))
			taken, err := all.PushAll(now, buffer, payloads[:count], results)
			done(t, err)
			if taken != each || !reflect.DeepEqual(results, wanted[:len(results)]) {
				t.Fatalf("got %d and %v, wanted %d and %v", taken, results, each, wanted)
			}
			for {
				first, err := one.Next(now)
				done(t, err)
				second, err := all.Next(now)
				done(t, err)
				if !reflect.DeepEqual(first, second) {
					t.Fatalf("got %v, wanted %v", second, first)
				}
				if first == nil {
					break
				}
			}
			payloads = payloads[taken:]
		}
	}
}

func TestPacketsReceivedTogetherAsOneByOne(t *testing.T) {
	drawn := rand.New(rand.NewSource(2))
	buffer, payloads := arrivals(t, drawn)
	one, all := newReceiver(t, h26x.H264, 1000000, false, false), newReceiver(t, h26x.H264, 1000000, false, false)
	var text, whole []byte
	for len(payloads) > 0 {
		count := 1 + drawn.Intn(24)
		if count > len(payloads) {
			count = len(payloads)
		}
		results := make([]h26x.ReceiveResult, count)
		var taken int
		var err error
		whole, taken, err = all.ReceiveAll(whole, buffer, payloads[:count], results)
		done(t, err)
		if taken != count {
			t.Fatalf("got %d, wanted %d", taken, count)
		}
		for i, it := range payloads[:count] {
			var wanted h26x.Received
			text, wanted, err = one.ReceiveInto(text, it.Sequence, buffer[it.Begin:it.End])
			if !results[i].Received.Equal(wanted) || !reflect.DeepEqual(results[i].Err, err) {
				t.Fatalf("%d: got %v, wanted %v and %v", it.Sequence, results[i], wanted, err)
			}
		}
		payloads = payloads[count:]
	}
	if !reflect.DeepEqual(text, whole) {
		t.Fatal("the texts are different")
	}
}

func TestPayloadsThatAreInNoBuffer(t *testing.T) {
	units, receiver := newAccessUnitReceiver(t, h26x.H264, small()), newReceiver(t, h26x.H264, 1000, false, false)
	for _, it := range []h26x.RTPPayload{{Begin: 0, End: 4}, {Begin: 2, End: 1}, {Begin: -1, End: 2}, {Begin: -2, End: -1}} {
		payloads := []h26x.RTPPayload{{Begin: 0, End: 1}, it}
		if taken, err := units.PushAll(0, some("41 9a 00"), payloads, nil); taken != 0 || !errors.Is(err, h26x.ErrOutOfRange) {
			t.Errorf("%v: got %d and %v", it, taken, err)
		}
		if _, taken, err := receiver.ReceiveAll(nil, some("41 9a 00"), payloads, nil); taken != 0 || !errors.Is(err, h26x.ErrOutOfRange) {
			t.Errorf("%v: got %d and %v", it, taken, err)
		}
	}
	taken, err := units.PushAll(0, nil, nil, nil)
	if done(t, err); taken != 0 {
		t.Error(taken)
	}
	out, taken, err := receiver.ReceiveAll(some("07"), nil, nil, nil)
	if done(t, err); taken != 0 || len(out) != 1 {
		t.Error(out, taken)
	}
	units.Close()
	receiver.Close()
	if _, err := units.PushAll(0, nil, nil, nil); !errors.Is(err, h26x.ErrClosed) {
		t.Error(err)
	}
	if _, _, err := receiver.ReceiveAll(nil, nil, nil, nil); !errors.Is(err, h26x.ErrClosed) {
		t.Error(err)
	}
}

// inOrder is packets of one picture in one buffer, each of 1200 bytes.
func inOrder(count int) (buffer []byte, payloads []h26x.RTPPayload) {
	buffer = make([]byte, count*1212)
	for i := range make([]struct{}, count) {
		begin := i*1212 + 12
		buffer[begin], buffer[begin+1], buffer[begin+2] = 0x7c, 0x01, 0x55
		payloads = append(payloads, h26x.RTPPayload{Begin: begin, End: begin + 1200, Marker: i+1 == count})
	}
	buffer[12+1], buffer[12+2] = 0x81, 0x9a
	buffer[(count-1)*1212+13] |= 0x40
	return buffer, payloads
}

// onward has the packets of the next picture in the place of these.
func onward(payloads []h26x.RTPPayload) {
	for i := range payloads {
		payloads[i].Sequence += uint16(len(payloads))
		payloads[i].Timestamp += 3000
	}
}

func BenchmarkPushAll(b *testing.B) {
	for _, name := range []string{"one by one", "together"} {
		b.Run(name, func(b *testing.B) {
			r, err := h26x.NewAccessUnitReceiver(h26x.H264, h26x.AccessUnitConfig{HasSets: true})
			if err != nil {
				b.Fatal(err)
			}
			defer r.Close()
			buffer, payloads := inOrder(32)
			results := make([]h26x.PushResult, len(payloads))
			var unit h26x.AccessUnit
			for i := range payloads {
				payloads[i].Sequence = uint16(i)
			}
			b.ResetTimer()
			for n := 0; n < b.N; n += len(payloads) {
				if name == "together" {
					_, err = r.PushAll(0, buffer, payloads, results)
				} else {
					for _, it := range payloads {
						_, _, err = r.Push(0, h26x.RTPPacket{Sequence: it.Sequence, Timestamp: it.Timestamp,
							Marker: it.Marker, Payload: buffer[it.Begin:it.End]})
					}
				}
				if _, of := r.NextInto(0, &unit); err != nil || of != nil {
					b.Fatal(err, of)
				}
				onward(payloads)
			}
		})
	}
}

func BenchmarkReceiveAll(b *testing.B) {
	for _, name := range []string{"one by one", "together"} {
		b.Run(name, func(b *testing.B) {
			r, err := h26x.NewReceiver(h26x.H264, 1000000)
			if err != nil {
				b.Fatal(err)
			}
			defer r.Close()
			buffer, payloads := inOrder(32)
			results := make([]h26x.ReceiveResult, len(payloads))
			var out []byte
			for i := range payloads {
				payloads[i].Sequence = uint16(i)
			}
			b.ResetTimer()
			for n := 0; n < b.N; n += len(payloads) {
				if name == "together" {
					out, _, err = r.ReceiveAll(out[:0], buffer, payloads, results)
				} else {
					out = out[:0]
					for _, it := range payloads {
						out, _, err = r.ReceiveInto(out, it.Sequence, buffer[it.Begin:it.End])
					}
				}
				if err != nil {
					b.Fatal(err)
				}
				onward(payloads)
			}
		})
	}
}
