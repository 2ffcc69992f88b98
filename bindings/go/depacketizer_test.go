package h26x_test

import (
	"bytes"
	"testing"

	"emupedestal/h26x"
)

// takes gives a packet, and compares what it completes, behind what stood there.
func takes(t *testing.T, d *h26x.Depacketizer, packet, units string, told h26x.CodecExtra) {
	t.Helper()
	clone, err := d.Clone()
	done(t, err)
	defer clone.Close()
	out, err := clone.Unmarshal(some(packet))
	done(t, err)
	same(t, out, some(units))
	another, err := d.Clone()
	done(t, err)
	defer another.Close()
	completed, err := another.Depacketize(some(packet))
	done(t, err)
	same(t, completed.Bytes, some(units))
	out, got, err := d.DepacketizeInto([]byte("before"), some(packet))
	done(t, err)
	same(t, out, append([]byte("before"), some(units)...))
	if got != told || completed.Extra != told || got.IsKeyframe() != (told == h26x.Keyframe) {
		t.Fatalf("told %d and %d, wanted %d", got, completed.Extra, told)
	}
}

// refusesPacket gives a packet that is refused, which leaves all.
func refusesPacket(t *testing.T, d *h26x.Depacketizer, packet string, code h26x.Code, numbers ...uint) {
	t.Helper()
	out, told, err := d.DepacketizeInto([]byte("before"), some(packet))
	refuses(t, err, code, numbers...)
	same(t, out, []byte("before"))
	if told != h26x.NoUnits {
		t.Fatalf("told %d", told)
	}
	out, err = d.Unmarshal(some(packet))
	refuses(t, err, code, numbers...)
	same(t, out, nil)
	completed, err := d.Depacketize(some(packet))
	refuses(t, err, code, numbers...)
	if completed.Bytes != nil || completed.Extra != h26x.NoUnits {
		t.Fatalf("got %+v", completed)
	}
}

func TestUnitsOfH264(t *testing.T) {
	d := newDepacketizer(t, h26x.H264, false, false)
	takes(t, d, "909090", "00000001 909090", h26x.NoKeyframe)
	takes(t, d, "85", "00000001 85", h26x.Keyframe)
	takes(t, d, "78 0003 070001 0003 080203", "00000001 070001 00000001 080203", h26x.NoKeyframe)
	takes(t, d, "78 0000 0002 65aa", "00000001 65aa", h26x.Keyframe)
	takes(t, d, "180000", "", h26x.NoUnits)
	takes(t, d, "7c4503", "", h26x.NoUnits)
	takes(t, d, "7c8501", "", h26x.NoUnits)
	takes(t, d, "61ff", "00000001 61ff", h26x.NoKeyframe)
	refusesPacket(t, d, "", h26x.ErrShortPacket)
	refusesPacket(t, d, "7c", h26x.ErrShortPacket)
	refusesPacket(t, d, "ff0000", h26x.ErrNALUTypeNotHandled, 31)
	refusesPacket(t, d, "78 0002 67aa 0005 681a", h26x.ErrSTAPATooLong, 5, 2)
	takes(t, d, "7c4502", "00000001 650102", h26x.Keyframe)
}

func TestUnitsOfH265(t *testing.T) {
	d := newDepacketizer(t, h26x.H265, false, false)
	takes(t, d, "6001 0003 0201aa 0002 0201 0009 02", "00000001 0201aa 00000001 0201", h26x.NoKeyframe)
	takes(t, d, "6401 2638 112233 aa", "00000001 2601aa", h26x.Keyframe)
	takes(t, d, "620193aa", "", h26x.NoUnits)
	refusesPacket(t, d, "620193", h26x.ErrShortPacket)
	refusesPacket(t, d, "2601", h26x.ErrShortPacket)
	refusesPacket(t, d, "e20193aa", h26x.ErrH265Corrupted)
	takes(t, d, "620153bb", "00000001 2601aabb", h26x.Keyframe)
	done(t, d.SetDONL(true))
	refusesPacket(t, d, "02010005", h26x.ErrShortPacket)
	takes(t, d, "02010005aa", "00000001 0201aa", h26x.NoKeyframe)
	takes(t, d, "6201930007aa", "", h26x.NoUnits)
	done(t, d.SetDONL(false))
	takes(t, d, "620153bb", "00000001 2601aabb", h26x.Keyframe)
}

func TestUnitsOfH266(t *testing.T) {
	d := newDepacketizer(t, h26x.H266, true, false)
	takes(t, d, "00390002dd", "00000001 0039dd", h26x.Keyframe)
	takes(t, d, "00e1 0000 0003 0079bb 0003 0081cc", "00000001 0079bb 00000001 0081cc", h26x.NoKeyframe)
	done(t, d.SetDONL(false))
	takes(t, d, "00e987aa", "", h26x.NoUnits)
	refusesPacket(t, d, "00e1 0003 0001aa", h26x.ErrShortPacket)
	refusesPacket(t, d, "800193afaf", h26x.ErrH266Corrupted)
	refusesPacket(t, d, "00e1 0003 0009aa 0002 00e1", h26x.ErrH266Corrupted)
	takes(t, d, "00e947bb", "00000001 0039aabb", h26x.Keyframe)
}

func TestLengths(t *testing.T) {
	for codec, packet := range map[h26x.Codec]string{
		h26x.H264: "78 0002 6742 0001 68|00000002 6742 00000001 68",
		h26x.H265: "6001 0003 0201aa 0002 0201|00000003 0201aa 00000002 0201",
		h26x.H266: "00e1 0003 0001aa 0003 0001bb|00000003 0001aa 00000003 0001bb",
	} {
		d, both := newDepacketizer(t, codec, false, true), many(packet)
		clone, err := d.Clone()
		done(t, err)
		out, err := clone.Unmarshal(both[0])
		done(t, err)
		same(t, out, both[1])
		done(t, d.SetAVC(false))
		out, err = d.Unmarshal(both[0])
		done(t, err)
		same(t, out[:4], some("00000001"))
	}
}

func TestGivingUpAndCloning(t *testing.T) {
	for _, codec := range codecs {
		f, d := fragmentsOf(codec), newDepacketizer(t, codec, false, true)
		for _, packet := range [][]byte{f.start, f.middle} {
			out, err := d.Unmarshal(packet)
			done(t, err)
			same(t, out, nil)
		}
		clone, err := d.Clone()
		done(t, err)
		done(t, d.GiveUpRun())
		out, err := d.Unmarshal(f.end)
		done(t, err)
		same(t, out, nil)
		out, err = clone.Unmarshal(f.end)
		done(t, err)
		same(t, out, append([]byte{0, 0, 0, byte(len(f.unit))}, f.unit...))
		if clone.Codec() != codec {
			t.Fatal("another codec")
		}
	}
}

// A unit longer than any packet comes behind the call that completes it, and answers are the caller's.
func TestLongUnit(t *testing.T) {
	d, data := newDepacketizer(t, h26x.H264, false, false), bytes.Repeat([]byte("0123456789abcdef"), 64)
	unit := []byte{0x65}
	for n := 0; n < 200; n++ {
		header := some("7c05")
		if n == 0 {
			header = some("7c85")
		}
		_, err := d.Unmarshal(append(header, data...))
		done(t, err)
		unit = append(unit, data...)
	}
	clone, err := d.Clone()
	done(t, err)
	long, err := d.Unmarshal(some("7c4509"))
	done(t, err)
	_, err = d.Unmarshal(bytes.Repeat([]byte{0x61}, len(unit)))
	done(t, err)
	wanted := append(append(some("00000001"), unit...), 9)
	same(t, long, wanted)
	out, _, err := clone.DepacketizeInto(make([]byte, 3, 20), some("7c4509"))
	done(t, err)
	same(t, out, append(make([]byte, 3), wanted...))
}

// A packet in memory that is written is copied first.
func TestPacketInTheSameMemory(t *testing.T) {
	memory := make([]byte, 64)
	packet := memory[2 : 2+copy(memory[2:], some("78 0003 070001 0003 080203"))]
	out, _, err := newDepacketizer(t, h26x.H264, false, false).DepacketizeInto(memory[:0], packet)
	done(t, err)
	same(t, out, some("00000001 070001 00000001 080203"))
	if &out[0] != &memory[0] {
		t.Fatal("it isn't appended")
	}
}

func TestShown(t *testing.T) {
	d := newDepacketizer(t, h26x.H265, true, false)
	shows := func(packet string, kind h26x.Kind, header, word uint16, parts ...h26x.Part) {
		t.Helper()
		_, err := d.Unmarshal(some(packet))
		done(t, err)
		got, err := d.Shown()
		done(t, err)
		if got.Kind != kind || got.Header != header || got.Word != word || len(got.Parts) != len(parts) {
			t.Fatalf("got %+v", got)
		}
		for i, part := range parts {
			same(t, got.Parts[i].Bytes, part.Bytes)
			if got.Parts[i].Number != part.Number {
				t.Fatalf("got %+v", got)
			}
		}
	}
	part := func(data string, number int) h26x.Part { return h26x.Part{Bytes: some(data), Number: number} }
	shows("0201 ffff aa", h26x.Single, 0x0201, 0, part("aa", 0xffff))
	shows("620193 0102 aa", h26x.Fragment, 0x6201, 0x93, part("aa", 0x0102))
	shows("620153 0304", h26x.Fragment, 0x6201, 0x53, part("0304", -1))
	shows("6001 0005 0003 0201aa ff 0003 0201bb", h26x.Aggregate, 0, 0, part("0201aa", 5), part("0201bb", 255))
	done(t, d.SetDONL(false))
	shows("6401 0238 112233 aabb", h26x.PACI, 0x6401, 0x0238, part("112233", -1), part("aabb", -1))
	_, err := newDepacketizer(t, h26x.H264, false, false).Shown()
	refuses(t, err, h26x.ErrNotOfThisCodec)
	_, err = newReceiver(t, h26x.H266, 9, false, false).Shown()
	refuses(t, err, h26x.ErrNotOfThisCodec)
}
