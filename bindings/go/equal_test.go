package h26x_test

import (
	"sync"
	"testing"

	"emupedestal/h26x"
)

// areEqual compares two in both orders.
func areEqual(t *testing.T, a, b *h26x.Depacketizer, wanted bool) {
	t.Helper()
	if a.Equal(b) != wanted || b.Equal(a) != wanted || !a.Equal(a) || !b.Equal(b) {
		t.Fatalf("wanted %v", wanted)
	}
}

func TestEqualDepacketizers(t *testing.T) {
	for _, codec := range codecs {
		f, a, b := fragmentsOf(codec), newDepacketizer(t, codec, false, false), newDepacketizer(t, codec, false, false)
		areEqual(t, a, b, true)
		done(t, a.SetAVC(true))
		areEqual(t, a, b, false)
		done(t, b.SetAVC(true))
		takes := func(d *h26x.Depacketizer, packet []byte) {
			t.Helper()
			_, err := d.Depacketize(packet)
			done(t, err)
		}
		takes(a, f.start)
		areEqual(t, a, b, false)
		takes(a, f.middle)
		clone, err := a.Clone()
		done(t, err)
		areEqual(t, a, clone, true)
		takes(clone, f.end)
		areEqual(t, a, clone, false)
		takes(a, f.end)
		areEqual(t, a, clone, true)
		// Bytes of a unit that is written count no more, but of H.265 the packet that is shown does.
		areEqual(t, a, b, codec != h26x.H265)
		for _, other := range codecs {
			areEqual(t, newDepacketizer(t, codec, false, false), newDepacketizer(t, other, false, false), codec == other)
		}
		// What is closed equals itself alone.
		done(t, clone.Close())
		areEqual(t, a, clone, false)
		done(t, a.Close())
		areEqual(t, a, clone, false)
		areEqual(t, new(h26x.Depacketizer), clone, false)
	}
	areEqual(t, newDepacketizer(t, h26x.H266, true, false), newDepacketizer(t, h26x.H266, false, false), false)
}

// Two compare each other, and themselves, while they are changed and closed; no call waits for ever.
func TestGoroutinesThatCompare(t *testing.T) {
	for n := 0; n < 50; n++ {
		a, b := newDepacketizer(t, h26x.H264, false, false), newDepacketizer(t, h26x.H264, false, false)
		var group sync.WaitGroup
		for _, pair := range [][2]*h26x.Depacketizer{{a, b}, {b, a}, {a, a}} {
			pair := pair
			group.Add(1)
			go func() {
				defer group.Done()
				for i := 0; i < 100; i++ {
					pair[0].Equal(pair[1])
				}
			}()
		}
		for i := 0; i < 10; i++ {
			done(t, a.GiveUpRun())
			done(t, b.SetAVC(i%2 == 0))
		}
		done(t, a.Close())
		done(t, b.Close())
		group.Wait()
	}
}

func TestEqualFormatParameters(t *testing.T) {
	for _, one := range []struct {
		codec  h26x.Codec
		a, b   string
		wanted bool
	}{
		{h26x.H264, chromium, "packetization-mode=1; profile-level-id=42e01f;;Level-Asymmetry-Allowed=1", true},
		{h26x.H264, chromium, "packetization-mode=1;profile-level-id=42E01F;level-asymmetry-allowed=1", false},
		{h26x.H264, "", "packetization-mode=0", false},
		{h26x.H265, "x=1;y=2", "x=1;level-id=93;y=2", false},
		{h26x.H265, "x=1;level-id=93;y=2", "level-id=93;x=1;y=2", true},
		{h26x.H266, "x=1;y=2", "y=2;x=1", false},
	} {
		a, b := formatOf(t, one.codec, one.a), formatOf(t, one.codec, one.b)
		if a.Equal(b) != one.wanted || b.Equal(a) != one.wanted || !a.Equal(a) {
			t.Errorf("%+v", one)
		}
		done(t, b.Close())
		if a.Equal(b) || b.Equal(a) || !b.Equal(b) {
			t.Errorf("%+v: it is closed", one)
		}
	}
	if formatOf(t, h26x.H265, "").Equal(formatOf(t, h26x.H266, "")) {
		t.Error("of two codecs")
	}
}

func TestEqualPackets(t *testing.T) {
	p, a, b := newPacketizer(t, h26x.H264, false), h26x.NewPackets(2), h26x.NewPackets(2)
	makes := func(into *h26x.Packets, mtu uint16, payload string) {
		t.Helper()
		done(t, p.PacketizeInto(mtu, some(payload), into))
	}
	equal := func(wanted bool) {
		t.Helper()
		if a.Equal(b) != wanted || b.Equal(a) != wanted || !a.Equal(a) {
			t.Fatalf("wanted %v", wanted)
		}
	}
	equal(true)
	makes(a, 4, "6501020304")
	equal(false)
	// Of what stood there before only that counts which the caller's headroom has.
	makes(b, 1500, "650102030405060708090a0b0c0d0e0f")
	makes(b, 4, "6501020304")
	equal(false)
	copy(b.Datagram(1), []byte{0, 0})
	equal(true)
	a.Datagram(1)[0] = 0x80
	equal(false)
	b.Datagram(1)[0] = 0x80
	equal(true)
	if a.Equal(h26x.NewPackets(2)) || h26x.NewPackets(0).Equal(h26x.NewPackets(1)) {
		t.Error("of other headroom, or empty")
	}
	// The same bytes, but other ends.
	a, b = h26x.NewPackets(0), h26x.NewPackets(0)
	makes(a, 1500, "000001 6501 000001 650201")
	makes(b, 1500, "000001 650165 000001 0201")
	same(t, a.Bytes(), b.Bytes())
	equal(false)
}

// differ are values of which no two are equal, but each itself.
func differ[T interface{ Equal(T) bool }](t *testing.T, values ...T) {
	t.Helper()
	for i, a := range values {
		for j, b := range values {
			if a.Equal(b) != (i == j) {
				t.Errorf("%+v and %+v", a, b)
			}
		}
	}
}

func TestEqualValues(t *testing.T) {
	one, two := []byte{1}, []byte{2}
	differ(t, h26x.Depacketized{}, h26x.Depacketized{Bytes: one, Extra: h26x.Keyframe},
		h26x.Depacketized{Bytes: two, Extra: h26x.Keyframe}, h26x.Depacketized{Bytes: one, Extra: h26x.NoKeyframe})
	differ(t, h26x.Received{}, h26x.Received{Outcome: h26x.Gap}, h26x.Received{Outcome: h26x.Gap, Distance: 1},
		h26x.Received{Extra: h26x.Keyframe}, h26x.Received{Bytes: one}, h26x.Received{Bytes: two})
	differ(t, h26x.RTPPacket{}, h26x.RTPPacket{Sequence: 1}, h26x.RTPPacket{Timestamp: 1}, h26x.RTPPacket{Marker: true},
		h26x.RTPPacket{Payload: one}, h26x.RTPPacket{Payload: two})
	differ(t, h26x.AccessUnit{}, h26x.AccessUnit{Timestamp: 1}, h26x.AccessUnit{Bytes: one}, h26x.AccessUnit{Bytes: two},
		h26x.AccessUnit{Extra: h26x.NoKeyframe}, h26x.AccessUnit{IsWhole: true}, h26x.AccessUnit{IsClean: true},
		h26x.AccessUnit{IsDisposable: true},
		h26x.AccessUnit{Continues: true}, h26x.AccessUnit{First: 1}, h26x.AccessUnit{Last: 1}, h26x.AccessUnit{Missing: 1})
	differ(t, h26x.Part{}, h26x.Part{Bytes: one}, h26x.Part{Bytes: two}, h26x.Part{Number: -1})
	differ(t, h26x.ShownPacket{}, h26x.ShownPacket{Kind: h26x.Single}, h26x.ShownPacket{Header: 1},
		h26x.ShownPacket{Word: 1}, h26x.ShownPacket{Parts: []h26x.Part{{Bytes: one}}},
		h26x.ShownPacket{Parts: []h26x.Part{{Bytes: two}}}, h26x.ShownPacket{Parts: []h26x.Part{{Bytes: one}, {}}})
	differ(t, h26x.Constraints{}, h26x.Constraints{Flags: 1}, h26x.Constraints{Bytes: one}, h26x.Constraints{Bytes: two},
		h26x.Constraints{FrameOnly: true}, h26x.Constraints{Multilayer: true}, h26x.Constraints{General: true})
	differ(t, h26x.LevelSets{}, h26x.LevelSets{ProfileLevelID: [3]byte{0x42, 0xe0, 0x0b}},
		h26x.LevelSets{Sets: [][]byte{one}}, h26x.LevelSets{Sets: [][]byte{two}},
		h26x.LevelSets{Sets: [][]byte{one, two}}, h26x.LevelSets{Sets: [][]byte{two, one}})
	// Bytes are compared, and not where they lie; nil has none.
	if !(h26x.AccessUnit{Bytes: []byte{}}).Equal(h26x.AccessUnit{}) || !(h26x.Part{Bytes: []byte{1}}).Equal(h26x.Part{Bytes: one}) {
		t.Error("equal bytes")
	}
}
