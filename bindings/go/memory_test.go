package h26x

import (
	"errors"
	"math"
	"strconv"
	"testing"
)

// On 32 bits a size of C may be over an int, which would be negative then.
func TestSizesOfTheLibrary(t *testing.T) {
	for _, it := range []struct {
		size, largest uint64
		want          int
		err           error
	}{
		{0, math.MaxInt32, 0, nil},
		{math.MaxInt32, math.MaxInt32, math.MaxInt32, nil},
		{1 << 31, math.MaxInt32, 0, ErrOutOfMemory},
		{math.MaxUint32, math.MaxInt32, 0, ErrOutOfMemory},
		{math.MaxInt, math.MaxInt, math.MaxInt, nil},
		{math.MaxInt + 1, math.MaxInt, 0, ErrOutOfMemory},
		{math.MaxUint64, math.MaxInt, 0, ErrOutOfMemory},
	} {
		got, err := lengthUpTo(it.size, it.largest)
		if got != it.want || !errors.Is(err, it.err) {
			t.Errorf("%d of %d: %d, %v", it.size, it.largest, got, err)
		}
	}
}

// A payload whose packets take 2^31 bytes with their headroom, and more: on 64 bits that is their size.
func TestPacketsThatNoSliceHolds(t *testing.T) {
	packetizer, err := NewPacketizer(H264)
	if err != nil {
		t.Fatal(err)
	}
	defer packetizer.Close()
	payload := make([]byte, 40_000)
	payload[0] = 0x65
	count, size, err := packetizer.PacketsSize(3, payload, 65535)
	if strconv.IntSize == 64 {
		if err != nil || count != len(payload)-1 || uint64(size) < 1<<31 {
			t.Error(count, size, err)
		}
		return
	}
	if count != 0 || size != 0 || !errors.Is(err, ErrOutOfMemory) {
		t.Error(count, size, err)
	}
	into := NewPackets(65535)
	if err := packetizer.PacketizeInto(3, payload, into); !errors.Is(err, ErrOutOfMemory) || into.Len() != 0 {
		t.Error(err, into.Len())
	}
}
