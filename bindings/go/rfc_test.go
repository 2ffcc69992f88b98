package h26x_test

import (
	"bytes"
	"os"
	"os/exec"
	"sync"
	"testing"

	"emupedestal/h26x"
)

// What streams and packets hold, read as the RFCs have it (RFC 6184, 5; RFC 7798, 4.4; RFC 9328, 4.3), without
// the library. Packets bear no decoding order numbers here.

// types are those of an aggregate, of a fragment and of an access unit delimiter.
type types struct{ aggregate, fragment, delimiter byte }

func typesOf(codec h26x.Codec) types {
	return map[h26x.Codec]types{h26x.H264: {24, 28, 9}, h26x.H265: {48, 49, 35}, h26x.H266: {28, 29, 20}}[codec]
}

// placed is a unit, and the packets that hold it: its fragments, or one.
type placed struct {
	first, last int
	unit        []byte
}

var (
	made266  sync.Once
	units266 []byte
)

// stream is a small stream of the codec. That of H.266 takes seconds to make: H26X_UNITS_H266 may name a file
// that make_h266 wrote.
func stream(t testing.TB, codec h26x.Codec) []byte {
	t.Helper()
	name := map[h26x.Codec]string{h26x.H264: "test_pictures.h264", h26x.H265: "test_pictures.h265"}[codec]
	if _, err := os.Stat("../streams"); err != nil {
		t.Skip("the streams lie beside the package in its repository")
	}
	if codec != h26x.H266 {
		data, err := os.ReadFile("../streams/" + name)
		if err != nil {
			t.Fatal(err)
		}
		return data
	}
	made266.Do(func() {
		if made := os.Getenv("H26X_UNITS_H266"); made != "" {
			units266, _ = os.ReadFile(made)
		} else {
			units266, _ = exec.Command("../streams/make_h266").Output()
		}
	})
	if len(units266) == 0 {
		t.Fatal("no stream of H.266")
	}
	return units266
}

// split is the units behind start codes. No unit of the streams here ends with a byte that is 0.
func split(data []byte) [][]byte {
	var units [][]byte
	for _, part := range bytes.Split(data, []byte{0, 0, 1}) {
		if unit := bytes.TrimRight(part, "\x00"); len(unit) > 0 {
			units = append(units, unit)
		}
	}
	return units
}

// sent is the units of the stream that are sent.
func sent(t testing.TB, codec h26x.Codec) [][]byte {
	var units [][]byte
	for _, unit := range split(stream(t, codec)) {
		if typeOf(codec, unit) != typesOf(codec).delimiter {
			units = append(units, unit)
		}
	}
	return units
}

func typeOf(codec h26x.Codec, unit []byte) byte {
	switch codec {
	case h26x.H264:
		return unit[0] & 31
	case h26x.H265:
		return unit[0] >> 1 & 63
	default:
		return unit[1] >> 3
	}
}

// isKey tells whether a unit is of a keyframe: IDR (H.264), IRAP (H.265), IDR and CRA (H.266).
func isKey(codec h26x.Codec, unit []byte) bool {
	kinds := map[h26x.Codec][2]byte{h26x.H264: {5, 5}, h26x.H265: {16, 23}, h26x.H266: {7, 9}}[codec]
	return kinds[0] <= typeOf(codec, unit) && typeOf(codec, unit) <= kinds[1]
}

// fragmentOf is S, E, the header of the unit, and the data of a fragment.
func fragmentOf(codec h26x.Codec, p []byte) (starts, ends bool, header, data []byte) {
	switch codec {
	case h26x.H264:
		return p[1]&128 > 0, p[1]&64 > 0, []byte{p[0]&0xe0 | p[1]&31}, p[2:]
	case h26x.H265:
		return p[2]&128 > 0, p[2]&64 > 0, []byte{p[0]&0x81 | p[2]&63<<1, p[1]}, p[3:]
	default:
		return p[2]&128 > 0, p[2]&64 > 0, []byte{p[0], p[2]&31<<3 | p[1]&7}, p[3:]
	}
}

// placedIn is the units of all packets, in order; none of the packets is missing.
func placedIn(t *testing.T, codec h26x.Codec, packets [][]byte) []placed {
	t.Helper()
	var units []placed
	first, run := -1, []byte(nil)
	for n, packet := range packets {
		switch typeOf(codec, packet) {
		case typesOf(codec).aggregate:
			at := 1
			if codec != h26x.H264 {
				at = 2
			}
			for at < len(packet) {
				size := int(packet[at])<<8 | int(packet[at+1])
				units = append(units, placed{n, n, packet[at+2 : at+2+size]})
				at += 2 + size
			}
		case typesOf(codec).fragment:
			starts, ends, header, data := fragmentOf(codec, packet)
			if starts != (first < 0) || starts && ends {
				t.Fatalf("packet %d is no fragment of its unit", n)
			}
			if starts {
				first, run = n, nil
			}
			run = append(run, data...)
			if ends {
				units = append(units, placed{first, n, append(header, run...)})
				first = -1
			}
		default:
			units = append(units, placed{n, n, packet})
		}
	}
	if first >= 0 {
		t.Fatal("the last unit has no end")
	}
	return units
}

// text is units behind start codes, or behind their lengths in four bytes, as MP4 files have them.
func text(avc bool, units ...[]byte) []byte {
	var all []byte
	for _, unit := range units {
		size := len(unit)
		before := []byte{0, 0, 0, 1}
		if avc {
			before = []byte{byte(size >> 24), byte(size >> 16), byte(size >> 8), byte(size)}
		}
		all = append(append(all, before...), unit...)
	}
	return all
}
