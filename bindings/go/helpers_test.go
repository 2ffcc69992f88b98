package h26x_test

import (
	"bytes"
	"encoding/hex"
	"errors"
	"strings"
	"testing"

	"emupedestal/h26x"
)

// What Pion's rtp package asks for, with its signatures.
type payloader interface {
	Payload(mtu uint16, payload []byte) [][]byte
}

type depacketizer interface {
	Unmarshal(packet []byte) ([]byte, error)
	IsPartitionHead(payload []byte) bool
	IsPartitionTail(marker bool, payload []byte) bool
}

var (
	_ payloader    = (*h26x.Packetizer)(nil)
	_ depacketizer = (*h26x.Depacketizer)(nil)
)

var codecs = []h26x.Codec{h26x.H264, h26x.H265, h26x.H266}

// some is the bytes that digits name; spaces are for the reader.
func some(digits string) []byte {
	b, err := hex.DecodeString(strings.ReplaceAll(digits, " ", ""))
	if err != nil {
		panic(err)
	}
	return b
}

// many is those between '|'; none where there are no digits.
func many(digits string) [][]byte {
	if digits == "" {
		return nil
	}
	var all [][]byte
	for _, one := range strings.Split(digits, "|") {
		all = append(all, some(one))
	}
	return all
}

// fragments is the first slice of a keyframe in three fragments of two bytes of data each (RFC 6184, 5.8; RFC 7798,
// 4.4.3; RFC 9328, 4.3.3).
type fragments struct {
	start, middle, end, unit []byte
}

func fragmentsOf(codec h26x.Codec) fragments {
	f := map[h26x.Codec]string{
		h26x.H264: "7c858802|7c050304|7c450506|65 880203040506",
		h26x.H265: "6201938802|6201130304|6201530506|2601 880203040506",
		h26x.H266: "00e9878802|00e9070304|00e9470506|0039 880203040506",
	}[codec]
	parts := many(f)
	return fragments{parts[0], parts[1], parts[2], parts[3]}
}

// done stops the test where something failed.
func done(t *testing.T, err error) {
	t.Helper()
	if err != nil {
		t.Fatal(err)
	}
}

// same compares bytes.
func same(t *testing.T, got, wanted []byte) {
	t.Helper()
	if !bytes.Equal(got, wanted) {
		t.Fatalf("got %x, wanted %x", got, wanted)
	}
}

// sameAll compares packets.
func sameAll(t *testing.T, got, wanted [][]byte) {
	t.Helper()
	if len(got) != len(wanted) {
		t.Fatalf("got %x, wanted %x", got, wanted)
	}
	for i := range got {
		same(t, got[i], wanted[i])
	}
}

// refuses compares an error with its code and its numbers.
func refuses(t *testing.T, err error, code h26x.Code, numbers ...uint) {
	t.Helper()
	var e *h26x.Error
	if !errors.As(err, &e) || !errors.Is(err, code) {
		t.Fatalf("got %v, wanted %v", err, code)
	}
	numbers = append(numbers, 0, 0)
	if e.Code != code || e.First != numbers[0] || e.Second != numbers[1] {
		t.Fatalf("got %+v, wanted %v of %v", *e, code, numbers)
	}
	if h26x.IsPacketError(err) != (code <= h26x.ErrAVCUnitTooLong) {
		t.Fatalf("%v is told to be of a packet, or not to be", err)
	}
}

func newPacketizer(t *testing.T, codec h26x.Codec, donl bool) *h26x.Packetizer {
	t.Helper()
	p, err := h26x.NewPacketizer(codec)
	done(t, err)
	t.Cleanup(func() { p.Close() })
	if donl {
		done(t, p.SetDONL(true))
	}
	return p
}

func newDepacketizer(t *testing.T, codec h26x.Codec, donl, avc bool) *h26x.Depacketizer {
	t.Helper()
	d, err := h26x.NewDepacketizer(codec)
	done(t, err)
	t.Cleanup(func() { d.Close() })
	if donl {
		done(t, d.SetDONL(true))
	}
	done(t, d.SetAVC(avc))
	return d
}

func newReceiver(t *testing.T, codec h26x.Codec, runLimit int, donl, avc bool) *h26x.Receiver {
	t.Helper()
	r, err := h26x.NewReceiver(codec, runLimit)
	done(t, err)
	t.Cleanup(func() { r.Close() })
	if donl {
		done(t, r.SetDONL(true))
	}
	done(t, r.SetAVC(avc))
	return r
}
