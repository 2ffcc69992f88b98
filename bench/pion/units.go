// Units times what a packet of H.264 costs through Pion's sample builder, by turns with one copy of each payload into
// kept memory (the bound):
//
//	units TURNS FILE..    prints for each file its name, and the best of each in nanoseconds a packet
//
// A file is one of `units --write` of bench/calls, whose name ends with the window. The builder keeps packets as they
// are given, and copies none.
package main

import (
	"encoding/binary"
	"fmt"
	"os"
	"path/filepath"
	"strconv"
	"strings"
	"time"

	"github.com/pion/rtp"
	"github.com/pion/rtp/codecs"
	"github.com/pion/webrtc/v3/pkg/media/samplebuilder"
)

const header = 12

func packetsOf(path string) (packets []rtp.Packet) {
	file, err := os.ReadFile(path)
	if err != nil {
		panic(err)
	}
	for len(file) > 0 {
		end := header + int(binary.LittleEndian.Uint32(file[8:]))
		packets = append(packets, rtp.Packet{
			Header: rtp.Header{
				Version:        2,
				SequenceNumber: binary.LittleEndian.Uint16(file),
				Timestamp:      binary.LittleEndian.Uint32(file[2:]),
				Marker:         file[6] != 0,
			},
			Payload: file[header:end],
		})
		file = file[end:]
	}
	return packets
}

var text = make([]byte, 2_000_000)

func copyEach(packets []rtp.Packet) {
	filled := 0
	for i := range packets {
		filled += copy(text[filled:], packets[i].Payload)
		if packets[i].Marker {
			filled = 0
		}
	}
}

func takeEach(packets []rtp.Packet, window uint16) (samples int) {
	builder := samplebuilder.New(window, &codecs.H264Packet{}, 90000)
	for i := range packets {
		builder.Push(&packets[i])
		for builder.Pop() != nil {
			samples++
		}
	}
	return samples
}

func each(then time.Time, count int) float64 {
	return float64(time.Since(then).Nanoseconds()) / float64(count)
}

func main() {
	turns, err := strconv.Atoi(os.Args[1])
	if err != nil {
		panic(err)
	}
	for _, path := range os.Args[2:] {
		packets := packetsOf(path)
		words := strings.Split(path, "-")
		window, _ := strconv.Atoi(words[len(words)-1])
		copied, taken, samples := 0.0, 0.0, 0
		for turn := 0; turn < turns; turn++ {
			then := time.Now()
			copyEach(packets)
			if ns := each(then, len(packets)); turn == 0 || ns < copied {
				copied = ns
			}
			then = time.Now()
			samples = takeEach(packets, uint16(window))
			if ns := each(then, len(packets)); turn == 0 || ns < taken {
				taken = ns
			}
		}
		fmt.Printf("%s %.1f %.1f %d\n", filepath.Base(path), copied, taken, samples)
	}
}
