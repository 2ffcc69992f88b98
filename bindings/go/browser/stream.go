package main

import (
	"encoding/binary"

	"emupedestal/h26x"
)

// A stream in packets, and how many units and packets of what kind it has.
type packetized struct {
	// Of each access unit.
	packets                           [][][]byte
	units, sent, aggregates, ofSlices int
}

const stapA = 24 // RFC 6184, 5.2

func unitType(unit []byte) byte { return unit[0] & 31 }

func isSlice(unit []byte) bool { return unitType(unit) >= 1 && unitType(unit) <= 5 }

// begins tells whether behind a slice a unit begins an access unit: a delimiter, sets, SEI, or a picture's first slice.
func begins(unit []byte) bool {
	return unitType(unit) >= 6 && unitType(unit) <= 9 || isSlice(unit) && unit[1]&0x80 != 0
}

// accessUnits cuts a stream into access units.
func accessUnits(stream []byte) (all [][]byte) {
	hasSlice := true
	for units := h26x.UnitsOf(h26x.H264, stream); units.Next(); {
		unit := units.Unit()
		if hasSlice && begins(unit) {
			all, hasSlice = append(all, nil), false
		}
		hasSlice = hasSlice || isSlice(unit)
		last := &all[len(all)-1]
		*last = append(append(*last, 0, 0, 0, 1), unit...)
	}
	return all
}

// count counts a packet, and the slices of an aggregate (RFC 6184, 5.7.1).
func (p *packetized) count(packet []byte) {
	p.sent++
	if unitType(packet) != stapA {
		return
	}
	p.aggregates++
	slices := 0
	for rest := packet[1:]; len(rest) > 2; {
		if isSlice(rest[2:]) {
			slices++
		}
		rest = rest[2+int(binary.BigEndian.Uint16(rest)):]
	}
	if slices > 1 {
		p.ofSlices++
	}
}

// packetize makes the packets of a stream.
func packetize(packing h26x.Packing, mtu uint16, stream []byte) (*packetized, error) {
	packetizer, err := h26x.NewPacketizer(h26x.H264)
	if err != nil {
		return nil, err
	}
	defer packetizer.Close()
	if err := packetizer.SetPacking(packing); err != nil {
		return nil, err
	}
	made := new(packetized)
	for _, accessUnit := range accessUnits(stream) {
		packets, err := packetizer.PacketizeUnits(mtu, accessUnit)
		if err != nil {
			return nil, err
		}
		for units := h26x.UnitsOf(h26x.H264, accessUnit); units.Next(); {
			made.units++
		}
		for _, packet := range packets {
			made.count(packet)
		}
		made.packets = append(made.packets, packets)
	}
	return made, nil
}
