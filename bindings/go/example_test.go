package h26x_test

import (
	"bytes"
	"errors"
	"fmt"
	"os"

	"emupedestal/h26x"
)

// A frame is sent and received.
func Example() {
	frame := []byte{0, 0, 0, 1, 0x67, 0x42, 0xc0, 0x1f, 0, 0, 0, 1, 0x68, 0xce, 0, 0, 0, 1, 0x65, 0x88, 0x84}
	packetizer, err := h26x.NewPacketizer(h26x.H264)
	if err != nil {
		panic(err)
	}
	defer packetizer.Close()
	receiver, err := h26x.NewReceiver(h26x.H264, 4_000_000)
	if err != nil {
		panic(err)
	}
	defer receiver.Close()
	sequence, out := uint16(65535), []byte(nil)
	for _, packet := range packetizer.Payload(1200, frame) {
		got, err := receiver.Receive(sequence, packet)
		if err != nil {
			continue // that packet's alone: pass it over
		}
		fmt.Printf("%d: %x, %v\n", sequence, packet, got.Outcome)
		out = append(out, got.Bytes...)
		sequence++
	}
	fmt.Println(bytes.Equal(out, frame))
	// Output:
	// 65535: 7800046742c01f000268ce, InOrder
	// 0: 658884, InOrder
	// true
}

// A server makes the packets of a frame in one buffer that it keeps, each behind room for RTP's header.
func ExamplePacketizer_PacketizeInto() {
	packetizer, err := h26x.NewPacketizer(h26x.H264)
	if err != nil {
		panic(err)
	}
	defer packetizer.Close()
	packets := h26x.NewPackets(12)
	if err := packetizer.PacketizeInto(5, []byte{0x65, 1, 2, 3, 4, 5, 6}, packets); err != nil {
		panic(err)
	}
	for i := 0; i < packets.Len(); i++ {
		datagram := packets.Datagram(i)
		datagram[0] = 0x80 // RTP's header (RFC 3550, 5.1), and behind it the packet
		if i+1 == packets.Len() {
			datagram[1] = 0x80 | 96
		}
		fmt.Printf("%d bytes, %x\n", len(datagram), packets.Packet(i))
	}
	// Output:
	// 17 bytes, 7c85010203
	// 17 bytes, 7c45040506
}

// An access unit is sent, and a packet of it again, as a NACK asks for it.
func ExampleRTPSender() {
	sender, err := h26x.NewRTPSender(h26x.RTPStreams{
		SSRC: 1, PayloadType: 96, Sequence: 65535, HasRTX: true, RTXSSRC: 2, RTXPayloadType: 97, RTXSequence: 500,
	}, 1_000_000)
	if err != nil {
		panic(err)
	}
	defer sender.Close()
	datagrams, err := sender.Send(90_000, [][]byte{{0x67, 0x42}, {0x65, 0x88}}) // of a Packetizer
	if err != nil {
		panic(err)
	}
	fmt.Printf("%x\n%x\n", datagrams[0], datagrams[1])
	nack, _ := h26x.ReadNACK([]byte{0x81, 205, 0, 3, 0, 0, 0, 9, 0, 0, 0, 1, 0xff, 0xff, 0, 0})
	for _, number := range nack.Numbers {
		again, err := sender.Resend(number)
		fmt.Printf("%d: %x, %v\n", number, again, err)
	}
	// Output:
	// 8060ffff00015f90000000016742
	// 80e0000000015f90000000016588
	// 65535: 806101f400015f9000000002ffff6742, <nil>
}

// The last fragment of a unit that is not the last of its access unit.
func ExampleDepacketizer_IsPartitionTail() {
	depacketizer, err := h26x.NewDepacketizer(h26x.H265)
	if err != nil {
		panic(err)
	}
	defer depacketizer.Close()
	fragment := []byte{0x62, 0x01, 0x53, 0xaa} // E is set (RFC 7798, 4.4.3)
	fmt.Println(depacketizer.IsPartitionTail(false, fragment))
	fmt.Println(h26x.IsPartitionTail(h26x.H265, false, fragment)) // the unit's end
	// Output:
	// false
	// true
}

// A stream of 50 pictures, a keyframe every 5, is sent picture by picture, loses every twentieth packet, and is
// received.
func ExampleReceiver() {
	stream, err := os.ReadFile("../streams/test_pictures.h264")
	if err != nil {
		panic(err)
	}
	whole, _ := sendAndReceive(stream, 0)
	fmt.Println("nothing lost:", whole, "pictures")
	some, gaps := sendAndReceive(stream, 20)
	fmt.Println("some lost:", some < whole, gaps > 0)
	// Output:
	// nothing lost: 50 pictures
	// some lost: true true
}

// Packets come in another order, the first of all too, and what is due is told by a time.
func ExampleAccessUnitReceiver() {
	receiver, err := h26x.NewAccessUnitReceiver(h26x.H264, h26x.AccessUnitConfig{MaxWait: 100, BeginWait: 20})
	if err != nil {
		panic(err)
	}
	defer receiver.Close()
	for _, packet := range []h26x.RTPPacket{
		{Sequence: 8, Timestamp: 3000, Marker: true, Payload: []byte{0x7c, 0x45, 2}}, // the last fragment of a unit
		{Sequence: 7, Timestamp: 3000, Payload: []byte{0x7c, 0x85, 1}},               // the first
		{Sequence: 10, Timestamp: 9000, Marker: true, Payload: []byte{0x61, 9}},      // 9 is missing
	} {
		if _, _, err := receiver.Push(0, packet); err != nil {
			panic(err)
		}
	}
	missing, _ := receiver.Missing()
	deadline, _ := receiver.Deadline()
	fmt.Println(missing, deadline)
	for _, now := range []uint32{0, 20, 100} {
		for {
			unit, err := receiver.Next(now)
			if err != nil {
				panic(err)
			} else if unit == nil {
				break
			}
			fmt.Printf("%d: %d: %x, %d missing, known to be whole: %v\n", now, unit.Timestamp, unit.Bytes, unit.Missing, unit.IsWhole)
		}
	}
	// Output:
	// [9] 20
	// 20: 3000: 00000001650102, 0 missing, known to be whole: false
	// 100: 9000: 000000016109, 1 missing, known to be whole: false
}

// A recorder writes what can be decoded, and asks the sender for a keyframe where that isn't so.
func ExampleAccessUnitReceiver_recorder() {
	stream, err := os.ReadFile("../streams/test_pictures.h264")
	if err != nil {
		panic(err)
	}
	whole, asked := sendAndRecord(stream, 0)
	fmt.Println("nothing lost:", whole, "pictures,", asked, "times asked")
	some, asked := sendAndRecord(stream, 20)
	fmt.Println("some lost:", 0 < some && some < whole, asked > 1)
	// Output:
	// nothing lost: 50 pictures, 0 times asked
	// some lost: true true
}

func must(err error) {
	if err != nil {
		panic(err)
	}
}

// sendAndRecord sends a stream of which a packet of so many is lost, none where it is 0, and each second one comes behind
// the next, and counts the pictures that are recorded and how often a keyframe is asked for.
func sendAndRecord(stream []byte, each int) (pictures, asked int) {
	packetizer, err := h26x.NewPacketizer(h26x.H264)
	must(err)
	defer packetizer.Close()
	receiver, err := h26x.NewAccessUnitReceiver(h26x.H264, h26x.AccessUnitConfig{Window: 16})
	must(err)
	defer receiver.Close()
	unit, asks := h26x.AccessUnit{}, false
	record := func() {
		for {
			ended, err := receiver.NextInto(0, &unit)
			must(err)
			if !ended {
				return
			}
			if unit.IsClean {
				pictures++ // and it is written
			} else if !asks {
				asked++ // and the sender is asked
			}
			asks = !unit.IsClean
		}
	}
	sequence, timestamp, accessUnit, behind := uint16(65000), uint32(0), []byte(nil), h26x.RTPPacket{}
	for units := h26x.UnitsOf(h26x.H264, stream); units.Next(); {
		accessUnit = append(append(accessUnit, 0, 0, 0, 1), units.Unit()...)
		if kind := units.Unit()[0] & 31; kind != 1 && kind != 5 {
			continue // it goes with the picture behind it
		}
		packets := packetizer.Payload(200, accessUnit)
		for i, payload := range packets {
			sequence++
			packet := h26x.RTPPacket{Sequence: sequence, Timestamp: timestamp, Marker: i+1 == len(packets), Payload: payload}
			if each > 0 && int(sequence)%each == 0 {
				continue
			}
			if behind.Payload == nil {
				behind = packet
				continue
			}
			for _, one := range []h26x.RTPPacket{packet, behind} {
				_, _, err := receiver.Push(0, one)
				must(err)
			}
			behind = h26x.RTPPacket{}
			record()
		}
		timestamp, accessUnit = timestamp+3000, nil
	}
	if behind.Payload != nil {
		_, _, err := receiver.Push(0, behind)
		must(err)
	}
	must(receiver.Finish())
	record()
	return pictures, asked
}

// sendAndReceive loses a packet of so many, none where it is 0, and counts the pictures that are received and the
// gaps.
func sendAndReceive(stream []byte, each int) (pictures, gaps int) {
	packetizer, err := h26x.NewPacketizer(h26x.H264)
	if err != nil {
		panic(err)
	}
	defer packetizer.Close()
	receiver, err := h26x.NewReceiver(h26x.H264, 4_000_000)
	if err != nil {
		panic(err)
	}
	defer receiver.Close()
	sequence, packets := 0, h26x.NewPackets(0)
	for units := h26x.UnitsOf(h26x.H264, stream); units.Next(); {
		if err := packetizer.PacketizeUnitInto(200, units.Unit(), packets); err != nil {
			panic(err)
		}
		for i := 0; i < packets.Len(); i++ {
			sequence++
			if each > 0 && sequence%each == 0 {
				continue
			}
			got, err := receiver.Receive(uint16(sequence), packets.Packet(i))
			if errors.Is(err, h26x.ErrOutOfMemory) {
				panic(err)
			} else if err != nil {
				continue
			}
			if got.Outcome == h26x.Gap {
				gaps++
			}
			for back := h26x.UnitsOf(h26x.H264, got.Bytes); back.Next(); {
				if kind := back.Unit()[0] & 31; kind == 1 || kind == 5 {
					pictures++
				}
			}
		}
	}
	return pictures, gaps
}
