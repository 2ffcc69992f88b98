// Package piontest runs the module behind Pion itself: its packetizer, its sample builder, and two peers that
// speak WebRTC to each other in this process.
package piontest

import (
	"bytes"
	"os"
	"path/filepath"
	"testing"
	"time"

	"emupedestal/h26x"

	"github.com/pion/rtp"
	"github.com/pion/rtp/codecs"
	"github.com/pion/webrtc/v3"
	"github.com/pion/webrtc/v3/pkg/media/samplebuilder"
)

var (
	_ rtp.Payloader    = (*h26x.Packetizer)(nil)
	_ rtp.Depacketizer = (*h26x.Depacketizer)(nil)
)

// accessUnits cuts a stream where the first slice of a picture begins, or what stands before it.
func accessUnits(t *testing.T, codec h26x.Codec) (cut [][]byte) {
	name := map[h26x.Codec]string{h26x.H264: "test_pictures.h264", h26x.H265: "test_pictures.h265"}[codec]
	stream, err := os.ReadFile(filepath.Join(os.Getenv("STREAMS"), name))
	if err != nil {
		t.Fatal(err)
	}
	var open []byte
	hasPicture := false
	for units := h26x.UnitsOf(codec, stream); units.Next(); {
		unit := units.Unit()
		isPicture, isFirst := false, false
		switch codec {
		case h26x.H264:
			kind := unit[0] & 31
			isPicture = kind == 1 || kind == 5
			isFirst = isPicture && unit[1]&0x80 != 0
		case h26x.H265:
			isPicture = unit[0]>>1&63 < 32
			isFirst = isPicture && unit[2]&0x80 != 0
		}
		if hasPicture && (isFirst || !isPicture) {
			cut, open, hasPicture = append(cut, open), nil, false
		}
		open = append(append(open, 0, 0, 0, 1), unit...)
		hasPicture = hasPicture || isPicture
	}
	return append(cut, open)
}

func unitsOf(codec h26x.Codec, stream []byte) []byte {
	var all [][]byte
	for units := h26x.UnitsOf(codec, stream); units.Next(); {
		all = append(all, append([]byte(nil), units.Unit()...))
	}
	return bytes.Join(all, []byte{0, 0, 0, 1})
}

// throughSamples sends access units by Pion's packetizer, and answers how many samples its builder made of how many
// access units that can be told to be over, and how many are not the access unit of their place.
func throughSamples(t *testing.T, codec h26x.Codec, mtu uint16, payloader rtp.Payloader, depacketizer rtp.Depacketizer) (samples, of, wrong int) {
	wanted := accessUnits(t, codec)
	packetizer := rtp.NewPacketizer(mtu, 96, 1, payloader, rtp.NewFixedSequencer(65530), 90000)
	builder := samplebuilder.New(300, depacketizer, 90000)
	for _, accessUnit := range wanted {
		for _, sent := range packetizer.Packetize(accessUnit, 3000) {
			datagram, err := sent.Marshal()
			if err != nil {
				t.Fatal(err)
			}
			var came rtp.Packet
			if err := came.Unmarshal(datagram); err != nil {
				t.Fatal(err)
			}
			builder.Push(&came)
		}
		for it := builder.Pop(); it != nil; it = builder.Pop() {
			if samples >= len(wanted) || !bytes.Equal(unitsOf(codec, it.Data), unitsOf(codec, wanted[samples])) {
				wrong++
			}
			samples++
		}
	}
	return samples, len(wanted) - 1, wrong // the builder waits for a packet behind the last
}

func end(t *testing.T, codec h26x.Codec) (*h26x.Packetizer, *h26x.Depacketizer) {
	packetizer, err := h26x.NewPacketizer(codec)
	if err != nil {
		t.Fatal(err)
	}
	depacketizer, err := h26x.NewDepacketizer(codec)
	if err != nil {
		t.Fatal(err)
	}
	t.Cleanup(func() { packetizer.Close(); depacketizer.Close() })
	return packetizer, depacketizer
}

func TestSamples(t *testing.T) {
	p264, d264 := end(t, h26x.H264)
	p265, d265 := end(t, h26x.H265)
	for _, it := range []struct {
		name         string
		codec        h26x.Codec
		payloader    rtp.Payloader
		depacketizer rtp.Depacketizer
	}{
		{"H.264", h26x.H264, p264, d264},
		{"H.264 to Pion", h26x.H264, p264, &codecs.H264Packet{}},
		{"H.264 from Pion", h26x.H264, &codecs.H264Payloader{}, d264},
		{"H.265, of several slices a picture", h26x.H265, p265, d265},
	} {
		t.Run(it.name, func(t *testing.T) {
			samples, of, wrong := throughSamples(t, it.codec, 200, it.payloader, it.depacketizer)
			if samples != of || wrong > 0 {
				t.Errorf("%d samples of %d access units, %d of them not the access unit of their place", samples, of, wrong)
			}
		})
	}
}

// connected answers two peers of which the first sends the track.
func connected(t *testing.T, track webrtc.TrackLocal, onTrack func(*webrtc.TrackRemote)) {
	var peers [2]*webrtc.PeerConnection
	for i := range peers {
		peer, err := webrtc.NewPeerConnection(webrtc.Configuration{})
		if err != nil {
			t.Fatal(err)
		}
		t.Cleanup(func() { peer.Close() })
		peers[i] = peer
	}
	must := func(err error) {
		if err != nil {
			t.Fatal(err)
		}
	}
	_, err := peers[0].AddTrack(track)
	must(err)
	peers[1].OnTrack(func(remote *webrtc.TrackRemote, _ *webrtc.RTPReceiver) { onTrack(remote) })
	done := make(chan struct{}, 1)
	peers[0].OnConnectionStateChange(func(state webrtc.PeerConnectionState) {
		if state == webrtc.PeerConnectionStateConnected {
			done <- struct{}{}
		}
	})
	offer, err := peers[0].CreateOffer(nil)
	must(err)
	gathered := webrtc.GatheringCompletePromise(peers[0])
	must(peers[0].SetLocalDescription(offer))
	<-gathered
	must(peers[1].SetRemoteDescription(*peers[0].LocalDescription()))
	answer, err := peers[1].CreateAnswer(nil)
	must(err)
	gathered = webrtc.GatheringCompletePromise(peers[1])
	must(peers[1].SetLocalDescription(answer))
	<-gathered
	must(peers[0].SetRemoteDescription(*peers[1].LocalDescription()))
	select {
	case <-done:
	case <-time.After(20 * time.Second):
		t.Fatal("the peers don't connect")
	}
	time.Sleep(300 * time.Millisecond)
}

// throughPeers sends a stream from peer to peer; behind each tenth picture stand three packets of padding alone, as
// congestion control sends them (RFC 3550, 5.1). Each packet that comes is taken, in another goroutine until it returns.
// It answers the access units that were sent, and how many packets, how many of them padding alone, and how many came.
func throughPeers(t *testing.T, take func(*rtp.Packet)) (wanted [][]byte, sent, padding, came int) {
	track, err := webrtc.NewTrackLocalStaticRTP(webrtc.RTPCodecCapability{
		MimeType: webrtc.MimeTypeH264, ClockRate: 90000,
		SDPFmtpLine: "level-asymmetry-allowed=1;packetization-mode=1;profile-level-id=42e01f",
	}, "video", "stream")
	if err != nil {
		t.Fatal(err)
	}
	over := make(chan int, 1)
	connected(t, track, func(remote *webrtc.TrackRemote) {
		count := 0
		for {
			remote.SetReadDeadline(time.Now().Add(2 * time.Second))
			packet, _, err := remote.ReadRTP()
			if err != nil {
				break
			}
			count++
			take(packet)
		}
		over <- count
	})
	payloader, _ := end(t, h26x.H264)
	sequencer := rtp.NewRandomSequencer()
	packetizer := rtp.NewPacketizer(200, 0, 0, payloader, sequencer, 90000)
	wanted = accessUnits(t, h26x.H264)
	for i, accessUnit := range wanted {
		var timestamp uint32
		for _, packet := range packetizer.Packetize(accessUnit, 3000) {
			timestamp = packet.Timestamp
			if err := track.WriteRTP(packet); err != nil {
				t.Fatal(err)
			}
			sent++
		}
		for n := 0; i%10 == 5 && n < 3; n++ {
			header := rtp.Header{Version: 2, Padding: true, SequenceNumber: sequencer.NextSequenceNumber(), Timestamp: timestamp}
			if err := track.WriteRTP(&rtp.Packet{Header: header, Payload: append(make([]byte, 254), 255)}); err != nil {
				t.Fatal(err)
			}
			sent, padding = sent+1, padding+1
		}
		time.Sleep(5 * time.Millisecond)
	}
	came = <-over
	t.Logf("%d packets sent, %d of padding, %d came", sent, padding, came)
	if sent != came {
		t.Skip("the network lost some")
	}
	return wanted, sent, padding, came
}

// A receiver skips the numbers of padding. None is lost, so no gap may be told.
func TestPeersAndPadding(t *testing.T) {
	receiver, err := h26x.NewReceiver(h26x.H264, 4_000_000)
	if err != nil {
		t.Fatal(err)
	}
	defer receiver.Close()
	var out []byte
	refused, gaps := 0, 0
	wanted, _, _, _ := throughPeers(t, func(packet *rtp.Packet) {
		if len(packet.Payload) == 0 {
			if outcome, _, err := receiver.Skip(packet.SequenceNumber); err != nil || outcome == h26x.Gap {
				gaps++
			}
			return
		}
		to, got, err := receiver.ReceiveInto(out, packet.SequenceNumber, packet.Payload)
		if err != nil {
			refused++
		} else if got.Outcome == h26x.Gap {
			gaps++
		}
		out = to
	})
	if !bytes.Equal(unitsOf(h26x.H264, out), unitsOf(h26x.H264, bytes.Join(wanted, nil))) {
		t.Error("other units came than were sent")
	}
	if gaps > 0 || refused > 0 {
		t.Errorf("nothing is lost, and %d gaps are told, %d packets refused", gaps, refused)
	}
}

// A receiver of access units takes padding as it comes. None is lost, so none may be told to be missing, and no keyframe
// asked for: the first access unit is one, with its parameter sets.
func TestPeersAndPaddingInAccessUnits(t *testing.T) {
	receiver, err := h26x.NewAccessUnitReceiver(h26x.H264, h26x.AccessUnitConfig{MaxWait: 200})
	if err != nil {
		t.Fatal(err)
	}
	defer receiver.Close()
	var got []*h26x.AccessUnit
	takeUnits := func(now uint32) {
		for {
			unit, err := receiver.Next(now)
			if err != nil {
				t.Error(err)
			}
			if unit == nil {
				return
			}
			got = append(got, unit)
		}
	}
	start := time.Now()
	milliseconds := func() uint32 { return uint32(time.Since(start).Milliseconds()) }
	wanted, sent, padding, _ := throughPeers(t, func(packet *rtp.Packet) {
		now := milliseconds()
		pushed, _, err := receiver.Push(now, h26x.RTPPacket{
			Sequence: packet.SequenceNumber, Timestamp: packet.Timestamp, Marker: packet.Marker, Payload: packet.Payload,
		})
		if pushed != h26x.Held || err != nil {
			t.Errorf("%d: %v, %v", packet.SequenceNumber, pushed, err)
		}
		takeUnits(now)
	})
	if err := receiver.Finish(); err != nil {
		t.Fatal(err)
	}
	takeUnits(milliseconds())
	if len(got) != len(wanted) {
		t.Fatalf("%d access units of %d", len(got), len(wanted))
	}
	for i, unit := range got {
		if !bytes.Equal(unitsOf(h26x.H264, unit.Bytes), unitsOf(h26x.H264, wanted[i])) {
			t.Errorf("access unit %d is another one", i)
		}
		if unit.Missing > 0 || !unit.IsWhole || !unit.IsClean {
			t.Errorf("access unit %d: %d missing, whole %v, clean %v", i, unit.Missing, unit.IsWhole, unit.IsClean)
		}
	}
	counts, err := receiver.Counts()
	if units := uint64(len(wanted)); err != nil || counts != (h26x.Counts{
		Taken: uint64(sent - padding), Skipped: uint64(padding), Units: units, Whole: units,
	}) {
		t.Errorf("got %+v, %v", counts, err)
	}
}
