package main

import (
	"sync/atomic"
	"time"

	"emupedestal/h26x"

	"github.com/pion/webrtc/v3"
)

const perSecond = 30

// A streamer sends a stream to a page, loses some of its packets on the way, and sends those again that the page asks for.
type streamer struct {
	// The stream, and the packets of its access units.
	stream      []byte
	accessUnits [][][]byte
	sender      *h26x.RTPSender
	track       *webrtc.TrackLocalStaticRTP
	// One packet of so many is lost; none where it is 0.
	lost         int
	sent, missed int
	again        int32
}

// ours is what the stream says of itself.
func (s *streamer) ours() (*h26x.FormatParameters, error) {
	ours, err := h26x.FormatParametersOfPayload(h26x.H264, s.stream)
	if err != nil {
		return nil, err
	}
	return ours, ours.Set("level-asymmetry-allowed", "1")
}

func (s *streamer) begin(peer *webrtc.PeerConnection, format webrtc.RTPCodecParameters) (err error) {
	if s.track, err = webrtc.NewTrackLocalStaticRTP(format.RTPCodecCapability, "video", "stream"); err != nil {
		return err
	}
	by, err := peer.AddTrack(s.track)
	if err != nil {
		return err
	}
	s.sender, err = h26x.NewRTPSender(h26x.RTPStreams{
		SSRC:        uint32(by.GetParameters().Encodings[0].SSRC),
		PayloadType: uint8(format.PayloadType),
		Sequence:    65500,
	}, 4_000_000)
	if err != nil {
		return err
	}
	go s.answer(by)
	return nil
}

// play sends the packets of an access unit each thirtieth of a second.
func (s *streamer) play() error {
	tick := time.NewTicker(time.Second / perSecond)
	defer tick.Stop()
	for i, payloads := range s.accessUnits {
		datagrams, err := s.sender.Send(uint32(i*clockRate/perSecond), payloads)
		if err != nil {
			return err
		}
		// A stream's first packet tells where it begins, and its last one that others are missing.
		some := i > 0 && i+1 < len(s.accessUnits)
		for _, datagram := range datagrams {
			s.sent++
			if some && s.lost > 0 && s.sent%s.lost == 0 {
				s.missed++
			} else if _, err := s.track.Write(datagram); err != nil {
				return err
			}
		}
		<-tick.C
	}
	return nil
}

// answer sends the packets again that the page asks for, until the connection ends.
func (s *streamer) answer(by *webrtc.RTPSender) {
	for buffer := make([]byte, 1500); ; {
		size, _, err := by.Read(buffer)
		if err != nil {
			return
		}
		for _, packet := range h26x.RTCPPackets(buffer[:size]) {
			nack, _ := h26x.ReadNACK(packet)
			for _, number := range nack.Numbers {
				if datagram, err := s.sender.Resend(number); err == nil && datagram != nil {
					s.track.Write(datagram)
					atomic.AddInt32(&s.again, 1)
				}
			}
		}
	}
}
