package main

import (
	"bytes"
	"log"
	"sync"
	"time"

	"emupedestal/h26x"

	"github.com/pion/rtcp"
	"github.com/pion/webrtc/v3"
)

// Ticks are milliseconds.
const (
	maxWait    = 1000
	askAgain   = 50
	ownSSRC    = 1
	frameAgain = 500
)

// A recorder keeps what a page sends, as far as it can be decoded, loses some packets on the way, and asks for them again, and
// for a keyframe where no decoder could go on.
type recorder struct {
	mu       sync.Mutex
	receiver *h26x.RTPReceiver
	peer     *webrtc.PeerConnection
	begun    time.Time
	// One packet of so many is lost, none where it is 0; for so long, since behind the last packet none tells of it.
	lost                  int
	losing                time.Duration
	came, missed          int
	asked, keyframesAsked int
	unclean               int
	stream                bytes.Buffer
	accessUnits           int
}

// ours is what is received.
func (r *recorder) ours() (*h26x.FormatParameters, error) {
	return h26x.ReadFormatParameters(h26x.H264,
		"profile-level-id=42e01f;packetization-mode=1;level-asymmetry-allowed=1")
}

func (r *recorder) begin(peer *webrtc.PeerConnection, format webrtc.RTPCodecParameters) (err error) {
	types := h26x.RTPPayloadTypes{Media: uint8(format.PayloadType)}
	if r.receiver, err = h26x.NewRTPReceiver(h26x.H264, types, h26x.AccessUnitConfig{MaxWait: maxWait}); err != nil {
		return err
	}
	r.peer = peer
	peer.OnTrack(func(track *webrtc.TrackRemote, _ *webrtc.RTPReceiver) {
		for buffer := make([]byte, 1500); ; {
			size, _, err := track.Read(buffer)
			if err != nil {
				return
			}
			if err := r.take(buffer[:size]); err != nil {
				log.Print(err)
			}
		}
	})
	return nil
}

func (r *recorder) play() error { return nil }

func (r *recorder) now() uint32 { return uint32(time.Since(r.begun).Milliseconds()) }

// take takes a datagram, unless it is lost.
func (r *recorder) take(datagram []byte) error {
	r.mu.Lock()
	defer r.mu.Unlock()
	if r.came == 0 {
		r.begun = time.Now()
	}
	now := r.now()
	r.came++
	if r.lost > 0 && r.came%r.lost == 0 && time.Since(r.begun) < r.losing {
		r.missed++
	} else if _, err := r.receiver.Push(now, now*clockRate/1000, datagram); err != nil {
		return err
	}
	if err := r.write(now); err != nil {
		return err
	}
	return r.ask(now)
}

// write keeps the access units that have ended.
func (r *recorder) write(now uint32) error {
	for {
		unit, err := r.receiver.Next(now)
		if unit == nil {
			return err
		}
		if !unit.IsClean {
			r.unclean++
			continue
		}
		r.accessUnits++
		r.stream.Write(unit.Bytes)
	}
}

// ask asks for what is missing.
func (r *recorder) ask(now uint32) error {
	sources, err := r.receiver.Sources()
	if err != nil {
		return err
	}
	numbers, err := r.receiver.Nacks(now, h26x.NackTimes{Again: askAgain, Most: 10}, 64)
	if err != nil {
		return err
	}
	datagram, _, err := h26x.NACK{Sender: ownSSRC, Media: sources.Media, Numbers: numbers}.Append(nil, 1200)
	if err != nil {
		return err
	}
	r.asked += len(numbers)
	if r.receiver.KeyframeWanted(now, frameAgain) {
		datagram = h26x.PictureLoss{Sender: ownSSRC, Media: sources.Media}.Append(datagram)
		r.keyframesAsked++
	}
	if len(datagram) == 0 {
		return nil
	}
	packets, err := rtcp.Unmarshal(datagram)
	if err != nil {
		return err
	}
	return r.peer.WriteRTCP(packets)
}

// finish keeps what is left at the end of the stream.
func (r *recorder) finish() error {
	r.mu.Lock()
	defer r.mu.Unlock()
	if err := r.receiver.Finish(); err != nil {
		return err
	}
	return r.write(r.now())
}
