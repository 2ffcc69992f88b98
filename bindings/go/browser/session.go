package main

import (
	_ "embed"
	"encoding/json"
	"errors"
	"net"
	"net/http"
	"os"
	"os/exec"
	"syscall"
	"time"

	"emupedestal/h26x"

	"github.com/pion/interceptor"
	"github.com/pion/webrtc/v3"
)

// How long a run may take beside the stream itself.
const patience = 40 * time.Second

//go:embed page.html
var page []byte

// told is what the page tells: statistics of its connection, and of a stream that it shows how many pictures were put on
// the screen, and the hash of each that was decoded.
type told struct {
	FramesReceived, FramesDecoded, FramesDropped, FramesPresented int
	KeyFramesDecoded, PacketsReceived, PacketsLost                int
	FramesSent, PacketsSent, RetransmittedPacketsSent             int
	NackCount, PliCount                                           int
	Frames                                                        []string
}

// An end sends or receives at a session, by a format that it has answered.
type end interface {
	ours() (*h26x.FormatParameters, error)
	begin(*webrtc.PeerConnection, webrtc.RTPCodecParameters) error
	// play does what there is to do once the page is connected.
	play() error
}

// A session is a connection to the page of one browser. DTLS, SRTP and ICE are Pion's; RTP and RTCP are the end's.
type session struct {
	end    end
	peer   *webrtc.PeerConnection
	format webrtc.RTPCodecParameters
	told   chan told
	failed chan error
}

// connect makes a Pion that has no part in RTP and RTCP, to answer the page's offer.
func (s *session) connect(offer string) error {
	ours, err := s.end.ours()
	if err != nil {
		return err
	}
	if s.format, err = answered(offer, ours); err != nil {
		return err
	}
	engine := &webrtc.MediaEngine{}
	if err := engine.RegisterCodec(s.format, webrtc.RTPCodecTypeVideo); err != nil {
		return err
	}
	settings := webrtc.SettingEngine{}
	// SRTP takes a packet once, and behind it one is lost here that comes again.
	settings.DisableSRTPReplayProtection(true)
	api := webrtc.NewAPI(webrtc.WithMediaEngine(engine), webrtc.WithSettingEngine(settings),
		webrtc.WithInterceptorRegistry(&interceptor.Registry{}))
	if s.peer, err = api.NewPeerConnection(webrtc.Configuration{}); err != nil {
		return err
	}
	return s.end.begin(s.peer, s.format)
}

// answer answers the page's offer.
func (s *session) answer(offer webrtc.SessionDescription) (*webrtc.SessionDescription, error) {
	if err := s.connect(offer.SDP); err != nil {
		return nil, err
	}
	if err := s.peer.SetRemoteDescription(offer); err != nil {
		return nil, err
	}
	answer, err := s.peer.CreateAnswer(nil)
	if err != nil {
		return nil, err
	}
	gathered := webrtc.GatheringCompletePromise(s.peer)
	if err := s.peer.SetLocalDescription(answer); err != nil {
		return nil, err
	}
	<-gathered
	answer = *s.peer.LocalDescription()
	answer.SDP = withFormat(answer.SDP, s.format)
	return &answer, nil
}

func (s *session) close() {
	if s.peer != nil {
		s.peer.Close()
	}
}

// ServeHTTP gives the browser the page, and does what the page asks for.
func (s *session) ServeHTTP(w http.ResponseWriter, request *http.Request) {
	err := s.serve(w, request)
	if err != nil {
		http.Error(w, err.Error(), http.StatusInternalServerError)
		s.failed <- err
	}
}

func (s *session) serve(w http.ResponseWriter, request *http.Request) error {
	var offer webrtc.SessionDescription
	var counts told
	var failure string
	body := json.NewDecoder(request.Body)
	switch request.URL.Path {
	case "/offer":
		if err := body.Decode(&offer); err != nil {
			return err
		}
		answer, err := s.answer(offer)
		if err != nil {
			return err
		}
		return json.NewEncoder(w).Encode(answer)
	case "/play":
		return s.end.play()
	case "/counts":
		if err := body.Decode(&counts); err != nil {
			return err
		}
		s.told <- counts
	case "/failed":
		if err := body.Decode(&failure); err != nil {
			return err
		}
		return errors.New(failure)
	case "/":
		_, err := w.Write(page)
		return err
	default:
		http.NotFound(w, request)
	}
	return nil
}

// with has a browser open the page, whose stream has a length, and answers what that tells.
func with(browser, query string, length time.Duration, end end) (told, error) {
	s := &session{end: end, told: make(chan told, 1), failed: make(chan error, 9)}
	defer s.close()
	listener, err := net.Listen("tcp", "127.0.0.1:0")
	if err != nil {
		return told{}, err
	}
	defer listener.Close()
	go http.Serve(listener, s)
	profile, err := os.MkdirTemp("", "browser")
	if err != nil {
		return told{}, err
	}
	defer os.RemoveAll(profile)
	program := exec.Command(browser, "--headless=new", "--no-sandbox", "--disable-gpu", "--no-first-run",
		"--disable-dev-shm-usage", "--autoplay-policy=no-user-gesture-required", "--disable-features=WebRtcHideLocalIpsWithMdns",
		"--use-fake-ui-for-media-stream", "--use-fake-device-for-media-stream", "--user-data-dir="+profile,
		"http://"+listener.Addr().String()+"/?"+query)
	// Its own processes end with it.
	program.SysProcAttr = &syscall.SysProcAttr{Setpgid: true}
	if err := program.Start(); err != nil {
		return told{}, err
	}
	defer program.Wait()
	defer syscall.Kill(-program.Process.Pid, syscall.SIGKILL)
	select {
	case counts := <-s.told:
		return counts, nil
	case err := <-s.failed:
		return told{}, err
	case <-time.After(patience + length):
		return told{}, errors.New("the browser tells nothing")
	}
}
