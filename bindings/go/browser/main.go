// Program browser talks to headless Chromium over WebRTC, which is Pion's, and prints in one line what was told at both
// ends.
//
// With a stream of H.264 it has the page show it: an RTPSender makes the packets, and sends those again that are lost on
// the way. It fails where a frame isn't decoded, or isn't the one that FFmpeg decodes. Else it records for some seconds
// what a camera of the page films, by an RTPReceiver: it fails where a frame that was sent isn't recorded, or FFmpeg doesn't
// decode it.
package main

import (
	"bufio"
	"bytes"
	"flag"
	"fmt"
	"log"
	"os"
	"os/exec"
	"strings"
	"sync/atomic"
	"time"

	"emupedestal/h26x"
)

var packings = map[string]h26x.Packing{
	"together": h26x.PackTogether, "before-slices": h26x.PackBeforeSlices, "apart": h26x.PackApart,
}

func main() {
	log.SetFlags(0)
	packing := flag.String("packing", "together", "which units share a packet: together, before-slices or apart")
	mtu := flag.Uint("mtu", 1200, "the longest payload, in bytes")
	lost := flag.Int("lost", 0, "one packet of so many is lost on the way, none by 0")
	seconds := flag.Int("record", 0, "how many seconds of the page's camera are recorded, instead")
	browser := flag.String("browser", "chromium", "the browser")
	flag.Parse()
	asked, ok := packings[*packing]
	if !ok || *mtu > 65535 {
		log.Fatalf("no packing %q, or no length %d", *packing, *mtu)
	}
	isWhole := false
	if *seconds > 0 {
		isWhole = record(*browser, *seconds, *lost)
	} else {
		isWhole = show(*browser, flag.Arg(0), asked, uint16(*mtu), *lost)
	}
	if !isWhole {
		os.Exit(1)
	}
}

func check(err error) {
	if err != nil {
		log.Fatal(err)
	}
}

// show has a browser show a stream, and tells whether each frame was.
func show(browser, name string, packing h26x.Packing, mtu uint16, lost int) bool {
	stream, err := os.ReadFile(name)
	check(err)
	made, err := packetize(packing, mtu, stream)
	check(err)
	by, count := &streamer{stream: stream, accessUnits: made.packets, lost: lost}, len(made.packets)
	told, err := with(browser, fmt.Sprint("watch=", count), time.Duration(count)*time.Second/perSecond, by)
	check(err)
	exact, again := same(told.Frames, hashes("-f", "h264", "-i", name)), int(atomic.LoadInt32(&by.again))
	fmt.Printf("%d access units, %d units, %d packets (%d aggregates, %d of slices), %d lost, %d sent again; browser: %d "+
		"packets received, %d NACK, %d PLI; frames: %d received, %d decoded (%d keyframes), %d dropped, %d presented, %d "+
		"as of FFmpeg\n", count, made.units, made.sent, made.aggregates, made.ofSlices, by.missed, again,
		told.PacketsReceived, told.NackCount, told.PliCount, told.FramesReceived, told.FramesDecoded, told.KeyFramesDecoded,
		told.FramesDropped, told.FramesPresented, exact)
	return told.FramesDecoded == count && exact == count && (lost == 0 || by.missed > 0 && again >= by.missed)
}

// record records what a browser films, and tells whether each frame was.
func record(browser string, seconds, lost int) bool {
	by := &recorder{lost: lost, losing: time.Duration(seconds) * time.Second / 2}
	told, err := with(browser, fmt.Sprint("film=", seconds), time.Duration(seconds)*time.Second, by)
	check(err)
	check(by.finish())
	file, err := os.CreateTemp("", "recorded")
	check(err)
	defer os.Remove(file.Name())
	_, err = file.Write(by.stream.Bytes())
	check(err)
	decoded := 0
	if by.accessUnits > 0 {
		decoded = len(hashes("-f", "h264", "-i", file.Name()))
	}
	fmt.Printf("%d frames sent in %d packets, of which %d again; %d packets came, %d lost, %d numbers and %d keyframes asked "+
		"for; %d access units recorded, %d unclean, %d decoded by FFmpeg\n", told.FramesSent, told.PacketsSent,
		told.RetransmittedPacketsSent, by.came, by.missed, by.asked, by.keyframesAsked, by.accessUnits, by.unclean, decoded)
	return told.FramesSent > 0 && by.accessUnits == told.FramesSent && decoded == by.accessUnits &&
		(lost == 0 || by.missed > 0)
}

// hashes are those of the frames that FFmpeg decodes of its input.
func hashes(input ...string) (all []string) {
	arguments := append([]string{"-v", "error"}, input...)
	arguments = append(arguments, "-fps_mode", "passthrough", "-f", "framehash", "-hash", "sha256", "-")
	told, err := exec.Command("ffmpeg", arguments...).Output()
	check(err)
	for lines := bufio.NewScanner(bytes.NewReader(told)); lines.Scan(); {
		if line := lines.Text(); !strings.HasPrefix(line, "#") {
			all = append(all, strings.TrimSpace(line[strings.LastIndex(line, ",")+1:]))
		}
	}
	return all
}

// same counts the places at which two lists have the same.
func same(some, others []string) (count int) {
	for i := 0; i < len(some) && i < len(others); i++ {
		if some[i] == others[i] {
			count++
		}
	}
	return count
}
