package h26x_test

import (
	"bytes"
	"encoding/base64"
	"os"
	"os/exec"
	"runtime"
	"strconv"
	"strings"
	"sync"
	"syscall"
	"testing"

	"emupedestal/h26x"
)

// again runs this test again as a process of its own, and answers whether that is this one.
func again(t *testing.T) bool {
	t.Helper()
	if os.Getenv("H26X_TEST_LITTLE_MEMORY") != "" {
		return true
	}
	again := exec.Command(os.Args[0], "-test.run=^"+t.Name()+"$", "-test.v")
	again.Env = append(os.Environ(), "H26X_TEST_LITTLE_MEMORY=1")
	if told, err := again.CombinedOutput(); err != nil || !strings.Contains(string(told), "--- PASS: "+t.Name()) {
		t.Fatalf("%v: %s", err, told)
	}
	return false
}

// littleMemory leaves this process 64 MiB more. What Go keeps of types whose errors are compared is made before.
func littleMemory(t *testing.T) {
	t.Helper()
	refuses(t, &h26x.Error{Code: h26x.ErrOutOfMemory}, h26x.ErrOutOfMemory)
	told, err := os.ReadFile("/proc/self/statm")
	done(t, err)
	pages, err := strconv.ParseUint(strings.Fields(string(told))[0], 10, 64)
	done(t, err)
	limit := pages*uint64(os.Getpagesize()) + 64<<20
	done(t, syscall.Setrlimit(syscall.RLIMIT_AS, &syscall.Rlimit{Cur: limit, Max: limit}))
}

// Want of memory is an error, and changes nothing. The test runs itself again as a process with little memory.
func TestWantOfMemory(t *testing.T) {
	if !again(t) {
		return
	}
	d, packet := newDepacketizer(t, h26x.H264, false, false), append(some("7c85"), make([]byte, 60000)...)
	out := make([]byte, 0, 2*len(packet))
	_, _, err := d.DepacketizeInto(out, packet)
	done(t, err)
	littleMemory(t)
	packet[1] = 0x05
	for n := 0; err == nil && n < 5000; n++ {
		_, _, err = d.DepacketizeInto(out, packet)
	}
	refuses(t, err, h26x.ErrOutOfMemory)
	// The same packet is refused again, until there is memory.
	_, _, err = d.DepacketizeInto(out, packet)
	refuses(t, err, h26x.ErrOutOfMemory)
	done(t, d.GiveUpRun())
	takes(t, d, "7c8501", "", h26x.NoUnits)
	takes(t, d, "7c4502", "00000001 650102", h26x.Keyframe)
}

// So it is of packets that wait: one that is refused can be given again.
func TestWantOfMemoryForWhatWaits(t *testing.T) {
	if !again(t) {
		return
	}
	u := newAccessUnitReceiver(t, h26x.H264, h26x.AccessUnitConfig{Window: 1 << 14, Far: -1, HeldLimit: 1 << 30})
	// So long that Go itself has memory left.
	packet, sequence := append(some("61"), make([]byte, 4<<20)...), uint16(0)
	push := func() error {
		_, _, err := u.Push(0, h26x.RTPPacket{Sequence: sequence, Payload: packet})
		return err
	}
	littleMemory(t)
	var err error
	for ; err == nil && sequence < 5000; sequence++ {
		err = push()
	}
	refuses(t, err, h26x.ErrOutOfMemory)
	sequence--
	refuses(t, push(), h26x.ErrOutOfMemory)
	lacks(t, u)
	done(t, u.Restart())
	done(t, push())
	done(t, u.Finish())
	unit, err := u.Next(0)
	done(t, err)
	same(t, unit.Bytes, annexB(packet))
	counts(t, u, h26x.Counts{Taken: 1, Units: 1})
}

// startThreads has Go start threads, since each that is started later takes much of the memory that is left.
func startThreads() {
	const threads = 16
	var started, ended sync.WaitGroup
	started.Add(threads)
	ended.Add(threads)
	for n := 0; n < threads; n++ {
		go func() {
			defer ended.Done()
			runtime.LockOSThread()
			defer runtime.UnlockOSThread()
			started.Done()
			started.Wait()
		}()
	}
	ended.Wait()
}

// So it is of format parameters: those that are there stay, and where some are closed others are made.
func TestWantOfMemoryForFormatParameters(t *testing.T) {
	if !again(t) {
		return
	}
	// Go itself takes no memory for the bytes of a stream, which begins with a long SPS.
	set := append(some("6742c01f"), bytes.Repeat([]byte{0x61}, 1<<18)...)
	payload, held := annexB(set), make([]*h26x.FormatParameters, 0, 5000)
	text := "profile-level-id=42c01f;sprop-parameter-sets=" + base64.StdEncoding.EncodeToString(set) + ";packetization-mode=1"
	another := func() error {
		f, err := h26x.FormatParametersOfPayload(h26x.H264, payload)
		if err == nil {
			held = append(held, f)
		}
		return err
	}
	startThreads()
	runtime.LockOSThread()
	done(t, another())
	littleMemory(t)
	var err error
	for err == nil && len(held) < cap(held) {
		err = another()
	}
	refuses(t, err, h26x.ErrOutOfMemory)
	if len(held) < 10 {
		t.Fatalf("%d are made", len(held))
	}
	for _, f := range held[1:] {
		done(t, f.Close())
	}
	isWritten(t, held[0], text)
	done(t, another())
}
