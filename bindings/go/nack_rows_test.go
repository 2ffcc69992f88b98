package h26x_test

import (
	"errors"
	"fmt"
	"os"
	"strconv"
	"strings"
	"testing"

	"emupedestal/h26x"
)

// The rows of ../streams/nacks.txt, which says how they are written, and the numbers that are asked for.
func TestNackRows(t *testing.T) {
	text, err := os.ReadFile("../streams/nacks.txt")
	done(t, err)
	rows := 0
	for _, row := range strings.Split(string(text), "\n") {
		if row == "" || row[0] == '#' {
			continue
		}
		rows++
		r := newAccessUnitReceiver(t, h26x.H264, h26x.AccessUnitConfig{Window: 100})
		for _, step := range strings.Fields(row) {
			if got := nackStep(t, r, step); got != "" {
				t.Errorf("%s: %s, and not %s", row, step, got)
			}
		}
	}
	if rows != 16 {
		t.Errorf("%d rows", rows)
	}
}

// nackStep does a step, and answers what was asked for where that is something else.
func nackStep(t *testing.T, r *h26x.AccessUnitReceiver, step string) string {
	t.Helper()
	asked, wanted, isAsked := strings.Cut(step, "=")
	switch {
	case isAsked:
		var now uint32
		var times h26x.NackTimes
		var room int
		_, err := fmt.Sscanf(asked, "?%d/%d/%d/%d/%d", &now, &times.First, &times.Again, &times.Most, &room)
		done(t, err)
		numbers, err := r.Nacks(now, times, room)
		done(t, err)
		got := strings.Trim(strings.Join(strings.Fields(fmt.Sprint(numbers)), ","), "[]")
		if got == "" {
			got = "-"
		}
		if got != wanted {
			return got
		}
	case step == "restart":
		done(t, r.Restart())
	default:
		number, err := strconv.ParseUint(step, 10, 16)
		done(t, err)
		pushed, _, err := r.Push(0, h26x.RTPPacket{
			Sequence: uint16(number), Timestamp: uint32(9 * number), Marker: true, Payload: some("419a80"),
		})
		done(t, err)
		if pushed != h26x.Held {
			t.Errorf("%s: %v", step, pushed)
		}
		for {
			unit, err := r.Next(0)
			done(t, err)
			if unit == nil {
				break
			}
		}
	}
	return ""
}

func TestNoNacksOnceClosed(t *testing.T) {
	r := newAccessUnitReceiver(t, h26x.H264, h26x.AccessUnitConfig{})
	if numbers, err := r.Nacks(0, h26x.NackTimes{Most: 1}, -1); len(numbers) > 0 || err != nil {
		t.Errorf("%v, %v", numbers, err)
	}
	done(t, r.Close())
	if _, err := r.Nacks(0, h26x.NackTimes{}, 8); !errors.Is(err, h26x.ErrClosed) {
		t.Errorf("%v", err)
	}
}
