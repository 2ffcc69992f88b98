package h26x_test

import (
	"bytes"
	"fmt"
	"os"
	"strconv"
	"strings"
	"testing"

	"emupedestal/h26x"
)

// The streams of ../streams/access_units.txt, which says how it is written, and the access units that are given out of them.
func TestAccessUnitRows(t *testing.T) {
	text, err := os.ReadFile("../streams/access_units.txt")
	done(t, err)
	rows := 0
	for _, row := range strings.Split(strings.ReplaceAll(string(text), "\\\n", ""), "\n") {
		if row != "" && row[0] != '#' {
			walk(t, row)
			rows++
		}
	}
	if rows <= 50 {
		t.Errorf("%d rows", rows)
	}
}

// walk gives the packets of a row, and compares what is given out, and counted.
func walk(t *testing.T, row string) {
	t.Helper()
	sent, wanted, _ := strings.Cut(row, " = ")
	wanted, counts, _ := strings.Cut(wanted, " | ")
	words := strings.Fields(sent)
	codec := map[string]h26x.Codec{"h264": h26x.H264, "h265": h26x.H265, "h266": h26x.H266}[words[0]]
	config := h26x.AccessUnitConfig{Window: 1, DONL: words[1] == "numbers"}
	if config.DONL {
		words = words[1:]
	}
	r := newAccessUnitReceiver(t, codec, config)
	var got []h26x.AccessUnit
	for _, packet := range words[1:] {
		got = append(got, pushRow(t, r, packet)...)
	}
	units := strings.Fields(wanted)
	if len(got) != len(units) {
		t.Fatalf("%s: got %d access units", row, len(got))
	}
	for i, unit := range got {
		at := strings.LastIndexByte(units[i], ':')
		if saidOf(unit) != units[i][:at] {
			t.Errorf("%s: got %s", row, saidOf(unit))
		}
		data := some("00000001" + strings.ReplaceAll(units[i][at+1:], "+", "00000001"))
		first := fmt.Sprintf("%d:%d", unit.First, unit.Timestamp)
		if !bytes.Equal(unit.Bytes, data) || !strings.Contains(sent, " "+first) {
			t.Errorf("%s: got %x of timestamp %d", row, unit.Bytes, unit.Timestamp)
		}
	}
	comparesCounts(t, r, strings.Fields(counts), row)
}

// answers are what becomes of a packet, by the letter of it; one that is held has none.
var answers = map[byte]h26x.Pushed{
	'l': h26x.PushedLate, 't': h26x.Twice, 's': h26x.Stray, 'a': h26x.Anew, 'j': h26x.Jumped,
}

// pushRow gives a packet, and takes what has ended.
func pushRow(t *testing.T, r *h26x.AccessUnitReceiver, packet string) (got []h26x.AccessUnit) {
	t.Helper()
	if packet == "end" {
		done(t, r.Finish())
	} else {
		parts := strings.Split(packet, ":")
		number, err := strconv.Atoi(parts[0])
		done(t, err)
		timestamp, err := strconv.Atoi(strings.TrimRight(parts[1], "mltsaj"))
		done(t, err)
		pushed, _, err := r.Push(0, h26x.RTPPacket{Sequence: uint16(number), Timestamp: uint32(timestamp),
			Marker: strings.Contains(parts[1], "m"), Payload: some(parts[2])})
		done(t, err)
		if wanted := answers[parts[1][len(parts[1])-1]]; pushed != wanted {
			t.Errorf("%s: got %v", packet, pushed)
		}
	}
	for {
		unit, err := r.Next(0)
		done(t, err)
		if unit == nil {
			return got
		}
		got = append(got, *unit)
	}
}

// saidOf is what is told of an access unit, as the text has it.
func saidOf(unit h26x.AccessUnit) string {
	told := ""
	for _, fact := range []struct {
		is     bool
		letter string
	}{{unit.Extra == h26x.Keyframe, "k"}, {unit.IsWhole, "w"}, {unit.IsClean, "c"}, {unit.Continues, "g"}} {
		if fact.is {
			told += fact.letter
		}
	}
	if unit.Missing > 0 {
		told += fmt.Sprint(unit.Missing)
	}
	if told == "" {
		told = "-"
	}
	return fmt.Sprintf("%d-%d:%s", unit.First, unit.Last, told)
}

// comparesCounts compares the counts that a row may name.
func comparesCounts(t *testing.T, r *h26x.AccessUnitReceiver, wanted []string, row string) {
	t.Helper()
	counted, err := r.Counts()
	done(t, err)
	got := map[string]uint64{
		"no_unit": counted.NoUnit, "still": counted.Still, "unbelieved": counted.Unbelieved, "refused": counted.Refused,
		"lost": counted.Lost, "late": counted.Late, "twice": counted.Twice, "stray": counted.Stray, "anew": counted.Anew,
	}
	for i := 0; i < len(wanted); i += 2 {
		if fmt.Sprint(got[wanted[i]]) != wanted[i+1] {
			t.Errorf("%s: %s: got %d", row, wanted[i], got[wanted[i]])
		}
		delete(got, wanted[i])
	}
	for name, count := range got {
		if count != 0 {
			t.Errorf("%s: %s: got %d", row, name, count)
		}
	}
}
