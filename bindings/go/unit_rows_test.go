package h26x_test

import (
	"encoding/hex"
	"errors"
	"fmt"
	"os"
	"strconv"
	"strings"
	"testing"

	"emupedestal/h26x"
)

var packings = map[string]h26x.Packing{
	"together": h26x.PackTogether, "before slices": h26x.PackBeforeSlices, "apart": h26x.PackApart, "single": h26x.PackSingle,
}

// The access units of ../streams/sent_units.txt, which says how it is written, and the packets of all their units.
func TestUnitRows(t *testing.T) {
	text, err := os.ReadFile("../streams/sent_units.txt")
	done(t, err)
	rows := 0
	for _, row := range strings.Split(strings.TrimSuffix(string(text), "\n"), "\n") {
		if row[0] == '#' {
			continue
		}
		columns := strings.Split(row, "|")
		if len(columns) != 5 {
			t.Fatal(row)
		}
		for i := range columns {
			columns[i] = strings.TrimSpace(columns[i])
		}
		sendsRow(t, row, columns)
		rows++
	}
	if rows != 54 {
		t.Errorf("%d rows", rows)
	}
}

func sendsRow(t *testing.T, row string, columns []string) {
	number, err := strconv.Atoi(columns[0][1:4])
	done(t, err)
	mtu, err := strconv.Atoi(columns[2])
	done(t, err)
	accessUnit := some("00000001" + strings.ReplaceAll(columns[3], " ", "00000001"))
	if columns[3] == "" {
		accessUnit = nil
	}
	p, err := h26x.NewPacketizer(h26x.Codec(number))
	done(t, err)
	if strings.HasSuffix(columns[0], " donl") {
		done(t, p.SetDONL(true))
	}
	packing, _, without := strings.Cut(columns[1], " without delimiters")
	done(t, p.SetPacking(packings[packing]))
	done(t, p.SetDelimiters(!without))
	other, err := p.Clone()
	done(t, err)
	into := h26x.NewPackets(2)
	count, size, sizeErr := p.UnitsSize(uint16(mtu), accessUnit, 2)
	packets, err := p.PacketizeUnits(uint16(mtu), accessUnit)
	for _, other := range []error{sizeErr, other.PacketizeUnitsInto(uint16(mtu), accessUnit, into)} {
		if got, wanted := said(other), said(err); got != wanted {
			t.Errorf("%s: %s and %s", row, got, wanted)
		}
	}
	got := said(err)
	for i, packet := range packets {
		got += " " + hex.EncodeToString(packet)
		size -= 2 + len(packet)
		if hex.EncodeToString(packet) != hex.EncodeToString(into.Packet(i)) {
			t.Errorf("%s: packet %d", row, i)
		}
	}
	if strings.TrimSpace(got) != columns[4] || count != len(packets) || into.Len() != count || size != 0 {
		t.Errorf("%s: got %s", row, got)
	}
	done(t, p.Close())
	done(t, other.Close())
}

// said is a refusal as the rows have it.
func said(err error) string {
	var e *h26x.Error
	if errors.As(err, &e) {
		return fmt.Sprintf("! %d %d %d", e.Code, e.First, e.Second)
	}
	return ""
}

func TestPackings(t *testing.T) {
	p, err := h26x.NewPacketizer(h26x.H264)
	done(t, err)
	if err := p.SetPacking(h26x.PackSingle + 1); !errors.Is(err, h26x.ErrOutOfRange) {
		t.Error(err)
	}
	_, err = p.PacketizeUnits(1200, some("0000016588000001e588"))
	if !errors.Is(err, h26x.ErrUnitForbidden) || err.Error() != "h26x: the unit has its forbidden bit set (unit 1, 2 bytes)" {
		t.Error(err)
	}
	names := fmt.Sprint(h26x.PackTogether, h26x.PackBeforeSlices, h26x.PackApart, h26x.PackSingle, h26x.Packing(4))
	if names != "PackTogether PackBeforeSlices PackApart PackSingle Packing(4)" {
		t.Error(names)
	}
	done(t, p.Close())
	for _, err := range []error{p.SetPacking(h26x.PackApart), p.SetDelimiters(true)} {
		if !errors.Is(err, h26x.ErrClosed) {
			t.Error(err)
		}
	}
}
