package h26x_test

import (
	"fmt"
	"os"
	"strconv"
	"strings"
	"testing"

	"emupedestal/h26x"
)

// The texts of ../streams/unit_places.txt, which says how it is written, and the places of their units.
func TestPlaceRows(t *testing.T) {
	text, err := os.ReadFile("../streams/unit_places.txt")
	done(t, err)
	rows := 0
	for _, row := range strings.Split(strings.TrimSuffix(string(text), "\n"), "\n") {
		if row[0] == '#' {
			continue
		}
		columns := strings.Split(row, "|")
		if len(columns) != 3 {
			t.Fatal(row)
		}
		form, payload := strings.TrimSpace(columns[0]), some(columns[1])
		units := h26x.AVCUnitsOf(payload)
		if form != "lengths" {
			number, err := strconv.Atoi(form[1:])
			done(t, err)
			units = h26x.UnitsOf(h26x.Codec(number), payload)
		}
		found := []string{}
		for units.Next() {
			begin, end := units.Place()
			found = append(found, fmt.Sprintf("%d-%d", begin, end))
			if string(units.Unit()) != string(payload[begin:end]) || cap(units.Unit()) != end-begin {
				t.Errorf("%s: %x", row, units.Unit())
			}
		}
		if begin, end := units.Place(); begin != 0 || end != 0 || units.Unit() != nil {
			t.Errorf("%s: a place behind the last", row)
		}
		if said := strings.Join(found, " "); said != strings.TrimSpace(columns[2]) {
			t.Errorf("%s: %s", row, said)
		}
		rows++
	}
	if rows != 22 {
		t.Errorf("%d rows", rows)
	}
}
