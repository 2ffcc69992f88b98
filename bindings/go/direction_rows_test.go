package h26x_test

import (
	"errors"
	"os"
	"strings"
	"testing"

	"emupedestal/h26x"
)

// The answers of ../streams/directions.txt, which says how it is written.
func TestDirectionRows(t *testing.T) {
	text, err := os.ReadFile("../streams/directions.txt")
	done(t, err)
	rows := 0
	for _, row := range strings.Split(strings.TrimSuffix(string(text), "\n"), "\n") {
		if row[0] == '#' {
			continue
		}
		columns := strings.Split(row, " | ")
		codec, how, got := rowCodecs[columns[0]], optionsOf(t, columns[1]), "-"
		answer, err := formatOf(t, codec, columns[2]).AnswerWith(formatOf(t, codec, columns[3]), how)
		if !errors.Is(err, h26x.ErrSDPNoAnswer) {
			done(t, err)
			got = answer.String()
			done(t, answer.Close())
		}
		if got != columns[4] {
			t.Errorf("%s: got %s", row, got)
		}
		rows++
	}
	if rows <= 30 {
		t.Errorf("%d rows", rows)
	}
}
