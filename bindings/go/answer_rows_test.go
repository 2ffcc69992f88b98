package h26x_test

import (
	"errors"
	"os"
	"strings"
	"testing"

	"emupedestal/h26x"
)

// answerWith answers by options.
func answerWith(offered *h26x.FormatParameters,
	options h26x.AnswerOptions) func(*h26x.FormatParameters) (*h26x.FormatParameters, error) {
	return func(ours *h26x.FormatParameters) (*h26x.FormatParameters, error) {
		return offered.AnswerWith(ours, options)
	}
}

// The offers and answers of ../streams/answers.txt, which says how it is written.
func TestAnswerRows(t *testing.T) {
	text, err := os.ReadFile("../streams/answers.txt")
	done(t, err)
	codecs := map[string]h26x.Codec{"h264": h26x.H264, "h265": h26x.H265, "h266": h26x.H266}
	rows := 0
	for _, row := range strings.Split(strings.TrimSuffix(string(text), "\n"), "\n") {
		if row[0] == '#' {
			continue
		}
		columns := strings.Split(row, "|")
		for len(columns) > 3 && len(columns) < 6 {
			columns = append(columns, columns[3])
		}
		if len(columns) < 6 {
			t.Fatal(row)
		}
		for i := range columns {
			columns[i] = strings.TrimSpace(columns[i])
		}
		codec := codecs[columns[0]]
		offered, ours := formatOf(t, codec, columns[1]), formatOf(t, codec, columns[2])
		for i, answered := range []func(*h26x.FormatParameters) (*h26x.FormatParameters, error){
			offered.Answer, offered.AnswerAnyOrder,
			func(ours *h26x.FormatParameters) (*h26x.FormatParameters, error) {
				return offered.AnswerWebRTC(ours, false)
			},
			answerWith(offered, 0), answerWith(offered, h26x.AnyOrder), answerWith(offered, h26x.AsWebRTC),
		} {
			got := "-"
			answer, err := answered(ours)
			if !errors.Is(err, h26x.ErrSDPNoAnswer) {
				done(t, err)
				got = answer.String()
				done(t, answer.Close())
			}
			if got != columns[3+i%3] {
				t.Errorf("%s: got %s", row, got)
			}
		}
		if len(columns) > 7 {
			peers := columns[7]
			if peers != "-" {
				peers = formatOf(t, codec, peers).String()
			}
			if (peers == columns[5]) == (len(columns) > 8) {
				t.Errorf("%s: the peer says %s", row, peers)
			}
		}
		rows++
	}
	if rows <= 40 {
		t.Errorf("%d rows", rows)
	}
}
