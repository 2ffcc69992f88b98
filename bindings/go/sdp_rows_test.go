package h26x_test

import (
	"errors"
	"fmt"
	"os"
	"reflect"
	"strconv"
	"strings"
	"testing"

	"emupedestal/h26x"
)

// sdpRefusals are what the rows of ../streams/sdp.txt have behind a !.
var sdpRefusals = map[string]error{
	"no number":       h26x.ErrSDPNotANumber,
	"out of range":    h26x.ErrSDPOutOfRange,
	"not hexadecimal": h26x.ErrSDPNotHexadecimal,
	"no mode":         h26x.ErrSDPNotTxMode,
	"unknown name":    h26x.ErrSDPUnknownName,
	"no value":        h26x.ErrSDPNotAValue,
	"twice":           h26x.ErrSDPTwice,
	"no apt":          h26x.ErrSDPNoAPT,
	"payload type":    h26x.ErrSDPPayloadType,
	"encoding name":   h26x.ErrSDPEncodingName,
	"clock rate":      h26x.ErrSDPClockRate,
}

// isRefused compares an error with what a row wants, and tells whether it wants one.
func isRefused(t *testing.T, err error, wanted string) bool {
	t.Helper()
	words := strings.TrimPrefix(wanted, "! ")
	refused := words != wanted
	if refused != (err != nil) || refused && !errors.Is(err, sdpRefusals[words]) {
		t.Fatalf("%s: %v", wanted, err)
	}
	return refused
}

// brokenRule is a rule as a row has it.
func brokenRule(t *testing.T, err error) string {
	t.Helper()
	if err == nil {
		return "-"
	}
	words := map[h26x.Code]string{
		h26x.ErrSDPRuleProfile:      "profile",
		h26x.ErrSDPRuleLevel:        "level",
		h26x.ErrSDPRuleHighestLevel: "highest level",
		h26x.ErrSDPRuleBelowLevel:   "below level",
		h26x.ErrSDPRuleReordering:   "reordering",
		h26x.ErrSDPRuleOutOfOrder:   "out of order",
		h26x.ErrSDPRuleAboveLevel:   "above level",
		h26x.ErrSDPRuleAspectRatios: "aspect ratios",
		h26x.ErrSDPRuleInBandSets:   "sets in band",
		h26x.ErrSDPRuleHashTypes:    "hash types",
	}
	var rule *h26x.RuleError
	if !errors.As(err, &rule) || !errors.Is(err, rule.Code) {
		t.Fatal(err)
	}
	if rule.Parameter == "" {
		return words[rule.Code]
	}
	if !strings.HasSuffix(err.Error(), "("+rule.Parameter+")") {
		t.Error(err)
	}
	return words[rule.Code] + " (" + rule.Parameter + ")"
}

var rowCodecs = map[string]h26x.Codec{"h264": h26x.H264, "h265": h26x.H265, "h266": h26x.H266}

// What becomes of a parameter that is set or dropped.
func setRow(t *testing.T, columns []string) {
	t.Helper()
	f := formatOf(t, rowCodecs[columns[1]], columns[2])
	wanted := columns[len(columns)-1]
	var err error
	if columns[0] == "set" {
		err = f.Set(columns[3], columns[4])
	} else {
		err = f.Unset(columns[3])
	}
	if isRefused(t, err, wanted) {
		wanted = columns[2]
	}
	if f.String() != wanted {
		t.Errorf("%q: got %s", columns, f)
	}
}

// Which rule a format breaks, by the options of an answer.
func ruleRow(t *testing.T, columns []string) {
	t.Helper()
	f := formatOf(t, rowCodecs[columns[1]], columns[2])
	for len(columns) < 6 {
		columns = append(columns, columns[3])
	}
	for i, options := range []h26x.AnswerOptions{0, h26x.AnyOrder, h26x.AsWebRTC} {
		if got := brokenRule(t, f.BrokenRule(options)); got != columns[3+i] {
			t.Errorf("%q: got %s", columns, got)
		}
	}
	if err := f.BrokenRule(32); !errors.Is(err, h26x.ErrOutOfRange) {
		t.Errorf("%q: %v", columns, err)
	}
}

// The answer in each direction, and by multicast.
func waysRow(t *testing.T, columns []string) {
	t.Helper()
	offered, ours := formatOf(t, rowCodecs[columns[1]], columns[2]), formatOf(t, rowCodecs[columns[1]], columns[3])
	for i, options := range []h26x.AnswerOptions{0, h26x.SendOnly, h26x.RecvOnly, h26x.Multicast} {
		answer, err := offered.AnswerWith(ours, options)
		got := "-"
		if answer != nil {
			got = answer.String()
		}
		if (err != nil && !errors.Is(err, h26x.ErrSDPNoAnswer)) || got != columns[4+i] {
			t.Errorf("%q: got %s, %v", columns, got, err)
		}
	}
	if _, err := offered.AnswerWith(ours, h26x.SendOnly|h26x.RecvOnly); !errors.Is(err, h26x.ErrOutOfRange) {
		t.Errorf("%q: %v", columns, err)
	}
}

// A line of what repairs a stream.
func mapRow(t *testing.T, columns []string) {
	t.Helper()
	it, err := h26x.ReadRepairMap(columns[1])
	names := []string{"", "rtx", "red", "ulpfec", "flexfec", "flexfec-03"}
	parts := fmt.Sprintf("%d %s/%d", it.PayloadType, names[it.Format], h26x.ClockRate)
	if !isRefused(t, err, columns[2]) && (it.String() != columns[2] || parts != columns[2]) {
		t.Errorf("%q: got %s, of %s", columns, it, parts)
	}
}

// A line of a format of RTX.
func rtxRow(t *testing.T, columns []string) {
	t.Helper()
	it, err := h26x.ReadRTXFormat(columns[1])
	if isRefused(t, err, columns[2]) {
		return
	}
	time := "-"
	if it.HasRTXTime {
		time = fmt.Sprint(it.RTXTime)
	}
	got := []string{fmt.Sprint(it.PayloadType), time, it.String()}
	if !reflect.DeepEqual(got, columns[2:]) {
		t.Errorf("%q: got %q", columns, got)
	}
}

// sdpRow does what a row says, and compares what becomes of it.
func sdpRow(t *testing.T, columns []string) {
	t.Helper()
	switch columns[0] {
	case "set", "drop":
		setRow(t, columns)
	case "rule":
		ruleRow(t, columns)
	case "ways":
		waysRow(t, columns)
	case "map":
		mapRow(t, columns)
	case "rtx":
		rtxRow(t, columns)
	case "agree":
		agreeRow(t, rowCodecs[columns[1]], columns[2:])
	case "declared":
		declaredRow(t, rowCodecs[columns[1]], columns[2:])
	case "level":
		levelRow(t, rowCodecs[columns[1]], columns[2:])
	default:
		t.Fatal(columns)
	}
}

// optionsOf are those that the words of a row say.
func optionsOf(t *testing.T, words string) (options h26x.AnswerOptions) {
	t.Helper()
	known := map[string]h26x.AnswerOptions{"both": 0, "sends": h26x.SendOnly, "receives": h26x.RecvOnly,
		"webrtc": h26x.AsWebRTC, "multicast": h26x.Multicast, "any-order": h26x.AnyOrder}
	for _, word := range strings.Fields(words) {
		option, ok := known[word]
		if !ok {
			t.Fatal(words)
		}
		options |= option
	}
	return options
}

// streamOf is a stream as a row has it.
func streamOf(codec h26x.Codec, it *h26x.AgreedStream) string {
	if it == nil {
		return "-"
	}
	mode := "-"
	if codec == h26x.H264 {
		mode = fmt.Sprint(it.Mode)
	}
	sets := map[h26x.AgreedSets]string{h26x.SetsInBand: "in-band", h26x.SetsTold: "told", h26x.SetsToldOfLevel: "told-of-level"}
	return fmt.Sprint(it.Level, " ", mode, " ", sets[it.Sets])
}

// agreeRow compares what both ends agree on, each as its own and the other's.
func agreeRow(t *testing.T, codec h26x.Codec, columns []string) {
	t.Helper()
	own, other, options := formatOf(t, codec, columns[1]), formatOf(t, codec, columns[2]), optionsOf(t, columns[0])
	sends, receives, err := own.Agreed(other, options)
	done(t, err)
	if got := []string{streamOf(codec, sends), streamOf(codec, receives)}; !reflect.DeepEqual(got, columns[3:]) {
		t.Errorf("%q: got %q", columns, got)
	}
	turned := map[h26x.AnswerOptions]h26x.AnswerOptions{h26x.SendOnly: h26x.RecvOnly, h26x.RecvOnly: h26x.SendOnly}
	way := options & (h26x.SendOnly | h26x.RecvOnly)
	receives, sends, err = other.Agreed(own, options&^way|turned[way])
	done(t, err)
	if got := []string{streamOf(codec, sends), streamOf(codec, receives)}; !reflect.DeepEqual(got, columns[3:]) {
		t.Errorf("%q: the other end has %q", columns, got)
	}
	_, _, err = own.Agreed(other, options|32)
	refuses(t, err, h26x.ErrOutOfRange)
}

// declaredRow compares whether a declared format is received.
func declaredRow(t *testing.T, codec h26x.Codec, columns []string) {
	t.Helper()
	declared, ours, options := formatOf(t, codec, columns[1]), formatOf(t, codec, columns[2]), optionsOf(t, columns[0])
	got, err := ours.AcceptsDeclared(declared, options)
	done(t, err)
	if word := map[bool]string{true: "yes", false: "no"}[got]; word != columns[3] {
		t.Errorf("%q: got %s", columns, word)
	}
	_, err = ours.AcceptsDeclared(declared, options|32)
	refuses(t, err, h26x.ErrOutOfRange)
}

// levelRow compares the sets of a level, which are what sprop-parameter-sets says them to be.
func levelRow(t *testing.T, codec h26x.Codec, columns []string) {
	t.Helper()
	level, err := strconv.ParseUint(columns[1], 10, 64)
	done(t, err)
	sets, err := formatOf(t, codec, columns[0]).SetsOfLevel(level)
	wanted := columns[2]
	if words := strings.TrimPrefix(wanted, "! "); words != wanted {
		if got := levelFault(t, err); sets != nil || got != words {
			t.Errorf("%q: got %s", columns, got)
		}
		return
	}
	done(t, err)
	var units [][]byte
	if wanted != "-" {
		units, err = formatOf(t, h26x.H264, "sprop-parameter-sets="+wanted).Units("sprop-parameter-sets")
		done(t, err)
	}
	sameAll(t, sets, units)
}

// levelFault is why there are no sets of a level, as a row has it.
func levelFault(t *testing.T, err error) string {
	t.Helper()
	if errors.Is(err, h26x.ErrNotOfThisCodec) {
		return "codec"
	}
	var fault *h26x.LevelSetsError
	if !errors.As(err, &fault) {
		t.Fatal(err)
	}
	for words, code := range map[string]h26x.Code{
		"not hexadecimal": h26x.ErrSDPNotHexadecimal, "no sets": h26x.ErrSDPNoLevelSets, "no base64": h26x.ErrSDPNotBase64,
		"empty unit": h26x.ErrSDPEmptyUnit, "other type": h26x.ErrSDPOtherType, "start code": h26x.ErrSDPStartCode,
	} {
		if errors.Is(fault, code) {
			return fmt.Sprint(words, " ", fault.Place)
		}
	}
	return err.Error()
}

// What is of two codecs isn't agreed on, and what is closed makes no call.
func TestNothingIsAgreed(t *testing.T) {
	own, other := formatOf(t, h26x.H264, "profile-level-id=42e01f"), formatOf(t, h26x.H265, "level-id=93")
	_, _, err := own.Agreed(other, 0)
	refuses(t, err, h26x.ErrSDPNoAnswer)
	accepts, err := own.AcceptsDeclared(other, 0)
	if accepts || err != nil {
		t.Error(accepts, err)
	}
	for _, codec := range codecs[1:] {
		_, err = formatOf(t, codec, "").SetsOfLevel(93)
		refuses(t, err, h26x.ErrNotOfThisCodec)
	}
	done(t, other.Close())
	for name, call := range map[string]func() error{
		"Agreed":                      func() error { _, _, err := other.Agreed(own, 0); return err },
		"Agreed, by the other":        func() error { _, _, err := own.Agreed(other, 0); return err },
		"AcceptsDeclared":             func() error { _, err := other.AcceptsDeclared(own, 0); return err },
		"AcceptsDeclared, a declared": func() error { _, err := own.AcceptsDeclared(other, 0); return err },
		"SetsOfLevel":                 func() error { _, err := other.SetsOfLevel(93); return err },
	} {
		if err := call(); !errors.Is(err, h26x.ErrClosed) {
			t.Errorf("%s: %v", name, err)
		}
	}
	got := fmt.Sprint(h26x.SetsInBand, h26x.SetsTold, h26x.SetsToldOfLevel, h26x.AgreedSets(3))
	if got != "SetsInBand SetsTold SetsToldOfLevel AgreedSets(3)" {
		t.Error(got)
	}
}

// What isn't one isn't written.
func TestNoRepair(t *testing.T) {
	for _, one := range []struct {
		text func() (string, error)
		code error
	}{
		{h26x.RepairMap{128, h26x.RepairRTX}.Text, h26x.ErrSDPPayloadType},
		{h26x.RepairMap{97, 0}.Text, h26x.ErrOutOfRange},
		{h26x.RepairMap{97, 6}.Text, h26x.ErrOutOfRange},
		{h26x.RTXFormat{PayloadType: 128}.Text, h26x.ErrSDPPayloadType},
	} {
		if text, err := one.text(); text != "" || !errors.Is(err, one.code) {
			t.Errorf("%q, %v", text, err)
		}
	}
}

// The rows of ../streams/sdp.txt, which says how they are written.
func TestSDPRows(t *testing.T) {
	text, err := os.ReadFile("../streams/sdp.txt")
	done(t, err)
	rows := 0
	for _, row := range strings.Split(strings.TrimSuffix(string(text), "\n"), "\n") {
		if row[0] == '#' {
			continue
		}
		columns := strings.Split(row, "|")
		for i := range columns {
			columns[i] = strings.TrimSpace(columns[i])
		}
		sdpRow(t, columns)
		rows++
	}
	if rows <= 80 {
		t.Errorf("%d rows", rows)
	}
}
