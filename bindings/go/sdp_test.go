package h26x_test

import (
	"encoding/base64"
	"errors"
	"math"
	"reflect"
	"runtime"
	"strings"
	"sync"
	"testing"
	"time"

	"emupedestal/h26x"
)

// Lines are of real ends: as Chromium, Firefox and Safari offer them, as FFmpeg 5.1.9 and GStreamer 1.22.0 wrote them
// in a run, and the examples of the RFCs.
const (
	chromium = "level-asymmetry-allowed=1;packetization-mode=1;profile-level-id=42e01f"
	safari   = "level-asymmetry-allowed=1;packetization-mode=1;profile-level-id=640c1f"
	h265Line = "level-id=180;profile-id=1;tier-flag=0;tx-mode=SRST"
)

func formatOf(t *testing.T, codec h26x.Codec, text string) *h26x.FormatParameters {
	t.Helper()
	f, err := h26x.ReadFormatParameters(codec, text)
	done(t, err)
	t.Cleanup(func() { f.Close() })
	return f
}

func isWritten(t *testing.T, f *h26x.FormatParameters, wanted string) {
	t.Helper()
	if text, err := f.Text(); err != nil || text != wanted || f.String() != wanted {
		t.Fatalf("got %q and %v, wanted %q", text, err, wanted)
	}
}

func TestLinesOfFormatParameters(t *testing.T) {
	for _, one := range []struct {
		codec        h26x.Codec
		line, wanted string
	}{
		// Chromium, Safari, Firefox.
		{h26x.H264, chromium, "profile-level-id=42e01f;level-asymmetry-allowed=1;packetization-mode=1"},
		{h26x.H264, safari, "profile-level-id=640c1f;level-asymmetry-allowed=1;packetization-mode=1"},
		{h26x.H264, "profile-level-id=42e01f;level-asymmetry-allowed=1",
			"profile-level-id=42e01f;level-asymmetry-allowed=1"},
		{h26x.H265, h265Line, "profile-id=1;tier-flag=0;level-id=180;tx-mode=SRST"},
		// FFmpeg, GStreamer.
		{h26x.H264, "packetization-mode=1; sprop-parameter-sets=Z0LACtkJbARAAAADAEAAAAyDxImS,aMuBEsg=; " +
			"profile-level-id=42C00A",
			"profile-level-id=42C00A;sprop-parameter-sets=Z0LACtkJbARAAAADAEAAAAyDxImS,aMuBEsg=;packetization-mode=1"},
		{h26x.H264, "packetization-mode=1;sprop-parameter-sets=Z01AFeygoP2AtQYGBqUAAAMAAQAAAwA8jxYtlg==,aOvssg==;" +
			"profile-level-id=4d4015;level-asymmetry-allowed=1",
			"profile-level-id=4d4015;sprop-parameter-sets=Z01AFeygoP2AtQYGBqUAAAMAAQAAAwA8jxYtlg==,aOvssg==;" +
				"level-asymmetry-allowed=1;packetization-mode=1"},
		{h26x.H265, "sprop-vps=QAEMAf//AWAAAAMAkAAAAwAAAwA8lZgJ; " +
			"sprop-sps=QgEBAWAAAAMAkAAAAwAAAwA8oAoIDxZZWaSTK8BaAgAAAwACAAADADIQ; sprop-pps=RAHBcrRiQA==",
			"sprop-vps=QAEMAf//AWAAAAMAkAAAAwAAAwA8lZgJ;" +
				"sprop-sps=QgEBAWAAAAMAkAAAAwAAAwA8oAoIDxZZWaSTK8BaAgAAAwACAAADADIQ;sprop-pps=RAHBcrRiQA=="},
		// RFC 6184, 8.2.1; RFC 7798, 7.1; RFC 9328, 7.2.
		{h26x.H264, "profile-level-id=42A01E;\r\n packetization-mode=1;\r\n sprop-parameter-sets=Z0IACpZTBYmI,aMljiA==",
			"profile-level-id=42A01E;sprop-parameter-sets=Z0IACpZTBYmI,aMljiA==;packetization-mode=1"},
		{h26x.H265, "dec-parallel-cap={w:8;level-id=93,t:4;level-id=90}; level-id=120",
			"level-id=120;dec-parallel-cap={w:8;level-id=93,t:4;level-id=90}"},
		{h26x.H266, "profile-id=17; level-id=83; tier-flag=1; sprop-dci=AGk=",
			"profile-id=17;tier-flag=1;level-id=83;sprop-dci=AGk="},
		// Nothing, blanks, names in capitals, and what no RFC has.
		{h26x.H264, "", ""},
		{h26x.H266, " ; ;", ""},
		{h26x.H265, "X=1 ;; Level-ID = 93; y ;x=2", "level-id=93;X=1;y=;x=2"},
	} {
		f := formatOf(t, one.codec, one.line)
		isWritten(t, f, one.wanted)
		isWritten(t, formatOf(t, one.codec, one.wanted), one.wanted)
		if f.Codec() != one.codec {
			t.Errorf("%v of %v", f.Codec(), one.codec)
		}
	}
}

// A text that is refused, with the place of its first fault, and the end of the error's text.
func TestFaultsOfFormatParameters(t *testing.T) {
	for _, one := range []struct {
		codec h26x.Codec
		text  string
		code  h26x.Code
		place uint
		told  string
	}{
		{h26x.H265, "level-id=93;dec-parallel-cap={w:8", h26x.ErrSDPOpenBrace, 0, ""},
		{h26x.H264, "x=1;;packetization-mode=+1", h26x.ErrSDPNotANumber, 1, " (parameter 1)"},
		{h26x.H264, "packetization-mode=", h26x.ErrSDPNotANumber, 0, " (parameter 0)"},
		{h26x.H264, "packetization-mode=3", h26x.ErrSDPOutOfRange, 0, " (parameter 0)"},
		{h26x.H265, "max-lsr=18446744073709551616", h26x.ErrSDPOutOfRange, 0, " (parameter 0)"},
		{h26x.H266, "tier-flag=1;profile-id=128;level-id=x", h26x.ErrSDPOutOfRange, 1, " (parameter 1)"},
		{h26x.H264, "profile-level-id=42e01", h26x.ErrSDPNotHexadecimal, 0, " (parameter 0)"},
		{h26x.H264, "a;b;profile-level-id=42e01g", h26x.ErrSDPNotHexadecimal, 2, " (parameter 2)"},
		{h26x.H265, "tx-mode=srmt", h26x.ErrSDPNotTxMode, 0, " (parameter 0)"},
		{h26x.H265, "level-id=93;tx-mode=SRST;LEVEL-ID=93", h26x.ErrSDPTwice, 2, " (parameter 2)"},
		{263, "", h26x.ErrUnknownCodec, 0, ""},
	} {
		f, err := h26x.ReadFormatParameters(one.codec, one.text)
		if f != nil {
			t.Errorf("%q is read", one.text)
		}
		refuses(t, err, one.code, one.place)
		if err.Error() != one.code.Error()+one.told {
			t.Errorf("%q: %v", one.text, err)
		}
	}
	words := map[string]bool{}
	for code := h26x.ErrSDPOpenBrace; code <= h26x.ErrSDPNotAValue; code++ {
		if code != h26x.ErrSDPNoProfile+1 { // which is none
			words[code.Error()] = true
		}
	}
	if len(words) != 29 || words[h26x.Code(99).Error()] {
		t.Errorf("%d words", len(words))
	}
}

func TestValues(t *testing.T) {
	for _, one := range []struct {
		codec               h26x.Codec
		line, name          string
		given, orDefault    string
		isGiven, hasDefault error
	}{
		{h26x.H264, "profile-level-id=42E01f", "Profile-Level-ID", "42E01f", "42E01f", nil, nil},
		{h26x.H264, "packetization-mode=1", "packetization-mode", "1", "1", nil, nil},
		{h26x.H264, "", "sar-understood", "", "13", h26x.ErrSDPAbsent, nil},
		{h26x.H264, "", "max-fs", "", "", h26x.ErrSDPAbsent, h26x.ErrSDPAbsent},
		{h26x.H264, "", "profile-id", "", "", h26x.ErrSDPUnknownName, h26x.ErrSDPUnknownName},
		{h26x.H264, "x=1", "x", "", "", h26x.ErrSDPUnknownName, h26x.ErrSDPUnknownName},
		{h26x.H264, "", "", "", "", h26x.ErrSDPUnknownName, h26x.ErrSDPUnknownName},
		{h26x.H265, "", "profile-id", "", "1", h26x.ErrSDPAbsent, nil},
		{h26x.H265, "", "tx-mode", "", "SRST", h26x.ErrSDPAbsent, nil},
		{h26x.H265, "", "interop-constraints", "", "B00000000000", h26x.ErrSDPAbsent, nil},
		{h26x.H266, "", "interop-constraints", "", "gA==", h26x.ErrSDPAbsent, nil},
	} {
		f := formatOf(t, one.codec, one.line)
		if value, err := f.Value(one.name); value != one.given || !errors.Is(err, one.isGiven) {
			t.Errorf("%q: got %q and %v", one.name, value, err)
		}
		if value, err := f.ValueOrDefault(one.name); value != one.orDefault || !errors.Is(err, one.hasDefault) {
			t.Errorf("%q or what is taken: got %q and %v", one.name, value, err)
		}
	}
}

func TestNumbers(t *testing.T) {
	absent, unknown, other := h26x.ErrSDPAbsent, h26x.ErrSDPUnknownName, h26x.ErrSDPOtherKind
	for _, one := range []struct {
		codec               h26x.Codec
		line, name          string
		given, orDefault    uint64
		isGiven, hasDefault error
	}{
		{h26x.H264, "packetization-mode=1", "PACKETIZATION-MODE", 1, 1, nil, nil},
		{h26x.H264, "max-mbps=18446744073709551615", "max-mbps", math.MaxUint64, math.MaxUint64, nil, nil},
		{h26x.H264, "", "sar-understood", 0, 13, absent, nil},
		{h26x.H264, "", "max-fs", 0, 0, absent, absent},
		{h26x.H264, "profile-level-id=42e01f", "profile-level-id", 0, 0, other, other},
		{h26x.H264, "", "tx-mode", 0, 0, unknown, unknown},
		{h26x.H265, "sprop-spatial-segmentation-idc=fFf", "sprop-spatial-segmentation-idc", 4095, 4095, nil, nil},
		{h26x.H265, "", "include-dph", 0, 0, other, other},
		{h26x.H265, "", "level-id", 0, 93, absent, nil},
		{h26x.H265, "", "depack-buf-cap", 0, math.MaxUint32, absent, nil},
		{h26x.H266, "", "level-id", 0, 51, absent, nil},
		{h26x.H266, "", "sprop-ols-id", 0, 0, absent, absent},
	} {
		f := formatOf(t, one.codec, one.line)
		if number, err := f.Number(one.name); number != one.given || !errors.Is(err, one.isGiven) {
			t.Errorf("%q: got %d and %v", one.name, number, err)
		}
		if number, err := f.NumberOrDefault(one.name); number != one.orDefault || !errors.Is(err, one.hasDefault) {
			t.Errorf("%q or what is taken: got %d and %v", one.name, number, err)
		}
	}
}

func TestUnitsOfParameters(t *testing.T) {
	for _, one := range []struct {
		codec             h26x.Codec
		line, name, units string
	}{
		{h26x.H264, "sprop-parameter-sets=Z0IACpZTBYmI,aMljiA==", "Sprop-Parameter-Sets", "6742000a9653058988|68c96388"},
		{h26x.H265, "sprop-pps=RAHBcrRiQA==;sprop-sei=TgEF", "sprop-pps", "4401c172b46240"},
		{h26x.H265, "sprop-pps=RAHBcrRiQA==;sprop-sei=TgEF", "sprop-sei", "4e0105"},
		{h26x.H266, "sprop-dci=AGk=", "sprop-dci", "0069"},
	} {
		units, err := formatOf(t, one.codec, one.line).Units(one.name)
		done(t, err)
		sameAll(t, units, many(one.units))
	}
	const sets = "sprop-parameter-sets"
	for _, one := range []struct {
		codec      h26x.Codec
		line, name string
		code       h26x.Code
		place      uint
		told       string
	}{
		{h26x.H264, "", "sprop-vps", h26x.ErrSDPUnknownName, 0, ""},
		{h26x.H264, "", "profile-level-id", h26x.ErrSDPOtherKind, 0, ""},
		{h26x.H264, "", sets, h26x.ErrSDPAbsent, 0, ""},
		{h26x.H264, sets + "=Z0I=,Z0I", sets, h26x.ErrSDPNotBase64, 1, " (unit 1)"},
		{h26x.H264, sets + "=Z0I=,,Z0I=", sets, h26x.ErrSDPEmptyUnit, 1, " (unit 1)"},
		{h26x.H264, sets + "=Z0I=,ZYg=", sets, h26x.ErrSDPOtherType, 1, " (unit 1)"},
		{h26x.H264, sets + "=ZwAAAWU=", sets, h26x.ErrSDPStartCode, 0, " (unit 0)"},
		{h26x.H265, "sprop-vps=QgEB", "sprop-vps", h26x.ErrSDPOtherType, 0, " (unit 0)"},
	} {
		units, err := formatOf(t, one.codec, one.line).Units(one.name)
		if units != nil {
			t.Errorf("%q has units", one.line)
		}
		refuses(t, err, one.code, one.place)
		if err.Error() != one.code.Error()+one.told {
			t.Errorf("%q: %v", one.line, err)
		}
	}
}

// A peer's line of many units, of which each is an SPS of one byte, takes no longer than so many lines of one.
func TestManyUnits(t *testing.T) {
	const count = 10000
	f, begin := formatOf(t, h26x.H264, "sprop-parameter-sets=Zw=="+strings.Repeat(",Zw==", count-1)), time.Now()
	units, err := f.Units("sprop-parameter-sets")
	done(t, err)
	if len(units) != count {
		t.Fatalf("%d units", len(units))
	}
	for _, unit := range units {
		same(t, unit, some("67"))
	}
	if took := time.Since(begin); took > 20*time.Second {
		t.Errorf("it took %v", took)
	}
}

func TestSetsOfLevels(t *testing.T) {
	const name = "sprop-level-parameter-sets="
	levels, err := formatOf(t, h26x.H264, name+"42E00B:Z0LgCw==,aMs=:4de00b:aMs=").LevelSets()
	done(t, err)
	if len(levels) != 2 || levels[0].ProfileLevelID != [3]byte{0x42, 0xe0, 0x0b} ||
		levels[1].ProfileLevelID != [3]byte{0x4d, 0xe0, 0x0b} {
		t.Fatalf("%v", levels)
	}
	sameAll(t, levels[0].Sets, many("6742e00b|68cb"))
	sameAll(t, levels[1].Sets, many("68cb"))
	if _, err := formatOf(t, h26x.H264, "").LevelSets(); !errors.Is(err, h26x.ErrSDPAbsent) {
		t.Errorf("none: %v", err)
	}
	for _, one := range []struct {
		value string
		level int
		code  h26x.Code
	}{
		{"", 0, h26x.ErrSDPAbsent},
		{"42e00b:Zw==:42e00c", 1, h26x.ErrSDPAbsent},
		{"42e0:Zw==", 0, h26x.ErrSDPNotHexadecimal},
		{"42e00b:Zw==:42e00c:", 1, h26x.ErrSDPEmptyUnit},
		{"42e00b:Zw==,Zw", 0, h26x.ErrSDPNotBase64},
		{"42e00b:aMs=:42e00c:aMs=,ZQ==", 1, h26x.ErrSDPOtherType},
	} {
		levels, err := formatOf(t, h26x.H264, name+one.value).LevelSets()
		var fault *h26x.LevelSetsError
		if levels != nil || !errors.As(err, &fault) || fault.Place != one.level || !errors.Is(err, one.code) {
			t.Errorf("%q: %v and %v", one.value, levels, err)
		}
	}
}

func TestOthers(t *testing.T) {
	others, err := formatOf(t, h26x.H265, "x=12;level-id=93; Name = a=b ;y;x=3").Others()
	done(t, err)
	wanted := []h26x.FormatParameter{{"x", "12"}, {"Name", "a=b"}, {"y", ""}, {"x", "3"}}
	if len(others) != len(wanted) {
		t.Fatalf("got %q", others)
	}
	for i := range wanted {
		if others[i] != wanted[i] {
			t.Errorf("got %q, wanted %q", others[i], wanted[i])
		}
	}
	if others, err := formatOf(t, h26x.H264, chromium).Others(); err != nil || others != nil {
		t.Errorf("got %q and %v", others, err)
	}
}

// What is wanted is by hand, from RFC 6184, 8.2.2, RFC 7798, 7.2.2, and RFC 9328, 7.3.2; "-" is no answer.
func TestAnswers(t *testing.T) {
	for _, one := range []struct {
		codec                 h26x.Codec
		offered, ours, wanted string
	}{
		// Our level, where both ends allow each direction its own; else the lower one.
		{h26x.H264, chromium, "profile-level-id=42e034;level-asymmetry-allowed=1;packetization-mode=1",
			"profile-level-id=42e034;level-asymmetry-allowed=1;packetization-mode=1"},
		{h26x.H264, safari, "profile-level-id=640c15;packetization-mode=1",
			"profile-level-id=640c15;packetization-mode=1"},
		{h26x.H264, safari, "profile-level-id=640c34;packetization-mode=1",
			"profile-level-id=640c1f;packetization-mode=1"},
		// A mode that isn't given is 0; Constrained High is not High.
		{h26x.H264, chromium, "profile-level-id=42e01f", "-"},
		{h26x.H264, safari, "profile-level-id=64001f;packetization-mode=1", "-"},
		// One profile by other bytes; what is ours alone is said.
		{h26x.H264, "profile-level-id=42e01f;level-asymmetry-allowed=1;z=1", "profile-level-id=4D801F;x=1",
			"profile-level-id=42e01f;x=1"},
		{h26x.H265, h265Line, "level-id=93", "profile-id=1;tier-flag=0;level-id=93;tx-mode=SRST"},
		{h26x.H265, h265Line, "level-id=186", "profile-id=1;tier-flag=0;level-id=180;tx-mode=SRST"},
		{h26x.H265, h265Line, "tier-flag=1;level-id=180", "-"},
		{h26x.H265, h265Line, "tx-mode=MRST", "-"},
		{h26x.H266, "profile-id=1;level-id=83;sprop-max-don-diff=0", "level-id=51", "profile-id=1;level-id=51"},
		{h26x.H266, "profile-id=17", "profile-id=17;level-id=51", "profile-id=17"},
		{h26x.H266, "profile-id=17", "profile-id=33", "-"},
	} {
		offered, ours := formatOf(t, one.codec, one.offered), formatOf(t, one.codec, one.ours)
		answer, err := offered.Answer(ours)
		if one.wanted == "-" {
			refuses(t, err, h26x.ErrSDPNoAnswer)
			continue
		}
		done(t, err)
		isWritten(t, answer, one.wanted)
		// An answer to it is itself.
		again, err := answer.Answer(ours)
		done(t, err)
		isWritten(t, again, one.wanted)
		done(t, again.Close())
		done(t, answer.Close())
		if answer.Codec() != one.codec {
			t.Errorf("%v of %v", answer.Codec(), one.codec)
		}
	}
	_, err := formatOf(t, h26x.H264, "").Answer(formatOf(t, h26x.H265, ""))
	refuses(t, err, h26x.ErrSDPNoAnswer)
	own := formatOf(t, h26x.H264, "packetization-mode=1")
	answer, err := own.Answer(own)
	done(t, err)
	isWritten(t, answer, "packetization-mode=1")
}

// By hand from the sets (Rec. ITU-T H.264, 7.3.2.1.1; H.265, 7.3.3; H.266, 7.3.2.4 and 7.3.3.1), of H.264 as FFmpeg
// wrote it.
func TestWhatAStreamSays(t *testing.T) {
	for _, one := range []struct {
		codec           h26x.Codec
		payload, wanted string
		code            h26x.Code
	}{
		{h26x.H264, "00000001 6742c00ad9096c0440000003004000000c83c48992 000001 68cb8112c8 000001 658884 000001 67010203",
			"profile-level-id=42c00a;sprop-parameter-sets=Z0LACtkJbARAAAADAEAAAAyDxImS,aMuBEsg=;packetization-mode=1", 0},
		{h26x.H264, "", "", h26x.ErrSDPNoSet},
		{h26x.H264, "000001 658884 000001 6742c01f", "", h26x.ErrSDPNoSet},
		{h26x.H264, "6742c0", "", h26x.ErrSDPShortSet},
		{h26x.H265, "000001 40010c01ffff01600000030090000003000003003c959809 000001 4401c172b46240",
			"profile-space=0;profile-id=1;tier-flag=0;level-id=60;interop-constraints=900000000000;" +
				"profile-compatibility-indicator=60000000;sprop-vps=QAEMAf//AWAAAAMAkAAAAwAAAwA8lZgJ;" +
				"sprop-pps=RAHBcrRiQA==", 0},
		{h26x.H265, "000001 4401c172b46240", "", h26x.ErrSDPNoSet},
		{h26x.H266, "000001 0079000b02338080 000001 00810080",
			"profile-id=1;tier-flag=0;interop-constraints=gA==;level-id=51;sprop-sps=AHkACwIzgIA=;sprop-pps=AIEAgA==", 0},
		{h26x.H266, "0079000b0233", "", h26x.ErrSDPShortSet},
		{h26x.H266, "0079000a023380", "", h26x.ErrSDPNoProfile},
		{h26x.H266, "0079000b0233a0", "", h26x.ErrSDPShortSet},
		{h26x.H266, "0079000d0233a08000000300000300000300017eff",
			"profile-id=1;tier-flag=0;interop-constraints=oIAAAAAAAAAAAX4=;level-id=51;sprop-sps=AHkADQIzoIAAAAMAAAMAAAMAAX7/", 0},
		{267, "6742c01f", "", h26x.ErrUnknownCodec},
	} {
		f, err := h26x.FormatParametersOfPayload(one.codec, some(one.payload))
		if one.code != 0 {
			refuses(t, err, one.code)
			continue
		}
		done(t, err)
		isWritten(t, f, one.wanted)
		done(t, f.Close())
	}
}

// RFC 7798, 7.1; RFC 9328, 7.2.
func TestMaxDONDiff(t *testing.T) {
	for _, one := range []struct {
		codec  h26x.Codec
		line   string
		wanted uint32
	}{
		{h26x.H265, "", 0}, {h26x.H265, "sprop-max-don-diff=2", 2},
		{h26x.H266, "", 0}, {h26x.H266, "sprop-max-don-diff=32767", 32767},
	} {
		if most, err := formatOf(t, one.codec, one.line).MaxDONDiff(); err != nil || most != one.wanted {
			t.Errorf("%q: got %d and %v", one.line, most, err)
		}
	}
	_, err := formatOf(t, h26x.H264, "sprop-max-don-diff=2").MaxDONDiff()
	refuses(t, err, h26x.ErrNotOfThisCodec)
}

// RFC 7798, 7.1, with Rec. ITU-T H.265, 7.3.3; RFC 9328, 7.2, with Rec. ITU-T H.266, 7.3.3.1.
func TestInteropConstraints(t *testing.T) {
	const name = "interop-constraints="
	for _, one := range []struct {
		codec  h26x.Codec
		line   string
		wanted h26x.Constraints
	}{
		{h26x.H265, "", h26x.Constraints{Flags: 0xb00000000000, Bytes: some("b00000000000"), FrameOnly: true}},
		{h26x.H265, name + "A0000000f001", h26x.Constraints{Flags: 0xa0000000f001, Bytes: some("a0000000f001")}},
		{h26x.H266, "", h26x.Constraints{Bytes: some("80"), FrameOnly: true}},
		{h26x.H266, name + "QA==", h26x.Constraints{Bytes: some("40"), Multilayer: true}},
		{h26x.H266, name + "oIAAAAAAAAAAAX4=",
			h26x.Constraints{Bytes: some("a08000000000000000017e"), FrameOnly: true, General: true}},
	} {
		got, err := formatOf(t, one.codec, one.line).InteropConstraints()
		if err != nil || !reflect.DeepEqual(got, one.wanted) {
			t.Errorf("%q: got %+v and %v", one.line, got, err)
		}
	}
	// gci_num_additional_bits is 255, and 89 bits are there beside.
	most := append([]byte{0x20, 0, 0, 0, 0, 0, 0, 0, 0, 0x3f, 0xc0}, make([]byte, 32)...)
	got, err := formatOf(t, h26x.H266, name+base64.StdEncoding.EncodeToString(most)).InteropConstraints()
	done(t, err)
	same(t, got.Bytes, most)
	for _, one := range []struct {
		codec h26x.Codec
		value string
		code  h26x.Code
	}{
		{h26x.H264, "gA==", h26x.ErrNotOfThisCodec},
		{h26x.H266, "gA", h26x.ErrSDPConstraintsNotBase64},
		{h26x.H266, "", h26x.ErrSDPShortConstraints},
		{h26x.H266, "oA==", h26x.ErrSDPShortConstraints},
		{h26x.H266, "gAA=", h26x.ErrSDPLongConstraints},
	} {
		got, err := formatOf(t, one.codec, name+one.value).InteropConstraints()
		refuses(t, err, one.code, 0, 0)
		if !reflect.DeepEqual(got, h26x.Constraints{}) {
			t.Errorf("%q: got %+v", one.value, got)
		}
	}
}

// RFC 7798, 7.1.
func TestCapabilityPoints(t *testing.T) {
	is := func(number uint64) h26x.Limit { return h26x.Limit{Number: number, IsThere: true} }
	for _, one := range []struct {
		line             string
		given, orDefault []h26x.CapabilityPoint
	}{
		{"dec-parallel-cap={w:8;level-id=93,t:4;level-id=90}; level-id=120",
			[]h26x.CapabilityPoint{{Tool: h26x.Wavefronts, SpatialSegmentation: 8, LevelID: is(93)},
				{SpatialSegmentation: 4, LevelID: is(90)}},
			[]h26x.CapabilityPoint{{Tool: h26x.Wavefronts, SpatialSegmentation: 8, TierFlag: is(0), LevelID: is(93)},
				{SpatialSegmentation: 4, TierFlag: is(0), LevelID: is(90)}}},
		{"max-recv-level-id=150;level-id=120;max-br=8;dec-parallel-cap={t:4095;tier-flag=1;max-lps=0}",
			[]h26x.CapabilityPoint{{SpatialSegmentation: 4095, TierFlag: is(1), MaxLPS: is(0)}},
			[]h26x.CapabilityPoint{{SpatialSegmentation: 4095, TierFlag: is(1), LevelID: is(150), MaxLPS: is(0),
				MaxBR: is(8)}}},
		{"tier-flag=1;max-lsr=9;max-lps=7;dec-parallel-cap={w:1;max-lsr=18446744073709551615}",
			[]h26x.CapabilityPoint{{Tool: h26x.Wavefronts, SpatialSegmentation: 1, MaxLSR: is(math.MaxUint64)}},
			[]h26x.CapabilityPoint{{Tool: h26x.Wavefronts, SpatialSegmentation: 1, TierFlag: is(1), LevelID: is(93),
				MaxLSR: is(math.MaxUint64), MaxLPS: is(7)}}},
	} {
		f := formatOf(t, h26x.H265, one.line)
		if got, err := f.CapabilityPoints(); err != nil || !reflect.DeepEqual(got, one.given) {
			t.Errorf("%q: got %+v and %v", one.line, got, err)
		}
		if got, err := f.CapabilityPointsOrDefault(); err != nil || !reflect.DeepEqual(got, one.orDefault) {
			t.Errorf("%q: got %+v and %v", one.line, got, err)
		}
	}
	// More than there is room for at first.
	line := "dec-parallel-cap={w:1;max-br=1" + strings.Repeat(",t:2;max-br=3", 99) + "}"
	many, err := formatOf(t, h26x.H265, line).CapabilityPoints()
	done(t, err)
	last := h26x.CapabilityPoint{SpatialSegmentation: 2, MaxBR: is(3)}
	if len(many) != 100 || many[0].MaxBR != is(1) || many[99] != last {
		t.Errorf("got %+v", many)
	}
}

func TestCapabilityPointsThatAreRefused(t *testing.T) {
	const name = "dec-parallel-cap="
	for _, one := range []struct {
		codec        h26x.Codec
		line         string
		code         h26x.Code
		place, fault uint
		told         string
	}{
		{h26x.H264, name + "{w:8;level-id=93}", h26x.ErrNotOfThisCodec, 0, 0, ""},
		{h26x.H266, name + "{w:8;level-id=93}", h26x.ErrNotOfThisCodec, 0, 0, ""},
		{h26x.H265, "", h26x.ErrSDPAbsent, 0, 0, ""},
		{h26x.H265, name + "w:8;level-id=93", h26x.ErrSDPNoBraces, 0, 0, ""},
		{h26x.H265, name + "{w:8;max-br=1,x:8;max-br=1}", h26x.ErrSDPNoTool, 1, 0, " (point 1)"},
		{h26x.H265, name + "{w:0;max-br=1}", h26x.ErrSDPSegmentation, 0, uint(h26x.ErrSDPOutOfRange),
			" (point 0, the value is out of the parameter's range)"},
		{h26x.H265, name + "{w:8;max-br=1,t:8;max-br=1;max-br=1}", h26x.ErrSDPLimits, 1, uint(h26x.ErrSDPTwice),
			" (point 1, the parameter is given twice)"},
		{h26x.H265, name + "{w:8}", h26x.ErrSDPNoLimit, 0, 0, " (point 0)"},
	} {
		points, err := formatOf(t, one.codec, one.line).CapabilityPoints()
		refuses(t, err, one.code, one.place, one.fault)
		if points != nil || err.Error() != one.code.Error()+one.told {
			t.Errorf("%q: got %+v and %v", one.line, points, err)
		}
	}
}

// RFC 6184, 8.2.1; RFC 7798, 7.2.1; RFC 9328, 7.3.1.
func TestRTPMaps(t *testing.T) {
	for _, one := range []struct {
		text   string
		wanted h26x.RTPMap
		again  string
	}{
		{"96 H264/90000", h26x.RTPMap{PayloadType: 96, Codec: h26x.H264}, "96 H264/90000"},
		{" 127 h265/90000\r\n", h26x.RTPMap{PayloadType: 127, Codec: h26x.H265}, "127 H265/90000"},
		{"0 H266/90000", h26x.RTPMap{PayloadType: 0, Codec: h26x.H266}, "0 H266/90000"},
	} {
		got, err := h26x.ReadRTPMap(one.text)
		done(t, err)
		if got != one.wanted || got.String() != one.again {
			t.Errorf("%q: got %v", one.text, got)
		}
	}
	for text, code := range map[string]h26x.Code{
		"128 H264/90000": h26x.ErrSDPPayloadType, "": h26x.ErrSDPPayloadType, "x H264/90000": h26x.ErrSDPPayloadType,
		"96 VP8/90000": h26x.ErrSDPEncodingName,
		"96 H264":      h26x.ErrSDPClockRate, "96 H264/48000": h26x.ErrSDPClockRate,
	} {
		got, err := h26x.ReadRTPMap(text)
		refuses(t, err, code)
		if got != (h26x.RTPMap{}) {
			t.Errorf("%q: got %+v", text, got)
		}
	}
	for code, m := range map[h26x.Code]h26x.RTPMap{
		h26x.ErrSDPPayloadType: {PayloadType: 128, Codec: h26x.H264}, h26x.ErrUnknownCodec: {PayloadType: 96, Codec: 263},
	} {
		text, err := m.Text()
		refuses(t, err, code)
		if text != "" || m.String() != "" {
			t.Errorf("%+v is written", m)
		}
	}
}

func TestSingleUnits(t *testing.T) {
	stream := some("000001 6742c01f 000001 68ce 000001 6588842103")
	if !h26x.FitsSingleUnits(stream, 5) || h26x.FitsSingleUnits(stream, 4) || !h26x.FitsSingleUnits(nil, 0) {
		t.Error("units of up to five bytes")
	}
}

func TestClosedFormatParameters(t *testing.T) {
	open := formatOf(t, h26x.H265, "sprop-vps=QAE=")
	f := formatOf(t, h26x.H265, "level-id=93;sprop-vps=QAE=;dec-parallel-cap={w:8;level-id=93}")
	calls := func(f *h26x.FormatParameters) map[string]func() error {
		return map[string]func() error{
			"Text":            func() error { _, err := f.Text(); return err },
			"Value":           func() error { _, err := f.Value("sprop-vps"); return err },
			"ValueOrDefault":  func() error { _, err := f.ValueOrDefault("profile-id"); return err },
			"Number":          func() error { _, err := f.Number("level-id"); return err },
			"NumberOrDefault": func() error { _, err := f.NumberOrDefault("level-id"); return err },
			"Units":           func() error { _, err := f.Units("sprop-vps"); return err },
			"Others":          func() error { _, err := f.Others(); return err },
			"MaxDONDiff":      func() error { _, err := f.MaxDONDiff(); return err },
			"Constraints":     func() error { _, err := f.InteropConstraints(); return err },
			"Points":          func() error { _, err := f.CapabilityPoints(); return err },
			"PointsOrDefault": func() error { _, err := f.CapabilityPointsOrDefault(); return err },
			"Answer":          func() error { _, err := f.Answer(open); return err },
			"Answer by it":    func() error { _, err := open.Answer(f); return err },
		}
	}
	for name, call := range calls(f) {
		if err := call(); err != nil {
			t.Errorf("%s: %v", name, err)
		}
	}
	// Twice, since it may be.
	for i := 0; i < 2; i++ {
		done(t, f.Close())
	}
	for _, closed := range []*h26x.FormatParameters{f, new(h26x.FormatParameters)} {
		for name, call := range calls(closed) {
			if err := call(); !errors.Is(err, h26x.ErrClosed) {
				t.Errorf("%s: %v", name, err)
			}
		}
		if closed.String() != "" {
			t.Error("it has a text")
		}
	}
}

// Two answer each other, and themselves, until they are closed; no call waits for ever.
func TestGoroutinesThatAnswer(t *testing.T) {
	for n := 0; n < 50; n++ {
		a, b := formatOf(t, h26x.H264, chromium), formatOf(t, h26x.H264, chromium)
		var group sync.WaitGroup
		for _, pair := range [][2]*h26x.FormatParameters{{a, b}, {b, a}, {a, a}, {b, b}} {
			pair := pair
			group.Add(1)
			go func() {
				defer group.Done()
				for {
					answer, err := pair[0].Answer(pair[1])
					if errors.Is(err, h26x.ErrClosed) {
						return
					}
					if err != nil || !strings.HasPrefix(answer.String(), "profile-level-id=42e01f;") || answer.Close() != nil {
						t.Error("another answer", err)
						return
					}
				}
			}()
		}
		group.Add(2)
		for _, f := range []*h26x.FormatParameters{a, b} {
			go func(f *h26x.FormatParameters) {
				defer group.Done()
				time.Sleep(time.Millisecond)
				f.Close()
			}(f)
		}
		group.Wait()
	}
}

// What isn't closed is freed some time after it can't be reached; what is closed at once.
func TestMemoryOfFormatParametersIsGivenBack(t *testing.T) {
	text, before := "x="+strings.Repeat("a", 1<<20), resident(t)
	for n := 0; n < 400; n++ {
		f, err := h26x.ReadFormatParameters(h26x.H264, text)
		done(t, err)
		if n%2 == 0 {
			f.Close()
		}
		if n%10 == 0 {
			runtime.GC()
			time.Sleep(time.Millisecond)
		}
	}
	// They are 400 MiB together.
	if more := resident(t) - before; more > 150<<20 {
		t.Errorf("%d bytes more", more)
	}
}
