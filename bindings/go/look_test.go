package h26x_test

import (
	"errors"
	"os"
	"regexp"
	"strings"
	"testing"

	"emupedestal/h26x"
)

func TestHeadsAndTails(t *testing.T) {
	for codec, packets := range map[h26x.Codec]string{
		h26x.H264: "0100|7c85|65|1c40",
		h26x.H265: "8001|620193|6201|620113",
		h26x.H266: "0009|00e987|00|00e947",
	} {
		d := newDepacketizer(t, codec, false, false)
		for i, packet := range many(packets) {
			if d.IsPartitionHead(packet) != (i < 2) {
				t.Errorf("%v: %x", codec, packet)
			}
		}
		if d.IsPartitionHead(nil) || !d.IsPartitionTail(true, nil) || d.IsPartitionTail(false, some("620153")) {
			t.Errorf("%v: nothing", codec)
		}
	}
	for _, one := range []struct {
		codec  h26x.Codec
		marker bool
		packet string
		isTail bool
	}{
		{h26x.H264, true, "7c05", true},
		{h26x.H264, false, "7c45", false},
		{h26x.H265, true, "0201", true},
		{h26x.H265, true, "620113aa", false},
		{h26x.H265, false, "620153", true},
		{h26x.H265, false, "0201", false},
		{h26x.H266, true, "0009", true},
		{h26x.H266, true, "00e907aa", false},
		{h26x.H266, false, "00e947", true},
		{0, true, "0100", false},
	} {
		if h26x.IsPartitionTail(one.codec, one.marker, some(one.packet)) != one.isTail {
			t.Errorf("%+v", one)
		}
	}
	if h26x.IsPartitionHead(0, some("0100")) {
		t.Error("a head of no codec")
	}
}

func TestKeyframes(t *testing.T) {
	for codec, packets := range map[h26x.Codec]string{
		h26x.H264: "7c850000|18 0002 67aa 0002 65bb|7c050000|7c",
		h26x.H265: "620193aa|6001 0003 0201aa 0003 2601af|620113aa|2c01aa",
		h26x.H266: "00e987aa|0049aa|00e907aa|0051aa",
	} {
		for i, packet := range many(packets) {
			if h26x.DetectKeyframe(codec, packet) != (i < 2) {
				t.Errorf("%v: %x", codec, packet)
			}
		}
		if h26x.DetectKeyframe(codec, nil) {
			t.Errorf("%v: nothing", codec)
		}
	}
	// In aggregates with numbers too: RFC 7798, 4.4.2 has a DONL and a DOND, RFC 9328, 4.3.2 a DONL.
	for codec, packets := range map[h26x.Codec]string{
		h26x.H264: "7c850000|18 0002 67aa 0002 65bb|7c050000|18 0002 67aa 0002 41bb",
		h26x.H265: "62019307aaaa|6001 0007 0003 0201aa 00 0003 2601af|6001 0007 0003 0201aa 26 0003 0201af|6001 0003 0201aa 0003 2601af",
		h26x.H266: "00e98707aaaa|00e1 0007 0003 0079aa 0003 0041af|00e1 0007 0003 0079aa 0003 0001af|00e1 0003 0079aa 0003 0041af",
	} {
		for i, packet := range many(packets) {
			if h26x.BeginsKeyframe(codec, true, packet) != (i < 2) {
				t.Errorf("%v: %x", codec, packet)
			}
		}
	}
	if !h26x.BeginsKeyframe(h26x.H265, false, some("6001 0003 0201aa 0003 2601af")) || h26x.BeginsKeyframe(1, false, some("65")) {
		t.Error("keyframes that begin")
	}
	packet := some("18 0002 67aa 0002 68bb")
	if !h26x.DetectH264NALU(packet, 7) || h26x.DetectH264NALU(packet, 5) || h26x.DetectH264NALU(nil, 0) {
		t.Error("types of H.264")
	}
	if h26x.DetectKeyframe(1, some("65")) {
		t.Error("a keyframe of no codec")
	}
}

func TestUnitsOfPayloads(t *testing.T) {
	for _, one := range []struct {
		codec          h26x.Codec
		payload, units string
	}{
		{h26x.H264, "bb 000001 aa 00000000 01 000001 bb00", "aa|bb00"},
		{h26x.H265, "bb 000001 aa 00000000 01 000001 bb00", "aa|bb00"},
		// Zeros before the nearest three stay with the unit.
		{h26x.H266, "bb 000001 aa 00000000 01 000001 bb00", "aa00|bb00"},
		{h26x.H264, "bb00", "bb00"},
		{h26x.H265, "", ""},
		{h26x.H266, "000001", ""},
		{h26x.H264, "000001 aa 000001 aa 000001 aa", "aa|aa|aa"},
		{0, "aa", ""},
	} {
		units, found := h26x.UnitsOf(one.codec, some(one.payload)), [][]byte(nil)
		if units.Unit() != nil {
			t.Error("a unit before the first")
		}
		for units.Next() {
			found = append(found, units.Unit())
			if cap(units.Unit()) != len(units.Unit()) {
				t.Error("a unit has room to grow into the payload")
			}
		}
		sameAll(t, found, many(one.units))
		if units.Next() || units.Unit() != nil {
			t.Error("a unit behind the last")
		}
	}
}

func TestPlainUnits(t *testing.T) {
	for _, one := range []struct {
		codec         h26x.Codec
		plain, others string
	}{
		{h26x.H264, "01|77|6588|41 0000 02|41 0000 03 01|0900aa",
			"81|6088|78 0001 65|7c85aa|1f|" +
				"41aa 000001 6588|41aa 00000001 6588|41 000001|41 000000 02|4100|41aa 0000"},
		{h26x.H265, "0001|5fff|4201aa|2801 0000 03",
			"26|8001aa|6001aa|620193aa|6401aa|7e01|2601 000001 26|2601 000000 02|260100"},
		{h26x.H266, "0001|3fdf|0079aa|0009 0000 02",
			"00|8001aa|4001aa|00e1aa|00e987aa|00f9|0041 000001 41|0041 000000 02|004100"},
		{0, "", "65|6588"},
	} {
		for _, unit := range many(one.plain) {
			if !h26x.IsPlainUnit(one.codec, unit) {
				t.Errorf("%v: %x", one.codec, unit)
			}
		}
		for _, unit := range append(many(one.others), nil) {
			if h26x.IsPlainUnit(one.codec, unit) {
				t.Errorf("%v: %x is plain", one.codec, unit)
			}
		}
	}
}

// A packet whose unit holds another one in Annex B text: behind lengths it is one unit, and not plain.
func TestUnitInAUnit(t *testing.T) {
	d := newDepacketizer(t, h26x.H264, false, true)
	written, err := d.Unmarshal(some("41aa 00000001 6588"))
	done(t, err)
	same(t, written, some("00000008 41aa 00000001 6588"))
	if h26x.IsPlainUnit(h26x.H264, written[4:]) {
		t.Error("it is plain")
	}
}

// RFC 7798, 4.4.2: the layer and the temporal id are the lowest of the units, and F is set where one has it.
func TestLowestHeaders(t *testing.T) {
	const sets, numbered = "600b 0002 4001 0002 4201 0002 4401", "6000 0009 0002 430b 00 0002 c512"
	for _, one := range []struct {
		codec          h26x.Codec
		donl           bool
		packet, wanted string
	}{
		{h26x.H265, false, sets, "6001 0002 4001 0002 4201 0002 4401"},
		{h26x.H265, true, numbered, "e10a 0009 0002 430b 00 0002 c512"},
		{h26x.H265, true, sets, sets},
		{h26x.H265, false, "600b 0002 4001 00", "600b 0002 4001 00"},
		{h26x.H265, false, "020b 0002 4001 0002 4201", "020b 0002 4001 0002 4201"},
		{h26x.H265, false, "", ""},
		{h26x.H264, false, sets, sets},
		{h26x.H266, false, sets, sets},
		{7, false, sets, sets},
	} {
		packet := some(one.packet)
		h26x.SetLowestHeader(one.codec, one.donl, packet)
		same(t, packet, some(one.wanted))
	}
}

func TestHints(t *testing.T) {
	for size, hint := range map[uint]uint{0: 4, 1199: 1203, 1200: 1208, 5000: 5020, ^uint(0): ^uint(0)} {
		if got := h26x.OutSizeHint(size); got != hint {
			t.Errorf("%d: got %d, wanted %d", size, got, hint)
		}
	}
}

func TestPACIPackets(t *testing.T) {
	for _, one := range [][3]string{
		{"0201aabb", "112233", "6401 0238 112233 aabb"},
		{"0201aabb", "1122", "6401 0220 1122 aabb"},
		{"a609cc", "", "6409 a600 cc"},
		{"2601", "", "6401 2600"},
	} {
		packet, err := h26x.PACIPacket(some(one[0]), some(one[1]))
		done(t, err)
		same(t, packet, some(one[2]))
	}
	_, err := h26x.PACIPacket(some("0201"), make([]byte, 32))
	refuses(t, err, h26x.ErrH265PACIPHESTooLong)
	_, err = h26x.PACIPacket(some("02"), make([]byte, 32))
	refuses(t, err, h26x.ErrShortPacket)
	packet, err := h26x.PACIPacket(some("0201aabb"), make([]byte, 31))
	done(t, err)
	if len(packet) != 37 {
		t.Errorf("got %d bytes", len(packet))
	}
}

func TestProfiles(t *testing.T) {
	for id, wanted := range map[uint32]h26x.H264ProfileLevel{
		0x42001f:   {h26x.H264ProfileBaseline, h26x.H264Level3_1},
		0x42e01f:   {h26x.H264ProfileConstrainedBaseline, h26x.H264Level3_1},
		0x4d0028:   {h26x.H264ProfileMain, h26x.H264Level4},
		0xff64001f: {h26x.H264ProfileHigh, h26x.H264Level3_1},
		0x640c34:   {h26x.H264ProfileConstrainedHigh, h26x.H264Level5_2},
		0x2c1015:   {h26x.H264ProfileCAVLC444Intra, h26x.H264Level2_1},
		0x42100b:   {h26x.H264ProfileBaseline, h26x.H264Level1B},
	} {
		if got, ok := h26x.ParseH264ProfileLevel(id); !ok || got != wanted {
			t.Errorf("%x: got %+v", id, got)
		}
	}
	for _, id := range []uint32{0x64101f, 0x640063, 0x63001f, 0x2c001f, 0x42011f, 0} {
		if _, ok := h26x.ParseH264ProfileLevel(id); ok {
			t.Errorf("%x names a profile", id)
		}
	}
	profiles, tiers, levels := [2]int{}, [2]int{}, [2]int{}
	count := func(counts *[2]int, h265, h266 bool) {
		for i, is := range []bool{h265, h266} {
			if is {
				counts[i]++
			}
		}
	}
	for n := 0; n < 256; n++ {
		b := uint8(n)
		count(&profiles, h26x.H265IsKnown(h26x.H265Profile(b), 0, h26x.H265Level3_1),
			h26x.H266IsKnown(h26x.H266Profile(b), 0, h26x.H266Level3_1))
		count(&tiers, h26x.H265IsKnown(h26x.H265ProfileMain, b, h26x.H265Level1),
			h26x.H266IsKnown(h26x.H266ProfileMain10, b, h26x.H266Level15_5))
		count(&levels, h26x.H265IsKnown(h26x.H265ProfileMain10, 1, h26x.H265Level(b)),
			h26x.H266IsKnown(h26x.H266ProfileMain10_444, 1, h26x.H266Level(b)))
	}
	if profiles != [2]int{11, 8} || tiers != [2]int{2, 2} || levels != [2]int{13, 15} {
		t.Errorf("known: %v profiles, %v tiers, %v levels", profiles, tiers, levels)
	}
}

// RFC 6184, 8.1 with table 5.
func TestH264ProfilesOfParameters(t *testing.T) {
	for id, wanted := range map[string]h26x.H264ProfileLevel{
		"42e01f": {h26x.H264ProfileConstrainedBaseline, h26x.H264Level3_1},
		"640C1F": {h26x.H264ProfileConstrainedHigh, h26x.H264Level3_1},
		"42100b": {h26x.H264ProfileBaseline, h26x.H264Level1B},
	} {
		got, ok := h26x.H264ProfileLevelFromFmtp(map[string]string{"packetization-mode": "1", "profile-level-id": id})
		if !ok || got != wanted {
			t.Errorf("%s: got %+v", id, got)
		}
	}
	for _, id := range []string{"", "42e01", "0042e01f", "42e01f00", "42e01g", " 42e01f", "63001f", "640063"} {
		if got, ok := h26x.H264ProfileLevelFromFmtp(map[string]string{"profile-level-id": id}); ok || got != (h26x.H264ProfileLevel{}) {
			t.Errorf("%q: got %+v", id, got)
		}
	}
	if _, ok := h26x.H264ProfileLevelFromFmtp(nil); ok {
		t.Error("a profile of no parameters")
	}
}

// RFC 7798, 7.1; RFC 9328, 7.2.
func TestProfilesOfParameters(t *testing.T) {
	main265 := h26x.H265ProfileTierLevel{Profile: h26x.H265ProfileMain, Tier: h26x.H265TierMain, Level: h26x.H265Level3_1}
	high265 := h26x.H265ProfileTierLevel{Profile: h26x.H265ProfileMain10, Tier: h26x.H265TierHigh, Level: h26x.H265Level6_2}
	main266 := h26x.H266ProfileTierLevel{Profile: h26x.H266ProfileMain10, Tier: h26x.H266TierMain, Level: h26x.H266Level3_1}
	high266 := h26x.H266ProfileTierLevel{
		Profile: h26x.H266ProfileMain10_444, Tier: h26x.H266TierHigh, Level: h26x.H266Level15_5,
	}
	none265, none266 := h26x.H265ProfileTierLevel{}, h26x.H266ProfileTierLevel{}
	for _, one := range []struct {
		profileID, tierFlag, levelID string
		h265                         h26x.H265ProfileTierLevel
		h266                         h26x.H266ProfileTierLevel
	}{
		{"1", "0", "93", main265, none266},
		{"2", "1", "186", high265, none266},
		{"1", "0", "51", none265, main266},
		{"+33", "01", "255", none265, high266},
		{"99", "0", "93", none265, none266},
		{"1", "5", "93", none265, none266},
		{"1", "2", "51", none265, none266},
		{"1", "0", "256", none265, none266},
		{"257", "0", "93", none265, none266},
		{"1", "", "93", none265, none266},
		{"1", "-0", "93", none265, none266},
		{" 1", "0", "93", none265, none266},
		{"++1", "0", "93", none265, none266},
		{"1_0", "0", "93", none265, none266},
	} {
		params := map[string]string{"profile-id": one.profileID, "tier-flag": one.tierFlag, "level-id": one.levelID, "x": "1"}
		h265, ok265 := h26x.H265ProfileTierLevelFromFmtp(params)
		h266, ok266 := h26x.H266ProfileTierLevelFromFmtp(params)
		if h265 != one.h265 || ok265 != (one.h265 != none265) || h266 != one.h266 || ok266 != (one.h266 != none266) {
			t.Errorf("%v: got %+v and %+v", params, h265, h266)
		}
		for name := range params {
			without := map[string]string{}
			for other, value := range params {
				if other != name {
					without[other] = value
				}
			}
			if _, ok := h26x.H265ProfileTierLevelFromFmtp(without); ok && name != "x" {
				t.Errorf("one without %s", name)
			}
			if _, ok := h26x.H266ProfileTierLevelFromFmtp(without); ok && name != "x" {
				t.Errorf("one without %s", name)
			}
		}
	}
}

// The same of numbers.
func TestProfilesOfNumbers(t *testing.T) {
	high265 := h26x.H265ProfileTierLevel{Profile: h26x.H265ProfileMain10, Tier: h26x.H265TierHigh, Level: h26x.H265Level6_2}
	high266 := h26x.H266ProfileTierLevel{
		Profile: h26x.H266ProfileMain10_444, Tier: h26x.H266TierHigh, Level: h26x.H266Level15_5,
	}
	if got, ok := h26x.NewH265ProfileTierLevel(2, 1, 186); !ok || got != high265 {
		t.Errorf("got %+v", got)
	}
	if got, ok := h26x.NewH266ProfileTierLevel(33, 1, 255); !ok || got != high266 {
		t.Errorf("got %+v", got)
	}
	_, ok265 := h26x.NewH265ProfileTierLevel(1, 0, 51)
	_, ok266 := h26x.NewH266ProfileTierLevel(1, 0, 93)
	if ok265 || ok266 {
		t.Error("a level of the other codec")
	}
}

// From the lowest to the highest (Annex A of each standard). Level 1b is between 1 and 1.1.
func TestOrderOfLevels(t *testing.T) {
	h264 := []h26x.H264Level{h26x.H264Level1, h26x.H264Level1B, h26x.H264Level1_1, h26x.H264Level1_2, h26x.H264Level1_3,
		h26x.H264Level2, h26x.H264Level2_1, h26x.H264Level2_2, h26x.H264Level3, h26x.H264Level3_1, h26x.H264Level3_2,
		h26x.H264Level4, h26x.H264Level4_1, h26x.H264Level4_2, h26x.H264Level5, h26x.H264Level5_1, h26x.H264Level5_2}
	for i := 1; i < len(h264); i++ {
		if !(h264[i-1] < h264[i]) {
			t.Errorf("level %d of H.264", i)
		}
	}
	h265 := []h26x.H265Level{h26x.H265Level1, h26x.H265Level2, h26x.H265Level2_1, h26x.H265Level3, h26x.H265Level3_1,
		h26x.H265Level4, h26x.H265Level4_1, h26x.H265Level5, h26x.H265Level5_1, h26x.H265Level5_2, h26x.H265Level6,
		h26x.H265Level6_1, h26x.H265Level6_2}
	for i := 1; i < len(h265); i++ {
		if !(h265[i-1] < h265[i]) {
			t.Errorf("level %d of H.265", i)
		}
	}
	h266 := []h26x.H266Level{h26x.H266Level1, h26x.H266Level2, h26x.H266Level2_1, h26x.H266Level3, h26x.H266Level3_1,
		h26x.H266Level4, h26x.H266Level4_1, h26x.H266Level5, h26x.H266Level5_1, h26x.H266Level5_2, h26x.H266Level6,
		h26x.H266Level6_1, h26x.H266Level6_2, h26x.H266Level6_3, h26x.H266Level15_5}
	for i := 1; i < len(h266); i++ {
		if !(h266[i-1] < h266[i]) {
			t.Errorf("level %d of H.266", i)
		}
	}
	if len(h264) != 17 || len(h265) != 13 || len(h266) != 15 {
		t.Error("other levels")
	}
}

func TestNamesAndWords(t *testing.T) {
	if !regexp.MustCompile(`^(proved|source) 0\.3\.0 [a-z0-9_]+(-[a-z0-9_]+)+$`).MatchString(h26x.Origin()) {
		t.Error(h26x.Origin())
	}
	if h26x.Version() != "0.3.0" {
		t.Error(h26x.Version())
	}
	for codec, name := range map[h26x.Codec]string{
		h26x.H264: "H264", h26x.H265: "H265", h26x.H266: "H266", 263: "Codec(263)",
	} {
		if codec.String() != name {
			t.Errorf("got %v, wanted %s", codec, name)
		}
	}
	if h26x.Late.String() != "Late" || h26x.Outcome(9).String() != "Outcome(9)" {
		t.Error("names of outcomes")
	}
	words := map[string]bool{}
	for code := h26x.ErrShortPacket; code <= h26x.ErrNoRoom; code++ {
		words[code.Error()] = true
	}
	if len(words) != 13 || h26x.ErrOutOfMemory.Error() != "h26x: out of memory" {
		t.Errorf("%d words", len(words))
	}
	for text, e := range map[string]*h26x.Error{
		"(type 31)":                   {h26x.ErrNALUTypeNotHandled, 31, 0},
		"(5 bytes, where 2 are left)": {h26x.ErrSTAPATooLong, 5, 2},
		"has its forbidden bit set":   {h26x.ErrH265Corrupted, 0, 0},
	} {
		if !strings.HasPrefix(e.Error(), "h26x: ") || !strings.HasSuffix(e.Error(), text) {
			t.Errorf("got %q", e.Error())
		}
	}
	if h26x.IsPacketError(nil) || h26x.IsPacketError(h26x.ErrClosed) || h26x.IsPacketError(errors.New("other")) {
		t.Error("errors that are of no packet")
	}
}

// Each call of the header is made by some file here, or left out for a reason.
func TestEachCallIsMade(t *testing.T) {
	header, err := os.ReadFile("../include/h26x.h")
	if err != nil {
		t.Skip("the header lies beside the package in its repository")
	}
	leftOut := map[string]string{
		"h26x_packetize":       "packets come straight into memory of Go's",
		"h26x_packetize_unit":  "the same",
		"h26x_packetize_units": "the same",
		"h26x_packet_count":    "the same",
		"h26x_packet_len":      "the same",
		"h26x_packets_len":     "the same",
		"h26x_packet_copy":     "the same",
		"h26x_packets_copy":    "the same",
	}
	files, err := os.ReadDir(".")
	done(t, err)
	code := ""
	for _, file := range files {
		if name := file.Name(); strings.HasSuffix(name, ".go") && !strings.HasSuffix(name, "_test.go") {
			text, err := os.ReadFile(name)
			done(t, err)
			code += string(text)
		}
	}
	calls := regexp.MustCompile(`(?m)^H26X_API [^#]*?(h26x_\w+)\(`).FindAllSubmatch(header, -1)
	if len(calls) != strings.Count(string(header), "\nH26X_API ") || len(calls) < 40 {
		t.Fatalf("the header has %d calls", len(calls))
	}
	for _, call := range calls {
		name := string(call[1])
		if made := strings.Contains(code, name+"("); made == (leftOut[name] != "") {
			t.Errorf("%s: made is %v", name, made)
		}
	}
}
