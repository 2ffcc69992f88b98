package h26x_test

import (
	"testing"

	"emupedestal/h26x"
)

// sentUnit is an access unit, and the packets that hold it.
type sentUnit struct {
	first, last int
	units       []placed
}

// sentUnits are the packets of a stream, and its access units.
func sentUnits(t *testing.T, codec h26x.Codec, mtu uint16) (packets [][]byte, all []sentUnit) {
	t.Helper()
	p, part, hasSlice := newPacketizer(t, codec, false), [][]byte(nil), false
	send := func() {
		first := len(packets)
		packets = append(packets, p.Payload(mtu, text(false, part...))...)
		one := sentUnit{first, len(packets) - 1, placedIn(t, codec, packets[first:])}
		for i := range one.units {
			one.units[i].first += first
			one.units[i].last += first
		}
		all, part, hasSlice = append(all, one), nil, false
	}
	for _, unit := range sent(t, codec) {
		role := roleOf(codec, unit)
		// A picture's second slice of these streams has a picture header before the first one, and a suffix no role.
		if hasSlice && role != 0 && (role != slice || roleOf(codec, part[0]) != header) {
			send()
		}
		part = append(part, unit)
		hasSlice = hasSlice || role == slice
	}
	send()
	return packets, all
}

// isSlice tells whether a unit is a slice of a picture.
func isSlice(codec h26x.Codec, unit []byte) bool {
	kinds := map[h26x.Codec][2]byte{h26x.H264: {1, 5}, h26x.H265: {0, 31}, h26x.H266: {0, 11}}[codec]
	return kinds[0] <= typeOf(codec, unit) && typeOf(codec, unit) <= kinds[1]
}

// A role is what a unit is to a decoder: a letter of those below, or 0.
type role byte

const (
	vps       role = 'v'
	sps       role = 's'
	pps       role = 'p'
	header    role = 'h'
	delimiter role = 'd'
	slice     role = '_'
)

// roleOf is by the types of H.264, table 7-1, of H.265, table 7-1, and of H.266, table 5.
func roleOf(codec h26x.Codec, unit []byte) role {
	if isSlice(codec, unit) {
		return slice
	}
	return map[h26x.Codec]map[byte]role{
		h26x.H264: {7: sps, 8: pps, 9: delimiter},
		h26x.H265: {32: vps, 33: sps, 34: pps, 35: delimiter},
		h26x.H266: {14: vps, 15: sps, 16: pps, 19: header, 20: delimiter},
	}[codec][typeOf(codec, unit)]
}

// A decoder is what is known of one that is given access units: whether it can go on, which parameter sets came to it
// since something was missing, how many temporal layers these tell, and whether any access unit came.
type decoder struct {
	goesOn   bool
	sets     map[role]bool
	layers   byte
	hasBegun bool
}

// takes gives it the units that came of an access unit: whether this follows the one before, with nothing missing between,
// and whether nothing is missing in it from its first packet that came on.
func (d *decoder) takes(codec h26x.Codec, units [][]byte, follows, isUnbroken bool) (isWhole, isClean, isDisposable bool) {
	isWhole = isUnbroken && (follows || d.isFront(codec, units))
	d.hasBegun = true
	if !follows {
		d.sets, d.layers = nil, 0
	}
	came, isFirst, isKeyframe, isUnreferenced := map[role]bool{}, false, false, false
	for _, unit := range units {
		it := roleOf(codec, unit)
		came[it] = true
		switch it {
		case sps:
			d.layers = 1
			if codec == h26x.H265 {
				d.layers = unit[2]>>1&7 + 1 // sps_max_sub_layers_minus1
			}
		case header: // of H.266: ph_non_ref_pic_flag
			isFirst, isUnreferenced = true, unit[2]&0x40 > 0
		case slice:
			isKeyframe = isKey(codec, unit)
			switch codec {
			case h26x.H264: // first_mb_in_slice, nal_ref_idc
				isFirst, isUnreferenced = unit[1] >= 0x80, unit[0]&0x60 == 0
			case h26x.H265: // first_slice_segment_in_pic_flag; sub-layer non-reference pictures of the highest layer
				isFirst, isUnreferenced = unit[2] >= 0x80, typeOf(codec, unit)%2 == 0 && unit[1]&7 == d.layers
			default: // a picture header in the slice
				if !came[header] {
					isFirst, isUnreferenced = unit[2] >= 0x80, unit[2]&0xa0 == 0xa0
				}
			}
		}
		if it == slice {
			break
		}
	}
	isDisposable = isUnreferenced && !isKeyframe && came[slice]
	for it := range d.sets {
		came[it] = true
	}
	hasSets := came[sps] && came[pps] && (came[vps] || codec != h26x.H265)
	d.goesOn = isUnbroken && isFirst && isKeyframe && hasSets || d.goesOn && follows && (isUnbroken || isDisposable)
	d.sets = nil
	if isUnbroken {
		d.sets = map[role]bool{vps: came[vps], sps: came[sps], pps: came[pps]}
	}
	return isWhole, isUnbroken && d.goesOn, isDisposable
}

// isFront tells whether the first of units is one with which access units begin, or the first one.
func (d *decoder) isFront(codec h26x.Codec, units [][]byte) bool {
	if len(units) == 0 {
		return false
	}
	switch roleOf(codec, units[0]) {
	case delimiter:
		return true
	case vps:
		return !d.hasBegun
	case sps:
		return codec != h26x.H265 && !d.hasBegun
	default:
		return false
	}
}

// left is the access units that must be given out where these packets came, computed from these alone: of each what its
// units are of which each packet came, and what a decoder can do with these.
func left(codec h26x.Codec, all []sentUnit, came map[int]bool, numberOf func(int) uint16) (units []h26x.AccessUnit) {
	before, known, hasBegun, carried := -1, decoder{}, false, uint32(0)
	for i, one := range all {
		first, last, count := -1, -1, 0
		for n := one.first; n <= one.last; n++ {
			if came[n] {
				if first < 0 {
					first = n
				}
				last, count = n, count+1
			}
		}
		if count == 0 {
			continue
		}
		follows, isUnbroken := first == before+1 && hasBegun, count == one.last-first+1
		if !hasBegun {
			before = first - 1
		}
		unit := h26x.AccessUnit{
			Timestamp: timestampOf(i), First: numberOf(first), Last: numberOf(last), Missing: uint32(last - before - count),
		}
		var there [][]byte
		for _, its := range one.units {
			if isWhole(its, came) {
				there = append(there, its.unit)
			}
			isUnbroken = isUnbroken && (first <= its.first || its.last < first)
		}
		unit.Bytes, unit.Extra = textOf(codec, there)
		unit.IsWhole, unit.IsClean, unit.IsDisposable = known.takes(codec, there, follows, isUnbroken)
		before, hasBegun = last, true
		// What is missing of one without bytes is told with the next one.
		unit.Missing += carried
		carried = unit.Missing
		if len(there) > 0 {
			units, carried = append(units, unit), 0
		}
	}
	return units
}

// bearsSlice tells whether something of a slice of an access unit came.
func bearsSlice(codec h26x.Codec, one sentUnit, came map[int]bool) bool {
	for _, its := range one.units {
		for n := its.first; n <= its.last; n++ {
			if isSlice(codec, its.unit) && came[n] {
				return true
			}
		}
	}
	return false
}

// timestampOf is that of an access unit: they go round in the middle of a stream.
func timestampOf(unit int) uint32 { return 0xffff_0000 + uint32(unit)*3000 }

func textOf(codec h26x.Codec, units [][]byte) (data []byte, told h26x.CodecExtra) {
	data = []byte{}
	for _, unit := range units {
		data = append(data, text(false, unit)...)
		if isKey(codec, unit) {
			told = h26x.Keyframe
		} else if told == h26x.NoUnits {
			told = h26x.NoKeyframe
		}
	}
	return data, told
}

// Streams through losses, repeats and swaps, of which packets are waited for by a window, or for so many ticks.
func TestAccessUnitsThroughLosses(t *testing.T) {
	for _, codec := range codecs {
		wholes, cleans, disposable := 0, 0, 0
		for _, mtu := range mtus {
			packets, all := sentUnits(t, codec, mtu)
			for _, r := range []rates{{0, 0, 0}, {100, 0, 0}, {0, 200, 0}, {20, 50, 200}} {
				for _, config := range []h26x.AccessUnitConfig{{Window: 16, BeginWait: 1 << 20}, {MaxWait: 30, BeginWait: 30}} {
					whole, clean := 0, 0
					for seed := int64(0); seed < 10; seed++ {
						for _, unit := range unitsThroughLosses(t, codec, config, packets, all, network(len(packets), r, seed)) {
							if unit.IsDisposable {
								disposable++
							}
							if unit.IsWhole {
								whole++
							}
							if unit.IsClean {
								clean++
							}
						}
					}
					// The first begins with parameter sets, and is a keyframe.
					if most := 10 * len(all); (whole < most) != (r.lost > 0) || (clean < most) != (r.lost > 0) {
						t.Errorf("%v, %d, %v: of %d %d are whole, and %d clean", codec, mtu, r, most, whole, clean)
					}
					wholes, cleans = wholes+whole, cleans+clean
				}
			}
		}
		if cleans == 0 || cleans == wholes || (disposable > 0) != (codec == h26x.H265) {
			t.Errorf("%v: %d of %d are clean, %d disposable", codec, cleans, wholes, disposable)
		}
	}
}

// unitsThroughLosses gives packets as they come, a tick each, and compares what is given out and counted.
func unitsThroughLosses(t *testing.T, codec h26x.Codec, config h26x.AccessUnitConfig, packets [][]byte, all []sentUnit,
	coming []int) (got []h26x.AccessUnit) {
	t.Helper()
	r := newAccessUnitReceiver(t, codec, config)
	defer r.Close()
	// The numbers and the ticks go round in the middle of the stream.
	first, now := 65536-len(packets)/2, uint32(0)-uint32(len(coming)/2)
	numberOf := func(n int) uint16 { return uint16(first + n) }
	unitOf, marker := make([]int, len(packets)), make([]bool, len(packets))
	for i, one := range all {
		for n := one.first; n <= one.last; n++ {
			unitOf[n], marker[n] = i, n == one.last
		}
	}
	came, lowest, highest := map[int]bool{}, len(packets), 0
	take := func() {
		for {
			unit, err := r.Next(now)
			done(t, err)
			if unit == nil {
				return
			}
			got = append(got, *unit)
		}
	}
	for _, n := range coming {
		now++
		pushed, _, err := r.Push(now, h26x.RTPPacket{
			Sequence: numberOf(n), Timestamp: timestampOf(unitOf[n]), Marker: marker[n], Payload: packets[n],
		})
		done(t, err)
		if came[n] && pushed != h26x.Twice && pushed != h26x.PushedLate || !came[n] && pushed != h26x.Held {
			t.Fatalf("packet %d: got %v", n, pushed)
		}
		came[n] = true
		if n < lowest {
			lowest = n
		}
		if n > highest {
			highest = n
		}
		take()
	}
	done(t, r.Finish())
	take()
	wanted := left(codec, all, came, numberOf)
	wholes := checkUnits(t, codec, got, wanted)
	checkCounts(t, r, h26x.Counts{
		Taken: uint64(len(came)), Lost: uint64(highest - lowest + 1 - len(came)), Units: uint64(len(wanted)), Whole: wholes,
		Unbelieved: unbelieved(codec, all, came),
	}, len(coming)-len(came))
	return got
}

// Compares access units, and counts those that are whole.
func checkUnits(t *testing.T, codec h26x.Codec, got, wanted []h26x.AccessUnit) (wholes uint64) {
	t.Helper()
	for i, unit := range wanted {
		if i >= len(got) || told(got[i]) != told(unit) {
			t.Fatalf("%v, access unit %d of %d, got %d: it is another one", codec, i, len(wanted), len(got))
		}
		if unit.IsWhole {
			wholes++
		}
	}
	if len(got) > len(wanted) {
		t.Fatalf("%d access units more", len(got)-len(wanted))
	}
	return wholes
}

// How many markers aren't believed: those of packets that came, of access units of which no slice did.
func unbelieved(codec h26x.Codec, all []sentUnit, came map[int]bool) (count uint64) {
	for _, one := range all {
		if came[one.last] && !bearsSlice(codec, one, came) {
			count++
		}
	}
	return count
}

// What is counted, where so many packets came again.
func checkCounts(t *testing.T, r *h26x.AccessUnitReceiver, wanted h26x.Counts, again int) {
	t.Helper()
	counted, err := r.Counts()
	done(t, err)
	if counted.Late+counted.Twice != uint64(again) {
		t.Fatalf("%d late and %d twice, of %d that came again", counted.Late, counted.Twice, again)
	}
	counted.Late, counted.Twice = 0, 0
	if counted != wanted {
		t.Fatalf("got %+v", counted)
	}
}
