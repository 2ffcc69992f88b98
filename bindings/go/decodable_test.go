package h26x_test

import (
	"testing"

	"emupedestal/h26x"
)

// How a stream begins, which access units are whole, and which a decoder can show. Expected answers are by the video
// standards' order of NAL units, their parameter sets and their slice headers, and by which numbers came.

// kinds are units of a stream, each a packet as it stands.
type kinds struct {
	delimiter []byte
	sets      [][]byte
	// key and slice are the first slices of a keyframe and of another picture, second is another slice of the keyframe, and
	// of disposable no other picture takes anything.
	key, second, slice, disposable []byte
}

func kindsOf(codec h26x.Codec) kinds {
	k := many(map[h26x.Codec]string{
		h26x.H264: "09f0|6588|6540|619a|019a|6742c01f|68ce",
		h26x.H265: "460150|2601ac|26012c|0201d0|0001d0|40010c|420101|4401c1",
		h26x.H266: "00a128|0041c0|004140|0001c0|0001e0|007900|008100",
	}[codec])
	return kinds{delimiter: k[0], key: k[1], second: k[2], slice: k[3], disposable: k[4], sets: k[5:]}
}

// keyframe is the units of one with its parameter sets.
func (k kinds) keyframe() [][]byte { return append(append([][]byte(nil), k.sets...), k.key) }

// comes gives the units of an access unit, each in a packet, the marker on the last.
func comes(t *testing.T, r *h26x.AccessUnitReceiver, now uint32, first uint16, timestamp uint32, units ...[]byte) {
	t.Helper()
	for i, unit := range units {
		pushes(t, r, now, first+uint16(i), timestamp, i+1 == len(units), unit, h26x.Held)
	}
}

// several is an access unit of these.
func several(codec h26x.Codec, timestamp uint32, first uint16, units ...[]byte) h26x.AccessUnit {
	bytes, extra := textOf(codec, units)
	return h26x.AccessUnit{
		Timestamp: timestamp, Bytes: bytes, Extra: extra, First: first, Last: first + uint16(len(units)) - 1,
	}
}

func disposable(unit h26x.AccessUnit) h26x.AccessUnit {
	unit.IsDisposable = true
	return unit
}

// eachKind makes a receiver of each codec that has no parameter sets but those that come.
func eachKind(t *testing.T, test func(*testing.T, h26x.Codec, kinds, *h26x.AccessUnitReceiver)) {
	for _, codec := range codecs {
		t.Run(codec.String(), func(t *testing.T) {
			test(t, codec, kindsOf(codec), newAccessUnitReceiver(t, codec, h26x.AccessUnitConfig{}))
		})
	}
}

// With no setting, and no clock, each access unit of a stream of which nothing is lost is given out once it has ended.
func TestAStreamOfWhichNothingIsLost(t *testing.T) {
	eachKind(t, func(t *testing.T, codec h26x.Codec, k kinds, r *h26x.AccessUnitReceiver) {
		n := uint16(65530)
		for round := uint32(0); round < 3; round++ {
			comes(t, r, 0, n, 6000*round, k.keyframe()...)
			gives(t, r, 0, clean(several(codec, 6000*round, n, k.keyframe()...)))
			n += uint16(len(k.keyframe()))
			comes(t, r, 0, n, 6000*round+3000, k.slice)
			gives(t, r, 0, clean(one(codec, 6000*round+3000, n, k.slice)))
			n++
		}
	})
}

// Packets before the first are waited for by BeginWait, and by MaxWait where that is shorter, and none of them is missing.
func TestAReorderedBeginning(t *testing.T) {
	for _, codec := range codecs {
		k := kindsOf(codec)
		last := uint16(10 + len(k.sets))
		for _, config := range []h26x.AccessUnitConfig{
			{BeginWait: 50}, {BeginWait: 50, MaxWait: 200}, {BeginWait: 200, MaxWait: 50}, {BeginWait: 1<<31 - 1, MaxWait: 50},
		} {
			r := newAccessUnitReceiver(t, codec, config)
			// Behind Restart and Finish a stream begins too.
			for begun := uint32(0); begun < 3; begun++ {
				pushes(t, r, 0, last, 3000, true, k.key, h26x.Held)
				lacks(t, r)
				waits(t, r, 50)
				gives(t, r, 49)
				pushes(t, r, 49, 10, 3000, false, k.sets[0], h26x.Held)
				gives(t, r, 49)
				var between []uint16
				for n := uint16(11); n < last; n++ {
					between = append(between, n)
				}
				lacks(t, r, between...)
				for i, unit := range k.sets[1:] {
					pushes(t, r, 49, 11+uint16(i), 3000, false, unit, h26x.Held)
				}
				lacks(t, r)
				// Behind Finish it isn't the first access unit.
				first := start(several(codec, 3000, 10, k.keyframe()...))
				first.IsWhole = begun < 2
				gives(t, r, 50, first)
				pushes(t, r, 50, 9, 0, true, k.slice, h26x.PushedLate, last-8)
				// It has begun: what is missing is waited for by MaxWait.
				pushes(t, r, 50, last+2, 9000, true, k.slice, h26x.Held)
				lacks(t, r, last+1)
				if config.MaxWait == 0 {
					waits(t, r, -1)
				} else {
					waits(t, r, int64(50+config.MaxWait))
				}
				if begun == 0 {
					done(t, r.Restart())
					continue
				}
				done(t, r.Finish())
				gives(t, r, 50, missing(one(codec, 9000, last+2, k.slice), 1))
			}
		}
	}
}

// Without a wait at the beginning those before are late, and the window has packets due whatever the wait.
func TestABeginningWithoutAWait(t *testing.T) {
	for _, codec := range codecs {
		k := kindsOf(codec)
		last := uint16(10 + len(k.sets))
		for _, config := range []h26x.AccessUnitConfig{{MaxWait: 200}, {BeginWait: -1, MaxWait: 200}, {BeginWait: 200, MaxWait: -1}} {
			r := newAccessUnitReceiver(t, codec, config)
			pushes(t, r, 9, last, 3000, true, k.key, h26x.Held)
			waits(t, r, 9)
			gives(t, r, 9, one(codec, 3000, last, k.key))
			pushes(t, r, 9, 10, 3000, false, k.sets[0], h26x.PushedLate, last-9)
		}
		r := newAccessUnitReceiver(t, codec, h26x.AccessUnitConfig{Window: 4, BeginWait: 50})
		for n := uint16(1); n < 4; n++ {
			pushes(t, r, 0, n, uint32(n), true, k.slice, h26x.Held)
			gives(t, r, 0)
		}
		pushes(t, r, 0, 4, 4, true, k.slice, h26x.Held)
		two, three, four := whole(one(codec, 2, 2, k.slice)), whole(one(codec, 3, 3, k.slice)), whole(one(codec, 4, 4, k.slice))
		gives(t, r, 0, one(codec, 1, 1, k.slice), two, three, four)
	}
}

// A peer tells the number of its first packet: those from it on are waited for, and the first access unit is whole.
func TestAFirstNumberThatIsTold(t *testing.T) {
	for _, codec := range codecs {
		r, k := newAccessUnitReceiver(t, codec, h26x.AccessUnitConfig{MaxWait: 200}), kindsOf(codec)
		if !r.BeginAt(65535) {
			t.Fatal("no packet came")
		}
		lacks(t, r)
		waits(t, r, -1)
		pushes(t, r, 7, 1, 3000, true, k.second, h26x.Held)
		lacks(t, r, 65535, 0)
		waits(t, r, 207)
		gives(t, r, 206)
		pushes(t, r, 7, 65534, 0, true, k.slice, h26x.PushedLate, 1)
		pps := k.sets[len(k.sets)-1]
		pushes(t, r, 7, 65535, 3000, false, pps, h26x.Held)
		pushes(t, r, 7, 0, 3000, false, k.slice, h26x.Held)
		gives(t, r, 7, whole(several(codec, 3000, 65535, pps, k.slice, k.second)))
		if r.BeginAt(2) {
			t.Error("packets came")
		}
		// What is missing at the beginning is lost.
		done(t, r.Restart())
		if !r.BeginAt(10) {
			t.Error("no packet came of another sender")
		}
		pushes(t, r, 300, 12, 6000, true, k.slice, h26x.Held)
		gives(t, r, 499)
		gives(t, r, 500, missing(one(codec, 6000, 12, k.slice), 2))
		counts(t, r, h26x.Counts{Taken: 4, Lost: 2, Late: 1, Units: 2, Whole: 1})
		// One that waits has come.
		done(t, r.Finish())
		gives(t, r, 500)
		pushes(t, r, 500, 20, 9000, true, k.slice, h26x.Held)
		if r.BeginAt(19) {
			t.Error("a packet waits")
		}
		gives(t, r, 500, one(codec, 9000, 20, k.slice))
	}
}

// A keyframe is clean where its parameter sets came in it, or before it in order, or the decoder has them.
func TestParameterSetsOfAKeyframe(t *testing.T) {
	eachKind(t, func(t *testing.T, codec h26x.Codec, k kinds, r *h26x.AccessUnitReceiver) {
		// None came, and then a part of them.
		comes(t, r, 0, 10, 0, k.key)
		comes(t, r, 0, 11, 3000, k.slice)
		comes(t, r, 0, 12, 6000, k.sets[0], k.key)
		gives(t, r, 0, one(codec, 0, 10, k.key), whole(one(codec, 3000, 11, k.slice)),
			whole(several(codec, 6000, 12, k.sets[0], k.key)))
		// With the others in the next one there are all.
		comes(t, r, 0, 14, 9000, append(append([][]byte(nil), k.sets[1:]...), k.key)...)
		gives(t, r, 0, clean(several(codec, 9000, 14, append(append([][]byte(nil), k.sets[1:]...), k.key)...)))
		// Each is needed; with the first of them the first access unit begins.
		for i := range k.sets {
			done(t, r.Restart())
			units := append(append(append([][]byte(nil), k.sets[:i]...), k.sets[i+1:]...), k.key)
			comes(t, r, 0, 10, 0, units...)
			wanted := several(codec, 0, 10, units...)
			wanted.IsWhole = i > 0
			gives(t, r, 0, wanted)
		}
		// A sender that marks them, and sends keyframes without.
		done(t, r.Restart())
		comes(t, r, 0, 20, 0, k.sets...)
		n := 20 + uint16(len(k.sets))
		comes(t, r, 0, n, 3000, k.key)
		comes(t, r, 0, n+1, 6000, k.key)
		gives(t, r, 0, whole(several(codec, 0, 20, k.sets...)), clean(one(codec, 3000, n, k.key)),
			clean(one(codec, 6000, n+1, k.key)))
		// Behind a gap there may be others, and where something is missing in the access unit that bears them.
		comes(t, r, 0, n+3, 9000, k.key)
		comes(t, r, 0, n+4, 12000, k.key)
		done(t, r.Finish())
		gives(t, r, 0, missing(one(codec, 9000, n+3, k.key), 1), whole(one(codec, 12000, n+4, k.key)))
		comes(t, r, 0, 40, 0, k.keyframe()...)
		n = 40 + uint16(len(k.keyframe()))
		gives(t, r, 0, start(several(codec, 0, 40, k.keyframe()...)))
		pushes(t, r, 0, n, 3000, false, k.slice, h26x.Held)
		pushes(t, r, 0, n+2, 3000, true, k.slice, h26x.Held)
		comes(t, r, 0, n+3, 6000, k.key)
		done(t, r.Finish())
		hurt := missing(several(codec, 3000, n, k.slice, k.slice), 1)
		hurt.Last = n + 2
		gives(t, r, 0, hurt, whole(one(codec, 6000, n+3, k.key)))
	})
}

// A decoder that has parameter sets needs none.
func TestParameterSetsThatADecoderHas(t *testing.T) {
	eachKind(t, func(t *testing.T, codec h26x.Codec, k kinds, _ *h26x.AccessUnitReceiver) {
		r := newAccessUnitReceiver(t, codec, h26x.AccessUnitConfig{HasSets: true})
		comes(t, r, 0, 10, 0, k.slice)
		comes(t, r, 0, 11, 3000, k.key)
		comes(t, r, 0, 13, 6000, k.slice)
		comes(t, r, 0, 15, 9000, k.key)
		done(t, r.Finish())
		gives(t, r, 0, one(codec, 0, 10, k.slice), clean(one(codec, 3000, 11, k.key)),
			missing(one(codec, 6000, 13, k.slice), 1), start(missing(one(codec, 9000, 15, k.key), 1)))
		// Another sender may have others, but what the caller says stays.
		done(t, r.Restart())
		comes(t, r, 0, 10, 0, k.key)
		gives(t, r, 0, start(one(codec, 0, 10, k.key)))
		// A keyframe that came from its second slice on is none to begin with.
		done(t, r.Restart())
		comes(t, r, 0, 11, 0, k.second)
		comes(t, r, 0, 12, 3000, k.slice)
		gives(t, r, 0, one(codec, 0, 11, k.second), whole(one(codec, 3000, 12, k.slice)))
	})
}

// A decoder can begin with a keyframe that is behind a gap, whatever is missing before it.
func TestAKeyframeBehindAGap(t *testing.T) {
	eachKind(t, func(t *testing.T, codec h26x.Codec, k kinds, r *h26x.AccessUnitReceiver) {
		comes(t, r, 0, 10, 0, k.keyframe()...)
		gives(t, r, 0, clean(several(codec, 0, 10, k.keyframe()...)))
		// The last packet of a picture is missing, with its marker.
		n := 10 + uint16(len(k.keyframe()))
		pushes(t, r, 0, n, 3000, false, k.slice, h26x.Held)
		comes(t, r, 0, n+2, 6000, k.keyframe()...)
		next := n + 2 + uint16(len(k.keyframe()))
		comes(t, r, 0, next, 9000, k.slice)
		gives(t, r, 0)
		done(t, r.Finish())
		gives(t, r, 0, one(codec, 3000, n, k.slice), start(missing(several(codec, 6000, n+2, k.keyframe()...), 1)),
			clean(one(codec, 9000, next, k.slice)))
		// Behind a marker, where nobody knows whether the one that is missing was of its timestamp.
		comes(t, r, 0, 10, 0, k.slice)
		comes(t, r, 0, 12, 0, append([][]byte{k.sets[len(k.sets)-1]}, k.keyframe()...)...)
		done(t, r.Finish())
		gives(t, r, 0, one(codec, 0, 10, k.slice),
			start(missing(several(codec, 0, 12, append([][]byte{k.sets[len(k.sets)-1]}, k.keyframe()...)...), 1)))
		// Something is missing in it.
		comes(t, r, 0, 10, 0, k.keyframe()...)
		n = 10 + uint16(len(k.keyframe()))
		gives(t, r, 0, start(several(codec, 0, 10, k.keyframe()...)))
		pushes(t, r, 0, n, 3000, false, k.key, h26x.Held)
		pushes(t, r, 0, n+2, 3000, true, k.second, h26x.Held)
		comes(t, r, 0, n+3, 6000, k.slice)
		done(t, r.Finish())
		hurt := missing(several(codec, 3000, n, k.key, k.second), 1)
		hurt.Last = n + 2
		gives(t, r, 0, hurt, whole(one(codec, 6000, n+3, k.slice)))
	})
}

// Pictures to which no other refers are damaged, and those after them are clean: not so those to which others do, nor where
// it isn't known to which picture the missing packets belong.
func TestDisposablePictures(t *testing.T) {
	for _, codec := range codecs {
		k := kindsOf(codec)
		for _, it := range []struct {
			name         string
			unit         []byte
			isDisposable bool
		}{{"disposable", k.disposable, true}, {"referred to", k.slice, false}} {
			picture := func(unit h26x.AccessUnit) h26x.AccessUnit {
				unit.IsDisposable = it.isDisposable
				return unit
			}
			r := newAccessUnitReceiver(t, codec, h26x.AccessUnitConfig{MaxWait: -1})
			comes(t, r, 0, 10, 0, k.keyframe()...)
			n := 10 + uint16(len(k.keyframe()))
			comes(t, r, 0, n, 3000, it.unit)
			gives(t, r, 0, clean(several(codec, 0, 10, k.keyframe()...)), picture(clean(one(codec, 3000, n, it.unit))))
			// A packet in the middle is missing.
			pushes(t, r, 0, n+1, 6000, false, it.unit, h26x.Held)
			pushes(t, r, 0, n+3, 6000, true, it.unit, h26x.Held)
			comes(t, r, 0, n+4, 9000, k.slice)
			hurt := picture(missing(several(codec, 6000, n+1, it.unit, it.unit), 1))
			hurt.Last = n + 3
			after := whole(one(codec, 9000, n+4, k.slice))
			after.IsClean = it.isDisposable
			gives(t, r, 0, hurt, after)
			// The first one is missing, and then the last.
			comes(t, r, 0, n+6, 12000, it.unit)
			comes(t, r, 0, n+7, 15000, k.slice)
			gap := missing(one(codec, 12000, n+6, it.unit), 1)
			// Behind it nobody knows how many temporal layers an H.265 stream has.
			gap.IsDisposable = it.isDisposable && codec != h26x.H265
			gives(t, r, 0, gap, whole(one(codec, 15000, n+7, k.slice)))
			comes(t, r, 0, n+8, 18000, k.keyframe()...)
			gives(t, r, 0, clean(several(codec, 18000, n+8, k.keyframe()...)))
			n += 8 + uint16(len(k.keyframe()))
			pushes(t, r, 0, n, 21000, false, it.unit, h26x.Held)
			comes(t, r, 0, n+2, 24000, k.slice)
			gives(t, r, 0, picture(one(codec, 21000, n, it.unit)), missing(one(codec, 24000, n+2, k.slice), 1))
		}
	}
}

// Of H.265 a picture that none of its temporal layer refers to may be referred to from a higher one.
func TestTemporalLayers(t *testing.T) {
	k, twoLayers := kindsOf(h26x.H265), some("420103")
	low, high, refers := some("0001d0"), some("0002d0"), some("0202d0")
	r := newAccessUnitReceiver(t, h26x.H265, h26x.AccessUnitConfig{MaxWait: -1})
	comes(t, r, 0, 10, 0, low)
	gives(t, r, 0, one(h26x.H265, 0, 10, low))
	comes(t, r, 0, 11, 3000, k.sets[0], twoLayers, k.sets[2], k.key)
	for n, unit := range [][]byte{low, high, refers} {
		comes(t, r, 0, 15+uint16(n), 6000+uint32(n), unit)
	}
	gives(t, r, 0, clean(several(h26x.H265, 3000, 11, k.sets[0], twoLayers, k.sets[2], k.key)),
		clean(one(h26x.H265, 6000, 15, low)), disposable(clean(one(h26x.H265, 6001, 16, high))),
		clean(one(h26x.H265, 6002, 17, refers)))
	// Behind a gap another sequence parameter set may tell of more.
	comes(t, r, 0, 19, 9000, high)
	gives(t, r, 0, missing(one(h26x.H265, 9000, 19, high), 1))
}

// An access unit is whole by what it begins with where its first packet follows none: a delimiter, or of the first one
// alone a VPS, or of H.264 and H.266 an SPS.
func TestWholeByTheFirstUnit(t *testing.T) {
	no := func(unit h26x.AccessUnit) h26x.AccessUnit { return unit }
	for _, codec := range codecs {
		k := kindsOf(codec)
		begin := func(ofFirst, ofLater func(h26x.AccessUnit) h26x.AccessUnit, units ...[]byte) {
			t.Helper()
			r, n := newAccessUnitReceiver(t, codec, h26x.AccessUnitConfig{MaxWait: -1, Far: 1000}), uint16(len(units))
			comes(t, r, 0, 10, 0, units...)
			gives(t, r, 0, ofFirst(several(codec, 0, 10, units...)))
			// Behind a gap, behind the end, and where the stream begins anew.
			comes(t, r, 0, 11+n, 3000, units...)
			gives(t, r, 0, ofLater(missing(several(codec, 3000, 11+n, units...), 1)))
			done(t, r.Finish())
			gives(t, r, 0)
			comes(t, r, 0, 100, 6000, units...)
			gives(t, r, 0, ofLater(several(codec, 6000, 100, units...)))
			for i, unit := range units {
				wanted := []h26x.Pushed{h26x.Stray, h26x.Anew, h26x.Held, h26x.Held, h26x.Held}[i]
				pushes(t, r, 0, 20000+uint16(i), 9000, i+1 == len(units), unit, wanted)
			}
			gives(t, r, 0, ofLater(several(codec, 9000, 20000, units...)))
			// Another sender's.
			done(t, r.Restart())
			comes(t, r, 0, 30, 0, units...)
			gives(t, r, 0, ofFirst(several(codec, 0, 30, units...)))
		}
		begin(whole, whole, k.delimiter, k.slice)
		begin(clean, clean, append([][]byte{k.delimiter}, k.keyframe()...)...)
		begin(clean, start, k.keyframe()...)
		begin(no, no, k.slice, k.second)
		begin(no, no, k.sets[len(k.sets)-1], k.slice)
		sps := k.sets[len(k.sets)-2]
		if codec == h26x.H265 {
			begin(no, no, sps, k.slice)
		} else {
			begin(whole, no, sps, k.slice)
		}
		if codec != h26x.H264 {
			// With a temporal layer of 0, which no header has, they are none.
			others := many(map[h26x.Codec]string{h26x.H265: "40010c|40000c|460050", h26x.H266: "007100|007000|00a028"}[codec])
			begin(whole, no, others[0], k.slice)
			begin(no, no, others[1], k.slice)
			begin(no, no, others[2], k.slice)
		}
	}
}

// Of H.266 a picture header before the first slice is that of the picture.
func TestPictureHeaders(t *testing.T) {
	k, header, nonReference, other := kindsOf(h26x.H266), some("009980"), some("0099c0"), some("000140")
	r := newAccessUnitReceiver(t, h26x.H266, h26x.AccessUnitConfig{MaxWait: -1})
	key := append(append([][]byte(nil), k.sets...), header, k.second)
	comes(t, r, 0, 10, 0, key...)
	n := 10 + uint16(len(key))
	comes(t, r, 0, n, 3000, header, other)
	comes(t, r, 0, n+2, 6000, nonReference, other)
	gives(t, r, 0, clean(several(h26x.H266, 0, 10, key...)), clean(several(h26x.H266, 3000, n, header, other)),
		disposable(clean(several(h26x.H266, 6000, n+2, nonReference, other))))
}

// What has the same timestamp behind missing numbers isn't known to go on with the one that a marker ended.
func TestAMarkerBeforeMissingNumbers(t *testing.T) {
	eachKind(t, func(t *testing.T, codec h26x.Codec, k kinds, r *h26x.AccessUnitReceiver) {
		comes(t, r, 0, 10, 0, k.keyframe()...)
		n := 10 + uint16(len(k.keyframe()))
		comes(t, r, 0, n+1, 0, k.second)
		done(t, r.Finish())
		gives(t, r, 0, clean(several(codec, 0, 10, k.keyframe()...)), missing(one(codec, 0, n+1, k.second), 1))
	})
}

// The packet with which a stream begins anew waits for those before it, and a decoder needs the parameter sets again.
func TestTheBeginningOfAStreamThatBeginsAnew(t *testing.T) {
	for _, codec := range codecs {
		r, k := newAccessUnitReceiver(t, codec, h26x.AccessUnitConfig{Far: 100, BeginWait: 50}), kindsOf(codec)
		comes(t, r, 0, 10, 0, k.keyframe()...)
		gives(t, r, 50, clean(several(codec, 0, 10, k.keyframe()...)))
		last := 20000 + uint16(len(k.sets))
		pushes(t, r, 60, last, 3000, true, k.key, h26x.Stray)
		pushes(t, r, 60, last+1, 6000, true, k.key, h26x.Anew)
		lacks(t, r)
		waits(t, r, 110)
		for i, unit := range k.sets {
			pushes(t, r, 109, 20000+uint16(i), 3000, false, unit, h26x.Held)
		}
		gives(t, r, 109)
		gives(t, r, 110, start(several(codec, 3000, 20000, k.keyframe()...)), clean(one(codec, 6000, last+1, k.key)))
		pushes(t, r, 120, 40000, 9000, true, k.key, h26x.Stray)
		pushes(t, r, 120, 40001, 12000, true, k.key, h26x.Anew)
		gives(t, r, 170, one(codec, 9000, 40000, k.key), whole(one(codec, 12000, 40001, k.key)))
	}
}

// What access units bear is found where units are behind lengths too.
func TestUnitsBehindLengths(t *testing.T) {
	for _, codec := range codecs {
		for _, donl := range []bool{false, codec != h26x.H264} {
			k := kindsOf(codec)
			r := newAccessUnitReceiver(t, codec, h26x.AccessUnitConfig{AVC: true, DONL: donl, MaxWait: -1})
			n := uint16(10)
			behind := func(is func(h26x.AccessUnit) h26x.AccessUnit, units ...[]byte) {
				t.Helper()
				packets := units
				if donl {
					packets = nil
					for _, unit := range units {
						packets = append(packets, append(append(append([]byte(nil), unit[:2]...), 0, 5), unit[2:]...))
					}
				}
				comes(t, r, 0, n, uint32(n), packets...)
				wanted := is(several(codec, uint32(n), n, units...))
				wanted.Bytes = text(true, units...)
				gives(t, r, 0, wanted)
				n += uint16(len(units))
			}
			behind(func(unit h26x.AccessUnit) h26x.AccessUnit { return unit }, k.second, k.second)
			behind(clean, append(append([][]byte{k.delimiter}, k.keyframe()...), k.second)...)
			behind(func(unit h26x.AccessUnit) h26x.AccessUnit { return disposable(clean(unit)) }, k.disposable)
		}
	}
}
