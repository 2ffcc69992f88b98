//! What a receiver tells of access units: where a stream begins, across missing numbers, with and without parameter
//! sets, of pictures that nothing refers to. Of each codec the same packets, with units of its own (Recommendations
//! H.264, table 7-1; H.265, table 7-1; H.266, table 5; RFC 6184, 5.7; RFC 7798, 4.4.2; RFC 9328, 4.3.2).

use crate::access_unit_receiver::{
    AccessUnitConfig, AccessUnitReceiver, Pushed, ReceivedAccessUnit,
};
use crate::tests::bytes;
use crate::{Codec, RtpPacket};

/// NAL units of a codec.
struct Units {
    codec: Codec,
    /// The header of a packet that bears more than one.
    aggregate: &'static str,
    delimiter: &'static str,
    /// What stands at the front of those parameter sets that a decoder needs, and the others of them.
    front_set: &'static str,
    other_sets: &'static [&'static str],
    /// A keyframe's first slice, and its second.
    key: &'static str,
    key_rest: &'static str,
    /// A first slice of another picture, to which others refer; and of one to which none does, and its second.
    slice: &'static str,
    disposable: &'static str,
    disposable_rest: &'static str,
    /// One that stands behind slices (filler data, suffix SEI).
    suffix: &'static str,
    /// A packet that is refused, and one that bears no unit of the stream.
    refused: &'static str,
    without: &'static str,
}

const CODECS: [Units; 3] = [
    Units {
        codec: Codec::H264,
        aggregate: "78",
        delimiter: "09f0",
        front_set: "6742c01f",
        other_sets: &["68ce"],
        key: "658880",
        key_rest: "654080",
        slice: "419a80",
        disposable: "019a80",
        disposable_rest: "014080",
        suffix: "0cff80",
        refused: "7c",
        without: "1e00",
    },
    Units {
        codec: Codec::H265,
        aggregate: "6001",
        delimiter: "460150",
        front_set: "40010c",
        other_sets: &["420101", "4401c1"],
        key: "2601ac",
        key_rest: "26012c",
        slice: "0201d0",
        disposable: "0001d0",
        disposable_rest: "000150",
        suffix: "500180",
        refused: "6201",
        without: "4801",
    },
    Units {
        codec: Codec::H266,
        aggregate: "00e1",
        delimiter: "00a128",
        front_set: "007900",
        other_sets: &["008100"],
        key: "0041c0",
        key_rest: "004140",
        slice: "0001c0",
        disposable: "0001e0",
        disposable_rest: "000140",
        suffix: "00c180",
        refused: "00e9",
        without: "00a9",
    },
];

impl Units {
    /// All parameter sets that a decoder needs, in their order.
    fn sets(&self) -> Vec<&'static str> {
        [&[self.front_set], self.other_sets].concat()
    }

    /// These, and a keyframe's first slice.
    fn sets_and_key(&self) -> Vec<&'static str> {
        [&self.sets()[..], &[self.key]].concat()
    }

    /// A packet of these units.
    fn payload(&self, units: &[&str]) -> Vec<u8> {
        match units {
            [] => Vec::new(),
            [unit] => bytes(unit),
            _ => {
                let with_len = |unit: &&str| {
                    let unit = bytes(unit);
                    [&(unit.len() as u16).to_be_bytes()[..], &unit].concat()
                };
                let units = units.iter().flat_map(with_len);
                bytes(self.aggregate).into_iter().chain(units).collect()
            }
        }
    }
}

/// A receiver, and the units of its codec.
struct Stream<'a> {
    it: AccessUnitReceiver,
    of: &'a Units,
}

/// Nothing is waited for by the window.
fn at_once() -> AccessUnitConfig {
    AccessUnitConfig {
        window: 1,
        ..AccessUnitConfig::default()
    }
}

impl<'a> Stream<'a> {
    fn new(of: &'a Units, config: AccessUnitConfig) -> Self {
        let it = AccessUnitReceiver::new(of.codec, config);
        Stream { it, of }
    }

    /// A packet at a tick: its number, its timestamp, whether it bears the marker, its units.
    fn push(&mut self, now: u32, packet: (u16, u32, bool), units: &[&str]) -> Pushed {
        let (sequence, timestamp, marker) = packet;
        let payload = &self.of.payload(units);
        let packet = RtpPacket {
            sequence,
            timestamp,
            marker,
            payload,
        };
        self.it.push(now, &packet).expect("memory")
    }

    /// One that ends its access unit, whose timestamp is ten times its number.
    fn push_unit(&mut self, sequence: u16, units: &[&str]) -> Pushed {
        self.push(0, (sequence, 10 * u32::from(sequence), true), units)
    }

    /// What is told of those that have ended at a tick, each behind its first number.
    fn told(&mut self, now: u32) -> Vec<String> {
        let next = || self.it.next(now).expect("memory");
        core::iter::from_fn(next).map(|unit| told(&unit)).collect()
    }

    /// What is told of those of packets that end one each, with these numbers, at once.
    fn told_of(&mut self, packets: &[(u16, &[&str])]) -> Vec<String> {
        for (sequence, units) in packets {
            assert_eq!(self.push_unit(*sequence, units), Pushed::Held, "{sequence}");
        }
        self.told(0)
    }
}

fn told(unit: &ReceivedAccessUnit) -> String {
    let missing = format!("{} missing", unit.missing);
    let facts = [
        (unit.missing > 0, missing.as_str()),
        (unit.is_whole, "whole"),
        (unit.is_clean, "clean"),
        (unit.is_disposable, "disposable"),
        (unit.continues, "continues"),
    ];
    let facts = facts.iter().filter(|it| it.0).map(|it| it.1);
    let facts: Vec<&str> = facts.collect();
    format!("{}: {}", unit.first, facts.join(", "))
}

#[test]
fn the_first_is_given_out_at_once() {
    for of in &CODECS {
        let mut it = Stream::new(of, AccessUnitConfig::default());
        assert_eq!(
            it.told_of(&[(7, &of.sets_and_key()), (8, &[of.slice])]),
            ["7: whole, clean", "8: whole, clean"]
        );
        assert_eq!(it.push_unit(6, &[of.slice]), Pushed::Late(3));
        // So is the first behind the end, another sender's, and one that begins anew.
        it.it.finish();
        assert!(it.told(0).is_empty());
        assert_eq!(it.told_of(&[(40, &[of.slice])]), ["40: "]);
        it.it.restart();
        assert_eq!(it.told_of(&[(70, &[of.slice])]), ["70: "]);
        assert_eq!(it.push_unit(9000, &[of.slice]), Pushed::Stray);
        assert_eq!(it.push_unit(9001, &[of.slice]), Pushed::Anew);
        assert_eq!(it.told(0), ["9000: ", "9001: whole"]);
    }
}

#[test]
fn the_first_waits_for_those_before_it() {
    for of in &CODECS {
        let config = AccessUnitConfig {
            max_wait: 100,
            begin_wait: 10,
            ..AccessUnitConfig::default()
        };
        let mut it = Stream::new(of, config);
        it.push_unit(7, &[of.slice]);
        assert_eq!((it.told(9), it.it.deadline()), (vec![], Some(10)));
        // Behind the first that waits others are missing, before it none is known to be.
        it.push(9, (10, 100, true), &[of.slice]);
        assert_eq!(it.it.missing(), Ok(vec![8, 9]));
        let first = it.push(9, (6, 60, true), &of.sets_and_key());
        assert_eq!(first, Pushed::Held);
        assert_eq!(it.it.missing(), Ok(vec![8, 9]));
        assert_eq!(it.told(10), ["6: whole, clean", "7: whole, clean"]);
        // From then on a packet is waited for by the other time.
        assert_eq!((it.it.deadline(), it.told(108)), (Some(109), vec![]));
        assert_eq!(it.told(109), ["10: 2 missing"]);
        for sequence in [40, 70, 9001] {
            match sequence {
                40 => it.it.finish(),
                70 => it.it.restart(),
                _ => assert_eq!(it.push(200, (9000, 9, true), &[of.slice]), Pushed::Stray),
            }
            assert!(it.told(200).is_empty());
            it.push(200, (sequence, 9, true), &[of.slice]);
            assert_eq!(it.it.deadline(), Some(210), "{sequence}");
            assert!(it.told(209).is_empty() && it.it.missing() == Ok(vec![]));
            assert!(!it.told(210).is_empty());
        }
    }
}

#[test]
fn the_first_waits_no_longer_than_others() {
    for of in &CODECS {
        for begin_wait in [u32::MAX, 101] {
            let config = AccessUnitConfig {
                max_wait: 100,
                begin_wait,
                ..AccessUnitConfig::default()
            };
            let mut it = Stream::new(of, config);
            it.push_unit(7, &[of.slice]);
            assert_eq!((it.it.deadline(), it.told(99)), (Some(100), vec![]));
            assert_eq!(it.told(100), ["7: "]);
        }
        // Without times the window alone counts.
        let config = AccessUnitConfig {
            window: 3,
            begin_wait: u32::MAX,
            ..AccessUnitConfig::default()
        };
        let mut it = Stream::new(of, config);
        assert!(it.told_of(&[(7, &[of.slice]), (8, &[of.slice])]).is_empty());
        assert_eq!(it.it.deadline(), None);
        assert_eq!(
            it.told_of(&[(9, &[of.slice])]),
            ["7: ", "8: whole", "9: whole"]
        );
    }
}

#[test]
fn the_number_of_the_first_is_told() {
    for of in &CODECS {
        let mut it = Stream::new(of, AccessUnitConfig::default());
        assert!(it.it.begin_at(7));
        assert!(it.told_of(&[(8, &[of.slice])]).is_empty());
        assert_eq!(it.it.missing(), Ok(vec![7]));
        assert_eq!(it.push_unit(6, &[of.slice]), Pushed::Late(1));
        // Nothing came before it, so it is whole, though no delimiter nor a set stands at its front.
        assert_eq!(it.told_of(&[(7, &[of.slice])]), ["7: whole", "8: whole"]);
        assert!(!it.it.begin_at(20));
        assert_eq!(it.told_of(&[(9, &[of.slice])]), ["9: whole"]);
        it.it.restart();
        assert!(it.it.begin_at(20));
        assert_eq!(it.told_of(&[(20, &[of.slice])]), ["20: whole"]);
        // A packet that waits for those before it has come.
        let config = AccessUnitConfig {
            begin_wait: u32::MAX,
            ..AccessUnitConfig::default()
        };
        let mut it = Stream::new(of, config);
        it.push_unit(8, &[of.slice]);
        assert!(!it.it.begin_at(7));
        assert_eq!(it.it.missing(), Ok(vec![]));
        // Behind `finish` no beginning is told until `next` has given out all.
        let mut it = Stream::new(of, AccessUnitConfig::default());
        it.it.finish();
        assert!(!it.it.begin_at(7));
        assert!(matches!(it.it.next(0), Ok(None)));
        assert!(it.it.begin_at(7));
    }
}

#[test]
fn a_decoder_that_has_the_sets() {
    for of in &CODECS {
        for (has_sets, first) in [(false, "7: "), (true, "7: clean")] {
            let config = AccessUnitConfig {
                has_sets,
                ..at_once()
            };
            let mut it = Stream::new(of, config);
            assert_eq!(it.told_of(&[(7, &[of.key])]), [first]);
            // A picture that is none of a keyframe, or the second slice of one, is not one to begin with.
            for wrong in [of.slice, of.key_rest] {
                let mut it = Stream::new(of, config);
                assert_eq!(it.told_of(&[(7, &[wrong])]), ["7: "], "{wrong}");
            }
        }
    }
}

/// The second access unit has no marker, and behind it a packet is lost, refused, or bears nothing; access units are
/// taken at the end, or behind each packet, where those that are due needn't wait.
#[test]
fn a_gap_before_an_access_unit_ends_the_one_before() {
    let gaps = ["lost", "refused", "skipped", "without a unit"];
    for of in &CODECS {
        for (gap, is_each) in gaps.iter().flat_map(|gap| [(*gap, false), (*gap, true)]) {
            let mut it = Stream::new(of, at_once());
            let mut told = Vec::new();
            for sequence in 1..=5 {
                let pushed = match (sequence, gap) {
                    (1 | 4, _) => it.push_unit(sequence, &of.sets_and_key()),
                    (2, _) => it.push(0, (2, 20, false), &[of.slice]),
                    (3, "refused") => it.push(0, (3, 20, false), &[of.refused]),
                    (3, "skipped") => it.it.skip(0, 3).expect("memory"),
                    (3, "without a unit") => it.push(0, (3, 20, false), &[of.without]),
                    (3, _) => Pushed::Held,
                    _ => it.push_unit(5, &[of.slice]),
                };
                assert_eq!(pushed, Pushed::Held);
                if is_each || sequence == 5 {
                    told.extend(it.told(0));
                }
            }
            let is_lost = ["lost", "refused"].contains(&gap);
            let [second, fourth] = match is_lost {
                false => ["2: whole, clean", "4: whole, clean"],
                true => ["2: ", "4: 1 missing, clean"],
            };
            let wanted = ["1: whole, clean", second, fourth, "5: whole, clean"];
            assert_eq!(told, wanted, "{gap}");
            assert_eq!(it.it.counts().lost, u64::from(is_lost), "{gap}");
        }
        // Within an access unit it stays one, of which something is missing.
        let mut it = Stream::new(of, at_once());
        it.push_unit(1, &of.sets_and_key());
        it.push(0, (2, 20, false), &[of.slice]);
        it.push(0, (4, 20, true), &[of.slice]);
        assert_eq!(it.told(0), ["1: whole, clean", "2: 1 missing"]);
    }
}

/// Of the first access unit that is given out, and of later ones that follow none.
#[test]
fn what_stands_at_the_front() {
    for of in &CODECS {
        let [vps, vps_of_layer_0, delimiter_of_layer_0] = match of.codec {
            Codec::H266 => ["007100", "007000", "00a028"],
            _ => ["40010c", "40000c", "460050"],
        };
        let sps = ["420101", of.front_set][usize::from(of.codec != Codec::H265)];
        let pps = of.other_sets[of.other_sets.len() - 1];
        // Whether the first one is whole, and later ones are. No header has a temporal layer of 0.
        let mut fronts = vec![
            (of.delimiter, true, true),
            (sps, of.codec != Codec::H265, false),
            (pps, false, false),
            (of.key, false, false),
            (of.slice, false, false),
        ];
        if of.codec != Codec::H264 {
            fronts.push((vps, true, false));
            fronts.push((vps_of_layer_0, false, false));
            fronts.push((delimiter_of_layer_0, false, false));
        }
        let config = AccessUnitConfig {
            far: 1000,
            ..at_once()
        };
        for (front, of_first, of_later) in fronts {
            let mut it = Stream::new(of, config);
            let units = [front, of.slice];
            let is_whole = |told: Vec<String>| told[0].contains("whole");
            assert_eq!(is_whole(it.told_of(&[(1, &units)])), of_first, "{front}");
            // Behind a gap, behind the end, and where the stream begins anew.
            assert_eq!(is_whole(it.told_of(&[(9, &units)])), of_later, "{front}");
            it.it.finish();
            assert!(it.told(0).is_empty());
            assert_eq!(is_whole(it.told_of(&[(20, &units)])), of_later, "{front}");
            assert_eq!(it.push_unit(9000, &units), Pushed::Stray);
            assert_eq!(it.push_unit(9001, &[of.slice]), Pushed::Anew);
            assert_eq!(is_whole(it.told(0)), of_later, "{front}");
            // Another sender's.
            it.it.restart();
            assert_eq!(is_whole(it.told_of(&[(70, &units)])), of_first, "{front}");
        }
    }
}

#[test]
fn what_follows_or_goes_on_with_another() {
    for of in &CODECS {
        let mut it = Stream::new(of, at_once());
        it.push(0, (1, 10, true), &of.sets_and_key());
        it.push(0, (2, 10, true), &[of.key_rest]);
        it.push(0, (3, 20, true), &[of.slice]);
        assert_eq!(it.told(0), ["1: whole, clean", "2: clean, continues"]);
        // Across missing numbers it isn't known that it goes on.
        let mut it = Stream::new(of, at_once());
        it.push(0, (1, 10, true), &of.sets_and_key());
        it.push(0, (3, 10, true), &[of.delimiter, of.slice]);
        assert_eq!(it.told(0), ["1: whole, clean", "3: 1 missing, whole"]);
        assert_eq!(it.it.counts().lost, 1);
        // With what goes on with another one a decoder can't begin, but with what begins by its units.
        for (first, wanted) in [
            (of.suffix, "2: continues"),
            (of.front_set, "2: whole, clean"),
        ] {
            let mut it = Stream::new(of, at_once());
            it.push(0, (1, 10, true), &[of.slice]);
            it.push(
                0,
                (2, 10, true),
                &[&[first], &of.sets_and_key()[..]].concat(),
            );
            assert_eq!(it.told(0), ["1: ", wanted]);
        }
    }
}

#[test]
fn a_keyframe_with_its_sets() {
    for of in &CODECS {
        let told_of = |units: &[&str]| Stream::new(of, at_once()).told_of(&[(7, units)]).remove(0);
        assert_eq!(told_of(&of.sets_and_key()), "7: whole, clean");
        // In another order none of them is at the front, and all are there.
        let mut backwards = of.sets();
        backwards.reverse();
        backwards.push(of.key);
        assert_eq!(told_of(&backwards), "7: clean");
        let sets = of.sets();
        for left_out in 0..sets.len() {
            let mut units = of.sets_and_key();
            units.remove(left_out);
            assert!(!told_of(&units).contains("clean"), "{units:?}");
        }
        for wrong in [of.slice, of.key_rest] {
            let units = [&sets[..], &[wrong]].concat();
            assert_eq!(told_of(&units), "7: whole", "{wrong}");
        }
        // Sets behind the slice are too late for it.
        let behind = [&[of.key], &sets[..]].concat();
        assert_eq!(told_of(&behind), "7: ");
    }
}

#[test]
fn sets_that_came_before() {
    for of in &CODECS {
        let sets = of.sets();
        let mut it = Stream::new(of, at_once());
        let each: Vec<[&str; 1]> = sets.iter().map(|it| [*it]).collect();
        for (sequence, set) in (1..).zip(&each) {
            it.push_unit(sequence, set);
        }
        it.push_unit(7, &[of.slice]);
        it.push_unit(8, &[of.key]);
        let told = it.told(0);
        // Numbers are missing before 7, and with them the sets.
        assert_eq!(
            told[sets.len()..],
            [format!("7: {} missing", 6 - sets.len()), "8: whole".into()]
        );

        let mut it = Stream::new(of, at_once());
        let told = it.told_of(&[
            (1, &sets),
            (2, &[of.slice]),
            (3, &[of.key]),
            (4, &[of.slice]),
            (6, &[of.slice]),
            (7, &[of.key]),
            (8, &of.sets_and_key()),
            (9, &[of.slice]),
        ]);
        let wanted = [
            "1: whole",
            "2: whole",
            "3: whole, clean",
            "4: whole, clean",
            "6: 1 missing",
            "7: whole",
            "8: whole, clean",
            "9: whole, clean",
        ];
        assert_eq!(told, wanted);
    }
}

/// A keyframe in two packets, between which one is missing or isn't.
#[test]
fn a_keyframe_of_which_something_is_missing() {
    for of in &CODECS {
        for (second, wanted) in [
            (2, ["1: whole, clean", "3: whole, clean"]),
            (3, ["1: 1 missing", "4: whole"]),
        ] {
            let mut it = Stream::new(of, at_once());
            it.push(0, (1, 10, false), &of.sets_and_key());
            it.push(0, (second, 10, true), &[of.key_rest]);
            it.push_unit(second + 1, &[of.slice]);
            assert_eq!(it.told(0), wanted);
        }
    }
}

#[test]
fn types_of_keyframes() {
    for of in &CODECS {
        let types = match of.codec {
            Codec::H264 => 1..=12,
            Codec::H265 => 0..=47,
            Codec::H266 => 0..=27,
        };
        for unit_type in types {
            // A first slice in all three, where it is one.
            let (unit, is_key) = match of.codec {
                Codec::H264 => (format!("{:02x}8880", 0x60 | unit_type), unit_type == 5),
                Codec::H265 => (
                    format!("{:02x}01ac", unit_type << 1),
                    (16..=21).contains(&unit_type),
                ),
                Codec::H266 => (
                    format!("00{:02x}c0", unit_type << 3 | 1),
                    (7..=9).contains(&unit_type),
                ),
            };
            let units = [&of.sets()[..], &[&unit]].concat();
            let packets: [(u16, &[&str]); 2] = [(7, &units), (8, &[of.slice])];
            let told = Stream::new(of, at_once()).told_of(&packets);
            assert_eq!(told[0].contains("clean"), is_key, "{:?} {unit}", of.codec);
        }
    }
}

#[test]
fn pictures_that_nothing_refers_to() {
    for of in &CODECS {
        let mut it = Stream::new(of, at_once());
        let told = it.told_of(&[
            (1, &of.sets_and_key()),
            (2, &[of.slice]),
            (3, &[of.disposable]),
        ]);
        let wanted = [
            "1: whole, clean",
            "2: whole, clean",
            "3: whole, clean, disposable",
        ];
        assert_eq!(told, wanted);
        // One of them may be damaged, and of another picture what follows isn't clean.
        for (first, rest, wanted) in [
            (
                of.disposable,
                of.disposable_rest,
                ["4: 1 missing, disposable", "7: whole, clean"],
            ),
            (of.slice, of.slice, ["8: 1 missing", "11: whole"]),
        ] {
            let number = if first == of.slice { 8 } else { 4 };
            it.push(0, (number, 40, false), &[first]);
            it.push(0, (number + 2, 40, true), &[rest]);
            it.push_unit(number + 3, &[of.slice]);
            assert_eq!(it.told(0), wanted);
        }
        // A keyframe never is.
        let key = ["058880", "2601ac", "0041e0"][of.codec as usize];
        let mut it = Stream::new(of, at_once());
        assert_eq!(it.told_of(&[(1, &[key])]), ["1: "]);
        // Of one that is lost nothing is known.
        let mut it = Stream::new(of, at_once());
        let told = it.told_of(&[(1, &of.sets_and_key()), (3, &[of.slice])]);
        assert_eq!(told, ["1: whole, clean", "3: 1 missing"]);
    }
}

/// The sequence parameter set of H.265 tells how many temporal layers there are: in all but the highest others may
/// refer to a picture to which none of its own layer does.
#[test]
fn temporal_layers_of_h265() {
    let of = &CODECS[1];
    let is_disposable = |sps: &str, unit: &str| {
        let mut it = Stream::new(of, at_once());
        let sets = [of.front_set, sps, "4401c1", of.key];
        it.told_of(&[(1, &sets), (2, &[unit])])[1].contains("disposable")
    };
    // One layer, and three.
    for (sps, highest) in [("420101", 1), ("420105", 3)] {
        for layer in 1..=3 {
            for unit_type in 0..=9 {
                let unit = format!("{:02x}{layer:02x}d0", unit_type << 1);
                let wanted = layer == highest && unit_type % 2 == 0;
                assert_eq!(is_disposable(sps, &unit), wanted, "{sps} {unit}");
            }
        }
    }
    // Where none came in order it isn't known how many there are.
    let mut it = Stream::new(of, at_once());
    let told = it.told_of(&[
        (1, &of.sets_and_key()),
        (3, &[of.disposable]),
        (4, &[of.disposable]),
    ]);
    assert_eq!(told[1..], ["3: 1 missing", "4: whole"]);
}

/// A picture header of H.266 that is a unit of its own (7.3.2.8): the slice behind it is the first, and the header
/// tells whether something refers to the picture.
#[test]
fn picture_headers_of_h266() {
    let of = &CODECS[2];
    let mut it = Stream::new(of, at_once());
    let key = [&of.sets()[..], &["009900", of.key_rest]].concat();
    let told = it.told_of(&[
        (1, &key),
        (2, &["009940", "000140"]),
        (3, &["009900", "000160"]),
        (4, &["000140"]),
    ]);
    let wanted = [
        "1: whole, clean",
        "2: whole, clean, disposable",
        "3: whole, clean",
        "4: whole, clean",
    ];
    assert_eq!(told, wanted);
}

/// The same of units behind their lengths.
#[test]
fn units_behind_lengths() {
    for of in &CODECS {
        let mut it = Stream {
            it: AccessUnitReceiver::with_settings(of.codec, false, true, at_once()),
            of,
        };
        let told = it.told_of(&[
            (1, &of.sets_and_key()),
            (2, &[of.disposable]),
            (4, &[of.key]),
            (6, &[of.delimiter, of.slice]),
        ]);
        let wanted = [
            "1: whole, clean",
            "2: whole, clean, disposable",
            "4: 1 missing",
            "6: 1 missing, whole",
        ];
        assert_eq!(told, wanted);
    }
}
