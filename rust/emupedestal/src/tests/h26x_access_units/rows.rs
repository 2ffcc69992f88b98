//! Streams as text, and the access units that are given out of them: `bindings/streams/access_units.txt`, which says how it
//! is written, and which C, Go and Python walk too.

use crate::access_unit_receiver::{
    AccessUnitConfig, AccessUnitReceiver, Counts, Pushed, ReceivedAccessUnit,
};
use crate::tests::bytes;
use crate::{Codec, CodecExtra, RtpPacket};

const TEXT: &str = include_str!(concat!(
    env!("CARGO_MANIFEST_DIR"),
    "/../../bindings/streams/access_units.txt"
));

/// A receiver that waits for nothing.
fn receiver(words: &[&str]) -> AccessUnitReceiver {
    let codec = match words[0] {
        "h264" => Codec::H264,
        "h265" => Codec::H265,
        _ => Codec::H266,
    };
    let config = AccessUnitConfig {
        window: 1,
        ..AccessUnitConfig::default()
    };
    AccessUnitReceiver::with_settings(codec, words[1] == "numbers", false, config)
}

/// What is given out, as the text has it.
fn said(unit: &ReceivedAccessUnit) -> String {
    let is_keyframe = match unit.extra {
        CodecExtra::H264(it) => it.is_keyframe,
        CodecExtra::H265(it) => it.is_keyframe,
        CodecExtra::H266(it) => it.is_keyframe,
        _ => false,
    };
    let facts = [
        (is_keyframe, "k"),
        (unit.is_whole, "w"),
        (unit.is_clean, "c"),
        (unit.continues, "g"),
    ];
    let mut told: String = facts.iter().filter(|it| it.0).map(|it| it.1).collect();
    if unit.missing > 0 {
        told += &unit.missing.to_string();
    }
    let told = if told.is_empty() { "-" } else { &told };
    format!("{}-{}:{told}", unit.first, unit.last)
}

/// Gives a packet, and takes what has ended.
fn push(it: &mut AccessUnitReceiver, packet: &str) -> Vec<ReceivedAccessUnit> {
    let [number, timestamp, payload] = packet.split(':').collect::<Vec<_>>()[..] else {
        assert_eq!(packet, "end");
        it.finish();
        return units(it);
    };
    let payload = &bytes(payload);
    let packet = RtpPacket {
        sequence: number.parse().expect("a number"),
        timestamp: timestamp
            .trim_end_matches(char::is_alphabetic)
            .parse()
            .expect("a number"),
        marker: timestamp.contains('m'),
        payload,
    };
    let pushed = match it.push(0, &packet).expect("memory") {
        Pushed::Held => 'm',
        Pushed::Late(_) => 'l',
        Pushed::Twice => 't',
        Pushed::Stray => 's',
        Pushed::Anew => 'a',
        Pushed::Jumped => 'j',
        Pushed::Full => 'f',
    };
    let wanted = timestamp
        .trim_start_matches(char::is_numeric)
        .trim_start_matches('m');
    assert_eq!(pushed.to_string().trim_matches('m'), wanted, "{number}");
    units(it)
}

fn units(it: &mut AccessUnitReceiver) -> Vec<ReceivedAccessUnit> {
    core::iter::from_fn(|| it.next(0).expect("memory")).collect()
}

/// Compares those counts that a row may name.
fn compare_counts(counts: Counts, wanted: &[&str], row: &str) {
    for (name, count) in [
        ("no_unit", counts.no_unit),
        ("still", counts.still),
        ("unbelieved", counts.unbelieved),
        ("refused", counts.refused),
        ("lost", counts.lost),
        ("late", counts.late),
        ("twice", counts.twice),
        ("stray", counts.stray),
        ("anew", counts.anew),
    ] {
        let at = wanted.iter().position(|it| *it == name);
        let wanted = at.map_or("0", |at| wanted[at + 1]);
        assert_eq!(count.to_string(), wanted, "{name}: {row}");
    }
}

#[test]
fn rows() {
    let text = TEXT.replace("\\\n", "");
    let rows = text.lines().filter(|it| !it.starts_with('#'));
    let mut count = 0;
    for row in rows {
        let (sent, wanted) = row.split_once(" = ").expect("what is given out");
        let (wanted, counts) = wanted.split_once(" | ").unwrap_or((wanted, ""));
        let words: Vec<&str> = sent.split_whitespace().collect();
        let mut it = receiver(&words);
        let packets = &words[1 + usize::from(words[1] == "numbers")..];
        let given: Vec<_> = packets
            .iter()
            .flat_map(|packet| push(&mut it, packet))
            .collect();
        let wanted: Vec<&str> = wanted.split_whitespace().collect();
        let got: Vec<String> = given.iter().map(said).collect();
        let facts: Vec<&str> = wanted
            .iter()
            .map(|it| it.rsplit_once(':').expect("units").0)
            .collect();
        assert_eq!(got, facts, "{row}");
        for (unit, wanted) in given.iter().zip(wanted) {
            let text = wanted
                .rsplit(':')
                .next()
                .expect("units")
                .replace('+', "00000001");
            assert_eq!(unit.bytes, bytes(&format!("00000001{text}")), "{row}");
            let first = format!("{}:{}", unit.first, unit.timestamp);
            assert!(packets.iter().any(|it| it.starts_with(&first)), "{row}");
        }
        compare_counts(
            it.counts(),
            &counts.split_whitespace().collect::<Vec<_>>(),
            row,
        );
        count += 1;
    }
    assert!(count > 50, "{count}");
}
