//! Missing numbers that are asked for, and when: `bindings/streams/nacks.txt`, which says how it is written, and which
//! C, Go and Python walk too.

use crate::access_unit_receiver::{AccessUnitConfig, AccessUnitReceiver, NackTimes, Pushed};
use crate::{Codec, RtpPacket};

const TEXT: &str = include_str!(concat!(
    env!("CARGO_MANIFEST_DIR"),
    "/../../bindings/streams/nacks.txt"
));

/// Gives the packet of a number, and takes what has ended.
fn push(it: &mut AccessUnitReceiver, sequence: u16) {
    let packet = RtpPacket {
        sequence,
        timestamp: 9 * u32::from(sequence),
        marker: true,
        payload: &[0x41, 0x9a, 0x80],
    };
    assert_eq!(it.push(0, &packet), Ok(Pushed::Held));
    while it.next(0).expect("memory").is_some() {}
}

/// What is asked for in a step, as the text has it.
fn asked(it: &mut AccessUnitReceiver, step: &str) -> String {
    let words: Vec<u32> = step
        .split('/')
        .map(|it| it.parse().expect("a number"))
        .collect();
    let times = NackTimes {
        first: words[1],
        again: words[2],
        most: words[3] as u8,
    };
    let numbers = it
        .nacks(words[0], times, words[4] as usize)
        .expect("memory");
    let numbers: Vec<String> = numbers.iter().map(u16::to_string).collect();
    if numbers.is_empty() {
        "-".into()
    } else {
        numbers.join(",")
    }
}

#[test]
fn rows() {
    let rows: Vec<&str> = TEXT.lines().filter(|it| !it.starts_with('#')).collect();
    assert_eq!(rows.len(), 16);
    for row in rows {
        let config = AccessUnitConfig {
            window: 100,
            ..AccessUnitConfig::default()
        };
        let mut it = AccessUnitReceiver::new(Codec::H264, config);
        for step in row.split_whitespace() {
            match step.split_once('=') {
                Some((question, wanted)) => {
                    assert_eq!(asked(&mut it, &question[1..]), wanted, "{step} in {row}");
                }
                None if step == "restart" => it.restart(),
                None => push(&mut it, step.parse().expect("a number")),
            }
        }
    }
}
