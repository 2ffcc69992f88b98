//! Payloads cut into units, and beside them what a plain forward scan finds.

use super::Answers;
use super::row::{Words, bytes, number, word};
use super::said::Said;
use crate::proved::h26x_cut::{ZeroRule, units};

/// Each row is of a payload, or of many.
pub(super) struct Cutting;

impl Answers for Cutting {
    fn answer(&mut self, name: &str, words: &mut Words<'_>, said: &mut Said) {
        match name {
            "units" => say_units(words, said),
            "scan" => scan_each(words, said),
            "scan-places" => scan_places(words, said),
            _ => panic!("no call {name}"),
        }
    }
}

/// The rule of the zeros before a start code that a word names.
fn rule_of(word: &str) -> ZeroRule {
    match word {
        "all" => ZeroRule::All,
        "at-most-three" => ZeroRule::AtMostThree,
        word => panic!("no rule {word}"),
    }
}

fn say_units(words: &mut Words<'_>, said: &mut Said) {
    let rule = rule_of(word(words));
    for unit in units(&bytes(words), rule) {
        said.bytes(unit);
    }
}

/// The units of a payload by a plain forward scan: before the first start code there is none, and each but the last ends
/// before the zeros that the next start code takes, all of them or three.
fn plain_units(payload: &[u8], rule: ZeroRule) -> Vec<&[u8]> {
    let code = |bytes: &[u8]| bytes.windows(3).position(|three| three == [0, 0, 1]);
    let Some(first) = code(payload) else {
        return [payload]
            .into_iter()
            .filter(|unit| !unit.is_empty())
            .collect();
    };
    let mut rest = &payload[first + 3..];
    let mut units = Vec::new();
    while let Some(place) = code(rest) {
        let before = rest[..place].iter().rev();
        let zeros = before.take_while(|byte| **byte == 0).count();
        // Two zeros are the code's own in any case, so that one more is its where it takes three.
        let taken = match rule {
            ZeroRule::All => zeros,
            ZeroRule::AtMostThree => zeros.min(1),
        };
        units.push(&rest[..place - taken]);
        rest = &rest[place + 3..];
    }
    units.push(rest);
    units.retain(|unit| !unit.is_empty());
    units
}

/// The plain scan finds the same units under each rule.
fn is_as_by_the_plain_scan(payload: &[u8]) {
    for rule in [ZeroRule::All, ZeroRule::AtMostThree] {
        let found: Vec<&[u8]> = units(payload, rule).collect();
        assert_eq!(found, plain_units(payload, rule), "{payload:?} {rule:?}");
    }
}

/// The same of a payload as it is, behind a start code, and with more bytes on each side.
fn is_so_anywhere(payload: &[u8]) {
    is_as_by_the_plain_scan(payload);
    is_as_by_the_plain_scan(&[&[0, 0, 1], payload].concat());
    is_as_by_the_plain_scan(&[&[0x41; 70], payload, &[0x41; 70]].concat());
}

/// Counts the payloads of at most so many bytes 00, 01 and 02, in each of which the plain scan finds the same.
fn scan_each(words: &mut Words<'_>, said: &mut Said) {
    let longest: u32 = number(words);
    let mut count = 0;
    for len in 0..=longest {
        for number in 0..3_u32.pow(len) {
            let digits = (0..len).map(|place| (number / 3_u32.pow(place) % 3) as u8);
            is_so_anywhere(&digits.collect::<Vec<u8>>());
            count += 1;
        }
    }
    said.value(count);
}

/// Counts the places of a payload of so many bytes, with a byte 01 in so many, at which a start code, or as much of it
/// as there is room for, is found as by the plain scan.
fn scan_places(words: &mut Words<'_>, said: &mut Said) {
    let (len, apart) = (number(words), number(words));
    for place in 0..len {
        let mut payload = vec![0x41; len];
        payload.iter_mut().step_by(apart).for_each(|byte| *byte = 1);
        let room = payload[place..].iter_mut();
        room.zip([0, 0, 1]).for_each(|(byte, code)| *byte = code);
        is_as_by_the_plain_scan(&payload);
    }
    said.value(len);
}
