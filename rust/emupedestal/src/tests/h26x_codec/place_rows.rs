//! The places of units of texts: `bindings/streams/unit_places.txt`, which says how it is written, and which C, Go and
//! Python walk too.

use crate::tests::bytes;
use crate::{Codec, avc_units, next_unit, units};
use core::ops::Range;

const TEXT: &str = include_str!(concat!(
    env!("CARGO_MANIFEST_DIR"),
    "/../../bindings/streams/unit_places.txt"
));

/// Where a part of a text stands.
fn place_in(text: &[u8], part: &[u8]) -> Range<usize> {
    let begin = part.as_ptr() as usize - text.as_ptr() as usize;
    begin..begin + part.len()
}

/// The places of units of Annex B, one by one.
fn places(codec: Codec, text: &[u8]) -> Vec<Range<usize>> {
    let next = |place: &Range<usize>| next_unit(codec, text, place.end);
    core::iter::successors(next_unit(codec, text, 0), next).collect()
}

#[test]
fn places_of_the_text() {
    let mut count = 0;
    for row in TEXT.lines().filter(|row| !row.starts_with('#')) {
        let columns: Vec<&str> = row.split('|').map(str::trim).collect();
        let [form, digits, wanted] = columns[..] else {
            panic!("{row}");
        };
        let text = bytes(digits);
        let codec = match form {
            "h264" => Some(Codec::H264),
            "h265" => Some(Codec::H265),
            "h266" => Some(Codec::H266),
            _ => None,
        };
        let found: Vec<Range<usize>> = match codec {
            Some(codec) => units(codec, &text).map(|it| place_in(&text, it)).collect(),
            None => avc_units(&text).map(|it| place_in(&text, it)).collect(),
        };
        if let Some(codec) = codec {
            assert_eq!(places(codec, &text), found, "{row}");
        }
        let found: Vec<String> = found
            .iter()
            .map(|it| format!("{}-{}", it.start, it.end))
            .collect();
        assert_eq!(found.join(" "), wanted, "{row}");
        count += 1;
    }
    assert_eq!(count, 22);
}
