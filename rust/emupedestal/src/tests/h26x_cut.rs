//! Units of a payload by their places.

use crate::proved::h26x_cut::{ZeroRule, next_unit};
use std::ops::Range;

/// Units of two start codes in a row and of zeros.
const PAYLOAD: &[u8] = &[0xbb, 0, 0, 1, 0xaa, 0, 0, 0, 0, 1, 0, 0, 1, 0xcc, 0];

/// A payload, a rule, a place, and where the next unit from that place stands.
type Place = (&'static [u8], ZeroRule, usize, Option<Range<usize>>);

#[test]
fn units_by_their_places() {
    let rows: [Place; 11] = [
        (PAYLOAD, ZeroRule::All, 0, Some(4..5)),
        (PAYLOAD, ZeroRule::All, 5, Some(13..15)),
        (PAYLOAD, ZeroRule::All, 15, None),
        (PAYLOAD, ZeroRule::All, 16, None),
        (PAYLOAD, ZeroRule::AtMostThree, 0, Some(4..6)),
        (PAYLOAD, ZeroRule::AtMostThree, 6, Some(13..15)),
        (PAYLOAD, ZeroRule::AtMostThree, 15, None),
        (PAYLOAD, ZeroRule::AtMostThree, 16, None),
        // A payload without a start code is one unit.
        (&[0x65, 0], ZeroRule::All, 0, Some(0..2)),
        (&[0x65, 0], ZeroRule::All, 2, None),
        (&[], ZeroRule::AtMostThree, 0, None),
    ];
    for (payload, rule, from, place) in rows {
        assert_eq!(
            next_unit(payload, rule, from),
            place,
            "{payload:?} {rule:?} {from}"
        );
    }
}
