//! Patterns of the flags of constraints of an H.264 profile (RFC 6184, section 8.1, table 5).

use crate::proved::h26x_profile::BitPattern;

#[test]
fn patterns_of_bits() {
    let places = *b"x1xx0000";
    let pattern = BitPattern { places };
    let matched = [0x40, 0xf0, 0x00, 0x41].map(|byte| pattern.matches(byte));
    assert_eq!(matched, [true, true, false, false]);
}
