// Made from crates/h26x_cut/src/slices.rt by tools/to-rust.

//! The units of a payload, as slices of it.

use crate::proved::h26x_cut::ZeroRule;
use crate::proved::h26x_cut::marks::CODE;
use crate::proved::h26x_cut::search::first_code;
use core::ops::Range;

/// The units of a payload that are left, in order, as slices of it (Annex B of H.264, H.265 and
/// H.266).
#[derive(Clone)]
pub struct UnitSlices<'a> {
    /// What stands behind the last start code that was passed.
    rest: &'a [u8],
    /// Where the next start code begins in it, by its two nearest zeros.
    next_code: Option<usize>,
    rule: ZeroRule,
}

/// Of bytes it tells how many there are.
impl<'a> core::fmt::Debug for UnitSlices<'a> {
    fn fmt(&self, f: &mut core::fmt::Formatter<'_>) -> core::fmt::Result {
        use crate::support::Count;
        f.debug_struct("UnitSlices")
            .field("rest", &Count(self.rest.len()))
            .field("next_code", &self.next_code)
            .field("rule", &self.rule)
            .finish()
    }
}

/// A segment without the zeros that the start code behind it takes.
fn without_code_zeros(segment: &[u8], rule: ZeroRule) -> &[u8] {
    match rule {
        ZeroRule::All => {
            let mut end = segment.len();
            while end > 0 && segment[end - 1] == 0 {
                end -= 1;
            }
            &segment[..end]
        }
        ZeroRule::AtMostThree => {
            let len = segment.len();
            if len > 0 && segment[len - 1] == 0 {
                &segment[..len - 1]
            } else {
                segment
            }
        }
    }
}

/// The units of bytes that stand behind a start code.
fn units_behind_code(bytes: &[u8], rule: ZeroRule) -> UnitSlices<'_> {
    UnitSlices {
        rest: bytes,
        next_code: first_code(bytes),
        rule,
    }
}

/// The units of a payload, in order, as slices of it.
///
/// Without a start code the whole payload is one unit. Otherwise the bytes before the first code
/// are dropped, and a unit stands between each code and the next, the last one up to the end. Empty
/// units are left out. It takes no memory and refuses nothing (Annex B of H.264, H.265 and H.266).
pub fn units(payload: &[u8], rule: ZeroRule) -> UnitSlices<'_> {
    match first_code(payload) {
        Some(place) => units_behind_code(&payload[place + CODE.len()..], rule),
        None => UnitSlices {
            rest: payload,
            next_code: None,
            rule,
        },
    }
}

/// Where the next unit of a payload stands: the first one that begins at a place or behind it.
///
/// From 0 on it finds the first unit, and from the end of one the next, so that a caller who can't
/// keep slices goes through the units of [`units`] by their places. `None` where no unit is left. It
/// takes no memory and refuses nothing (Annex B of H.264, H.265 and H.266).
pub fn next_unit(payload: &[u8], rule: ZeroRule, from: usize) -> Option<Range<usize>> {
    let behind = payload.get(from..)?;
    let mut rest = match first_code(behind) {
        Some(place) => &behind[place + CODE.len()..],
        None if behind.is_empty() => return None,
        None => return Some(from..payload.len()),
    };
    while !rest.is_empty() {
        let begin = payload.len() - rest.len();
        let Some(place) = first_code(rest) else {
            return Some(begin..payload.len());
        };
        let unit = without_code_zeros(&rest[..place], rule);
        if !unit.is_empty() {
            return Some(begin..begin + unit.len());
        }
        rest = &rest[place + CODE.len()..];
    }
    None
}

impl<'a> Iterator for UnitSlices<'a> {
    type Item = &'a [u8];

    #[inline(always)]
    fn next(&mut self) -> Option<&'a [u8]> {
        while !self.rest.is_empty() {
            match self.next_code {
                Some(place) => {
                    let unit = without_code_zeros(&self.rest[..place], self.rule);
                    self.rest = &self.rest[place + CODE.len()..];
                    self.next_code = first_code(self.rest);
                    if !unit.is_empty() {
                        return Some(unit);
                    }
                }
                None => {
                    let unit = self.rest;
                    self.rest = &[];
                    return Some(unit);
                }
            }
        }
        None
    }
}
