// Made from crates/h26x_fmtp/src/pairs.rt by tools/to-rust.

//! The parameters of an `a=fmtp` value, as they stand in its text.

use crate::support::AllocError;
use crate::support::AppendBytes;
use alloc::vec::Vec;
use memchr::memchr;

/// A parameter as it stands in a text: its name and its value, without white space at their ends.
///
/// Names are compared without regard to case (RFC 4855, section 3). A part without `=` is a
/// parameter with an empty value.
#[derive(Clone, Copy, PartialEq, Eq)]
pub struct Pair<'a> {
    /// What stands before the first `=`.
    pub name: &'a [u8],
    /// What stands behind it.
    pub value: &'a [u8],
}

/// Of bytes it tells how many there are.
impl<'a> core::fmt::Debug for Pair<'a> {
    fn fmt(&self, f: &mut core::fmt::Formatter<'_>) -> core::fmt::Result {
        use crate::support::Count;
        f.debug_struct("Pair")
            .field("name", &Count(self.name.len()))
            .field("value", &Count(self.value.len()))
            .finish()
    }
}

/// The parameters of a text that are left, in their order.
pub struct Pairs<'a> {
    rest: &'a [u8],
}

/// Of bytes it tells how many there are.
impl<'a> core::fmt::Debug for Pairs<'a> {
    fn fmt(&self, f: &mut core::fmt::Formatter<'_>) -> core::fmt::Result {
        use crate::support::Count;
        f.debug_struct("Pairs")
            .field("rest", &Count(self.rest.len()))
            .finish()
    }
}

/// The parameters of an `a=fmtp` value, in their order: what stands behind the payload type.
///
/// They have `;` between them, and white space round `;` and `=` is left out, as are blank parts. A
/// `;` inside braces ends no parameter, since the value of `dec-parallel-cap` has some. It takes no
/// memory and refuses nothing (RFC 6184, section 8.2.1; RFC 7798, section 7.2.1; RFC 9328, section
/// 7.3.1).
pub fn pairs_of(text: &[u8]) -> Pairs<'_> {
    Pairs { rest: text }
}

/// Whether every brace of a text is closed. Where one isn't, parameters that are written behind the
/// text would be read as part of its last one.
pub fn closes(text: &[u8]) -> bool {
    let mut inside = false;
    for byte in text {
        inside = is_inside(inside, *byte);
    }
    !inside
}

/// Whether what follows a byte stands inside braces.
fn is_inside(inside: bool, byte: u8) -> bool {
    match byte {
        b'{' => true,
        b'}' => false,
        _ => inside,
    }
}

/// Where the first part of a text ends, if a `;` ends it.
fn part_end(text: &[u8]) -> Option<usize> {
    let mut inside = false;
    for (place, byte) in text.iter().enumerate() {
        if *byte == b';' && !inside {
            return Some(place);
        }
        inside = is_inside(inside, *byte);
    }
    None
}

/// The first part of a text, and what stands behind its `;`.
fn split_part(text: &[u8]) -> (&[u8], &[u8]) {
    match part_end(text) {
        Some(end) => (&text[..end], &text[end + 1..]),
        None => (text, &[]),
    }
}

/// A text without the white space at its ends.
pub fn trimmed(text: &[u8]) -> &[u8] {
    text.trim_ascii()
}

/// What stands before the first byte of a value in a text, and behind it; all of the text and nothing
/// where there is none.
pub fn cut(text: &[u8], at: u8) -> (&[u8], &[u8]) {
    match memchr(at, text) {
        Some(place) => (&text[..place], &text[place + 1..]),
        None => (text, &[]),
    }
}

/// The name and the value of a part.
fn pair_of(part: &[u8]) -> Pair<'_> {
    let (name, value) = cut(part, b'=');
    Pair {
        name: trimmed(name),
        value: trimmed(value),
    }
}

/// Writes a parameter at the end of a text, behind a `;` where it isn't the first.
///
/// What is written is read as the same parameters where each of them has no white space at an end of
/// its name or of its value, no `=` in its name, no `;` outside braces and no brace left open. Where
/// memory lacks nothing changes.
pub(crate) fn push_pair(text: &mut Vec<u8>, pair: Pair<'_>) -> Result<(), AllocError> {
    let len = pair.name.len().saturating_add(pair.value.len());
    text.try_reserve(len.saturating_add(2))?;
    if !text.is_empty() {
        text.push(b';');
    }
    text.append_bytes(pair.name);
    text.push(b'=');
    text.append_bytes(pair.value);
    Ok(())
}

impl<'a> Iterator for Pairs<'a> {
    type Item = Pair<'a>;

    fn next(&mut self) -> Option<Pair<'a>> {
        while !self.rest.is_empty() {
            let (part, rest) = split_part(self.rest);
            self.rest = rest;
            let part = trimmed(part);
            if !part.is_empty() {
                return Some(pair_of(part));
            }
        }
        None
    }
}
