// Made from crates/h26x_access_units/src/bits.rt by tools/to-rust.

//! The bits of NAL units, and numbers that are read from them.

/// The bits of a NAL unit that are left to read; behind the end they are 0.
pub(crate) struct Bits<'a> {
    /// The bytes behind the last one.
    rest: &'a [u8],
    /// The byte before the last one.
    before: u8,
    /// The last one.
    last: u8,
    /// How many of its bits are left.
    left: u8,
}

/// Of bytes it tells how many there are.
impl<'a> core::fmt::Debug for Bits<'a> {
    fn fmt(&self, f: &mut core::fmt::Formatter<'_>) -> core::fmt::Result {
        use crate::support::Count;
        f.debug_struct("Bits")
            .field("rest", &Count(self.rest.len()))
            .field("before", &self.before)
            .field("last", &self.last)
            .field("left", &self.left)
            .finish()
    }
}

/// The next byte behind two others, but for one that keeps a start code out.
fn next_byte(before: u8, last: u8, bytes: &[u8]) -> Option<(u8, u8, &[u8])> {
    if bytes.is_empty() {
        return None;
    }
    let byte = bytes[0];
    if before != 0 || last != 0 || byte > 3 {
        return Some((last, byte, &bytes[1..]));
    }
    if byte < 3 || bytes.len() == 1 {
        return None;
    }
    Some((3, bytes[1], &bytes[2..]))
}

impl<'a> Bits<'a> {
    /// Those of a unit from its first byte on.
    pub(crate) fn of(unit: &'a [u8]) -> Self {
        Bits {
            rest: unit,
            before: 1,
            last: 1,
            left: 0,
        }
    }

    /// The next bit.
    pub(crate) fn bit(&mut self) -> bool {
        if self.left == 0 {
            let Some((before, byte, rest)) = next_byte(self.before, self.last, self.rest) else {
                return false;
            };
            self.before = before;
            self.last = byte;
            self.rest = rest;
            self.left = 7;
            return byte >> 7 != 0;
        }
        self.left -= 1;
        self.last >> self.left & 1 != 0
    }

    /// The number that so many bits are.
    pub(crate) fn number(&mut self, count: u8) -> u32 {
        let mut value = 0;
        for _ in 0..count {
            value = 2 * value + u32::from(self.bit());
        }
        value
    }

    /// The number of the next code.
    pub(crate) fn code(&mut self) -> u32 {
        for zeros in 0..32 {
            if self.bit() {
                return (1 << zeros) - 1 + self.number(zeros);
            }
        }
        u32::MAX
    }

    /// Passes so many codes.
    pub(crate) fn pass(&mut self, count: u32) {
        for _ in 0..count {
            let _ = self.code();
        }
    }
}
