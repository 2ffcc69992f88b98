//! Stands in for what str0m's files take from elsewhere: the crates `tracing` and `arrayvec`, and a
//! small type of str0m's.

/// Says nothing, and reads its arguments.
#[macro_export]
macro_rules! warn {
    ($($said:tt)*) => {{
        let _ = format_args!($($said)*);
    }};
}

/// A byte in which some bits are asked for.
#[derive(Clone, Copy)]
pub struct BitPattern {
    asked: u8,
    wanted: u8,
}

impl BitPattern {
    /// Eight letters, the highest bit first: `0`, `1`, or `x` for either.
    pub const fn new(letters: [u8; 8]) -> Self {
        let (mut asked, mut wanted, mut i) = (0, 0, 0);
        while i < 8 {
            asked = asked << 1 | (letters[i] != b'x') as u8;
            wanted = wanted << 1 | (letters[i] == b'1') as u8;
            i += 1;
        }
        BitPattern { asked, wanted }
    }

    /// Whether a byte has the bits that are asked for.
    pub fn matches(&self, byte: u8) -> bool {
        byte & self.asked == self.wanted
    }
}

/// Named by a file of str0m, and not used there.
pub struct ArrayVec;
