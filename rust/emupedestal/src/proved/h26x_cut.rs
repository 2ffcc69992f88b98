// Made from crates/h26x_cut/src/lib.rt by tools/to-rust.

mod codes;
mod lengths;
mod marks;
mod portable;
mod search;
mod slices;

pub use codes::behind_code;
pub use lengths::next_avc_unit;
pub use slices::{UnitSlices, next_unit, units};

/// How many zeros before its mark, `01`, a start code takes (Annex B of H.264, H.265 and H.266).
#[derive(Clone, Copy, Debug, PartialEq, Eq)]
pub enum ZeroRule {
    /// All that stand there: H.264 and H.265.
    All,
    /// The nearest, at most three; earlier ones stay with the unit before: H.266.
    AtMostThree,
}
