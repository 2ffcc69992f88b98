// Made from crates/h26x_fmtp/src/table.rt by tools/to-rust.

//! Tables of parameters.

use crate::proved::h26x_fmtp::kind::Kind;
use crate::proved::h26x_fmtp::names::same_name;

/// A parameter of a format: its name, in lower case, what its value is, and what is taken for it where
/// it's absent.
#[derive(Clone, Copy)]
pub struct ParameterRow {
    /// The name.
    pub name: &'static [u8],
    /// What the value is.
    pub kind: Kind,
    /// The value where the parameter is absent, if the RFC gives one.
    pub default: Option<&'static [u8]>,
}

/// Of bytes it tells how many there are.
impl core::fmt::Debug for ParameterRow {
    fn fmt(&self, f: &mut core::fmt::Formatter<'_>) -> core::fmt::Result {
        use crate::support::Count;
        f.debug_struct("ParameterRow")
            .field("name", &Count(self.name.len()))
            .field("kind", &self.kind)
            .field("default", &self.default)
            .finish()
    }
}

/// The place of the first row with a name, without regard to case, and its kind; `None` where no row
/// has it. It takes no memory.
pub fn row_of(rows: &[ParameterRow], name: &[u8]) -> Option<(usize, Kind)> {
    for (place, row) in rows.iter().enumerate() {
        if same_name(row.name, name) {
            return Some((place, row.kind));
        }
    }
    None
}
