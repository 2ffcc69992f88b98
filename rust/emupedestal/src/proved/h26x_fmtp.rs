// Made from crates/h26x_fmtp/src/lib.rt by tools/to-rust.

mod error;
pub mod kind;
mod names;
mod pairs;
pub mod parameters;
mod repair_map;
mod rtp_map;
mod table;
pub mod unit_types;
mod units;

pub use error::{Fault, ParametersError, UnitsError};
pub use kind::{Kind, number_in};
pub use names::same_name;
pub(crate) use pairs::push_pair;
pub use pairs::{Pair, Pairs, closes, cut, pairs_of, trimmed};
pub use parameters::{FormatParameters, OtherParameter};
pub use repair_map::{RepairFormat, RepairMap};
pub use rtp_map::{Encoding, RtpMap, RtpMapError, payload_type_in};
pub use table::{ParameterRow, row_of};
pub use unit_types::UnitTypes;
pub(crate) use units::write_units;
pub use units::{read_units, split_piece};
