// Made from crates/h26x_payload/src/lib.rt by tools/to-rust.

//! What sets the payload formats of H.264, H.265 and H.266 apart, as the packetizer (`h26x_packetizer`)
//! and the depacketizer (`h26x_depacketizer`), which they share, are told it.
//!
//! A codec is an instance of [`PayloadFormat`]: its constants, the kinds of its units, the packet of
//! its parameter sets and the headers of its fragments.
mod copy;
mod format;
mod sets;

pub(crate) use copy::copy_bytes;
pub(crate) use format::PayloadFormat;
pub use format::{DonlFormat, UnitKind};
pub use sets::Sets;
