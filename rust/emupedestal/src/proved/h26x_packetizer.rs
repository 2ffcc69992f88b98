// Made from crates/h26x_packetizer/src/lib.rt by tools/to-rust.

//! The sending half: payloads are cut into packets (RFC 6184, 5 and 6; RFC 7798, 4.4 and 5; RFC
//! 9328, 4.3 and 5).
//!
//! Which packets come of what, with their types in H.264, H.265 and H.266 (RFC 6184, 5.6, 5.7.1 and
//! 5.8; RFC 7798, 4.4.1 to 4.4.3; RFC 9328, 4.3.1 to 4.3.3):
//!
//! ```text
//! a payload, cut at its start codes
//! ├─ a unit that is skipped, as a delimiter             → none
//! ├─ a VPS, an SPS or a PPS                             → none: it waits, each the latest
//! └─ any other unit
//!    ├─ before it, where an SPS and a PPS wait, the sets
//!    │  ├─ that fit one packet                          → STAP-A (24), AP (48), AP (28)
//!    │  └─ else each that fits one alone                → single NAL unit packets
//!    └─ the unit
//!       ├─ that fits one packet                         → single NAL unit packet
//!       ├─ else where the limit leaves room for data    → FU-As (28), FUs (49), FUs (29)
//!       └─ else                                         → none: it is dropped
//! ```
mod body;
mod buffer;
mod every;
mod every_format;
mod every_unit;
mod fragmentation;
mod group;
mod lowest_header;
mod one_unit;
mod packet_parts;
mod packetizer;
mod packing;
mod pieces;
mod placement;
mod refusal;
mod sink;
mod units;
mod update;

pub use buffer::PacketBuffer;
pub use buffer::memory::BufferMemory;
pub(crate) use every_format::EveryFormat;
pub use every_unit::EveryUnitError;
pub use lowest_header::LowestHeaderFormat;
pub use packetizer::PayloadPacketizer;
pub use packing::Packing;
pub use placement::{PacketsSize, Placement};
pub use refusal::{RefusedUnit, WhyRefused};
