// Made from crates/h26x_reorder/src/lib.rt by tools/to-rust.

//! Packets that a network brings in any order, put in the order of their sequence numbers (RFC 3550,
//! 5.1).
mod buffer;
mod numbered;
mod order;
mod packet;
mod parted;
mod pushed;
mod reorder;
mod spare;

pub use buffer::{HeldPacket, NotHeld, NotHeldReason, ReorderBuffer};
pub use packet::RtpPacket;
pub use pushed::Pushed;
pub(crate) use reorder::ordered;
