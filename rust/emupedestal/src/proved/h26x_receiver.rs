// Made from crates/h26x_receiver/src/lib.rt by tools/to-rust.

mod delivery;
mod received;
mod sequenced;

pub use delivery::receive_all;
pub use received::Received;
pub use sequenced::SequencedDepacketizer;
