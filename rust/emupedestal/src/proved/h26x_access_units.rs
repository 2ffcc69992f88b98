// Made from crates/h26x_access_units/src/lib.rt by tools/to-rust.

mod anew;
mod arrival;
mod bits;
mod config;
mod content;
mod counts;
mod decoder;
mod due;
mod frame_number;
mod framing;
mod jitter;
mod nacks;
mod numbers;
mod passed;
mod pushed;
mod receiver;
mod short;
mod unit;
mod way;

pub use arrival::Arrival;
pub use config::AccessUnitConfig;
pub use counts::Counts;
pub use jitter::JitterBuffer;
pub use nacks::{Nack, NackTimes, Nacks};
pub use numbers::AccessUnitNumbers;
pub use pushed::{NotPushed, NotPushedReason, Pushed};
pub use receiver::{AccessUnitReceiver, Receives};
pub use unit::ReceivedAccessUnit;
