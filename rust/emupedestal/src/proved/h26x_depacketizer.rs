// Made from crates/h26x_depacketizer/src/lib.rt by tools/to-rust.

//! The receiving half: units are put together from packets (RFC 6184, 5 and 7; RFC 7798, 4.4 and 6;
//! RFC 9328, 4.3 and 6).
mod access_unit;
mod aggregate;
mod byte_stream;
mod depacketizer;
mod extra;
mod give_back;
mod in_text;
mod look;
#[allow(dead_code, reason = "the C library has it")]
mod memory;
mod open_text;
mod parts;
mod reader;
mod reassembly;
mod run;
mod run_depacketizer;
mod shows;
mod sink;
mod take;

pub use access_unit::{ends_access_unit, may_begin_access_unit};
pub use aggregate::{Aggregate, holds_key, written_size};
pub use byte_stream::PREFIX_SIZE;
pub use depacketizer::PayloadDepacketizer;
pub use extra::out_size_hint;
pub use in_text::RunRule;
pub(crate) use in_text::take_in_text;
pub use look::{UnitTest, bears_unit, first_unit_begun};
pub use memory::MemorySink;
pub use open_text::OpenText;
pub use parts::Parts;
pub use reader::{PacketReader, starts_run};
pub use reassembly::Fragment;
pub use run::OpenRun;
pub use run_depacketizer::{RunDepacketizer, remove_run};
pub use shows::Nothing;
pub(crate) use shows::Shows;
pub(crate) use sink::UnitSink;
pub(crate) use take::{check_lengths, take_packet};
