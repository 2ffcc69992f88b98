// Made from crates/h26x_rtp/src/lib.rt by tools/to-rust.

mod datagram;
mod elements;
mod error;
mod feedback;
mod header;
mod memory;
mod nack;
mod red;
mod report;
mod rtcp;
mod rtx;
mod statistics;
mod words;
mod writing;

pub use datagram::RtpDatagram;
pub use elements::{ElementForm, PlacedElement, RtpElement, RtpElementError, RtpElements};
pub use error::{RtpError, RtpWriteError};
pub use feedback::{FullIntraRequest, PictureLoss, ReceiverReport};
pub use header::{RtpExtension, RtpHeader};
pub use nack::{GenericNack, NackNumbers, NackPair, NackPairs, NackWritten, write_nack};
pub use red::{RedBlock, RedBlocks, RedError, RedPayload, write_red};
pub use report::ReportBlock;
pub use rtcp::{is_rtcp, split_rtcp};
pub use rtx::RtxPayload;
pub use statistics::RtpStatistics;
