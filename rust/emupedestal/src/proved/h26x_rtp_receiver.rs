// Made from crates/h26x_rtp_receiver/src/lib.rt by tools/to-rust.

mod keyframes;
mod original;
mod payload_types;
mod pushed;
mod receiver;
mod sources;

pub use original::{NoMedia, RtpOriginal};
pub use payload_types::RtpPayloadTypes;
pub use pushed::{RtpPushError, RtpPushed, RtpTaken};
pub use receiver::{ReceivesRtp, RtpReceiver};
pub use sources::RtpSources;
