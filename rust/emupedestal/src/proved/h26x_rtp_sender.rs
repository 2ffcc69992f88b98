// Made from crates/h26x_rtp_sender/src/lib.rt by tools/to-rust.

mod count;
mod error;
mod history;
mod payloads;
mod sender;
mod sent;
mod stream;
mod unit;

pub use count::SentCount;
pub use error::RtpSendError;
pub use payloads::are_in_memory;
pub use sender::RtpSender;
pub use stream::RtpStream;
