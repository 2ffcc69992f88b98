// Made from crates/h26x_transmission/src/lib.rt by tools/to-rust.

//! The packetizers and depacketizers of all codecs behind one type each, with a caller's own, and
//! whole transmissions through them: calls through both endpoints ([`carry`]), packets of any peer
//! ([`take_all`]), and payloads sent, written and sent again ([`again`]).
mod carried;
mod depacketizer;
mod packetizer;
mod repeated;
mod take;
mod transmissions;

pub use carried::Carried;
pub use depacketizer::CodecDepacketizer;
pub use packetizer::CodecPacketizer;
pub use repeated::{Repeated, again};
pub use take::take_all;
pub use transmissions::carry;
