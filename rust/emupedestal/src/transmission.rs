//! Whole transmissions: payloads through a packetizer, and their packets through a depacketizer, as tests of both ends want
//! them. What [`carry`] sends is received: no packet is lost between its ends. Of a peer's packets [`take_all`] passes over
//! what is refused.
//!
//! ```
//! use emupedestal::transmission::{again, carry};
//! use emupedestal::{Codec, CodecExtra, H265Depacketizer, H265Packetizer};
//!
//! let unit = [0x26, 0x01, 1, 2, 3, 4, 5, 6, 7, 8];
//! let (mut packetizer, mut depacketizer) = (H265Packetizer::new(), H265Depacketizer::new());
//! let (mut out, mut extra) = (Vec::new(), CodecExtra::None);
//! let calls = [(1200, unit), (8, unit)];
//! let carried = carry(&mut packetizer, &mut depacketizer, &calls, &mut out, &mut extra)?;
//! assert_eq!(carried.made, [true, true]);
//! assert_eq!(carried.packets.len(), 1 + 2); // alone, and in fragments
//! assert_eq!(out, [&[0, 0, 0, 1][..], &unit, &[0, 0, 0, 1], &unit].concat());
//!
//! let repeated = again(Codec::H265, false, 1200, 8, &[unit])?;
//! assert_eq!(repeated.first, carried.packets[1..]);
//! assert_eq!(repeated.first, repeated.second);
//! # Ok::<(), emupedestal::PacketError>(())
//! ```

pub use crate::proved::h26x_transmission::{Carried, Repeated, again, carry};

use crate::proved::h26x_transmission;
use crate::{CodecExtra, Depacketizer, PacketError};
use alloc::vec::Vec;

/// Gives each packet to a depacketizer, in order, and answers what became of each. One that is refused
/// is passed over: it changes nothing, and the next is taken as if it hadn't come.
///
/// `out` and `codec_extra` are what the accepted packets brought. It panics where memory lacks for the answers.
///
/// ```
/// use emupedestal::{CodecExtra, H264Depacketizer, PacketError, take_all};
///
/// let packets: [&[u8]; 4] = [&[0x7c, 0x85, 1], &[0x7c], &[0x7c, 0x45, 2], &[0x61, 9]];
/// let (mut out, mut extra) = (Vec::new(), CodecExtra::None);
/// let mut depacketizer = H264Depacketizer::default();
/// let outcomes = take_all(&mut depacketizer, packets, &mut out, &mut extra);
/// assert_eq!(outcomes, [Ok(()), Err(PacketError::ErrShortPacket), Ok(()), Ok(())]);
/// assert_eq!(out, [0, 0, 0, 1, 0x65, 1, 2, 0, 0, 0, 1, 0x61, 9]);
/// ```
pub fn take_all<P: AsRef<[u8]>>(
    depacketizer: &mut (impl Depacketizer + ?Sized),
    packets: impl IntoIterator<Item = P>,
    out: &mut Vec<u8>,
    codec_extra: &mut CodecExtra,
) -> Vec<Result<(), PacketError>> {
    let packets: Vec<P> = packets.into_iter().collect();
    h26x_transmission::take_all(depacketizer, &packets, out, codec_extra).expect("memory")
}
