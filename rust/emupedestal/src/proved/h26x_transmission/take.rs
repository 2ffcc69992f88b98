// Made from crates/h26x_transmission/src/take.rt by tools/to-rust.

//! Packets, any whatever, through a depacketizer.

use crate::support::TryVec;
use crate::{CodecExtra, Depacketizer, PacketError};
use alloc::vec::Vec;

/// Gives every packet to a depacketizer, in order, and answers what became of each. One that is
/// refused is passed over.
///
/// Room for the outcomes is taken first; where there is none the error is `OutOfMemory`, and nothing
/// was taken. `out` and `extra` are what the accepted packets brought.
pub fn take_all(
    d: &mut (impl Depacketizer + ?Sized),
    packets: &[impl AsRef<[u8]>],
    out: &mut Vec<u8>,
    extra: &mut CodecExtra,
) -> Result<Vec<Result<(), PacketError>>, PacketError> {
    let mut outcomes = Vec::try_with_room(packets.len())?;
    for packet in packets {
        let outcome = d.depacketize(packet.as_ref(), out, extra);
        outcomes.push(outcome);
    }
    Ok(outcomes)
}
