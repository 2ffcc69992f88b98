// Made from crates/h26x_receiver/src/delivery.rt by tools/to-rust.

//! Packets with their sequence numbers, any whatever, through a receiver.

use crate::proved::h26x_core::{CodecExtra, PacketError};
use crate::proved::h26x_depacketizer::RunDepacketizer;
use crate::proved::h26x_receiver::received::Received;
use crate::proved::h26x_receiver::sequenced::SequencedDepacketizer;
use crate::support::TryVec;
use alloc::vec::Vec;

/// Gives every packet with its sequence number to a receiver, in the order in which they come, and
/// answers what became of each. One that is refused is passed over.
///
/// Room for the answers is taken first; where there is none the error is `OutOfMemory`, and nothing
/// was taken.
pub fn receive_all<D: RunDepacketizer>(
    receiver: &mut SequencedDepacketizer<D>,
    packets: &[(u16, impl AsRef<[u8]>)],
    out: &mut Vec<u8>,
    codec_extra: &mut CodecExtra,
) -> Result<Vec<Result<Received, PacketError>>, PacketError> {
    let mut answers = Vec::try_with_room(packets.len())?;
    for (sequence, packet) in packets {
        let answer = receiver.receive(*sequence, packet.as_ref(), out, codec_extra);
        answers.push(answer);
    }
    Ok(answers)
}
