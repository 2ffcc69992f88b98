// Made from crates/h26x_assembler/src/assemble.rt by tools/to-rust.

//! RTP packets, any whatever, through a buffer and an assembler.

use crate::proved::h26x_assembler::access_unit::AccessUnit;
use crate::proved::h26x_assembler::assembler::AccessUnitAssembler;
use crate::proved::h26x_core::PacketError;
use crate::proved::h26x_depacketizer::RunDepacketizer;
use crate::proved::h26x_receiver::Received;
use crate::proved::h26x_reorder::{RtpPacket, ordered};
use crate::support::TryVec;
use alloc::vec::Vec;

/// Puts packets in the order of their sequence numbers through a buffer with this window, 1 to 2^14,
/// and gives them to an assembler, in that order; the access units that they end are appended to
/// `out`, and what became of each packet that the buffer gave out is answered. One that is refused is
/// passed over. The access unit of the last packets stays open where its marker is missing:
/// [`AccessUnitAssembler::finish`] gives it out.
///
/// Room for the packets and the answers is taken first; where there is none the error is
/// `OutOfMemory`, and nothing was taken.
///
/// # Panics
///
/// Unless `0 < window` and `window <= 16384`.
pub fn assemble_all<D: RunDepacketizer>(
    assembler: &mut AccessUnitAssembler<D>,
    window: u16,
    packets: &[RtpPacket<'_>],
    out: &mut Vec<AccessUnit>,
) -> Result<Vec<Result<Received, PacketError>>, PacketError> {
    assert!(0 < window);
    assert!(window <= 16384);
    let ordered = ordered(window, packets)?;
    let mut answers = Vec::try_with_room(ordered.len())?;
    for packet in &ordered {
        let answer = assembler.receive(packet, out);
        answers.push(answer);
    }
    Ok(answers)
}
