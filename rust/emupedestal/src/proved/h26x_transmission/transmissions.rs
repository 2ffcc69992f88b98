// Made from crates/h26x_transmission/src/transmissions.rt by tools/to-rust.

//! Whole transmissions: calls of a packetizer, and their packets through a depacketizer.

use crate::proved::h26x_transmission::carried::Carried;
use crate::support::TryVec;
use crate::{CodecExtra, Depacketizer, PacketError, Packetizer};
use alloc::vec::Vec;

/// Gives packets to a depacketizer in order, up to the first that is refused.
pub(crate) fn deliver(
    d: &mut (impl Depacketizer + ?Sized),
    packets: &[impl AsRef<[u8]>],
    out: &mut Vec<u8>,
    extra: &mut CodecExtra,
) -> Result<(), PacketError> {
    for packet in packets {
        d.depacketize(packet.as_ref(), out, extra)?;
    }
    Ok(())
}

/// One call through both endpoints. The answer is whether it was made; its packets come behind
/// `packets` once all of them were taken.
fn carry_call(
    p: &mut (impl Packetizer + ?Sized),
    d: &mut (impl Depacketizer + ?Sized),
    mtu: usize,
    payload: &[u8],
    packets: &mut Vec<Vec<u8>>,
    out: &mut Vec<u8>,
    extra: &mut CodecExtra,
) -> Result<bool, PacketError> {
    match p.packetize(mtu, payload) {
        Ok(mut made) => {
            packets.try_reserve(made.len())?;
            deliver(d, &made, out, extra)?;
            packets.append(&mut made);
            Ok(true)
        }
        Err(_) => Ok(false),
    }
}

/// Calls through both endpoints, one after the other, up to the first packet that is refused.
fn carry_calls(
    p: &mut (impl Packetizer + ?Sized),
    d: &mut (impl Depacketizer + ?Sized),
    calls: &[(usize, impl AsRef<[u8]>)],
    out: &mut Vec<u8>,
    extra: &mut CodecExtra,
) -> Result<Carried, PacketError> {
    let mut packets = Vec::new();
    let mut made = Vec::try_with_room(calls.len())?;
    for (mtu, payload) in calls {
        let was_made = carry_call(p, d, *mtu, payload.as_ref(), &mut packets, out, extra)?;
        made.push(was_made);
    }
    Ok(Carried { packets, made })
}

/// Gives calls to a packetizer, each its `mtu` in bytes and its payload, and the packets of each to
/// a depacketizer, before the next call.
///
/// A call for which memory lacks is marked as not made, and the transmission goes on. The first
/// packet that is refused ends it with its error. Room for the marks is taken first, and room for
/// the packets of a call before any of them is given on; where there is none the error is
/// `OutOfMemory`. After any error `out` and `extra` are what a front of the packets brought, `d`
/// stands behind that front and `p` behind the calls made.
pub fn carry(
    p: &mut (impl Packetizer + ?Sized),
    d: &mut (impl Depacketizer + ?Sized),
    calls: &[(usize, impl AsRef<[u8]>)],
    out: &mut Vec<u8>,
    extra: &mut CodecExtra,
) -> Result<Carried, PacketError> {
    carry_calls(p, d, calls, out, extra)
}
