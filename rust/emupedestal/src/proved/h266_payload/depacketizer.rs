// Made from crates/h266_payload/src/depacketizer.rt by tools/to-rust.

//! NAL units from H.266 packets (RFC 9328, 4.3 and 6).

use crate::proved::h26x_depacketizer::PayloadDepacketizer;
use crate::proved::h266_payload::codec::H266;

/// Writes the units of packets (RFC 9328, 4.3 and 6), each behind a start code.
///
/// It keeps the data of the fragments (RFC 9328, 4.3.3) since the latest start, until an end
/// completes their unit. Of its refusals:
/// - `ErrShortPacket`: two bytes or fewer; no room for DONL, where the packet bears it, or none
///   behind it in a single packet; an aggregate of fewer than two units, or with a length under 2 or
///   past its end, or with a lone byte;
/// - `ErrH266CorruptedPacket`: F is set, or an aggregate holds an aggregate or a fragment (RFC 9328,
///   4.3.2); of an aggregate's faults the one furthest left decides;
/// - `OutOfMemory`.
///
/// A packet of two bytes or more may be the first of an access unit; a fragmentation unit with F
/// clear, where its S bit is set (RFC 9328, 4.3.3). It is the last where its RTP packet bears the
/// marker bit; a fragmentation unit, where its E bit is set.
pub type H266Depacketizer = PayloadDepacketizer<H266>;
