// Made from crates/h265_payload/src/depacketizer.rt by tools/to-rust.

//! NAL units from H.265 packets (RFC 7798, 4.4 and 6).

use crate::proved::h26x_depacketizer::PayloadDepacketizer;
use crate::proved::h265_packets::H265Payload;
use crate::proved::h265_payload::codec::H265;

/// Writes the units of packets (RFC 7798, 4.4 and 6), each behind a start code, or behind its length
/// where `is_avc` is set (as MP4 files have them, `hvc1`), and shows the packet that it accepted last;
/// before any, the empty single NAL unit packet. `PayloadDepacketizer<H265>` shows nothing.
///
/// It keeps the data of the fragments (RFC 7798, 4.4.3) since the latest start, until an end completes
/// their unit. The unit of a PACI packet (4.4.4) has the header that the packet's fields tell of. Of
/// its refusals:
/// - `ErrShortPacket`: two bytes or fewer; no room for DONL where the packet bears it; no data
///   in a fragment, or behind DONL in a single packet; an aggregate of fewer than two whole
///   units; a PACI packet with nothing behind its extension;
/// - `ErrH265CorruptedPacket`: F is set;
/// - `AvcUnitTooLong`: behind lengths, a unit of over `u32::MAX` bytes;
/// - `OutOfMemory`.
///
/// Units of an aggregate that have no whole header tell nothing. A packet of two bytes or more may be
/// the first of an access unit; a fragmentation unit with F clear, where its S bit is set (4.4.3). It
/// is the last where its RTP packet bears the marker bit; a fragmentation unit, where its E bit is set.
pub type H265Depacketizer = PayloadDepacketizer<H265, H265Payload>;
