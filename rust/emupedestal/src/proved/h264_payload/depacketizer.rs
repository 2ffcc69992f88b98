// Made from crates/h264_payload/src/depacketizer.rt by tools/to-rust.

//! NAL units from H.264 packets (RFC 6184, 5 and 7).

use crate::proved::h26x_depacketizer::PayloadDepacketizer;
use crate::proved::h264_payload::codec::H264;

/// Writes the units of packets (RFC 6184, 5 and 7), each behind a start code, or behind its length
/// where `is_avc` is set (as MP4 files have them, `avc1`).
///
/// It keeps the data of the fragments (RFC 6184, 5.8) since the latest start, until an end completes
/// their unit. Of its refusals:
/// - `ErrShortPacket`: no byte, or an FU-A of one byte;
/// - `NaluTypeIsNotHandled`: type 0, 25 to 27 or 29 to 31 (RFC 6184, 5.2);
/// - `StapASizeLargerThanBuffer`: a length of a STAP-A, and the fewer bytes that are left;
/// - `AvcUnitTooLong`: behind lengths, a unit of over `u32::MAX` bytes;
/// - `OutOfMemory`.
///
/// A packet of two bytes or more may be the first of an access unit; a fragment (FU-A or FU-B),
/// where its S bit is set. It is the last where its RTP packet bears the marker bit.
pub type H264Depacketizer = PayloadDepacketizer<H264>;
