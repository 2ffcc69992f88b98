// Made from crates/h264_payload/src/packetizer.rt by tools/to-rust.

//! RTP payloads of H.264 payloads: units alone, in fragments, and parameter sets in one packet (RFC
//! 6184, 5 and 6.3).

use crate::proved::h26x_core::{
    AUD_NALU_TYPE, CodecExtra, FU_END_BITMASK, FU_START_BITMASK, FUA_NALU_TYPE, H264CodecExtra,
    IDR_NALU_TYPE, NALU_TYPE_BITMASK, OUTPUT_STAP_AHEADER, PPS_NALU_TYPE, SPS_NALU_TYPE,
    STAPA_HEADER_SIZE,
};
use crate::proved::h26x_cut::{UnitSlices, ZeroRule};
use crate::proved::h26x_packetizer::PayloadPacketizer;
use crate::proved::h26x_payload::{PayloadFormat, Sets, UnitKind};
use crate::proved::h264_payload::codec::H264;

/// Sends the NAL units of payloads (RFC 6184, packetization mode 1).
///
/// A unit that fits goes alone (5.6), a longer one in fragments (FU-A, 5.8); where a limit of 1 or
/// 2 bytes leaves a fragment no room for data it is dropped. An SPS and a PPS wait, each the
/// latest, and go before the next other unit: in one STAP-A (5.7.1), or where that passes the limit
/// each alone if it fits. Access unit delimiters are not sent.
pub type H264Packetizer = PayloadPacketizer<H264>;

/// The FU indicator: the unit's NRI and the type of an FU-A, with F clear.
fn indicator_of(first: u8) -> u8 {
    FUA_NALU_TYPE + (first >> 5 & 3) * 32
}

/// The FU header: S, E and the unit's type.
fn header_of(first: u8, start: bool, end: bool) -> u8 {
    let start_bit = if start { FU_START_BITMASK } else { 0 };
    let end_bit = if end { FU_END_BITMASK } else { 0 };
    start_bit + end_bit + (first & NALU_TYPE_BITMASK)
}

impl PayloadFormat for H264 {
    fn new() -> Self {
        H264
    }

    fn header_len(self) -> usize {
        1
    }

    fn has_donl(self) -> bool {
        false
    }

    fn least_mtu(self) -> usize {
        1
    }

    fn has_max_packet_size(self) -> bool {
        false
    }

    fn kind_of(self, unit: &[u8]) -> UnitKind {
        if unit.is_empty() {
            return UnitKind::Skipped;
        }
        match unit[0] & NALU_TYPE_BITMASK {
            AUD_NALU_TYPE => UnitKind::Skipped,
            SPS_NALU_TYPE => UnitKind::Sps,
            PPS_NALU_TYPE => UnitKind::Pps,
            _ => UnitKind::Other,
        }
    }

    fn units_in(self, payload: &[u8]) -> UnitSlices<'_> {
        crate::proved::h26x_cut::units(payload, ZeroRule::All)
    }

    fn sets_fit(self, limit: usize, sets: Sets<'_>) -> bool {
        STAPA_HEADER_SIZE as u128 + sets.size() <= limit as u128 && sets.are_short()
    }

    fn has_dond(self) -> bool {
        false
    }

    fn sets_header(self, _sets: Sets<'_>, _unit: &[u8]) -> [u8; 2] {
        [OUTPUT_STAP_AHEADER, 0]
    }

    fn fragment_header(self, unit: &[u8], start: bool, end: bool) -> [u8; 3] {
        [indicator_of(unit[0]), header_of(unit[0], start, end), 0]
    }

    fn is_key(self, unit: &[u8]) -> bool {
        !unit.is_empty() && unit[0] & NALU_TYPE_BITMASK == IDR_NALU_TYPE
    }

    fn extra(self, key: bool) -> CodecExtra {
        CodecExtra::H264(H264CodecExtra { is_keyframe: key })
    }

    fn has_key(self, extra: CodecExtra) -> bool {
        matches!(
            extra,
            CodecExtra::H264(H264CodecExtra { is_keyframe: true })
        )
    }
}
