// Made from crates/h265_payload/src/packetizer.rt by tools/to-rust.

//! RTP payloads of H.265 payloads: units alone, in fragments, and parameter sets in one packet (RFC
//! 7798, 4.4 and 4.6).

use crate::proved::h26x_core::h265_types::{
    AGGREGATION_PACKET, AUD_NUT, FRAGMENTATION_UNIT, PPS_NUT, SPS_NUT, VPS_NUT,
};
use crate::proved::h26x_core::{CodecExtra, H265CodecExtra, H265FragmentationUnitHeader};
use crate::proved::h26x_cut::{UnitSlices, ZeroRule};
use crate::proved::h26x_packetizer::PayloadPacketizer;
use crate::proved::h26x_payload::{DonlFormat, PayloadFormat, Sets, UnitKind};
use crate::proved::h265_packets::header::high_byte;
use crate::proved::h265_payload::codec::{H265, H265Sending, header_of};

/// Sends the NAL units of payloads (RFC 7798).
///
/// A unit that fits goes alone (4.4.1), a longer one in fragments (4.4.3); where the limit leaves a
/// fragment no room for data it is dropped. A VPS, an SPS and a PPS wait, each the latest, and go
/// before the next other unit once there are an SPS and a PPS: in one aggregate (4.4.2), or where
/// that passes the limit each alone if it fits. Access unit delimiters are not sent.
///
/// With `with_donl` each unit bears its decoding order number (4.6), which counts against the
/// limit: DONL in single packets, aggregates and first fragments, and a DOND of 0 from an
/// aggregate's second set on. The limit of a call is the lesser of its `mtu` and the largest packet
/// size, 1200 unless `with_max_packet_size` sets another; an `mtu` under 4 has no effect.
pub type H265Packetizer = PayloadPacketizer<H265Sending>;

/// The first byte of this unit's header with another type: F and the layer's highest bit are kept.
fn with_type(high: u8, nalu_type: u8) -> u8 {
    high_byte(high >> 7, nalu_type, high)
}

impl PayloadFormat for H265 {
    fn new() -> Self {
        H265 { has_donl: false }
    }

    fn header_len(self) -> usize {
        2
    }

    fn has_donl(self) -> bool {
        self.has_donl
    }

    fn least_mtu(self) -> usize {
        4
    }

    fn has_max_packet_size(self) -> bool {
        true
    }

    fn kind_of(self, unit: &[u8]) -> UnitKind {
        if unit.len() < 2 {
            return UnitKind::Skipped;
        }
        match header_of(unit).nalu_type() {
            AUD_NUT => UnitKind::Skipped,
            VPS_NUT => UnitKind::Vps,
            SPS_NUT => UnitKind::Sps,
            PPS_NUT => UnitKind::Pps,
            _ => UnitKind::Other,
        }
    }

    fn units_in(self, payload: &[u8]) -> UnitSlices<'_> {
        crate::proved::h26x_cut::units(payload, ZeroRule::All)
    }

    fn sets_fit(self, limit: usize, sets: Sets<'_>) -> bool {
        // DONL, and a DOND for each set but the first.
        let dons = if self.has_donl { sets.count() + 1 } else { 0 };
        2 + u128::from(dons) + sets.size() <= limit as u128
    }

    fn has_dond(self) -> bool {
        self.has_donl
    }

    fn sets_header(self, _sets: Sets<'_>, unit: &[u8]) -> [u8; 2] {
        [with_type(unit[0], AGGREGATION_PACKET), unit[1]]
    }

    fn fragment_header(self, unit: &[u8], start: bool, end: bool) -> [u8; 3] {
        let marks = H265FragmentationUnitHeader::new(start, end, header_of(unit).nalu_type());
        [with_type(unit[0], FRAGMENTATION_UNIT), unit[1], marks.0]
    }

    fn is_key(self, unit: &[u8]) -> bool {
        unit.len() >= 2 && header_of(unit).is_irap()
    }

    fn extra(self, key: bool) -> CodecExtra {
        CodecExtra::H265(H265CodecExtra { is_keyframe: key })
    }

    fn has_key(self, extra: CodecExtra) -> bool {
        matches!(
            extra,
            CodecExtra::H265(H265CodecExtra { is_keyframe: true })
        )
    }
}

impl DonlFormat for H265 {
    fn with_donl(self, has_donl: bool) -> Self {
        H265 { has_donl }
    }
}
