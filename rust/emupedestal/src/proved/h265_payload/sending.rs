// Made from crates/h265_payload/src/sending.rt by tools/to-rust.

//! The packets of H.265 payloads, with either header on sets that share one (RFC 7798, 4.4.2).

use crate::proved::h26x_core::CodecExtra;
use crate::proved::h26x_cut::UnitSlices;
use crate::proved::h26x_packetizer::LowestHeaderFormat;
use crate::proved::h26x_payload::{DonlFormat, PayloadFormat, Sets, UnitKind};
use crate::proved::h265_payload::codec::{H265, H265Sending};
use crate::proved::h265_payload::every::lowest_header_of;

/// The header of sets that share a packet, by themselves.
fn lowest_header(sets: Sets<'_>) -> [u8; 2] {
    match sets.vps {
        Some(vps) => lowest_header_of(&[vps, sets.sps, sets.pps]),
        None => lowest_header_of(&[sets.sps, sets.pps]),
    }
}

impl PayloadFormat for H265Sending {
    fn new() -> Self {
        H265Sending {
            codec: H265::new(),
            lowest_header: false,
        }
    }

    fn header_len(self) -> usize {
        2
    }

    fn has_donl(self) -> bool {
        self.codec.has_donl()
    }

    fn least_mtu(self) -> usize {
        4
    }

    fn has_max_packet_size(self) -> bool {
        true
    }

    fn kind_of(self, unit: &[u8]) -> UnitKind {
        self.codec.kind_of(unit)
    }

    fn units_in(self, payload: &[u8]) -> UnitSlices<'_> {
        self.codec.units_in(payload)
    }

    fn sets_fit(self, limit: usize, sets: Sets<'_>) -> bool {
        self.codec.sets_fit(limit, sets)
    }

    fn has_dond(self) -> bool {
        self.codec.has_dond()
    }

    fn sets_header(self, sets: Sets<'_>, unit: &[u8]) -> [u8; 2] {
        if self.lowest_header {
            lowest_header(sets)
        } else {
            self.codec.sets_header(sets, unit)
        }
    }

    fn fragment_header(self, unit: &[u8], start: bool, end: bool) -> [u8; 3] {
        self.codec.fragment_header(unit, start, end)
    }

    fn is_key(self, unit: &[u8]) -> bool {
        self.codec.is_key(unit)
    }

    fn extra(self, key: bool) -> CodecExtra {
        self.codec.extra(key)
    }

    fn has_key(self, extra: CodecExtra) -> bool {
        self.codec.has_key(extra)
    }
}

impl DonlFormat for H265Sending {
    fn with_donl(self, has_donl: bool) -> Self {
        H265Sending {
            codec: self.codec.with_donl(has_donl),
            lowest_header: self.lowest_header,
        }
    }
}

impl LowestHeaderFormat for H265Sending {
    fn with_lowest_header(self, lowest_header: bool) -> Self {
        H265Sending {
            codec: self.codec,
            lowest_header,
        }
    }
}
