// Made from crates/h26x_payload/src/format.rt by tools/to-rust.

//! What sets one codec's packetizer apart.

use crate::proved::h26x_core::CodecExtra;
use crate::proved::h26x_cut::UnitSlices;
use crate::proved::h26x_payload::sets::Sets;
use core::fmt;

/// What a unit is to a packetizer, by its type (RFC 6184, 1.3; RFC 7798, 1.1.4; RFC 9328, 1.1.4).
#[derive(Clone, Copy)]
pub enum UnitKind {
    /// Not sent, such as an access unit delimiter.
    Skipped,
    /// A video parameter set, which waits.
    Vps,
    /// A sequence parameter set, which waits.
    Sps,
    /// A picture parameter set, which waits.
    Pps,
    /// Every other unit: it is sent at once, behind the sets that are due.
    Other,
}

/// What sets one codec's packetizer apart (RFC 6184, RFC 7798, RFC 9328). A value is the setting of
/// a packetizer.
pub(crate) trait PayloadFormat: Copy + fmt::Debug {
    /// The setting of a new packetizer.
    fn new() -> Self;

    /// The bytes of a unit's header.
    fn header_len(self) -> usize;

    /// Whether packets bear decoding order numbers.
    fn has_donl(self) -> bool;

    /// The `mtu` under which a call has no effect.
    fn least_mtu(self) -> usize;

    /// Whether a packetizer's largest packet size limits its calls too.
    fn has_max_packet_size(self) -> bool;

    /// What a unit is.
    fn kind_of(self, unit: &[u8]) -> UnitKind;

    /// The units of a payload.
    fn units_in(self, payload: &[u8]) -> UnitSlices<'_>;

    /// Whether sets fit one packet.
    fn sets_fit(self, limit: usize, sets: Sets<'_>) -> bool;

    /// Whether each unit of an aggregate but the first stands behind a DOND.
    fn has_dond(self) -> bool;

    /// The header of the packet of sets before a unit: the first bytes, as many as a unit's header
    /// has.
    fn sets_header(self, sets: Sets<'_>, unit: &[u8]) -> [u8; 2];

    /// The header of a fragment of this unit: the first bytes, one more than a unit's header has.
    fn fragment_header(self, unit: &[u8], start: bool, end: bool) -> [u8; 3];

    /// Whether a unit is of a key type.
    fn is_key(self, unit: &[u8]) -> bool;

    /// What is told of units, with a key unit among them or not.
    fn extra(self, key: bool) -> CodecExtra;

    /// Whether a key unit was told of.
    fn has_key(self, extra: CodecExtra) -> bool;
}

/// A codec whose packets can bear decoding order numbers (RFC 7798, 4.6; RFC 9328, 4.4), and whose
/// packetizers have a largest packet size.
pub trait DonlFormat: PayloadFormat {
    /// The same setting, with or without numbers.
    fn with_donl(self, has_donl: bool) -> Self;
}
