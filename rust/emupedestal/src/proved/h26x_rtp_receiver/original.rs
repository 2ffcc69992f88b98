// Made from crates/h26x_rtp_receiver/src/original.rt by tools/to-rust.

//! What an RTP packet brings of its stream.

use crate::proved::h26x_reorder::RtpPacket;
use crate::proved::h26x_rtp::{RedError, RedPayload, RtpDatagram, RtpHeader, RtxPayload};
use crate::proved::h26x_rtp_receiver::payload_types::RtpPayloadTypes;

/// Why a packet bears nothing of the codec.
#[derive(Debug, Clone, Copy, PartialEq, Eq)]
pub enum NoMedia {
    /// It has no payload: it is padding alone (RFC 3550, 5.1).
    Padding,
    /// It bears FEC (RFC 5109).
    Fec,
    /// It, or its primary block, has this payload type.
    OtherPayloadType(u8),
}

/// What an RTP packet brings of its stream: itself, the packet that it sends again (RFC 4588), or its
/// primary block (RFC 2198).
#[derive(Debug)]
pub struct RtpOriginal<'a> {
    /// The packet by its number in the stream. Where it bears nothing of the codec it has no payload,
    /// no marker and timestamp 0: its number is one of the stream's all the same.
    pub packet: RtpPacket<'a>,
    /// Why it bears nothing of the codec, where it doesn't.
    pub no_media: Option<NoMedia>,
    /// Whether it came as a retransmission.
    pub is_recovered: bool,
}

/// The number of a packet of a stream, and whether it came as a retransmission.
#[derive(Debug, Clone, Copy)]
struct Place {
    sequence: u16,
    is_recovered: bool,
}

/// A packet that bears nothing of the codec.
fn bearing_none<'a>(place: Place, why: NoMedia) -> RtpOriginal<'a> {
    RtpOriginal {
        packet: RtpPacket {
            sequence: place.sequence,
            timestamp: 0,
            marker: false,
            payload: &[],
        },
        no_media: Some(why),
        is_recovered: place.is_recovered,
    }
}

/// A payload of this payload type.
fn with_type<'a>(
    types: RtpPayloadTypes,
    place: Place,
    header: RtpHeader<'_>,
    payload_type: u8,
    payload: &'a [u8],
) -> RtpOriginal<'a> {
    if payload.is_empty() {
        return bearing_none(place, NoMedia::Padding);
    }
    if payload_type == types.media {
        return RtpOriginal {
            packet: RtpPacket {
                sequence: place.sequence,
                timestamp: header.timestamp,
                marker: header.marker,
                payload,
            },
            no_media: None,
            is_recovered: place.is_recovered,
        };
    }
    if types.is_fec(payload_type) {
        return bearing_none(place, NoMedia::Fec);
    }
    bearing_none(place, NoMedia::OtherPayloadType(payload_type))
}

/// A payload of this payload type, which may be RED.
fn with_payload<'a>(
    types: RtpPayloadTypes,
    place: Place,
    header: RtpHeader<'_>,
    payload_type: u8,
    payload: &'a [u8],
) -> Result<RtpOriginal<'a>, RedError> {
    if payload.is_empty() || !types.is_red(payload_type) {
        return Ok(with_type(types, place, header, payload_type, payload));
    }
    let red = RedPayload::read(payload)?;
    Ok(with_type(
        types,
        place,
        header,
        red.payload_type,
        red.primary,
    ))
}

impl<'a> RtpOriginal<'a> {
    /// What a packet brings of its stream, by the session's payload types: by RTX the packet that it
    /// sends again, without its padding, and none where the payload has fewer than two bytes, as of a
    /// probe; by RED the primary block. Or why its redundant payload is none.
    pub fn read(
        types: RtpPayloadTypes,
        packet: RtpDatagram<'a>,
    ) -> Result<Option<RtpOriginal<'a>>, RedError> {
        let header = packet.header;
        let Some(payload_type) = types.resent_type(header.payload_type) else {
            let place = Place {
                sequence: header.sequence,
                is_recovered: false,
            };
            let payload = packet.payload;
            return Ok(Some(with_payload(
                types,
                place,
                header,
                header.payload_type,
                payload,
            )?));
        };
        let Some(original) = RtxPayload::read(packet.payload) else {
            return Ok(None);
        };
        let place = Place {
            sequence: original.sequence,
            is_recovered: true,
        };
        let payload = original.payload;
        Ok(Some(with_payload(
            types,
            place,
            header,
            payload_type,
            payload,
        )?))
    }
}
