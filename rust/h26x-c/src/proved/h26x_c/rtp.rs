// Made from crates/h26x_c/src/rtp.rt by tools/to-rust.

//! The calls on RTP packets (RFC 3550), and on what they bear of other packets (RTX, RFC 4588; RED, RFC
//! 2198).

use crate::proved::h26x_codes::code::{NO_ROOM, OK};
use crate::proved::h26x_rtp::{
    RedError, RedPayload, RtpDatagram, RtpError, RtpExtension, RtpHeader, RtpWriteError, is_rtcp,
};
use core::mem::MaybeUninit;

/// A retransmission packet bears no original.
const NO_ORIGINAL: u32 = 60;

/// What the header of an RTP packet says in numbers (RFC 3550, 5.1).
#[repr(C)]
#[derive(Clone, Copy)]
pub struct RtpFields {
    pub timestamp: u32,
    pub ssrc: u32,
    pub sequence: u16,
    pub profile: u16,
    pub payload_type: u8,
    pub marker: bool,
    pub has_extension: bool,
}

/// An RTP packet in numbers: where its parts are (RFC 3550, 5.1).
#[repr(C)]
#[derive(Clone, Copy)]
pub struct RtpPlaces {
    pub header: RtpFields,
    pub csrcs_len: usize,
    pub extension_len: usize,
    pub payload: usize,
    pub payload_len: usize,
    pub padding_len: usize,
}

/// Why bytes are no packet, as a code.
pub fn code_of_reading(error: RtpError) -> u32 {
    match error {
        RtpError::TooShort => 50,
        RtpError::OtherVersion(_) => 51,
        RtpError::CsrcsPastTheEnd => 52,
        RtpError::ExtensionPastTheEnd => 53,
        RtpError::PaddingOfZero => 54,
        RtpError::PaddingTooLong => 55,
    }
}

/// What writing answers; how many bytes are written, or would be.
pub fn written(answer: Result<usize, RtpWriteError>, len: &mut MaybeUninit<usize>) -> u32 {
    match answer {
        Ok(size) => {
            len.write(size);
            OK
        }
        Err(RtpWriteError::NoRoom(size)) => {
            len.write(size);
            NO_ROOM
        }
        Err(RtpWriteError::PayloadType) => 56,
        Err(RtpWriteError::Csrcs) => 57,
        Err(RtpWriteError::Extension) => 58,
        Err(RtpWriteError::Padding) => 59,
    }
}

/// What a header says in numbers.
fn fields_of(header: RtpHeader<'_>) -> RtpFields {
    RtpFields {
        timestamp: header.timestamp,
        ssrc: header.ssrc,
        sequence: header.sequence,
        profile: header.extension.map_or(0, |it| it.profile),
        payload_type: header.payload_type,
        marker: header.marker,
        has_extension: header.extension.is_some(),
    }
}

/// A packet in numbers, whose payload ends at a place.
fn places_of(end: usize, packet: RtpDatagram<'_>) -> RtpPlaces {
    RtpPlaces {
        header: fields_of(packet.header),
        csrcs_len: packet.header.csrcs.len(),
        extension_len: packet.header.extension.map_or(0, |it| it.bytes.len()),
        payload: end - packet.payload.len(),
        payload_len: packet.payload.len(),
        padding_len: packet.padding.len(),
    }
}

/// Whether a datagram is RTCP and not RTP.
pub fn h26x_is_rtcp(datagram: &[u8]) -> bool {
    is_rtcp(datagram)
}

/// Reads an RTP packet.
pub fn h26x_rtp_read(datagram: &[u8], packet: &mut MaybeUninit<RtpPlaces>) -> u32 {
    match RtpDatagram::read(datagram) {
        Ok(it) => {
            packet.write(places_of(datagram.len() - it.padding.len(), it));
            OK
        }
        Err(error) => code_of_reading(error),
    }
}

/// Reads the original packet that a retransmission packet bears.
pub fn h26x_rtp_original(
    datagram: &[u8],
    payload_type: u8,
    ssrc: u32,
    packet: &mut MaybeUninit<RtpPlaces>,
) -> u32 {
    match RtpDatagram::read(datagram) {
        Ok(it) => match it.original(payload_type, ssrc) {
            Some(original) => {
                packet.write(places_of(datagram.len() - it.padding.len(), original));
                OK
            }
            None => NO_ORIGINAL,
        },
        Err(error) => code_of_reading(error),
    }
}

/// The header that numbers, CSRCs and the bytes of an extension say.
fn header_with<'a>(fields: &RtpFields, csrcs: &'a [u8], extension: &'a [u8]) -> RtpHeader<'a> {
    let extension = if fields.has_extension {
        Some(RtpExtension {
            profile: fields.profile,
            bytes: extension,
        })
    } else {
        None
    };
    RtpHeader {
        marker: fields.marker,
        payload_type: fields.payload_type,
        sequence: fields.sequence,
        timestamp: fields.timestamp,
        ssrc: fields.ssrc,
        csrcs,
        extension,
    }
}

/// Writes an RTP packet.
pub fn h26x_rtp_write(
    header: &RtpFields,
    csrcs: &[u8],
    extension: &[u8],
    payload: &[u8],
    padding: &[u8],
    to: &mut [u8],
    len: &mut MaybeUninit<usize>,
) -> u32 {
    let header = header_with(header, csrcs, extension);
    let packet = RtpDatagram {
        header,
        payload,
        padding,
    };
    written(packet.write(to), len)
}

/// Writes a header right before a place, where a payload begins.
pub fn h26x_rtp_write_before(
    header: &RtpFields,
    csrcs: &[u8],
    extension: &[u8],
    padded: bool,
    place: usize,
    to: &mut [u8],
    len: &mut MaybeUninit<usize>,
) -> u32 {
    match header_with(header, csrcs, extension).write_before(padded, place, to) {
        Ok(start) => {
            len.write(place - start);
            OK
        }
        Err(error) => written(Err(error), len),
    }
}

/// Writes the retransmission packet of a packet.
pub fn h26x_rtx_write(
    datagram: &[u8],
    payload_type: u8,
    sequence: u16,
    ssrc: u32,
    to: &mut [u8],
    len: &mut MaybeUninit<usize>,
) -> u32 {
    match RtpDatagram::read(datagram) {
        Ok(it) => written(it.write_rtx(payload_type, sequence, ssrc, to), len),
        Err(error) => code_of_reading(error),
    }
}

/// Why bytes are no redundant payload, as a code.
pub fn code_of_red(error: RedError) -> u32 {
    match error {
        RedError::HeadersPastTheEnd => 61,
        RedError::BlocksPastTheEnd => 62,
    }
}

/// Reads the primary block of a redundant payload: its payload type, and where it begins.
pub fn h26x_red_primary(
    payload: &[u8],
    payload_type: &mut MaybeUninit<u8>,
    place: &mut MaybeUninit<usize>,
) -> u32 {
    match RedPayload::read(payload) {
        Ok(it) => {
            payload_type.write(it.payload_type);
            place.write(payload.len() - it.primary.len());
            OK
        }
        Err(error) => code_of_red(error),
    }
}
