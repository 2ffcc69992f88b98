// Made from crates/h26x_c/src/rtp_sender.rt by tools/to-rust.

//! The calls of a sender of access units, as datagrams.

use crate::proved::h26x_c::const_handle::ConstHandle;
use crate::proved::h26x_c::handle::Handle;
use crate::proved::h26x_c::place::{Place, put};
use crate::proved::h26x_c::rtp::written;
use crate::proved::h26x_codes::code::{OK, OUT_OF_MEMORY, OUT_OF_RANGE, WRONG_END};
use crate::proved::h26x_endpoint::endpoint::Endpoint;
use crate::proved::h26x_rtp::{RtpExtension, RtpWriteError};
use crate::proved::h26x_rtp_sender::{RtpSendError, RtpSender, RtpStream, are_in_memory};
use core::mem::MaybeUninit;

/// A payload type has no place in a header.
const PAYLOAD_TYPE: u32 = 56;

/// The streams of a sender: of its packets, and of their retransmissions.
#[repr(C)]
#[derive(Clone, Copy)]
pub struct Streams {
    pub ssrc: u32,
    pub rtx_ssrc: u32,
    pub sequence: u16,
    pub rtx_sequence: u16,
    pub payload_type: u8,
    pub rtx_payload_type: u8,
    pub has_rtx: bool,
}

/// What was sent.
#[repr(C)]
#[derive(Clone, Copy)]
pub struct SentCounts {
    pub packets: u64,
    pub bytes: u64,
    pub rtx_packets: u64,
    pub rtx_bytes: u64,
}

/// The stream of packets that C says.
fn media_in(streams: &Streams) -> RtpStream {
    RtpStream {
        ssrc: streams.ssrc,
        payload_type: streams.payload_type,
        sequence: streams.sequence,
    }
}

/// The stream of retransmissions that C says.
fn rtx_in(streams: &Streams) -> Option<RtpStream> {
    if streams.has_rtx {
        Some(RtpStream {
            ssrc: streams.rtx_ssrc,
            payload_type: streams.rtx_payload_type,
            sequence: streams.rtx_sequence,
        })
    } else {
        None
    }
}

/// Whether each payload type that is looked at has a place in a header.
fn are_payload_types(streams: &Streams) -> bool {
    streams.payload_type < 128 && (!streams.has_rtx || streams.rtx_payload_type < 128)
}

/// The streams, as C is told them.
fn streams_told(media: RtpStream, rtx: Option<RtpStream>) -> Streams {
    match rtx {
        None => Streams {
            ssrc: media.ssrc,
            rtx_ssrc: 0,
            sequence: media.sequence,
            rtx_sequence: 0,
            payload_type: media.payload_type,
            rtx_payload_type: 0,
            has_rtx: false,
        },
        Some(rtx) => Streams {
            ssrc: media.ssrc,
            rtx_ssrc: rtx.ssrc,
            sequence: media.sequence,
            rtx_sequence: rtx.sequence,
            payload_type: media.payload_type,
            rtx_payload_type: rtx.payload_type,
            has_rtx: true,
        },
    }
}

/// What was sent, as C is told it.
fn counts_sent(sender: &RtpSender) -> SentCounts {
    let (sent, resent) = (sender.sent(), sender.resent());
    SentCounts {
        packets: sent.packets,
        bytes: sent.bytes,
        rtx_packets: resent.packets,
        rtx_bytes: resent.bytes,
    }
}

/// The extension of a profile and bytes: none of no bytes.
fn extension_with(profile: u16, bytes: &[u8]) -> Option<RtpExtension<'_>> {
    if bytes.is_empty() {
        None
    } else {
        Some(RtpExtension { profile, bytes })
    }
}

/// What sending answers; how many bytes each header has, in a headroom of so many.
fn sent(headroom: usize, answer: Result<usize, RtpSendError>, len: &mut MaybeUninit<usize>) -> u32 {
    match answer {
        Ok(start) => {
            len.write(headroom - start);
            OK
        }
        Err(RtpSendError::Header(error)) => written(Err(error), len),
        Err(RtpSendError::OutOfMemory) => OUT_OF_MEMORY,
    }
}

/// What sending a packet again answers; how many bytes it has, 0 where none is held.
fn told_again(answer: Result<Option<usize>, RtpWriteError>, len: &mut MaybeUninit<usize>) -> u32 {
    match answer {
        Ok(size) => {
            len.write(size.unwrap_or(0));
            OK
        }
        Err(error) => written(Err(error), len),
    }
}

/// Makes a sender of these streams, which holds so many bytes of payloads at most.
pub fn h26x_rtp_sender_new(
    streams: &Streams,
    history: usize,
    made: &mut MaybeUninit<Place>,
) -> u32 {
    if !are_payload_types(streams) {
        return PAYLOAD_TYPE;
    }
    let sender = RtpSender::new(media_in(streams), rtx_in(streams), history);
    put(Endpoint::RtpSender(sender), made)
}

/// Frees a sender.
pub fn h26x_rtp_sender_free(s: Handle) {
    drop(s.into_box());
}

/// Makes RTP packets of the packets of an access unit where they lie, each behind its headroom.
pub fn h26x_rtp_sender_send(
    s: &mut Handle,
    timestamp: u32,
    profile: u16,
    extension: &[u8],
    headroom: usize,
    packets: &mut [u8],
    ends: &[usize],
    len: &mut MaybeUninit<usize>,
) -> u32 {
    match s.get_mut() {
        Endpoint::RtpSender(it) => {
            if !are_in_memory(headroom, ends, packets.len()) {
                return OUT_OF_RANGE;
            }
            let extension = extension_with(profile, extension);
            sent(
                headroom,
                it.send_in_memory(timestamp, extension, headroom, ends, packets),
                len,
            )
        }
        _ => WRONG_END,
    }
}

/// Writes what goes again for the packet of a number.
pub fn h26x_rtp_sender_resend(
    s: &mut Handle,
    number: u16,
    to: &mut [u8],
    len: &mut MaybeUninit<usize>,
) -> u32 {
    match s.get_mut() {
        Endpoint::RtpSender(it) => told_again(it.resend(number, to), len),
        _ => WRONG_END,
    }
}

/// The streams, with the numbers of the next packets.
pub fn h26x_rtp_sender_streams(s: &ConstHandle, streams: &mut MaybeUninit<Streams>) -> u32 {
    match s.get() {
        Endpoint::RtpSender(it) => {
            streams.write(streams_told(it.media(), it.rtx()));
            OK
        }
        _ => WRONG_END,
    }
}

/// What was sent.
pub fn h26x_rtp_sender_count(s: &ConstHandle, sent: &mut MaybeUninit<SentCounts>) -> u32 {
    match s.get() {
        Endpoint::RtpSender(it) => {
            sent.write(counts_sent(it));
            OK
        }
        _ => WRONG_END,
    }
}
