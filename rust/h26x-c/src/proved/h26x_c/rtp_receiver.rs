// Made from crates/h26x_c/src/rtp_receiver.rt by tools/to-rust.

//! The calls of a receiver of access units, of datagrams as a socket brings them.

use crate::proved::h26x_c::access_units::{
    Config, Counts, NackTimes, counts_told, nack_times, settings,
};
use crate::proved::h26x_c::const_handle::ConstHandle;
use crate::proved::h26x_c::handle::Handle;
use crate::proved::h26x_c::place::{Place, put};
use crate::proved::h26x_c::rtcp::{Report, Statistics, report_of, statistics_told};
use crate::proved::h26x_c::rtp::{code_of_reading, code_of_red};
use crate::proved::h26x_codes::code::{OK, OUT_OF_MEMORY, OUT_OF_RANGE, WRONG_END};
use crate::proved::h26x_endpoint::endpoint::Endpoint;
use crate::proved::h26x_handles::access_units::{
    UnitTold, code_of_next, numbers_of_push, units_codec_wanted,
};
use crate::proved::h26x_handles::rtp_receiver::{GivesRtpUnits, RtpReceiverEndpoint};
use crate::proved::h26x_rtp_receiver::{
    NoMedia, RtpPayloadTypes, RtpPushError, RtpPushed, RtpSources, RtpTaken,
};
use core::mem::MaybeUninit;

/// The payload types of one stream.
#[repr(C)]
#[derive(Clone, Copy)]
pub struct PayloadTypes {
    pub media: u8,
    pub rtx: u8,
    pub red: u8,
    pub rtx_of_red: u8,
    pub fec: u8,
    pub has_rtx: bool,
    pub has_red: bool,
    pub has_rtx_of_red: bool,
    pub has_fec: bool,
}

/// The sources of one stream, by their SSRCs.
#[repr(C)]
#[derive(Clone, Copy)]
pub struct Sources {
    pub media: u32,
    pub rtx: u32,
    pub has_media: bool,
    pub has_rtx: bool,
}

/// What became of a datagram.
#[repr(C)]
#[derive(Clone, Copy)]
pub struct DatagramTold {
    pub became: u32,
    pub ssrc: u32,
    pub no_media: u32,
    pub pushed: u32,
    pub behind: u16,
    pub sequence: u16,
    pub payload_type: u8,
    pub is_recovered: bool,
}

/// A payload type that may be there.
fn type_where(is_there: bool, payload_type: u8) -> Option<u8> {
    if is_there { Some(payload_type) } else { None }
}

/// An SSRC that may be known.
fn ssrc_where(is_known: bool, ssrc: u32) -> Option<u32> {
    if is_known { Some(ssrc) } else { None }
}

/// The payload types that C says.
fn payload_types(types: &PayloadTypes) -> RtpPayloadTypes {
    RtpPayloadTypes {
        media: types.media,
        rtx: type_where(types.has_rtx, types.rtx),
        red: type_where(types.has_red, types.red),
        rtx_of_red: type_where(types.has_rtx_of_red, types.rtx_of_red),
        fec: type_where(types.has_fec, types.fec),
    }
}

/// The sources that C says.
fn sources_in(sources: &Sources) -> RtpSources {
    RtpSources {
        media: ssrc_where(sources.has_media, sources.media),
        rtx: ssrc_where(sources.has_rtx, sources.rtx),
    }
}

/// The sources, as C is told them.
fn sources_told(sources: RtpSources) -> Sources {
    Sources {
        media: sources.media.unwrap_or(0),
        rtx: sources.rtx.unwrap_or(0),
        has_media: sources.media.is_some(),
        has_rtx: sources.rtx.is_some(),
    }
}

/// Why a packet bears nothing of the codec, as a number, and its payload type where that is why.
fn no_media_numbers(no_media: Option<NoMedia>) -> (u32, u8) {
    match no_media {
        None => (0, 0),
        Some(NoMedia::Padding) => (1, 0),
        Some(NoMedia::Fec) => (2, 0),
        Some(NoMedia::OtherPayloadType(payload_type)) => (3, payload_type),
    }
}

/// What is told of a packet of the stream.
fn taken_told(taken: RtpTaken) -> DatagramTold {
    let (no_media, payload_type) = no_media_numbers(taken.no_media);
    let (pushed, behind) = numbers_of_push(taken.pushed);
    DatagramTold {
        became: 0,
        ssrc: 0,
        no_media,
        pushed,
        behind,
        sequence: taken.sequence,
        payload_type,
        is_recovered: taken.is_recovered,
    }
}

/// What is told of a datagram that brings no packet of the stream.
fn passed_over(became: u32, ssrc: u32) -> DatagramTold {
    DatagramTold {
        became,
        ssrc,
        no_media: 0,
        pushed: 0,
        behind: 0,
        sequence: 0,
        payload_type: 0,
        is_recovered: false,
    }
}

/// What is told of a datagram.
fn datagram_told(pushed: RtpPushed) -> DatagramTold {
    match pushed {
        RtpPushed::Packet(taken) => taken_told(taken),
        RtpPushed::Rtcp => passed_over(1, 0),
        RtpPushed::Probe => passed_over(2, 0),
        RtpPushed::NewSource(ssrc) => passed_over(3, ssrc),
        RtpPushed::OtherSource(ssrc) => passed_over(4, ssrc),
    }
}

/// Why a datagram isn't taken, as a code.
fn code_of_push(error: RtpPushError) -> u32 {
    match error {
        RtpPushError::Rtp(error) => code_of_reading(error),
        RtpPushError::Red(error) => code_of_red(error),
        RtpPushError::Packet(_) => OUT_OF_MEMORY,
    }
}

/// Makes a receiver that follows the SSRC of the first packet of the codec or of RED.
pub fn h26x_rtp_receiver_new(
    config: &Config,
    types: &PayloadTypes,
    made: &mut MaybeUninit<Place>,
) -> u32 {
    match units_codec_wanted(config.codec, config.numbers, config.window) {
        Ok(codec) => put(
            Endpoint::RtpReceiver(RtpReceiverEndpoint::new(
                codec,
                config.numbers,
                config.avc,
                payload_types(types),
                settings(config),
            )),
            made,
        ),
        Err(code) => code,
    }
}

/// Frees a receiver of datagrams.
pub fn h26x_rtp_receiver_free(r: Handle) {
    drop(r.into_box());
}

/// Has other settings from now on, but for its codec, and how packets and units are written.
pub fn h26x_rtp_receiver_set_config(r: &mut Handle, config: &Config) -> u32 {
    match r.get_mut() {
        Endpoint::RtpReceiver(it) => match it.set_config(settings(config)) {
            true => OK,
            false => OUT_OF_RANGE,
        },
        _ => WRONG_END,
    }
}

/// Follows these sources from now on.
pub fn h26x_rtp_receiver_follow(r: &mut Handle, sources: &Sources) -> u32 {
    match r.get_mut() {
        Endpoint::RtpReceiver(it) => {
            it.follow(sources_in(sources));
            OK
        }
        _ => WRONG_END,
    }
}

/// The SSRCs that are followed, as far as they are known.
pub fn h26x_rtp_receiver_sources(r: &ConstHandle, sources: &mut MaybeUninit<Sources>) -> u32 {
    match r.get() {
        Endpoint::RtpReceiver(it) => {
            sources.write(sources_told(it.sources()));
            OK
        }
        _ => WRONG_END,
    }
}

/// Takes a datagram that came at this tick, and at this one of the timestamps' clock.
pub fn h26x_rtp_receiver_push(
    r: &mut Handle,
    now: u32,
    arrival: u32,
    datagram: &[u8],
    told: &mut MaybeUninit<DatagramTold>,
) -> u32 {
    match r.get_mut() {
        Endpoint::RtpReceiver(it) => match it.try_push(now, arrival, datagram) {
            Ok(pushed) => {
                told.write(datagram_told(pushed));
                OK
            }
            Err(error) => code_of_push(error),
        },
        _ => WRONG_END,
    }
}

/// The next access unit, if one has ended at this tick.
pub fn h26x_rtp_receiver_next(
    r: &mut Handle,
    now: u32,
    to: &mut [u8],
    unit: &mut MaybeUninit<UnitTold>,
) -> u32 {
    match r.get_mut() {
        Endpoint::RtpReceiver(it) => match it.next(now, to) {
            Ok(answer) => code_of_next(answer, unit),
            Err(_) => OUT_OF_MEMORY,
        },
        _ => WRONG_END,
    }
}

/// When to ask for the next access unit at the latest, if packets wait.
pub fn h26x_rtp_receiver_deadline(r: &ConstHandle, at: &mut MaybeUninit<u32>) -> bool {
    let deadline = match r.get() {
        Endpoint::RtpReceiver(it) => it.deadline(),
        _ => None,
    };
    match deadline {
        Some(tick) => {
            at.write(tick);
            true
        }
        None => false,
    }
}

/// Copies the missing numbers that are to be asked for at this tick, as many as there is room for,
/// which count as asked for.
pub fn h26x_rtp_receiver_nacks(
    r: &mut Handle,
    now: u32,
    times: &NackTimes,
    numbers: &mut [u16],
    count: &mut MaybeUninit<usize>,
) -> u32 {
    count.write(0);
    match r.get_mut() {
        Endpoint::RtpReceiver(it) => match it.nacks(now, nack_times(times), numbers) {
            Ok(asked) => {
                count.write(asked);
                OK
            }
            Err(_) => OUT_OF_MEMORY,
        },
        _ => WRONG_END,
    }
}

/// Whether to ask for a keyframe at this tick, which then counts as asked for.
pub fn h26x_rtp_receiver_keyframe_wanted(r: &mut Handle, now: u32, again: u32) -> bool {
    match r.get_mut() {
        Endpoint::RtpReceiver(it) => it.keyframe_wanted(now, again),
        _ => false,
    }
}

/// What is counted of the packets of the SSRC that is followed.
pub fn h26x_rtp_receiver_statistics(r: &ConstHandle, counted: &mut MaybeUninit<Statistics>) -> u32 {
    match r.get() {
        Endpoint::RtpReceiver(it) => {
            counted.write(statistics_told(it.statistics()));
            OK
        }
        _ => WRONG_END,
    }
}

/// Whether the SSRC that is followed is known, and what is reported of it.
pub fn h26x_rtp_receiver_report(
    r: &mut Handle,
    last_sender_report: u32,
    delay: u32,
    report: &mut MaybeUninit<Report>,
) -> bool {
    match r.get_mut() {
        Endpoint::RtpReceiver(it) => match it.report(last_sender_report, delay) {
            Some(block) => {
                report.write(report_of(block));
                true
            }
            None => false,
        },
        _ => false,
    }
}

/// At the end of a stream: all that waits is due, and then the open access unit ends.
pub fn h26x_rtp_receiver_finish(r: &mut Handle) -> u32 {
    match r.get_mut() {
        Endpoint::RtpReceiver(it) => {
            it.finish();
            OK
        }
        _ => WRONG_END,
    }
}

/// What was counted.
pub fn h26x_rtp_receiver_count(r: &ConstHandle, counts: &mut MaybeUninit<Counts>) -> u32 {
    match r.get() {
        Endpoint::RtpReceiver(it) => {
            counts.write(counts_told(it.counts()));
            OK
        }
        _ => WRONG_END,
    }
}
