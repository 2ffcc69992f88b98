// Made from crates/h26x_c/src/rtcp.rt by tools/to-rust.

//! The calls on RTCP: reports of a source (RFC 3550, 6.4.2), requests for keyframes (RFC 4585,
//! 6.3.1; RFC 5104, 4.3.1), and what is counted for the reports.

use crate::proved::h26x_c::rtp::written;
use crate::proved::h26x_codes::code::OK;
use crate::proved::h26x_rtp::{
    FullIntraRequest, GenericNack, PictureLoss, ReceiverReport, ReportBlock, RtpStatistics,
    split_rtcp, write_nack,
};
use core::mem::MaybeUninit;

/// What is reported of a source (RFC 3550, 6.4.1).
#[repr(C)]
#[derive(Clone, Copy)]
pub struct Report {
    pub ssrc: u32,
    pub lost: i32,
    pub highest: u32,
    pub jitter: u32,
    pub last_sender_report: u32,
    pub delay: u32,
    pub fraction_lost: u8,
}

/// What is counted of a source (RFC 3550, 6.4.1, A.1, A.3 and A.8).
#[repr(C)]
#[derive(Clone, Copy)]
pub struct Statistics {
    pub expected: u64,
    pub received: u64,
    pub bytes: u64,
    pub recovered: u64,
    pub jitter: u64,
    pub expected_before: u64,
    pub received_before: u64,
    pub transit: u32,
    pub base: u16,
    pub highest: u16,
    pub after_jump: u16,
    pub has_transit: bool,
    pub has_jumped: bool,
}

/// A report block as C has it.
pub fn report_of(block: ReportBlock) -> Report {
    Report {
        ssrc: block.ssrc,
        lost: block.lost,
        highest: block.highest,
        jitter: block.jitter,
        last_sender_report: block.last_sender_report,
        delay: block.delay,
        fraction_lost: block.fraction_lost,
    }
}

/// A report block.
fn block_of(report: &Report) -> ReportBlock {
    ReportBlock {
        ssrc: report.ssrc,
        fraction_lost: report.fraction_lost,
        lost: report.lost,
        highest: report.highest,
        jitter: report.jitter,
        last_sender_report: report.last_sender_report,
        delay: report.delay,
    }
}

/// What was counted, by what C holds of it.
fn statistics_in(it: &Statistics) -> RtpStatistics {
    RtpStatistics {
        base: it.base,
        highest: it.highest,
        after_jump: if it.has_jumped {
            Some(it.after_jump)
        } else {
            None
        },
        expected: it.expected,
        received: it.received,
        bytes: it.bytes,
        recovered: it.recovered,
        transit: if it.has_transit {
            Some(it.transit)
        } else {
            None
        },
        jitter: it.jitter,
        expected_before: it.expected_before,
        received_before: it.received_before,
    }
}

/// What C holds of what was counted.
pub fn statistics_told(it: RtpStatistics) -> Statistics {
    Statistics {
        expected: it.expected,
        received: it.received,
        bytes: it.bytes,
        recovered: it.recovered,
        jitter: it.jitter,
        expected_before: it.expected_before,
        received_before: it.received_before,
        transit: it.transit.unwrap_or(0),
        base: it.base,
        highest: it.highest,
        after_jump: it.after_jump.unwrap_or(0),
        has_transit: it.transit.is_some(),
        has_jumped: it.after_jump.is_some(),
    }
}

/// Writes a picture loss indication (PLI).
pub fn h26x_pli_write(sender: u32, media: u32, to: &mut [u8], len: &mut MaybeUninit<usize>) -> u32 {
    written(PictureLoss { sender, media }.write(to), len)
}

/// Reads one, an RTCP packet alone.
pub fn h26x_pli_read(
    packet: &[u8],
    sender: &mut MaybeUninit<u32>,
    media: &mut MaybeUninit<u32>,
) -> bool {
    match PictureLoss::read(packet) {
        Some(it) => {
            sender.write(it.sender);
            media.write(it.media);
            true
        }
        None => false,
    }
}

/// Writes a full intra request (FIR) of one source.
pub fn h26x_fir_write(
    sender: u32,
    media: u32,
    number: u8,
    to: &mut [u8],
    len: &mut MaybeUninit<usize>,
) -> u32 {
    let request = FullIntraRequest {
        sender,
        media,
        number,
    };
    written(request.write(to), len)
}

/// Reads one of one source, an RTCP packet alone.
pub fn h26x_fir_read(
    packet: &[u8],
    sender: &mut MaybeUninit<u32>,
    media: &mut MaybeUninit<u32>,
    number: &mut MaybeUninit<u8>,
) -> bool {
    match FullIntraRequest::read(packet) {
        Some(it) => {
            sender.write(it.sender);
            media.write(it.media);
            number.write(it.number);
            true
        }
        None => false,
    }
}

/// Writes a receiver report of one source.
pub fn h26x_receiver_report_write(
    sender: u32,
    report: &Report,
    to: &mut [u8],
    len: &mut MaybeUninit<usize>,
) -> u32 {
    let report = ReceiverReport {
        sender,
        block: block_of(report),
    };
    written(report.write(to), len)
}

/// Reads one of one source, an RTCP packet alone.
pub fn h26x_receiver_report_read(
    packet: &[u8],
    sender: &mut MaybeUninit<u32>,
    report: &mut MaybeUninit<Report>,
) -> bool {
    match ReceiverReport::read(packet) {
        Some(it) => {
            sender.write(it.sender);
            report.write(report_of(it.block));
            true
        }
        None => false,
    }
}

/// Writes a generic NACK, which asks for the first ones of sequence numbers, as many as have room.
pub fn h26x_nack_write(
    sender: u32,
    media: u32,
    numbers: &[u16],
    to: &mut [u8],
    len: &mut MaybeUninit<usize>,
    count: &mut MaybeUninit<usize>,
) -> u32 {
    match write_nack(sender, media, numbers, to) {
        Ok(it) => {
            len.write(it.size);
            count.write(it.count);
            OK
        }
        Err(error) => written(Err(error), len),
    }
}

/// Reads one, an RTCP packet alone: the first sequence numbers that it asks for, as many as there is
/// room for, and how many they all are.
pub fn h26x_nack_read(
    packet: &[u8],
    sender: &mut MaybeUninit<u32>,
    media: &mut MaybeUninit<u32>,
    numbers: &mut [u16],
    count: &mut MaybeUninit<usize>,
) -> bool {
    match GenericNack::read(packet) {
        Some(it) => {
            sender.write(it.sender);
            media.write(it.media);
            count.write(it.pairs.copy_numbers(numbers));
            true
        }
        None => false,
    }
}

/// Where the next packet of a datagram of RTCP ends, from a place on; none begins behind the end.
pub fn h26x_rtcp_next(datagram: &[u8], from: usize, end: &mut MaybeUninit<usize>) -> bool {
    if datagram.len() < from {
        return false;
    }
    match split_rtcp(&datagram[from..]) {
        Some((_, behind)) => {
            end.write(datagram.len() - behind.len());
            true
        }
        None => false,
    }
}

/// Counts a packet that came; whether it counts.
pub fn h26x_rtp_statistics_receive(
    statistics: &mut Statistics,
    arrival: u32,
    sequence: u16,
    timestamp: u32,
    size: usize,
) -> bool {
    let mut it = statistics_in(statistics);
    let counts = it.receive(arrival, sequence, timestamp, size);
    *statistics = statistics_told(it);
    counts
}

/// Counts a packet that came as a retransmission, or was restored.
pub fn h26x_rtp_statistics_recover(statistics: &mut Statistics) {
    statistics.recovered = statistics.recovered.saturating_add(1);
}

/// What is reported of the source.
pub fn h26x_rtp_statistics_report(
    statistics: &mut Statistics,
    ssrc: u32,
    last_sender_report: u32,
    delay: u32,
    report: &mut MaybeUninit<Report>,
) {
    let mut it = statistics_in(statistics);
    report.write(report_of(it.report(ssrc, last_sender_report, delay)));
    *statistics = statistics_told(it);
}
