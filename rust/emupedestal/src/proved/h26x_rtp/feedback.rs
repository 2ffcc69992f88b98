// Made from crates/h26x_rtp/src/feedback.rt by tools/to-rust.

//! What a receiver tells a sender by RTCP (RFC 3550, 6.4.2; RFC 4585, 6.3.1; RFC 5104, 4.3.1).

use crate::proved::h26x_rtp::error::RtpWriteError;
use crate::proved::h26x_rtp::memory::write_behind;
use crate::proved::h26x_rtp::report::ReportBlock;
use crate::proved::h26x_rtp::words::{long_in, word_in};

/// A picture loss indication (PLI): a keyframe is wanted, since a picture is lost (RFC 4585, 6.3.1).
#[derive(Debug, Clone, Copy, PartialEq, Eq)]
pub struct PictureLoss {
    /// The SSRC of who sends it.
    pub sender: u32,
    /// The SSRC whose picture is lost.
    pub media: u32,
}

/// A full intra request (FIR) of one source: a keyframe is wanted, as for one who joins (RFC 5104,
/// 4.3.1).
#[derive(Debug, Clone, Copy, PartialEq, Eq)]
pub struct FullIntraRequest {
    /// The SSRC of who sends it.
    pub sender: u32,
    /// The SSRC whose keyframe is wanted.
    pub media: u32,
    /// One more, modulo 256, with each request; the same where one is sent again.
    pub number: u8,
}

/// A receiver report of one source (RFC 3550, 6.4.2).
#[derive(Debug, Clone, Copy, PartialEq, Eq)]
pub struct ReceiverReport {
    /// The SSRC of who sends it.
    pub sender: u32,
    /// What is reported of the source.
    pub block: ReportBlock,
}

/// Whether bytes are an RTCP packet of this format or count, packet type and length.
pub(crate) fn is_rtcp_of(format: u8, packet_type: u8, words: u16, bytes: &[u8]) -> bool {
    bytes.len() == 4 * usize::from(words) + 4
        && bytes[0] == 128 + format
        && bytes[1] == packet_type
        && word_in(bytes, 2) == words
}

impl PictureLoss {
    /// The packet's bytes.
    fn bytes(self) -> [u8; 12] {
        let [a, b, c, d] = self.sender.to_be_bytes();
        let [e, f, g, h] = self.media.to_be_bytes();
        [0x81, 206, 0, 2, a, b, c, d, e, f, g, h]
    }

    /// Writes it to the front of memory; how many bytes it has, 12 (RFC 4585, 6.3.1).
    pub fn write(self, to: &mut [u8]) -> Result<usize, RtpWriteError> {
        write_behind(&self.bytes(), &[], to)
    }

    /// Reads one, an RTCP packet alone; none where the bytes are another (RFC 4585, 6.3.1).
    pub fn read(bytes: &[u8]) -> Option<Self> {
        if !is_rtcp_of(1, 206, 2, bytes) {
            return None;
        }
        Some(PictureLoss {
            sender: long_in(bytes, 4),
            media: long_in(bytes, 8),
        })
    }
}

impl FullIntraRequest {
    /// The packet's bytes.
    fn bytes(self) -> [u8; 20] {
        let [a, b, c, d] = self.sender.to_be_bytes();
        let [e, f, g, h] = self.media.to_be_bytes();
        [
            0x84,
            206,
            0,
            4,
            a,
            b,
            c,
            d,
            0,
            0,
            0,
            0,
            e,
            f,
            g,
            h,
            self.number,
            0,
            0,
            0,
        ]
    }

    /// Writes it to the front of memory; how many bytes it has, 20 (RFC 5104, 4.3.1).
    pub fn write(self, to: &mut [u8]) -> Result<usize, RtpWriteError> {
        write_behind(&self.bytes(), &[], to)
    }

    /// Reads one of one source, an RTCP packet alone; none where the bytes are another (RFC 5104,
    /// 4.3.1).
    pub fn read(bytes: &[u8]) -> Option<Self> {
        if !is_rtcp_of(4, 206, 4, bytes) {
            return None;
        }
        Some(FullIntraRequest {
            sender: long_in(bytes, 4),
            media: long_in(bytes, 12),
            number: bytes[16],
        })
    }
}

/// A number of packets lost in 24 bits.
fn lost_word(lost: i32) -> u32 {
    if lost < 0 {
        0xff_ffff - (-(lost + 1) as u32).min(0x7f_ffff)
    } else {
        (lost as u32).min(0x7f_ffff)
    }
}

/// The number of packets that 24 bits are.
fn lost_in(word: u32) -> i32 {
    if word < 0x80_0000 {
        word as i32
    } else {
        -((0xff_ffff - word) as i32) - 1
    }
}

impl ReportBlock {
    /// Its bytes.
    fn bytes(self) -> [u8; 24] {
        let [a, b, c, d] = self.ssrc.to_be_bytes();
        let [_, l0, l1, l2] = lost_word(self.lost).to_be_bytes();
        let [h0, h1, h2, h3] = self.highest.to_be_bytes();
        let [j0, j1, j2, j3] = self.jitter.to_be_bytes();
        let [s0, s1, s2, s3] = self.last_sender_report.to_be_bytes();
        let [d0, d1, d2, d3] = self.delay.to_be_bytes();
        [
            a,
            b,
            c,
            d,
            self.fraction_lost,
            l0,
            l1,
            l2,
            h0,
            h1,
            h2,
            h3,
            j0,
            j1,
            j2,
            j3,
            s0,
            s1,
            s2,
            s3,
            d0,
            d1,
            d2,
            d3,
        ]
    }

    /// The one of a receiver report.
    fn of(bytes: &[u8]) -> Self {
        ReportBlock {
            ssrc: long_in(bytes, 8),
            fraction_lost: bytes[12],
            lost: lost_in(long_in(bytes, 12) % 0x100_0000),
            highest: long_in(bytes, 16),
            jitter: long_in(bytes, 20),
            last_sender_report: long_in(bytes, 24),
            delay: long_in(bytes, 28),
        }
    }
}

impl ReceiverReport {
    /// What stands before the report block.
    fn head(self) -> [u8; 8] {
        let [a, b, c, d] = self.sender.to_be_bytes();
        [0x81, 201, 0, 7, a, b, c, d]
    }

    /// Writes it to the front of memory; how many bytes it has, 32 (RFC 3550, 6.4.2). What is lost is
    /// written in 24 bits, as near as these come.
    pub fn write(self, to: &mut [u8]) -> Result<usize, RtpWriteError> {
        write_behind(&self.head(), &self.block.bytes(), to)
    }

    /// Reads one of one source, an RTCP packet alone; none where the bytes are another (RFC 3550,
    /// 6.4.2).
    pub fn read(bytes: &[u8]) -> Option<Self> {
        if !is_rtcp_of(1, 201, 7, bytes) {
            return None;
        }
        Some(ReceiverReport {
            sender: long_in(bytes, 4),
            block: ReportBlock::of(bytes),
        })
    }
}
