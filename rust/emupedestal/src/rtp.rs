//! What stands round a payload: RTP's header (RFC 3550), the elements of header extensions (RFC 8285), retransmissions
//! (RTX, RFC 4588) and redundant payloads (RED, RFC 2198); what is counted of a source, and RTCP that reports it (RFC
//! 3550) or asks for packets again (NACK, RFC 4585) or for a keyframe (PLI, RFC 4585; FIR, RFC 5104). Nothing takes
//! memory: what is read is borrowed, and what is written goes to memory of the caller.
//!
//! ```
//! use emupedestal::rtp::{RedPayload, RtpDatagram, RtpHeader, is_rtcp};
//!
//! let header = RtpHeader {
//!     marker: true,
//!     payload_type: 96,
//!     sequence: 7,
//!     timestamp: 90_000,
//!     ssrc: 1,
//!     csrcs: &[],
//!     extension: None,
//! };
//! let sent = RtpDatagram { header, payload: &[0x65, 0x88, 0x84], padding: &[] };
//! let mut datagram = [0; 1500];
//! let len = sent.write(&mut datagram)?;
//! assert!(!is_rtcp(&datagram[..len])); // ask first: RTCP may share the port
//! assert_eq!(RtpDatagram::read(&datagram[..len])?, sent);
//!
//! // The same sent again, as payload type 97 with SSRC 2 and a number of its own, and what it bears.
//! let len = sent.write_rtx(97, 500, 2, &mut datagram)?;
//! let resent = RtpDatagram::read(&datagram[..len])?;
//! assert_eq!((resent.header.sequence, resent.payload[..2].to_vec()), (500, vec![0, 7]));
//! assert_eq!(resent.original(96, 1), Some(sent));
//!
//! // A block of payload type 120, which is 90 ticks older, before a primary one of payload type 96.
//! let redundant = RedPayload::read(&[0x80 | 120, 0x01, 0x68, 2, 96, 0xaa, 0xbb, 0x41])?;
//! assert_eq!((redundant.payload_type, redundant.primary), (96, &[0x41][..]));
//! let blocks: Vec<(u8, u16)> = redundant.blocks.map(|it| (it.payload_type, it.timestamp_offset)).collect();
//! assert_eq!(blocks, [(120, 90)]);
//! # Ok::<(), Box<dyn std::error::Error>>(())
//! ```
//!
//! Reporting what came of an SSRC, and asking for a keyframe:
//!
//! ```
//! use emupedestal::rtp::{PictureLoss, ReceiverReport, RtpStatistics, split_rtcp};
//!
//! let mut statistics = RtpStatistics::new();
//! // Arrival and timestamp in ticks of 90 kHz, and how many bytes the payload has.
//! for (arrival, sequence, timestamp) in [(900, 65535, 0), (4500, 1, 3000), (6300, 2, 6000)] {
//!     assert!(statistics.receive(arrival, sequence, timestamp, 1200));
//! }
//! let block = statistics.report(1, 0, 0);
//! assert_eq!((block.highest, block.lost, block.fraction_lost), (0x1_0002, 1, 64));
//! let mut rtcp = [0; 64];
//! let len = ReceiverReport { sender: 2, block }.write(&mut rtcp)?;
//! let behind = PictureLoss { sender: 2, media: 1 }.write(&mut rtcp[len..])?;
//! let (report, rest) = split_rtcp(&rtcp[..len + behind]).ok_or("no RTCP")?;
//! assert_eq!((report.len(), PictureLoss::read(rest)), (32, Some(PictureLoss { sender: 2, media: 1 })));
//! # Ok::<(), Box<dyn std::error::Error>>(())
//! ```
//!
//! Asking for packets again, those that `AccessUnitReceiver::nacks` tells, and what a sender reads:
//!
//! ```
//! use emupedestal::rtp::{GenericNack, write_nack};
//!
//! let mut rtcp = [0; 64];
//! let written = write_nack(2, 1, &[65535, 0, 7, 40], &mut rtcp)?;
//! assert_eq!((written.size, written.count), (20, 4)); // two pairs: 40 is more than 16 behind 65535
//! let nack = GenericNack::read(&rtcp[..written.size]).ok_or("no NACK")?;
//! let numbers: Vec<u16> = nack.pairs.flat_map(|pair| pair.numbers()).collect();
//! assert_eq!((nack.media, numbers), (1, vec![65535, 0, 7, 40]));
//! # Ok::<(), Box<dyn std::error::Error>>(())
//! ```
//!
//! Encrypted packets (SRTP) are read as any others: only their headers make sense.

pub use crate::proved::h26x_rtp::{
    ElementForm, PlacedElement, RtpElement, RtpElementError, RtpElements,
};
pub use crate::proved::h26x_rtp::{FullIntraRequest, PictureLoss, ReceiverReport, ReportBlock};
pub use crate::proved::h26x_rtp::{
    GenericNack, NackNumbers, NackPair, NackPairs, NackWritten, write_nack,
};
pub use crate::proved::h26x_rtp::{RedBlock, RedBlocks, RedError, RedPayload, write_red};
pub use crate::proved::h26x_rtp::{RtpDatagram, RtpError, RtpExtension, RtpHeader, RtpWriteError};
pub use crate::proved::h26x_rtp::{RtpStatistics, RtxPayload, is_rtcp, split_rtcp};

impl Default for RtpStatistics {
    /// Nothing was counted.
    fn default() -> Self {
        RtpStatistics::new()
    }
}
