//! RTP packets of the packets of access units: headers and numbers (RFC 3550), and a history of what was sent, out of
//! which a packet that was lost goes again, by RTX too (RFC 4588).
//!
//! ```
//! use emupedestal::rtp::RtpDatagram;
//! use emupedestal::rtp_sender::{RtpSender, RtpStream};
//! use emupedestal::{H264Packetizer, Packets, Packing};
//!
//! let media = RtpStream { ssrc: 1, payload_type: 96, sequence: 65535 };
//! let rtx = RtpStream { ssrc: 2, payload_type: 97, sequence: 500 };
//! let mut sender = RtpSender::new(media, Some(rtx), 1 << 20);
//! let mut packetizer = H264Packetizer::default();
//! let mut packets = Packets::with_headroom(12);
//!
//! // An access unit of one unit in two fragments.
//! packetizer.packetize_units_into(Packing::Together, 5, &[&[0x65, 1, 2, 3, 4, 5, 6]], &mut packets)?;
//! let start = sender.send(90_000, None, &mut packets)?;
//! let first = packets.datagram_mut(0)[start..].to_vec(); // to a socket
//! let last = RtpDatagram::read(&packets.datagram_mut(1)[start..])?.header;
//! assert_eq!((last.sequence, last.timestamp, last.marker), (0, 90_000, true));
//!
//! // Number 65535 was lost, as a NACK says, and goes again.
//! let mut datagram = [0; 1500];
//! let len = sender.resend(65535, &mut datagram)?.ok_or("held no longer")?;
//! let resent = RtpDatagram::read(&datagram[..len])?;
//! assert_eq!((resent.header.ssrc, resent.header.sequence), (2, 500));
//! assert_eq!(resent.original(96, 1), Some(RtpDatagram::read(&first)?));
//! # Ok::<(), Box<dyn std::error::Error>>(())
//! ```

use crate::Packets;
use crate::proved::h26x_rtp_sender::RtpSender as Sender;
use crate::rtp::{RtpExtension, RtpWriteError};

pub use crate::proved::h26x_rtp_sender::{RtpSendError, RtpStream, SentCount};

/// Makes RTP packets of the packets of access units, and holds the last of them, to send those again that are lost.
#[derive(Debug)]
pub struct RtpSender {
    inner: Sender,
}

impl RtpSender {
    /// A sender of the packets of one SSRC, which sends packets again by RTX, or, without, as they were. It holds the
    /// last packets whose payloads have `history` bytes at most, and 32768 at most; each takes some 100 bytes more.
    pub fn new(media: RtpStream, rtx: Option<RtpStream>, history: usize) -> Self {
        RtpSender {
            inner: Sender::new(media, rtx, history),
        }
    }

    /// Makes RTP packets of the packets of an access unit, by headers that are written right before each in its
    /// headroom: numbers follow each other, and the last has the marker (RFC 3550, 5.1). All have this header extension,
    /// if one is given. Each begins at the place of [`datagram_mut`](Packets::datagram_mut) that is answered. Copies of
    /// the last are held.
    ///
    /// Refused is a header that is none, or that has more bytes than the headroom or than 272. After an error all stays
    /// as it was.
    pub fn send(
        &mut self,
        timestamp: u32,
        extension: Option<RtpExtension<'_>>,
        packets: &mut Packets,
    ) -> Result<usize, RtpSendError> {
        let headroom = packets.headroom();
        let (bytes, ends) = packets.parts_mut();
        self.inner
            .send_in_memory(timestamp, extension, headroom, ends, bytes)
    }

    /// Writes the packet that goes again for the one of this number, as a NACK asks for it, to the front of memory: its
    /// retransmission (RFC 4588, 4), or, without RTX, the same packet; how many bytes it has. `None` where it is held no
    /// longer, or was never sent. Where it isn't written all stays as it was.
    pub fn resend(&mut self, number: u16, to: &mut [u8]) -> Result<Option<usize>, RtpWriteError> {
        self.inner.resend(number, to)
    }

    /// The stream of what is sent, with the number of the next packet.
    pub fn media(&self) -> RtpStream {
        self.inner.media()
    }

    /// The stream of what is sent again by RTX, with the number of the next packet.
    pub fn rtx(&self) -> Option<RtpStream> {
        self.inner.rtx()
    }

    /// What was sent with the SSRC of the stream, for its sender reports (RFC 3550, 6.4.1).
    pub fn sent(&self) -> SentCount {
        self.inner.sent()
    }

    /// What was sent with the SSRC of RTX, for its sender reports (RFC 3550, 6.4.1).
    pub fn resent(&self) -> SentCount {
        self.inner.resent()
    }
}
