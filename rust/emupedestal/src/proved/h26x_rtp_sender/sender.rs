// Made from crates/h26x_rtp_sender/src/sender.rt by tools/to-rust.

//! A sender that makes RTP packets of the packets of access units.

use crate::proved::h26x_rtp::{RtpExtension, RtpWriteError};
use crate::proved::h26x_rtp_sender::count::SentCount;
use crate::proved::h26x_rtp_sender::error::RtpSendError;
use crate::proved::h26x_rtp_sender::history::PacketHistory;
use crate::proved::h26x_rtp_sender::sent::unit_packets;
use crate::proved::h26x_rtp_sender::stream::RtpStream;
use crate::proved::h26x_rtp_sender::unit::UnitHeader;

/// Makes RTP packets of the packets of access units, and holds the last of them, to send those again
/// that are lost.
#[derive(Debug)]
pub struct RtpSender {
    media: RtpStream,
    rtx: Option<RtpStream>,
    sent: SentCount,
    resent: SentCount,
    history: PacketHistory,
}

impl RtpSender {
    /// A sender of the packets of one SSRC, which sends packets again by RTX, or, without, as they
    /// were. It holds the last packets whose payloads have `history` bytes at most, and 32768 at most.
    /// It takes no memory.
    pub fn new(media: RtpStream, rtx: Option<RtpStream>, history: usize) -> Self {
        RtpSender {
            media,
            rtx,
            sent: SentCount::none(),
            resent: SentCount::none(),
            history: PacketHistory::new(history),
        }
    }

    /// The same of packets that lie in memory of the caller, as
    /// [`packetize_units_to_memory`](h26x_packetizer::PayloadPacketizer::packetize_units_to_memory)
    /// leaves them: one behind the other up to these ends, each behind its headroom, where
    /// [`are_in_memory`](crate::proved::h26x_rtp_sender::are_in_memory) says that they do. Nothing but the headers is written.
    pub(crate) fn send_in_memory(
        &mut self,
        timestamp: u32,
        extension: Option<RtpExtension<'_>>,
        headroom: usize,
        ends: &[usize],
        memory: &mut [u8],
    ) -> Result<usize, RtpSendError> {
        let unit = self.unit(timestamp, extension);
        match unit.test(headroom) {
            Ok(start) => {
                let first = self.media.sequence;
                self.take(unit, headroom, ends, memory)?;
                unit.put_all_in_memory(first, headroom, ends, memory);
                Ok(start)
            }
            Err(error) => Err(RtpSendError::Header(error)),
        }
    }

    /// What the headers of an access unit's packets have in common.
    fn unit<'a>(&self, timestamp: u32, extension: Option<RtpExtension<'a>>) -> UnitHeader<'a> {
        UnitHeader {
            payload_type: self.media.payload_type,
            timestamp,
            ssrc: self.media.ssrc,
            extension,
        }
    }

    /// Holds copies of the packets of an access unit of which this is the header, and counts them.
    fn take(
        &mut self,
        unit: UnitHeader<'_>,
        headroom: usize,
        ends: &[usize],
        bytes: &[u8],
    ) -> Result<(), RtpSendError> {
        let first = self.media.sequence;
        let made = unit_packets(unit, first, headroom, ends, bytes)?;
        self.history.take(made)?;
        self.sent = self.sent.with_all(headroom, ends, bytes);
        self.media = self.media.behind(ends.len());
        Ok(())
    }

    /// Writes the packet that goes again for the one of this number to the front of memory: its
    /// retransmission (RFC 4588, 4), or, without RTX, the same packet; how many bytes it has. None
    /// where it is held no longer, or was never sent. Where it isn't written all stays.
    pub fn resend(&mut self, number: u16, to: &mut [u8]) -> Result<Option<usize>, RtpWriteError> {
        let Some(packet) = self.history.find(self.media.sequence, number) else {
            return Ok(None);
        };
        let packet = packet.datagram();
        let size = packet.payload.len();
        match self.rtx {
            Some(rtx) => {
                let len = packet.write_rtx(rtx.payload_type, rtx.sequence, rtx.ssrc, to)?;
                self.resent = self.resent.with(2 + size);
                self.rtx = Some(rtx.behind(1));
                Ok(Some(len))
            }
            None => {
                let len = packet.write(to)?;
                self.sent = self.sent.with(size);
                Ok(Some(len))
            }
        }
    }

    /// The stream of what is sent, with the number of the next packet.
    pub fn media(&self) -> RtpStream {
        self.media
    }

    /// The stream of what is sent again by RTX, with the number of the next packet.
    pub fn rtx(&self) -> Option<RtpStream> {
        self.rtx
    }

    /// What was sent with the SSRC of the stream, for its sender reports (RFC 3550, 6.4.1).
    pub fn sent(&self) -> SentCount {
        self.sent
    }

    /// What was sent with the SSRC of RTX, for its sender reports (RFC 3550, 6.4.1).
    pub fn resent(&self) -> SentCount {
        self.resent
    }
}
