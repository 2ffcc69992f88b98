//! The packets that others bear: what an `RtpReceiver` makes of RTX (RFC 4588) and RED (RFC 2198), before it is given them,
//! so that each can be told of.

use crate::captures::ip::Part;
use crate::captures::packets::{Bears, Captured};
use crate::captures::rtp::{Rtp, header};
use crate::streams::payload::fragment;
use emupedestal::Codec;
use emupedestal::rtp::RtpDatagram;
use emupedestal::rtp_receiver::{RtpOriginal, RtpPayloadTypes, RtpSources};
use std::borrow::Cow;

/// What no codec takes, and misses: given in the place of a packet that can't be taken.
const REFUSED: [u8; 1] = [28];

/// A stream of a session: which packets are of it.
#[derive(Clone, Copy)]
pub struct Session {
    pub types: RtpPayloadTypes,
    pub ssrc: u32,
}

impl Session {
    /// The SSRCs that a receiver follows. Which packets send those of the stream again isn't its to tell: whatever SSRC
    /// they have, they are given to it with one.
    pub fn sources(self) -> RtpSources {
        RtpSources {
            media: Some(self.ssrc),
            rtx: Some(self.ssrc.wrapping_add(1)),
        }
    }

    /// A packet of the stream, or one that sends one of these again, with the SSRC that is followed.
    pub fn with_ssrc<'a>(self, packet: &Captured<'a>) -> Cow<'a, [u8]> {
        if packet.rtp.ssrc == self.ssrc {
            return packet.datagram.into();
        }
        let mut datagram = packet.datagram.to_vec();
        datagram[8..12].copy_from_slice(&self.ssrc.wrapping_add(1).to_be_bytes());
        datagram.into()
    }

    /// The packet that this one bears, RTX and RED undone; nothing of a probe, which bears none.
    pub fn undone<'a>(self, packet: &Captured<'a>) -> Option<Captured<'a>> {
        let types = self.types;
        let mut rtp = packet.rtp;
        let (is_resent, bears) =
            match RtpOriginal::read(types, RtpDatagram::read(packet.datagram).ok()?) {
                Ok(original) => {
                    let original = original?;
                    rtp.sequence = original.packet.sequence;
                    rtp.payload = original.packet.payload;
                    let bears = match (original.no_media, packet.part) {
                        (Some(nothing), _) => Bears::Nothing(nothing),
                        (None, Part::Cut) => Bears::Front,
                        (None, Part::Whole) => Bears::Media,
                    };
                    (original.is_recovered, bears)
                }
                // (of one that is sent again the number isn't told)
                Err(_) if types.red != Some(rtp.payload_type) => return None,
                Err(_) if packet.part == Part::Cut => (false, Bears::Front),
                Err(error) => (false, Bears::Broken(error)),
            };
        Some(Captured {
            rtp,
            is_resent,
            bears,
            ..*packet
        })
    }

    /// What a receiver is given of a packet: in the place of one that can't be taken what it refuses, and none has a marker
    /// before the end of a unit.
    pub fn datagram<'a>(self, codec: Codec, packet: &Captured<'a>) -> Cow<'a, [u8]> {
        let rtp = &packet.rtp;
        if matches!(packet.bears, Bears::Front | Bears::Broken(_)) {
            let in_place = Rtp {
                payload_type: self.types.media,
                ssrc: self.ssrc,
                ..*rtp
            };
            return [&header(&in_place)[..], &REFUSED].concat().into();
        }
        let mut datagram = self.with_ssrc(packet);
        if rtp.marker && !ends_unit(codec, rtp.payload) {
            datagram.to_mut()[1] &= 0x7f;
        }
        datagram
    }
}

/// Whether no unit of a packet goes on behind it: else it ends no access unit.
pub fn ends_unit(codec: Codec, payload: &[u8]) -> bool {
    fragment(codec, payload).is_none_or(|it| it.is_last)
}
