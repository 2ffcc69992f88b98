//! Packets of RTCP (RFC 3550, 6; RFC 4585, 6): compound ones that are written, and what is read of others'.

use emupedestal::rtp::{FullIntraRequest, GenericNack, PictureLoss, ReceiverReport, ReportBlock};
use emupedestal::rtp::{RtpWriteError, split_rtcp, write_nack};

const SENDER_REPORT: u8 = 200;
const RECEIVER_REPORT: u8 = 201;
const DESCRIPTION: u8 = 202;
const GOODBYE: u8 = 203;
const CNAME: u8 = 1;
/// No packet that is written is longer: a NACK of 64 numbers has 268 bytes.
const LONGEST: usize = 512;

/// What is read of a packet.
#[derive(Debug, PartialEq, Eq)]
pub enum Read {
    /// A sender's report: who, and the middle of its time.
    Sender { ssrc: u32, time: u32 },
    /// These packets of a source are asked for again.
    Nack { ssrc: u32, sequences: Vec<u16> },
    /// A keyframe of a source is asked for, by a PLI or a FIR.
    Keyframe { ssrc: u32 },
}

/// Writes packets, each behind the one before.
#[derive(Default)]
pub struct Compound(Vec<u8>);

impl Compound {
    pub fn bytes(&self) -> &[u8] {
        &self.0
    }

    fn packet(&mut self, count: u8, kind: u8, body: &[u8]) -> &mut Self {
        self.0.extend([0x80 | count, kind]);
        self.0.extend((body.len() as u16 / 4).to_be_bytes());
        self.0.extend(body);
        self
    }

    fn write(&mut self, it: impl FnOnce(&mut [u8]) -> Result<usize, RtpWriteError>) -> &mut Self {
        let begin = self.0.len();
        self.0.resize(begin + LONGEST, 0);
        let len = it(&mut self.0[begin..]).unwrap_or(0);
        self.0.truncate(begin + len);
        self
    }

    /// `time` is of NTP, as 32 bits of seconds and 32 of their fraction.
    pub fn sender(
        &mut self,
        ssrc: u32,
        time: u64,
        timestamp: u32,
        packets: u32,
        bytes: u32,
    ) -> &mut Self {
        let mut body = ssrc.to_be_bytes().to_vec();
        body.extend(time.to_be_bytes());
        body.extend(
            [timestamp, packets, bytes]
                .iter()
                .flat_map(|it| it.to_be_bytes()),
        );
        self.packet(0, SENDER_REPORT, &body)
    }

    /// What is reported of a source; of none an empty report, which stands before other packets (RFC 3550, 6.1).
    pub fn receiver(&mut self, sender: u32, block: Option<ReportBlock>) -> &mut Self {
        match block {
            Some(block) => self.write(|to| ReceiverReport { sender, block }.write(to)),
            None => self.packet(0, RECEIVER_REPORT, &sender.to_be_bytes()),
        }
    }

    /// The name of a participant, which each compound packet has to have (RFC 3550, 6.5.1).
    pub fn name(&mut self, ssrc: u32, name: &str) -> &mut Self {
        let name = &name.as_bytes()[..name.len().min(255)];
        let mut chunk = ssrc.to_be_bytes().to_vec();
        chunk.extend([CNAME, name.len() as u8]);
        chunk.extend(name);
        // A zero ends the items, and more fill the word.
        chunk.resize((chunk.len() + 1).next_multiple_of(4), 0);
        self.packet(1, DESCRIPTION, &chunk)
    }

    /// Asks for packets again (RFC 4585, 6.2.1).
    pub fn nack(&mut self, own: u32, ssrc: u32, sequences: &[u16]) -> &mut Self {
        self.write(|to| Ok(write_nack(own, ssrc, sequences, to)?.size))
    }

    /// Asks for a keyframe (RFC 4585, 6.3.1).
    pub fn pli(&mut self, sender: u32, media: u32) -> &mut Self {
        self.write(|to| PictureLoss { sender, media }.write(to))
    }

    pub fn goodbye(&mut self, ssrc: u32) -> &mut Self {
        self.packet(1, GOODBYE, &ssrc.to_be_bytes())
    }
}

/// What a compound packet says, as far as its packets are whole.
pub fn read(mut datagram: &[u8]) -> Vec<Read> {
    let mut all = Vec::new();
    while let Some((packet, behind)) = split_rtcp(datagram) {
        all.extend(read_packet(packet));
        datagram = behind;
    }
    all
}

fn read_packet(packet: &[u8]) -> Option<Read> {
    if let Some(nack) = GenericNack::read(packet) {
        return Some(Read::Nack {
            ssrc: nack.media,
            sequences: nack.pairs.flat_map(|it| it.numbers()).collect(),
        });
    }
    let pli = PictureLoss::read(packet).map(|it| it.media);
    let keyframe = pli.or_else(|| FullIntraRequest::read(packet).map(|it| it.media));
    if let Some(ssrc) = keyframe {
        return Some(Read::Keyframe { ssrc });
    }
    match packet {
        [
            _,
            SENDER_REPORT,
            _,
            _,
            a,
            b,
            c,
            d,
            _,
            _,
            e,
            f,
            g,
            h,
            _,
            _,
            rest @ ..,
        ] if rest.len() >= 12 => Some(Read::Sender {
            ssrc: u32::from_be_bytes([*a, *b, *c, *d]),
            time: u32::from_be_bytes([*e, *f, *g, *h]),
        }),
        _ => None,
    }
}

#[cfg(test)]
mod tests {
    use super::*;
    use emupedestal::rtp::is_rtcp;

    /// RFC 3550, 6.4.2 and 6.5: reports, a name, requests and an end, one behind another.
    #[test]
    fn compounds() {
        let block = ReportBlock {
            ssrc: 9,
            fraction_lost: 64,
            lost: -2,
            highest: 0x1_0005,
            jitter: 3,
            last_sender_report: 4,
            delay: 5,
        };
        let mut compound = Compound::default();
        compound.receiver(7, Some(block)).name(7, "a@b");
        compound.nack(7, 9, &[5, 6, 21]).pli(7, 9).goodbye(7);
        let wanted = [
            0x81, 201, 0, 7, 0, 0, 0, 7, 0, 0, 0, 9, 64, 0xff, 0xff, 0xfe, 0, 1, 0, 5, 0, 0, 0, 3,
            0, 0, 0, 4, 0, 0, 0, 5, 0x81, 202, 0, 3, 0, 0, 0, 7, 1, 3, b'a', b'@', b'b', 0, 0, 0,
            0x81, 205, 0, 3, 0, 0, 0, 7, 0, 0, 0, 9, 0, 5, 0x80, 1, 0x81, 206, 0, 2, 0, 0, 0, 7, 0,
            0, 0, 9, 0x81, 203, 0, 1, 0, 0, 0, 7,
        ];
        assert_eq!(compound.bytes(), wanted);
        let sequences = vec![5, 6, 21];
        let said = [
            Read::Nack { ssrc: 9, sequences },
            Read::Keyframe { ssrc: 9 },
        ];
        assert_eq!(read(&wanted), said);
        assert_eq!(read(&wanted[..wanted.len() - 20]), said[..1]);
        let mut empty = Compound::default();
        empty.receiver(7, None);
        assert_eq!(empty.bytes(), [0x80, 201, 0, 1, 0, 0, 0, 7]);
    }

    #[test]
    fn senders() {
        let mut compound = Compound::default();
        compound.sender(9, 0x1122_3344_5566_7788, 90, 2, 200);
        assert_eq!(compound.bytes()[..4], [0x80, 200, 0, 6]);
        let time = 0x3344_5566;
        assert_eq!(read(compound.bytes()), [Read::Sender { ssrc: 9, time }]);
        assert!(is_rtcp(compound.bytes()));
    }
}
