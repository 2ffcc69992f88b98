//! Packets with their sequence numbers (RFC 3550, 5.1), through a receiver and beside it through a depacketizer
//! whose open unit is given up wherever a packet is missing or it is too long.

use crate::ends::Taking;
use crate::held::held_by;
use crate::packets::FRONT;
use emupedestal::{Codec, CodecExtra, Received, SequencedDepacketizer};

/// How many bytes a receiver of H.265 may hold for what it shows, for each byte of its longest packet: two of it, and
/// an aggregate's empty units, in buffers that are twice as long.
const SHOWN_FOR_EACH_BYTE: usize = 2 * 2 + 4 * 64;

/// What a receiver holds whatever came: of H.265 three lists of 32 units of up to 1500 bytes, in buffers of twice that.
const SMALL: usize = (1 << 16) + 2 * 3 * 32 * 1500;

/// A receiver, and what must be.
pub struct Receiver<D> {
    receiver: SequencedDepacketizer,
    told: CodecExtra,
    beside: D,
    expected: Option<u16>,
    /// How many bytes the receiver holds, and how long the longest packet was.
    held: isize,
    longest: usize,
}

impl<D: Taking> Receiver<D> {
    pub fn new(donl: bool, avc: bool, run_limit: usize) -> Self {
        let mut receiver = SequencedDepacketizer::new(D::CODEC, run_limit);
        receiver.with_donl(donl);
        receiver.set_avc(avc);
        Receiver {
            receiver,
            told: CodecExtra::None,
            beside: D::with_settings(donl, avc),
            expected: None,
            held: 0,
            longest: 0,
        }
    }

    pub fn set_avc(&mut self, value: bool) {
        self.receiver.set_avc(value);
        self.beside.set_avc(value);
    }

    pub fn set_donl(&mut self, value: bool) {
        self.receiver.with_donl(value);
        self.beside.set_donl(value);
    }

    pub fn restart(&mut self) {
        let ((), more) = held_by(|| self.receiver.restart());
        self.held += more;
        self.beside.give_up();
        self.expected = None;
        assert_eq!(self.receiver.run_len(), 0);
    }

    /// Gives both a packet.
    pub fn receive(&mut self, sequence: u16, packet: &[u8]) {
        let (before, told_before) = (self.receiver.clone(), self.told);
        // More than the packet can write, so that the memory of the output stays the same.
        let mut out = Vec::with_capacity(2 * packet.len() + self.receiver.run_len() + 16);
        out.extend_from_slice(&FRONT);
        let (answer, more) = held_by(|| {
            self.receiver
                .receive(sequence, packet, &mut out, &mut self.told)
        });
        self.held += more;
        self.longest = self.longest.max(packet.len());

        let ahead = self
            .expected
            .map_or(0, |expected| sequence.wrapping_sub(expected));
        if ahead >= 0x8000 {
            assert_eq!(answer, Ok(Received::Late(ahead.wrapping_neg())));
        }
        if !answer.is_ok_and(Received::is_taken) {
            assert_eq!(
                (&out[..], self.told),
                (&FRONT[..], told_before),
                "it changes nothing"
            );
            assert!(self.receiver == before, "it leaves the receiver");
        }
        if ahead < 0x8000 {
            self.take_beside(ahead, sequence, packet, answer, &out, told_before);
        }
        self.check_held();
    }

    fn take_beside(
        &mut self,
        missing: u16,
        sequence: u16,
        packet: &[u8],
        answer: Result<Received, emupedestal::PacketError>,
        out: &[u8],
        told_before: CodecExtra,
    ) {
        let mut beside = self.beside.clone();
        if missing > 0 {
            beside.give_up();
        }
        let (mut text, mut told) = (FRONT.to_vec(), told_before);
        if let Err(error) = beside.depacketize(packet, &mut text, &mut told) {
            assert_eq!(answer, Err(error));
            return;
        }
        let wanted = if beside.run() > self.receiver.run_limit() {
            beside.give_up();
            Received::TooLong(missing)
        } else if missing > 0 {
            Received::Gap(missing)
        } else {
            Received::InOrder
        };
        assert_eq!(answer, Ok(wanted));
        assert_eq!((out, self.told), (&text[..], told));
        assert_eq!(self.receiver.run_len(), beside.run());
        assert_eq!(self.receiver.shown(), beside.shown());
        self.beside = beside;
        self.expected = Some(sequence.wrapping_add(1));
    }

    /// The open unit is within its limit, and what is held is bounded by that and the longest packet.
    fn check_held(&self) {
        let (limit, longest) = (self.receiver.run_limit(), self.longest);
        assert!(self.receiver.run_len() <= limit);
        let shown = if D::CODEC == Codec::H265 {
            SHOWN_FOR_EACH_BYTE * longest
        } else {
            0
        };
        let most = 2 * (limit + longest) + shown + SMALL;
        assert!(
            self.held <= most as isize,
            "{} bytes are held, and {most} may be",
            self.held
        );
    }
}
