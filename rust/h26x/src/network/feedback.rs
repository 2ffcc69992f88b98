//! What a receiver of live streams says to their senders: reports (RFC 3550, 6.4.2), lost packets that it asks for again,
//! and a keyframe where no decoder can go on (RFC 4585, 6.2.1 and 6.3.1), as an `RtpReceiver` of each tells them.

use crate::captures::packets::{Captured, Stream};
use crate::commands::arguments::Looking;
use crate::network::rtcp::{Compound, Read};
use crate::streams::chooser::primary;
use crate::streams::codecs::{CODECS, Likeness, is_usual};
use crate::streams::guesses::Types;
use crate::streams::rates::ticks;
use crate::streams::repairs::Repairs;
use crate::streams::sets::are_enough;
use crate::streams::undone::Session;
use emupedestal::Codec;
use emupedestal::access_unit_receiver::{AccessUnitConfig, NackTimes};
use emupedestal::rtp_receiver::RtpReceiver;
use std::net::SocketAddr;
use std::time::{Duration, Instant};

/// So many senders are answered.
const MOST: usize = 16;
/// Between reports, and before the first (RFC 3550, 6.2).
const PAUSE: Duration = Duration::from_secs(5);
const FIRST: Duration = Duration::from_millis(2500);
/// In milliseconds: how long a missing packet may come by itself, and how long between two requests for it; how often it
/// is asked for, and how many are at a time.
const TIMES: NackTimes = NackTimes {
    first: 20,
    again: 100,
    most: 3,
};
const MOST_MISSING: usize = 64;
/// How long a packet is waited for: until it was asked for as often, and could come.
const WAIT: u32 = TIMES.first + TIMES.most as u32 * TIMES.again;
/// Between two requests for a keyframe.
const KEYFRAMES: u32 = 1000;
/// So many packets tell whether they are of a codec.
const TELLING: u64 = 16;

/// Where to answer: by which socket, and to whom.
#[derive(Clone, Copy, PartialEq, Eq, Debug)]
pub struct Way {
    pub is_muxed: bool,
    pub to: SocketAddr,
}

/// When a packet came, by the clocks of a receiver.
#[derive(Clone, Copy)]
struct Ticks {
    /// In milliseconds.
    now: u32,
    /// In ticks of timestamps.
    arrival: u32,
}

struct Sender {
    session: Session,
    way: Way,
    /// The middle of the time in its last report, and when that came.
    report: Option<(u32, Instant)>,
    codec: Codec,
    receiver: RtpReceiver,
    likeness: Likeness,
    /// Whether it sends packets of another one again: none of its own is asked for (RFC 4588, 6).
    is_of_again: bool,
}

pub struct Feedback {
    own: u32,
    codec: Option<Codec>,
    /// The payload type of the codec, where it is said.
    media: Option<u8>,
    has_donl: bool,
    config: AccessUnitConfig,
    types: Types,
    repairs: Repairs,
    senders: Vec<Sender>,
    begin: Instant,
    next: Instant,
}

impl Feedback {
    /// `own` is the SSRC that it speaks as.
    pub fn new(own: u32, looking: &Looking, now: Instant) -> Self {
        let (types, codec) = (Types::said(&looking.types), looking.choice.codec);
        Feedback {
            own,
            codec,
            media: looking.choice.payload_type,
            has_donl: looking.has_donl,
            config: AccessUnitConfig {
                max_wait: WAIT,
                has_sets: codec.is_some_and(|it| are_enough(it, &looking.sets)),
                ..AccessUnitConfig::default()
            },
            repairs: Repairs::new(&types),
            types,
            senders: Vec::new(),
            begin: now,
            next: now + FIRST,
        }
    }

    /// A packet came from there.
    pub fn come(&mut self, stream: &Stream, packet: &Captured<'_>, from: SocketAddr, now: Instant) {
        self.repairs.follow(stream, packet);
        let ticks = Ticks {
            now: self.tick(now),
            arrival: ticks(packet.time),
        };
        let (of_it, rtp) = primary(self.types.at(stream.to), stream, &packet.rtp);
        if !self.senders.iter().any(|it| it.session.ssrc == stream.ssrc)
            && self.senders.len() < MOST
        {
            let sender = self.sender(&of_it, rtp.payload, from);
            self.senders.push(sender);
        }
        let repaired = self.repairs.repaired_by(stream).map(|it| it.0);
        for sender in &mut self.senders {
            let is_its = sender.session.ssrc == stream.ssrc;
            if is_its {
                sender.likeness.add(rtp.payload);
            }
            if is_its || Some(sender.session.ssrc) == repaired {
                sender.take(packet, ticks);
            }
        }
    }

    fn tick(&self, now: Instant) -> u32 {
        now.duration_since(self.begin).as_millis() as u32
    }

    /// A sender whose first packet is of this stream, RED undone, and bears this.
    fn sender(&self, stream: &Stream, payload: &[u8], from: SocketAddr) -> Sender {
        let likely = || CODECS.into_iter().rev().find(|it| is_usual(*it, payload));
        let codec = self.codec.or_else(likely).unwrap_or(Codec::H264);
        let types = self.types.at(stream.to);
        let media = self.media.filter(|_| types.is_fec(stream.payload_type));
        let session = Session {
            types: types.of_stream(media.unwrap_or(stream.payload_type)),
            ssrc: stream.ssrc,
        };
        let types = session.types;
        let mut receiver =
            RtpReceiver::with_settings(codec, self.has_donl, false, types, self.config);
        receiver.follow(session.sources());
        Sender {
            session,
            // Until it says where, the port behind that of its packets (RFC 3550, 11).
            way: Way {
                is_muxed: false,
                to: SocketAddr::new(from.ip(), from.port().saturating_add(1)),
            },
            report: None,
            codec,
            receiver,
            likeness: Likeness::default(),
            is_of_again: self.repairs.is_of_again(stream),
        }
    }

    /// A packet of RTCP came this way.
    pub fn read(&mut self, all: &[Read], way: Way, now: Instant) {
        for read in all {
            let Read::Sender { ssrc, time } = read else {
                continue;
            };
            for sender in self
                .senders
                .iter_mut()
                .filter(|it| it.session.ssrc == *ssrc)
            {
                sender.report = Some((*time, now));
                sender.way = way;
            }
        }
    }

    /// What is to be said now, and where.
    pub fn due(&mut self, now: Instant) -> Vec<(Way, Compound)> {
        let is_report = now >= self.next;
        if is_report {
            self.next = now + PAUSE;
        }
        let (own, tick) = (self.own, self.tick(now));
        let said = self.senders.iter_mut();
        said.filter_map(|it| it.due(own, is_report, now, tick))
            .collect()
    }

    /// The last words.
    pub fn end(&mut self) -> Vec<(Way, Compound)> {
        let own = self.own;
        let ends = self.senders.iter().map(|it| {
            let mut compound = Compound::default();
            compound
                .receiver(own, None)
                .name(own, &name(own))
                .goodbye(own);
            (it.way, compound)
        });
        ends.collect()
    }
}

/// The name of a participant, which tells nothing of who it is (RFC 7022, 4.2).
pub fn name(ssrc: u32) -> String {
    format!("h26x-{ssrc:08x}")
}

impl Sender {
    fn take(&mut self, packet: &Captured<'_>, ticks: Ticks) {
        // Where there is no memory, or it is no packet of it, nothing is asked for.
        let _ = self
            .receiver
            .push(ticks.now, ticks.arrival, &self.session.with_ssrc(packet));
        self.pass_units(ticks.now);
    }

    /// Passes over access units, of which it is counted whether a decoder can go on behind them.
    fn pass_units(&mut self, now: u32) {
        while let Ok(Some(unit)) = self.receiver.next(now) {
            self.receiver.give_back(unit);
        }
    }

    fn due(
        &mut self,
        own: u32,
        is_report: bool,
        now: Instant,
        tick: u32,
    ) -> Option<(Way, Compound)> {
        self.pass_units(tick);
        let mut asked = Vec::new();
        if !self.is_of_again {
            asked = self
                .receiver
                .nacks(tick, TIMES, MOST_MISSING)
                .unwrap_or_default();
        }
        let is_of_codec = self.likeness.all() >= TELLING && self.likeness.is_likely(self.codec);
        let wants_keyframe =
            is_of_codec && !self.is_of_again && self.receiver.keyframe_wanted(tick, KEYFRAMES);
        if !is_report && asked.is_empty() && !wants_keyframe {
            return None;
        }
        let (last, since) = self.report.unwrap_or((0, now));
        let delay = now.duration_since(since).as_millis() * 65536 / 1000;
        let report = |it: &mut RtpReceiver| it.report(last, delay.min(u32::MAX.into()) as u32);
        let block = is_report.then(|| report(&mut self.receiver)).flatten();
        let mut compound = Compound::default();
        compound.receiver(own, block).name(own, &name(own));
        if !asked.is_empty() {
            compound.nack(own, self.session.ssrc, &asked);
        }
        if wants_keyframe {
            compound.pli(own, self.session.ssrc);
        }
        Some((self.way, compound))
    }
}

#[cfg(test)]
mod tests {
    use super::*;
    use crate::captures::ip::Part;
    use crate::captures::packets::Bears;
    use crate::captures::rtp::rtp;
    use crate::commands::arguments::{Command, command};

    fn feedback(options: &[&str], begin: Instant) -> Feedback {
        let words = [&["inspect", "udp://:5004", "--codec", "h264"], options].concat();
        let words = words.iter().map(|it| (*it).into()).collect();
        let Ok(Command::Inspect(asked)) = command(words) else {
            panic!("a command");
        };
        Feedback::new(7, &asked.looking, begin)
    }

    /// Takes a datagram of SSRC 9 that came after so many milliseconds.
    fn come(feedback: &mut Feedback, begin: Instant, millis: u64, datagram: &[u8]) {
        let from: SocketAddr = "192.0.2.1:5004".parse().expect("an address");
        let rtp = rtp(datagram).expect("a packet");
        let stream = Stream {
            ssrc: rtp.ssrc,
            payload_type: rtp.payload_type,
            to: ("192.0.2.2".parse().expect("an address"), 5004),
        };
        let packet = Captured {
            time: millis * 1_000_000,
            part: Part::Whole,
            datagram,
            rtp,
            is_resent: false,
            bears: Bears::Media,
        };
        let now = begin + Duration::from_millis(millis);
        feedback.come(&stream, &packet, from, now);
    }

    /// A picture in a packet; the first of them has parameter sets and is a keyframe.
    fn picture(sequence: u16, first: u16) -> Vec<u8> {
        let mut datagram = vec![0x80, 0x80 | 96];
        datagram.extend(sequence.to_be_bytes());
        datagram.extend((u32::from(sequence.wrapping_sub(first)) * 90).to_be_bytes());
        datagram.extend([0, 0, 0, 9]);
        match sequence == first {
            true => datagram.extend([
                0x78, 0, 4, 0x67, 0x42, 0xc0, 0x1f, 0, 2, 0x68, 0xce, 0, 2, 0x65, 0x88,
            ]),
            false => datagram.extend([0x41, 0x9a]),
        }
        datagram
    }

    /// Pictures, one each millisecond.
    fn pictures(feedback: &mut Feedback, begin: Instant, sequences: &[u16]) {
        for (millis, sequence) in (0..).zip(sequences) {
            come(feedback, begin, millis, &picture(*sequence, sequences[0]));
        }
    }

    fn said(feedback: &mut Feedback, now: Instant) -> Vec<Read> {
        let due = feedback.due(now);
        let read = due
            .iter()
            .map(|it| crate::network::rtcp::read(it.1.bytes()));
        read.flatten().collect()
    }

    /// Ten numbers, of which two never came: a fraction of 2/10, in 256 parts 51 (RFC 3550, A.3).
    #[test]
    fn reports() {
        let begin = Instant::now();
        let mut feedback = feedback(&[], begin);
        let came = [65530, 65531, 65533, 65535, 0, 1, 2, 3];
        pictures(&mut feedback, begin, &came);
        let way = Way {
            is_muxed: true,
            to: "192.0.2.1:7".parse().expect("an address"),
        };
        feedback.read(&[Read::Sender { ssrc: 9, time: 5 }], way, begin);
        let due = feedback.due(begin + FIRST);
        assert_eq!((due.len(), due[0].0), (1, way));
        let report = emupedestal::rtp::ReceiverReport::read(&due[0].1.bytes()[..32]);
        let block = report.expect("a report").block;
        assert_eq!((block.ssrc, block.fraction_lost, block.lost), (9, 51, 2));
        assert_eq!(block.highest, 0x1_0003);
        assert_eq!((block.last_sender_report, block.delay), (5, 65536 * 5 / 2));
        let later = feedback.due(begin + FIRST + PAUSE / 2);
        assert!(
            later
                .iter()
                .all(|it| it.1.bytes()[1] != 201 || it.1.bytes()[0] == 0x80)
        );
    }

    /// A missing packet is asked for three times, then a keyframe; one that comes isn't asked for again.
    #[test]
    fn missing_packets() {
        let begin = Instant::now();
        let mut feedback = feedback(&[], begin);
        let mut came: Vec<u16> = (1..=20).collect();
        came.extend([22, 24]);
        pictures(&mut feedback, begin, &came);
        let at = |millis| begin + Duration::from_millis(millis);
        let nack = |sequences: &[u16]| {
            let sequences = sequences.to_vec();
            vec![Read::Nack { ssrc: 9, sequences }]
        };
        assert_eq!(said(&mut feedback, at(22)), []);
        assert_eq!(said(&mut feedback, at(60)), nack(&[21, 23]));
        assert_eq!(said(&mut feedback, at(70)), []);
        come(&mut feedback, begin, 80, &picture(21, 1));
        assert_eq!(said(&mut feedback, at(170)), nack(&[23]));
        assert_eq!(said(&mut feedback, at(280)), nack(&[23]));
        assert_eq!(said(&mut feedback, at(390)), [Read::Keyframe { ssrc: 9 }]);
        assert_eq!(said(&mut feedback, at(1000)), []);
        assert_eq!(said(&mut feedback, at(1400)), [Read::Keyframe { ssrc: 9 }]);
    }

    /// What RTX sends again isn't missing any more, and of RTX itself nothing is asked for.
    #[test]
    fn packets_that_come_again() {
        let begin = Instant::now();
        let mut feedback = feedback(&["--rtx", "97=96"], begin);
        let mut came: Vec<u16> = (1..=20).collect();
        came.extend([22, 24]);
        pictures(&mut feedback, begin, &came);
        for sequence in [70, 72] {
            let mut again = picture(21, 1);
            again.splice(12..12, [0, 21]);
            (again[1], again[3], again[11]) = (97, sequence, 8);
            come(&mut feedback, begin, 30, &again);
        }
        let _ = said(&mut feedback, begin + Duration::from_millis(40));
        let sequences = vec![23];
        let said = said(&mut feedback, begin + Duration::from_millis(80));
        assert_eq!(said, [Read::Nack { ssrc: 9, sequences }]);
    }
}
