//! A stream that is received, and what is counted of it.
//!
//! An `RtpReceiver` undoes RTX and RED, puts packets in order and gives out access units. It counts packets that are lost
//! and refused, and doesn't name them: that is done here, of each packet once the receiver has taken it.

use crate::captures::packets::{Bears, Captured};
use crate::commands::arguments::{LONGEST_WINDOW, Looking};
use crate::errors::Failure;
use crate::streams::numbers::Numbers;
use crate::streams::rates::ticks;
use crate::streams::refusals::{bears_no_unit, reason};
use crate::streams::runs::{Left, Runs};
use crate::streams::sets::are_enough;
use crate::streams::tally::Tally;
use crate::streams::told::{Became, Fate, Outcome, Tell, Told};
use crate::streams::undone::{Session, ends_unit};
use crate::streams::waiting::{Kept, Waiting};
use emupedestal::access_unit_receiver::{AccessUnitConfig, Counts, Pushed, ReceivedAccessUnit};
use emupedestal::rtp_receiver::{NoMedia, RtpPushError, RtpPushed, RtpReceiver};
use emupedestal::{Codec, CodecExtra, PacketError, SequencedDepacketizer};
use std::collections::HashSet;
use std::mem;

/// A number is far where it is so much ahead of the one that is due, or so much behind (RFC 3550, A.1).
const FAR: u16 = 3000;
/// So many packets in a row that are late, or had come before, are a sender's that began anew.
const MOST_LATE: u16 = 64;
/// An access unit that is longer ends behind a unit.
const LONGEST_UNIT: usize = 1 << 25;
/// How long a packet is waited for that may be sent again: some round trips, in milliseconds.
const RTX_WAIT: u32 = 1000;
/// So many packets that are sent again before the first one wait for it.
const MOST_EARLY: usize = 256;

/// What the receiver has done at a time.
struct Step {
    /// How many packets it has taken, refused or passed over.
    passed: u64,
    has_refused: bool,
    unit: Option<ReceivedAccessUnit>,
    /// Whether there may be another access unit.
    has_more: bool,
}

pub struct Reception {
    codec: Codec,
    session: Session,
    has_donl: bool,
    receiver: RtpReceiver,
    /// What it had counted at the last step.
    counts: Counts,
    waiting: Waiting,
    /// The number that is due, once a packet came.
    due: Option<u16>,
    has_passed: bool,
    /// How many packets before the next one of this payload type are lost.
    lost: u32,
    /// A packet far from all others, which the next may go on from.
    stray: Option<Kept>,
    /// A packet more than a window ahead, which waits apart in the receiver until another is near it.
    ahead: Option<Kept>,
    /// How many packets in a row were late or had come before, and the number behind the last of them.
    late: (u16, u16),
    /// When the first packet was captured, and the latest one, in nanoseconds.
    clock: Option<(u64, u64)>,
    /// How many bytes came of the access unit that is open.
    unit_len: usize,
    /// When the latest packet of it was captured, or where it has none that of the one before.
    unit_time: Option<u64>,
    last_time: u64,
    runs: Runs,
    numbers: Numbers,
    /// Packets that were sent again before the first one came.
    early: Vec<Kept>,
    /// Numbers of packets that RTX brought, and which may still come by themselves.
    recovered: HashSet<u16>,
    tally: Tally,
}

/// How long packets wait, and how long units may be.
fn config(codec: Codec, session: &Session, looking: &Looking) -> AccessUnitConfig {
    let (window, wait) = match session.types.rtx.or(session.types.rtx_of_red) {
        Some(_) => (LONGEST_WINDOW, RTX_WAIT),
        None => (32, u32::MAX),
    };
    AccessUnitConfig {
        window: looking.window.unwrap_or(window) + 1,
        far: 0,
        far_behind: 0,
        max_wait: looking.wait.unwrap_or(wait),
        begin_wait: looking.begin_wait,
        held_limit: usize::MAX,
        run_limit: looking.run_limit,
        unit_limit: usize::MAX,
        has_sets: are_enough(codec, &looking.sets),
    }
}

impl Reception {
    pub fn new(codec: Codec, session: Session, looking: &Looking, has_lengths: bool) -> Self {
        let (has_donl, run_limit) = (looking.has_donl, looking.run_limit);
        let (types, config) = (session.types, config(codec, &session, looking));
        let mut receiver = RtpReceiver::with_settings(codec, has_donl, has_lengths, types, config);
        receiver.follow(session.sources());
        Reception {
            codec,
            session,
            has_donl,
            counts: receiver.counts(),
            receiver,
            waiting: Waiting::default(),
            due: None,
            has_passed: false,
            lost: 0,
            stray: None,
            ahead: None,
            late: (0, 0),
            clock: None,
            unit_len: 0,
            unit_time: None,
            last_time: 0,
            runs: Runs::new(codec, has_donl, run_limit),
            numbers: Numbers::new(codec, has_donl),
            early: Vec::new(),
            recovered: HashSet::new(),
            tally: Tally::new(!looking.sets.is_empty()),
        }
    }

    /// Takes a packet that is numbered with those of the stream, or sends one of these again.
    pub fn take(&mut self, packet: &Captured<'_>, tell: &mut Tell<'_>) -> Outcome {
        let Some(packet) = self.session.undone(packet) else {
            return Ok(());
        };
        if packet.is_resent {
            return match self.due {
                Some(_) => self.take_resent(&packet, tell),
                None => self.keep_early(&packet, tell),
            };
        }
        if packet.is_told() {
            tell(Told::Came(&packet))?;
            if !self.is_far(packet.rtp.sequence) {
                self.tally.rates.come(&packet);
            }
        }
        if self.due.is_none() {
            return self.begin(&packet, tell);
        }
        self.sort_in(&packet, tell)
    }

    /// Keeps a packet that was sent again before the first one came.
    fn keep_early(&mut self, packet: &Captured<'_>, tell: &mut Tell<'_>) -> Outcome {
        if self.early.len() < MOST_EARLY {
            self.early.push(Kept::new(packet));
            return Ok(());
        }
        self.tally.again += 1;
        tell(Told::Again(packet.rtp.sequence))
    }

    /// Takes the first packet, and those that were sent again before it: of those before it the ones that it follows.
    fn begin(&mut self, packet: &Captured<'_>, tell: &mut Tell<'_>) -> Outcome {
        let mut early = mem::take(&mut self.early);
        let sequence = packet.rtp.sequence;
        let mut begin = sequence;
        while early
            .iter()
            .any(|it| it.sequence() == begin.wrapping_sub(1))
        {
            begin = begin.wrapping_sub(1);
        }
        let place = |it: &Kept| it.sequence().wrapping_sub(begin);
        early.sort_by_key(place);
        let count = early.partition_point(|it| place(it) < sequence.wrapping_sub(begin));
        for it in &early[..count] {
            self.take_resent(&it.packet(), tell)?;
        }
        self.sort_in(packet, tell)?;
        for it in &early[count..] {
            self.take_resent(&it.packet(), tell)?;
        }
        Ok(())
    }

    /// Takes a packet that was sent again, which tells nothing of when the sender sends and how it numbers.
    fn take_resent(&mut self, packet: &Captured<'_>, tell: &mut Tell<'_>) -> Outcome {
        let sequence = packet.rtp.sequence;
        if !self.is_far(sequence) {
            match self.push(packet)? {
                Pushed::Late(_) | Pushed::Twice => {}
                pushed => return self.take_pushed(packet, pushed, tell),
            }
        }
        self.tally.again += 1;
        tell(Told::Again(sequence))
    }

    fn sort_in(&mut self, packet: &Captured<'_>, tell: &mut Tell<'_>) -> Outcome {
        let sequence = packet.rtp.sequence;
        if self.is_far(sequence) {
            return self.take_far(packet, tell);
        }
        match self.push(packet)? {
            Pushed::Late(behind) if !self.recovered.remove(&sequence) => {
                self.take_late(packet, behind, tell)
            }
            Pushed::Late(_) | Pushed::Twice => self.take_twice(packet, tell),
            pushed => {
                self.late.0 = 0;
                self.take_pushed(packet, pushed, tell)?;
                self.end_long(packet, tell)
            }
        }
    }

    /// Takes a packet of which this became in the receiver, where it isn't dropped.
    fn take_pushed(
        &mut self,
        packet: &Captured<'_>,
        pushed: Pushed,
        tell: &mut Tell<'_>,
    ) -> Outcome {
        if pushed == Pushed::Stray {
            self.give_ahead(tell)?;
            self.ahead = Some(Kept::new(packet));
            return Ok(());
        }
        if pushed == Pushed::Jumped {
            let is_other = |it: &mut Kept| it.sequence() != packet.rtp.sequence;
            if let (Some(ahead), Some(due)) = (self.ahead.take_if(is_other), self.due) {
                self.waiting.put(&ahead.packet(), due);
            }
            self.give_ahead(tell)?;
        }
        self.take_held(packet, tell)
    }

    /// Tells of a packet that waited apart, near which none came.
    fn give_ahead(&mut self, tell: &mut Tell<'_>) -> Outcome {
        let Some(ahead) = self.ahead.take() else {
            return Ok(());
        };
        self.tally.strays += 1;
        tell(Told::Stray(ahead.sequence()))
    }

    /// Passes over a packet that had come before; or begins anew with it.
    fn take_twice(&mut self, packet: &Captured<'_>, tell: &mut Tell<'_>) -> Outcome {
        let sequence = packet.rtp.sequence;
        let is_behind = |due| sequence.wrapping_sub(due) > u16::MAX / 2;
        let is_recovered = self.recovered.remove(&sequence);
        if !is_recovered && self.due.is_some_and(is_behind) && self.ends_row(sequence) {
            self.begin_anew(tell)?;
            return self.sort_in(packet, tell);
        }
        self.tally.twice += 1;
        tell(Told::Twice(sequence))
    }

    /// Whether so many came in a row with this one that the sender began anew.
    fn ends_row(&mut self, sequence: u16) -> bool {
        let in_row = if self.late.1 == sequence {
            self.late.0 + 1
        } else {
            1
        };
        self.late = (in_row, sequence.wrapping_add(1));
        in_row == MOST_LATE
    }

    /// Ends an access unit that is too long, where no unit goes on. Any number is the next then.
    fn end_long(&mut self, packet: &Captured<'_>, tell: &mut Tell<'_>) -> Outcome {
        if self.unit_len <= LONGEST_UNIT || !ends_unit(self.codec, packet.rtp.payload) {
            return Ok(());
        }
        self.receiver.finish();
        self.drain(tell)?;
        self.give_ahead(tell)
    }

    /// Gives a packet to the receiver, at the time at which it was captured. What isn't of the stream changes nothing, as
    /// what is sent again of which nothing is missing.
    fn push(&mut self, packet: &Captured<'_>) -> Result<Pushed, Failure> {
        let now = self.tick(packet.time);
        let arrival = ticks(packet.time);
        let datagram = self.session.datagram(self.codec, packet);
        match self.receiver.push(now, arrival, &datagram) {
            Ok(RtpPushed::Packet(taken)) => Ok(taken.pushed),
            Err(RtpPushError::Packet(_)) => Err(Failure::memory()),
            _ => Ok(Pushed::Twice),
        }
    }

    /// The receiver's time, in milliseconds. A capture's may go back, and that one doesn't.
    fn tick(&mut self, time: u64) -> u32 {
        let (begin, latest) = self.clock.unwrap_or((time, time));
        self.clock = Some((begin, latest.max(time)));
        self.now()
    }

    fn now(&self) -> u32 {
        let (begin, latest) = self.clock.unwrap_or_default();
        ((latest - begin) / 1_000_000) as u32
    }

    /// Takes a packet that the receiver holds.
    fn take_held(&mut self, packet: &Captured<'_>, tell: &mut Tell<'_>) -> Outcome {
        let before_first = packet
            .rtp
            .sequence
            .wrapping_sub(self.receiver.config().window - 1);
        let due = *self.due.get_or_insert(before_first);
        if !self.waiting.is_empty() {
            self.waiting.put(packet, due);
            return self.drain(tell);
        }
        // Mostly it is due as it comes, and needn't be copied.
        let mut step = self.step()?;
        if step.passed == 0 {
            self.waiting.put(packet, due);
            // An access unit may have ended before it, behind numbers that are missing or by its units.
            return match self.end_step(step, tell)? {
                true => self.drain(tell),
                false => Ok(()),
            };
        }
        let sequence = packet.rtp.sequence;
        let is_last = step.unit.as_ref().is_some_and(|it| it.last == sequence);
        self.pass(packet, false, &mut step, tell)?;
        match self.end_step(step, tell)? && !is_last {
            true => self.drain(tell),
            false => Ok(()),
        }
    }

    /// Tells what became of packets that are due, and the access units that they end.
    fn drain(&mut self, tell: &mut Tell<'_>) -> Outcome {
        loop {
            let mut step = self.step()?;
            for _ in 0..step.passed {
                if let Some(kept) = self.waiting.pop() {
                    self.pass(&kept.packet(), kept.is_moved, &mut step, tell)?;
                }
            }
            if !self.end_step(step, tell)? {
                return Ok(());
            }
        }
    }

    /// Tells the access unit that ended with the last packet; whether there may be another one.
    fn end_step(&mut self, step: Step, tell: &mut Tell<'_>) -> Result<bool, Failure> {
        if let Some(unit) = step.unit {
            self.end_unit(unit, tell)?;
        }
        Ok(step.has_more)
    }

    /// Has the receiver take packets until an access unit has ended, or none is due.
    fn step(&mut self) -> Result<Step, Failure> {
        let unit = self.receiver.next(self.now()).map_err(no_memory)?;
        let counts = self.receiver.counts();
        let refused = |it: &Counts| it.refused + it.no_unit;
        let passed = |it: &Counts| it.taken + refused(it) + it.skipped;
        let before = mem::replace(&mut self.counts, counts);
        Ok(Step {
            passed: passed(&counts) - passed(&before),
            has_refused: refused(&counts) > refused(&before),
            has_more: unit.is_some(),
            unit,
        })
    }

    /// Tells what became of a packet that was due. The access unit that it ended by its timestamp stands
    /// before it.
    fn pass(
        &mut self,
        packet: &Captured<'_>,
        is_moved: bool,
        step: &mut Step,
        tell: &mut Tell<'_>,
    ) -> Outcome {
        let sequence = packet.rtp.sequence;
        let is_behind = |it: &mut ReceivedAccessUnit| sequence.wrapping_sub(it.last) as i16 > 0;
        if let Some(unit) = step.unit.take_if(is_behind) {
            self.end_unit(unit, tell)?;
        }
        self.follow(sequence);
        let Some(became) = self.became(packet, step.has_refused) else {
            return Ok(());
        };
        self.last_time = self.unit_time.unwrap_or(0).max(packet.time);
        self.unit_time = Some(self.last_time);
        self.tally.packet(packet);
        let is_moved = is_moved && !packet.is_resent;
        self.tally.moved += u64::from(is_moved);
        if packet.is_resent {
            self.tally.recovered += 1;
            self.recovered.insert(sequence);
        } else if !self.recovered.is_empty() {
            self.recovered.remove(&sequence);
        }
        let lost = mem::take(&mut self.lost);
        self.tally.miss(sequence, lost);
        let fate = Fate {
            became,
            lost,
            is_moved,
        };
        tell(Told::Packet(packet, fate))
    }

    /// What became of a packet that was due; nothing of one that isn't told of.
    fn became(&mut self, packet: &Captured<'_>, has_refused: bool) -> Option<Became> {
        Some(match packet.bears {
            Bears::Nothing(NoMedia::Padding) => {
                self.tally.padding += 1;
                Became::Padding
            }
            Bears::Nothing(NoMedia::Fec) => {
                self.tally.fec += 1;
                return None;
            }
            Bears::Nothing(NoMedia::OtherPayloadType(_)) => {
                self.tally.other += 1;
                return None;
            }
            Bears::Front => {
                self.tally.parts += 1;
                self.runs.break_off();
                Became::Cut
            }
            Bears::Broken(error) => {
                let reason = format!("its redundant payload is none: {error} (RFC 2198, 3)");
                self.runs.break_off();
                self.tally.refuse(packet.rtp.sequence, &reason, false);
                Became::Refused(reason)
            }
            Bears::Media => match self.refusal(packet.rtp.payload, has_refused) {
                Some(error) => self.refused(packet, error),
                None => self.taken(packet),
            },
        })
    }

    /// Follows the numbers: those between a packet and the one before it are lost.
    fn follow(&mut self, sequence: u16) {
        let due = self.due.replace(sequence.wrapping_add(1));
        let gap = sequence.wrapping_sub(due.unwrap_or(sequence));
        if mem::replace(&mut self.has_passed, true) && gap > 0 {
            self.lost += u32::from(gap);
            self.runs.break_off();
        }
    }

    /// Why a packet is refused, if it is one of those that were. It is refused for what it is alone.
    fn refusal(&self, payload: &[u8], has_refused: bool) -> Option<PacketError> {
        if !has_refused {
            return None;
        }
        let mut depacketizer = SequencedDepacketizer::new(self.codec, usize::MAX);
        depacketizer.with_donl(self.has_donl);
        let (mut units, mut extra) = (Vec::new(), CodecExtra::None);
        let received = depacketizer.receive(0, payload, &mut units, &mut extra);
        received.err()
    }

    fn refused(&mut self, packet: &Captured<'_>, error: PacketError) -> Became {
        let has_no_unit = bears_no_unit(self.codec, packet.rtp.payload, error);
        let reason = reason(self.codec, packet.rtp.payload, error);
        self.numbers.refuse(packet.rtp.payload);
        if !has_no_unit {
            self.runs.break_off();
        }
        self.tally.refuse(packet.rtp.sequence, &reason, has_no_unit);
        Became::Refused(reason)
    }

    fn taken(&mut self, packet: &Captured<'_>) -> Became {
        self.unit_len += packet.rtp.payload.len();
        self.numbers.take(packet.rtp.payload);
        let diagnoses = &mut self.tally.diagnoses;
        diagnoses.take(self.codec, self.has_donl, packet);
        match self.runs.take(&packet.rtp) {
            Left::TooLong => Became::TooLong,
            left => Became::Taken {
                gave_up: left == Left::GivenUp,
            },
        }
    }

    fn end_unit(&mut self, unit: ReceivedAccessUnit, tell: &mut Tell<'_>) -> Outcome {
        self.unit_len = 0;
        self.numbers.end_access_unit();
        self.tally.unit(&unit);
        self.unit_time = None;
        tell(Told::Unit(&unit, self.last_time))?;
        self.receiver.give_back(unit);
        Ok(())
    }

    /// Tells of a packet that is late; or begins anew with it.
    fn take_late(&mut self, packet: &Captured<'_>, behind: u16, tell: &mut Tell<'_>) -> Outcome {
        if self.ends_row(packet.rtp.sequence) {
            self.begin_anew(tell)?;
            return self.sort_in(packet, tell);
        }
        if !packet.is_told() {
            return Ok(());
        }
        self.tally.packet(packet);
        self.tally.late += 1;
        let fate = Fate {
            became: Became::Late(behind),
            lost: 0,
            is_moved: false,
        };
        tell(Told::Packet(packet, fate))
    }

    fn is_far(&self, sequence: u16) -> bool {
        let is_far = |due| (FAR..=FAR.wrapping_neg()).contains(&sequence.wrapping_sub(due));
        self.due.is_some_and(is_far)
    }

    /// Keeps a packet that is far from all others; or begins anew with the one before it.
    fn take_far(&mut self, packet: &Captured<'_>, tell: &mut Tell<'_>) -> Outcome {
        let is_next = |it: &mut Kept| it.sequence().wrapping_add(1) == packet.rtp.sequence;
        if let Some(stray) = self.stray.take_if(is_next) {
            self.begin_anew(tell)?;
            self.sort_in(&stray.packet(), tell)?;
            return self.sort_in(packet, tell);
        }
        self.give_stray(tell)?;
        self.stray = Some(Kept::new(packet));
        Ok(())
    }

    fn give_stray(&mut self, tell: &mut Tell<'_>) -> Outcome {
        let Some(stray) = self.stray.take() else {
            return Ok(());
        };
        self.tally.strays += 1;
        tell(Told::Stray(stray.sequence()))
    }

    /// The sender begins anew: all that waits is due, and then any number is the next.
    fn begin_anew(&mut self, tell: &mut Tell<'_>) -> Outcome {
        self.end(tell)?;
        self.receiver.follow(self.session.sources());
        self.due = None;
        self.has_passed = false;
        self.late.0 = 0;
        self.tally.rates.begin_anew();
        self.tally.anew += 1;
        tell(Told::Anew)
    }

    /// Ends the stream up to here.
    fn end(&mut self, tell: &mut Tell<'_>) -> Outcome {
        self.receiver.finish();
        self.drain(tell)?;
        self.give_ahead(tell)?;
        self.runs.give_up();
        let lost = mem::take(&mut self.lost);
        self.tally.miss(self.due.unwrap_or_default(), lost);
        Ok(())
    }

    /// Tells what is left, and what was counted.
    pub fn finish(mut self, tell: &mut Tell<'_>) -> Result<Tally, Failure> {
        self.end(tell)?;
        self.give_stray(tell)?;
        let Counts {
            refused,
            units,
            units_given_up,
            texts_given_up,
            no_unit,
            still,
            unbelieved,
            ..
        } = self.counts;
        let mut tally = self.tally;
        tally.again += self.early.len() as u64;
        debug_assert_eq!(refused + no_unit, tally.refused + tally.parts);
        debug_assert_eq!(no_unit, tally.no_unit);
        debug_assert_eq!(units, tally.access_units);
        debug_assert_eq!(units_given_up, self.runs.too_long);
        debug_assert_eq!(texts_given_up, 0);
        (tally.given_up, tally.too_long) = (self.runs.given_up, self.runs.too_long);
        tally.advice = self.numbers.advice();
        (tally.diagnoses.still, tally.diagnoses.unbelieved) = (still, unbelieved);
        Ok(tally)
    }
}

fn no_memory(_: PacketError) -> Failure {
    Failure::memory()
}
