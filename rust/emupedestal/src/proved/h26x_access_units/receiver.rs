// Made from crates/h26x_access_units/src/receiver.rt by tools/to-rust.

//! A receiver that takes packets as they come and gives out access units.

use crate::proved::h26x_access_units::anew::anew_with;
use crate::proved::h26x_access_units::config::AccessUnitConfig;
use crate::proved::h26x_access_units::counts::Counts;
use crate::proved::h26x_access_units::decoder::DecoderState;
use crate::proved::h26x_access_units::due::{
    ends_before, is_behind_missing, is_want_of_memory, missing_before, take_begun,
};
use crate::proved::h26x_access_units::framing::Framing;
use crate::proved::h26x_access_units::jitter::JitterBuffer;
use crate::proved::h26x_access_units::numbers::NumbersSoFar;
use crate::proved::h26x_access_units::passed::PassedNumbers;
use crate::proved::h26x_access_units::pushed::{NotPushed, NotPushedReason, Pushed};
use crate::proved::h26x_access_units::short;
use crate::proved::h26x_access_units::unit::{self, ReceivedAccessUnit, remove_first, told_of};
use crate::proved::h26x_access_units::way::Way;
use crate::proved::h26x_assembler::{AccessUnit, AccessUnitAssembler, UnitsSoFar};
use crate::proved::h26x_core::PacketError;
use crate::proved::h26x_depacketizer::RunDepacketizer;
use crate::proved::h26x_receiver::SequencedDepacketizer;
use crate::proved::h26x_reorder::{HeldPacket, RtpPacket};
use crate::support::TryVec;
use alloc::vec::Vec;

/// The first packet that waits, of this number, was taken: it waits no more.
#[inline(always)]
fn pass_first(waiting: &mut JitterBuffer, passed: &mut PassedNumbers, number: u16) {
    passed.take(waiting.awaited().unwrap_or(0), number);
    waiting.drop_first();
}

/// Takes RTP packets as they come and gives out access units.
#[derive(Debug)]
pub struct AccessUnitReceiver<D: RunDepacketizer> {
    waiting: JitterBuffer,
    stray: Option<HeldPacket>,
    is_anew: bool,
    passed: PassedNumbers,
    assembler: AccessUnitAssembler<D>,
    ended: Vec<AccessUnit>,
    framing: Framing,
    numbers: NumbersSoFar,
    decoder: DecoderState,
    counts: Counts,
}

/// What a receiver is to contracts.
pub trait Receives {
    /// What it has counted.
    fn counts(&self) -> Counts;
}

impl<D: RunDepacketizer> Receives for AccessUnitReceiver<D> {
    fn counts(&self) -> Counts {
        self.counts
    }
}

impl<D: RunDepacketizer> AccessUnitReceiver<D> {
    /// A receiver with these settings over a depacketizer, which takes any sequence number as the
    /// first. A run that is open in `depacketizer` is not used. It takes no memory.
    pub(crate) fn new(depacketizer: D, config: AccessUnitConfig) -> Self {
        let packets = SequencedDepacketizer::new(depacketizer, config.run_limit);
        AccessUnitReceiver {
            waiting: JitterBuffer::new(config),
            stray: None,
            is_anew: false,
            passed: PassedNumbers::none(),
            assembler: AccessUnitAssembler::new(packets, config.unit_limit),
            ended: Vec::new(),
            framing: Framing::fresh(),
            numbers: NumbersSoFar::none(),
            decoder: DecoderState::fresh(),
            counts: Counts::none(),
        }
    }

    /// The settings.
    pub fn config(&self) -> AccessUnitConfig {
        AccessUnitConfig {
            run_limit: self.assembler.packets.run_limit,
            unit_limit: self.assembler.unit_limit,
            ..self.waiting.config()
        }
    }

    /// Has other settings from now on, for what waits and what is open too. It takes no memory.
    pub(crate) fn set_config(&mut self, config: AccessUnitConfig) {
        self.waiting.set_config(config);
        self.assembler.packets.run_limit = config.run_limit;
        self.assembler.unit_limit = config.unit_limit;
    }

    /// Takes a packet that came at this tick, and copies it if it is to wait: the one that is due is
    /// taken at once, where none waits or is missing right before it, and no access unit has ended that
    /// `next` hasn't given out. One without a payload came and bears nothing. Without memory all stays
    /// as it was, and it can be given again; one that isn't kept wants none.
    #[inline(always)]
    pub fn try_push(&mut self, now: u32, packet: &RtpPacket<'_>) -> Result<Pushed, PacketError> {
        if self.takes_at_once(packet) {
            return self.take_at_once(packet);
        }
        self.push_aside(now, packet)
    }

    /// Takes a packet that isn't taken at once.
    #[inline(never)]
    fn push_aside(&mut self, now: u32, packet: &RtpPacket<'_>) -> Result<Pushed, PacketError> {
        let pushed = match self.way_of(packet.sequence) {
            Way::Repeat => Pushed::Twice,
            Way::Far => return self.push_far(now, packet),
            Way::Ahead => return self.push_ahead(now, packet),
            Way::Window => self.waiting.try_push(now, packet)?,
        };
        // Most wait, and of these none is counted.
        if let Pushed::Held = pushed {
            return Ok(Pushed::Held);
        }
        self.counts.try_push(pushed);
        Ok(pushed)
    }

    /// What a number is to what the stream passed and to what waits.
    #[inline(always)]
    fn way_of(&self, number: u16) -> Way {
        let due = self.waiting.due();
        if self.passed.has_passed(due, number) {
            if self.passed.has_taken(due, number) {
                return Way::Repeat;
            }
        } else if self.waiting.is_far(number) {
            return Way::Far;
        }
        if self.waiting.is_ahead(number) {
            Way::Ahead
        } else {
            Way::Window
        }
    }

    /// Whether a packet is taken at once.
    #[inline(always)]
    fn takes_at_once(&self, packet: &RtpPacket<'_>) -> bool {
        if !self.waiting.goes_straight(packet.sequence) {
            return false;
        }
        if is_behind_missing(&self.assembler, packet.sequence) {
            return false;
        }
        if ends_before(&self.assembler, self.framing, packet) {
            return false;
        }
        let none_ended = !self.has_ended();
        none_ended && !self.is_anew
    }

    /// Takes a packet at once, which waits no more than one that is due. It is compiled apart, so that
    /// one that waits saves no registers for it.
    #[inline(never)]
    fn take_at_once(&mut self, packet: &RtpPacket<'_>) -> Result<Pushed, PacketError> {
        let sequence = packet.sequence;
        let received = short::take_due(
            &mut self.assembler,
            &mut self.ended,
            &mut self.framing,
            &mut self.numbers,
            &mut self.counts,
            packet,
        );
        if is_want_of_memory(&received) {
            return Err(PacketError::OutOfMemory);
        }
        self.waiting.pass(sequence);
        self.passed.take(sequence, sequence);
        Ok(Pushed::Held)
    }

    /// So of one that has memory of its own, which is kept for another one.
    fn take_held_at_once(&mut self, packet: HeldPacket) -> Result<Pushed, NotPushed> {
        match self.take_at_once(&packet.packet()) {
            Ok(pushed) => {
                self.waiting.give_back(packet);
                Ok(pushed)
            }
            Err(_) => Err(NotPushed {
                packet,
                reason: NotPushedReason::OutOfMemory,
            }),
        }
    }

    /// Takes a packet that is too far from the one that is due.
    #[cold]
    #[inline(never)]
    fn push_far(&mut self, now: u32, packet: &RtpPacket<'_>) -> Result<Pushed, PacketError> {
        match &self.stray {
            Some(stray) if packet.sequence == stray.sequence.wrapping_add(1) => {
                let stray = stray.packet();
                let waiting = anew_with(now, self.waiting.config(), &stray, packet)?;
                self.counts.try_push(Pushed::Anew);
                self.counts.drop(self.waiting.len());
                self.waiting = waiting;
                self.stray = None;
                self.is_anew = true;
                self.passed = PassedNumbers::none();
                Ok(Pushed::Anew)
            }
            _ => self.put_alone(packet),
        }
    }

    /// Has a packet wait alone.
    fn put_alone(&mut self, packet: &RtpPacket<'_>) -> Result<Pushed, PacketError> {
        self.stray = Some(HeldPacket::new(
            packet.sequence,
            packet.timestamp,
            packet.marker,
            Vec::try_from_slice(packet.payload)?,
        ));
        self.counts.try_push(Pushed::Stray);
        Ok(Pushed::Stray)
    }

    /// Takes a packet that is more than a window ahead.
    #[cold]
    #[inline(never)]
    fn push_ahead(&mut self, now: u32, packet: &RtpPacket<'_>) -> Result<Pushed, PacketError> {
        match &self.stray {
            Some(stray) if self.waiting.is_near(stray.sequence, packet.sequence) => {
                if !self.waiting.push_with(now, &stray.packet(), packet)? {
                    return Ok(Pushed::Full);
                }
                self.stray = None;
                Ok(Pushed::Jumped)
            }
            _ => self.put_alone(packet),
        }
    }

    /// Takes a packet that has memory of its own, and copies nothing of it, but of a stray. One that
    /// doesn't wait comes back as it was given, with the reason.
    pub fn push_held(&mut self, now: u32, packet: HeldPacket) -> Result<Pushed, NotPushed> {
        if self.takes_at_once(&packet.packet()) {
            return self.take_held_at_once(packet);
        }
        self.push_held_aside(now, packet)
    }

    /// Takes a packet that has memory of its own and isn't taken at once.
    fn push_held_aside(&mut self, now: u32, packet: HeldPacket) -> Result<Pushed, NotPushed> {
        let pushed = match self.way_of(packet.sequence) {
            Way::Repeat => return Err(self.refuse(packet, NotPushedReason::Twice)),
            Way::Far => self.push_far(now, &packet.packet()),
            Way::Ahead => self.push_ahead(now, &packet.packet()),
            Way::Window => return self.push_within(now, packet),
        };
        match pushed {
            Ok(Pushed::Full) => Err(self.refuse(packet, NotPushedReason::Full)),
            Ok(pushed) => Ok(pushed),
            Err(_) => Err(self.refuse(packet, NotPushedReason::OutOfMemory)),
        }
    }

    /// Counts a packet that comes back with this reason.
    fn refuse(&mut self, packet: HeldPacket, reason: NotPushedReason) -> NotPushed {
        self.counts.not_pushed(reason);
        NotPushed { packet, reason }
    }

    /// Takes a packet that has memory of its own and is within the window, or late.
    fn push_within(&mut self, now: u32, packet: HeldPacket) -> Result<Pushed, NotPushed> {
        match self.waiting.push_held(now, packet) {
            Ok(()) => Ok(Pushed::Held),
            Err(not_pushed) => {
                self.counts.not_pushed(not_pushed.reason);
                Err(not_pushed)
            }
        }
    }

    /// Passes over a number that came and bears nothing of the stream, as padding alone, FEC or
    /// another payload type: it isn't missing.
    pub fn skip(&mut self, now: u32, sequence: u16) -> Result<Pushed, PacketError> {
        let packet = RtpPacket {
            sequence,
            timestamp: 0,
            marker: false,
            payload: &[],
        };
        self.try_push(now, &packet)
    }

    /// Ends the access unit that is open where it ends before the packet that is due; the answer is
    /// whether it does. Without memory all stays as it was.
    fn end_before(&mut self, now: u32) -> Result<bool, PacketError> {
        let packet = match self.waiting.first_due(now) {
            Some(held) => held.packet(),
            None => return Ok(false),
        };
        if !ends_before(&self.assembler, self.framing, &packet) {
            return Ok(false);
        }
        if is_behind_missing(&self.assembler, packet.sequence) {
            let missing = missing_before(self.assembler.packets.expected, packet.sequence);
            self.assembler.finish(&mut self.ended)?;
            self.numbers.miss(u32::from(missing));
            self.counts.drop(usize::from(missing));
        } else {
            self.assembler.end(&mut self.ended)?;
            self.numbers.close();
        }
        Ok(true)
    }

    /// Takes the packet that is due, if one is, or passes over it where it is refused.
    fn take_due(&mut self, now: u32) -> Result<bool, PacketError> {
        let packet = match self.waiting.first_due(now) {
            Some(held) => held.packet(),
            None => return Ok(false),
        };
        let number = packet.sequence;
        let received = take_begun(
            &mut self.assembler,
            &mut self.ended,
            &mut self.framing,
            &mut self.numbers,
            &mut self.counts,
            &packet,
        );
        if is_want_of_memory(&received) {
            return Err(PacketError::OutOfMemory);
        }
        pass_first(&mut self.waiting, &mut self.passed, number);
        Ok(true)
    }

    /// Where the stream has begun anew, and no access unit that ended is left, ends the open one.
    fn end_if_anew(&mut self) -> Result<(), PacketError> {
        if self.ended.is_empty() && self.is_anew {
            self.assembler.finish(&mut self.ended)?;
            self.framing = Framing::fresh();
            self.numbers.finish();
            self.is_anew = false;
        }
        Ok(())
    }

    /// Takes the packet that is due, if one is; where the access unit that is open ends before it
    /// that ends first, and if there is one the packet is due still.
    fn step(&mut self, now: u32) -> Result<bool, PacketError> {
        if self.waiting.first_due(now).is_none() {
            return Ok(false);
        }
        self.step_due(now)
    }

    /// So where a packet is due.
    #[inline(never)]
    fn step_due(&mut self, now: u32) -> Result<bool, PacketError> {
        let packet = match self.waiting.known_due() {
            Some(held) => held.packet(),
            None => return Ok(false),
        };
        if ends_before(&self.assembler, self.framing, &packet) {
            return self.step_at_end(now);
        }
        let number = packet.sequence;
        let received = short::take_due(
            &mut self.assembler,
            &mut self.ended,
            &mut self.framing,
            &mut self.numbers,
            &mut self.counts,
            &packet,
        );
        if is_want_of_memory(&received) {
            return Err(PacketError::OutOfMemory);
        }
        pass_first(&mut self.waiting, &mut self.passed, number);
        Ok(true)
    }

    /// So where one may end first.
    #[cold]
    #[inline(never)]
    fn step_at_end(&mut self, now: u32) -> Result<bool, PacketError> {
        if !self.end_before(now)? {
            return self.take_due(now);
        }
        if self.has_ended() {
            return Ok(true);
        }
        self.take_due(now)
    }

    /// Takes packets that are due until an access unit has ended, or none is due.
    fn drain(&mut self, now: u32) -> Result<(), PacketError> {
        while self.drop_bare() && self.step(now)? {}
        Ok(())
    }

    /// Drops the access units that ended first and have no bytes; the answer is whether none is left.
    #[inline]
    fn drop_bare(&mut self) -> bool {
        while self.has_bare() {
            self.pass_bare();
        }
        self.ended.is_empty()
    }

    /// Whether the first access unit that ended has no bytes.
    #[inline]
    fn has_bare(&self) -> bool {
        match self.ended.first() {
            Some(unit) => unit.bytes.is_empty(),
            None => false,
        }
    }

    /// Passes over the first access unit that ended, which has no bytes: what is missing of it is told
    /// with the next one.
    #[cold]
    #[inline(never)]
    fn pass_bare(&mut self) {
        let unit = self.ended.remove(0);
        let numbers = self.numbers.give();
        let is_avc = self.assembler.packets.depacketizer.is_avc();
        let has_sets = self.waiting.config().has_sets;
        unit::pass(&mut self.decoder, has_sets, is_avc, &unit, numbers);
        self.numbers.carry(numbers.missing);
        self.assembler.give_back(unit);
    }

    /// Whether an access unit has ended and wasn't given out.
    fn has_ended(&self) -> bool {
        !self.ended.is_empty()
    }

    /// At the end of the stream, once no access unit that ended is left, ends the one that is open.
    fn end_if_over(&mut self) -> Result<(), PacketError> {
        if self.ended.is_empty() && self.waiting.is_over() {
            self.assembler.finish(&mut self.ended)?;
            self.framing = Framing::fresh();
            self.numbers.finish();
            self.waiting.restart();
            self.stray = None;
            self.passed = PassedNumbers::none();
        }
        Ok(())
    }

    /// Gives out the first access unit that ended.
    #[inline(never)]
    fn give(&mut self) -> Option<ReceivedAccessUnit> {
        let first = self.ended.first()?;
        let numbers = self.numbers.give();
        let is_avc = self.assembler.packets.depacketizer.is_avc();
        let has_sets = self.waiting.config().has_sets;
        let told = told_of(&mut self.decoder, has_sets, is_avc, first, numbers);
        self.counts.unit(told.is_whole);
        let unit = remove_first(&mut self.ended);
        Some(ReceivedAccessUnit::with(told, unit, numbers))
    }

    /// The next access unit, if one has ended at this tick: takes packets that are due until one ends.
    /// One that is refused is passed over, and counted. Call it until it gives out none.
    ///
    /// Without memory the error is `OutOfMemory`: what was taken before stays taken, and the packet for
    /// which memory lacks is due still.
    #[inline(always)]
    pub fn next(&mut self, now: u32) -> Result<Option<ReceivedAccessUnit>, PacketError> {
        if self.has_unit() {
            return Ok(self.give());
        }
        if !self.has_nothing_left() {
            return self.next_left(now);
        }
        if !self.waiting.has_due(now) {
            return Ok(None);
        }
        self.next_due(now)
    }

    /// Whether nothing is left that ended or has to end.
    #[inline]
    fn has_nothing_left(&self) -> bool {
        !self.has_ended() && !self.is_anew && !self.waiting.is_over()
    }

    /// Whether the first access unit that ended has bytes, so that it is the next.
    #[inline]
    fn has_unit(&self) -> bool {
        match self.ended.first() {
            Some(unit) => !unit.bytes.is_empty(),
            None => false,
        }
    }

    /// What `next` does where a packet is due and nothing else is left. It isn't asked for again.
    #[inline(never)]
    fn next_due(&mut self, now: u32) -> Result<Option<ReceivedAccessUnit>, PacketError> {
        let _ = self.step_due(now)?;
        if self.has_unit() {
            return Ok(self.give());
        }
        self.drain(now)?;
        self.end_if_over()?;
        let _ = self.drop_bare();
        Ok(self.give())
    }

    /// What `next` does.
    #[inline(never)]
    fn next_left(&mut self, now: u32) -> Result<Option<ReceivedAccessUnit>, PacketError> {
        let _ = self.drop_bare();
        self.end_if_anew()?;
        self.drain(now)?;
        self.end_if_over()?;
        let _ = self.drop_bare();
        Ok(self.give())
    }

    /// Says the number of the first packet of the stream, as a peer tells it (RTP-Info of RTSP, RFC
    /// 2326, 12.33): packets from it on are waited for, and the first access unit is known to be whole
    /// where they came. The answer is whether it is said in time: once a packet came, a number was
    /// said, or `finish` was called and `next` hasn't given out all, it changes nothing. It takes no
    /// memory.
    pub fn begin_at(&mut self, sequence: u16) -> bool {
        if !self.waiting.begin_at(sequence) {
            return false;
        }
        self.assembler.packets.expected = Some(sequence);
        self.numbers.begin();
        true
    }

    /// At the end of a stream: all that waits is due, and once it was taken the access unit that is
    /// open ends, not known to be whole. `next` gives all of it out, and then any number is the next.
    pub fn finish(&mut self) {
        self.waiting.finish();
    }

    /// Drops all that waits or is open, and access units that weren't taken, and takes any number as
    /// the next: for another sender (SSRC). What was counted stays. It takes no memory.
    pub fn restart(&mut self) {
        self.waiting.restart();
        self.stray = None;
        self.is_anew = false;
        self.passed = PassedNumbers::none();
        self.assembler.restart();
        self.ended.clear();
        self.framing = Framing::fresh();
        self.numbers = NumbersSoFar::none();
        self.decoder = DecoderState::fresh();
    }

    /// Takes back an access unit that was given out, for its memory: a later one is written there.
    pub fn give_back(&mut self, unit: ReceivedAccessUnit) {
        self.assembler.give_back(unit.into_access_unit());
    }

    /// The numbers that are missing before packets that wait and still could come, in order: for a NACK
    /// (RFC 4585, 6.2.1). Of a stream that begins none is missing before the first packet that waits.
    pub fn missing(&self) -> Result<Vec<u16>, PacketError> {
        Ok(self.waiting.missing()?)
    }

    /// The NAL units that came whole so far of the access unit that is open: for who decodes each as
    /// soon as it is complete. There are none where `next` hasn't given out what ended before. Later
    /// packets put units behind these, until `next` gives out the access unit, with what is told of the
    /// whole. A text of more than `unit_limit` bytes is given up.
    pub fn units_so_far(&self) -> Option<UnitsSoFar<'_>> {
        if self.has_ended() {
            return None;
        }
        self.assembler.unit.units_so_far()
    }

    /// When to call `next` again at the latest, in the caller's ticks, if packets wait.
    pub fn deadline(&self) -> Option<u32> {
        self.waiting.deadline()
    }
}
