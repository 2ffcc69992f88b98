// Made from crates/h26x_handles/src/access_units.rt by tools/to-rust.

//! A receiver of access units, of packets as a network brings them, and the access unit that had no
//! room where it was to be written.

use crate::proved::h26x_access_units::{
    AccessUnitConfig, AccessUnitReceiver, Counts, NackTimes, Nacks, Pushed, ReceivedAccessUnit,
    Receives,
};
use crate::proved::h26x_assembler::UnitsSoFar;
use crate::proved::h26x_codec::{AnyPayloadDepacketizer, Codec};
use crate::proved::h26x_codes::code::{
    NO_ROOM, NOTHING_YET, OK, OUT_OF_RANGE, codec_wanted, number_of,
};
use crate::proved::h26x_codes::copy::{copy_first, copy_where_room};
use crate::proved::h26x_core::PacketError;
use crate::proved::h26x_reorder::RtpPacket;
use core::mem::MaybeUninit;

/// What is told of an access unit.
#[repr(C)]
#[derive(Clone, Copy)]
pub struct UnitTold {
    pub len: usize,
    pub timestamp: u32,
    pub missing: u32,
    pub first: u16,
    pub last: u16,
    pub extra: u8,
    pub is_whole: bool,
    pub is_clean: bool,
    pub is_disposable: bool,
    pub continues: bool,
}

/// What came of a call for the next access unit.
#[derive(Clone, Copy)]
pub enum NextAnswer {
    /// None has ended.
    NothingYet,
    /// It has no room, and is kept for the next call.
    NoRoom(UnitTold),
    /// It is written.
    Written(UnitTold),
}

/// The codec of a receiver that is to be made, or why there is none.
pub fn units_codec_wanted(number: u32, has_donl: bool, window: u16) -> Result<Codec, u32> {
    let codec = codec_wanted(number, has_donl)?;
    if window == 0 || window > 1 << 14 {
        return Err(OUT_OF_RANGE);
    }
    Ok(codec)
}

/// The numbers of what became of a packet: which of the seven it is, and how far it is behind.
pub fn numbers_of_push(pushed: Pushed) -> (u32, u16) {
    match pushed {
        Pushed::Held => (0, 0),
        Pushed::Late(behind) => (1, behind),
        Pushed::Twice => (2, 0),
        Pushed::Full => (3, 0),
        Pushed::Stray => (4, 0),
        Pushed::Anew => (5, 0),
        Pushed::Jumped => (6, 0),
    }
}

/// The code of what came of a call for the next access unit, and what is told of it, if one is.
pub fn code_of_next(answer: NextAnswer, told: &mut MaybeUninit<UnitTold>) -> u32 {
    match answer {
        NextAnswer::NothingYet => NOTHING_YET,
        NextAnswer::NoRoom(unit) => {
            told.write(unit);
            NO_ROOM
        }
        NextAnswer::Written(unit) => {
            told.write(unit);
            OK
        }
    }
}

/// What is told of an access unit.
pub(crate) fn told_of(unit: &ReceivedAccessUnit) -> UnitTold {
    UnitTold {
        len: unit.bytes.len(),
        timestamp: unit.timestamp,
        missing: unit.missing,
        first: unit.first,
        last: unit.last,
        extra: number_of(unit.extra),
        is_whole: unit.is_whole,
        is_clean: unit.is_clean,
        is_disposable: unit.is_disposable,
        continues: unit.continues,
    }
}

/// A receiver of access units of a codec, and the access unit that had no room where it was to be
/// written.
pub struct AccessUnitEndpoint {
    codec: Codec,
    receiver: AccessUnitReceiver<AnyPayloadDepacketizer>,
    left: Option<ReceivedAccessUnit>,
    nacks: Nacks,
}

/// What such an endpoint is to contracts.
pub trait GivesUnits {
    /// What was counted.
    fn counts(&self) -> Counts;
}

impl GivesUnits for AccessUnitEndpoint {
    fn counts(&self) -> Counts {
        self.receiver.counts()
    }
}

impl AccessUnitEndpoint {
    /// A receiver that takes any sequence number as the first.
    pub(crate) fn new(
        codec: Codec,
        has_donl: bool,
        is_avc: bool,
        config: AccessUnitConfig,
    ) -> Self {
        let mut depacketizer = AnyPayloadDepacketizer::new(codec);
        depacketizer.with_donl(has_donl);
        depacketizer.is_avc = is_avc;
        AccessUnitEndpoint {
            codec,
            receiver: AccessUnitReceiver::new(depacketizer, config),
            left: None,
            nacks: Nacks::new(),
        }
    }

    /// Has other settings from now on; the answer is whether the window is in range, where nothing
    /// changes if not.
    pub fn set_config(&mut self, config: AccessUnitConfig) -> bool {
        if config.window == 0 || config.window > 1 << 14 {
            return false;
        }
        self.receiver.set_config(config);
        true
    }

    /// Takes a packet that came at this tick, and copies it where it waits. Without memory all stays as
    /// it was, and it can be given again.
    pub fn try_push(&mut self, now: u32, packet: &RtpPacket<'_>) -> Result<Pushed, PacketError> {
        self.receiver.try_push(now, packet)
    }

    /// Passes over a number that came and bears nothing of the stream: it isn't missing.
    pub fn skip(&mut self, now: u32, sequence: u16) -> Result<Pushed, PacketError> {
        self.receiver.skip(now, sequence)
    }

    /// The next access unit, if one has ended at this tick: the one that had no room, or what the
    /// receiver gives out. It goes to the caller's memory where there is room for it, and else is kept
    /// for the next call. Without memory the packet for which it lacks is due still.
    pub fn next(&mut self, now: u32, to: &mut [u8]) -> Result<NextAnswer, PacketError> {
        if let Some(unit) = self.left.take() {
            return Ok(self.give(unit, to));
        }
        let Some(unit) = self.receiver.next(now)? else {
            return Ok(NextAnswer::NothingYet);
        };
        Ok(self.give(unit, to))
    }

    /// Gives out an access unit where there is room for it, and takes its memory back; else keeps it.
    fn give(&mut self, unit: ReceivedAccessUnit, to: &mut [u8]) -> NextAnswer {
        let told = told_of(&unit);
        if copy_where_room(&unit.bytes, to) > to.len() {
            self.left = Some(unit);
            return NextAnswer::NoRoom(told);
        }
        self.receiver.give_back(unit);
        NextAnswer::Written(told)
    }

    /// When to ask for the next access unit at the latest, in the caller's ticks, if packets wait.
    pub fn deadline(&self) -> Option<u32> {
        self.receiver.deadline()
    }

    /// What came whole so far of the access unit that is open.
    pub fn units_so_far(&self) -> Option<UnitsSoFar<'_>> {
        if self.left.is_some() {
            return None;
        }
        self.receiver.units_so_far()
    }

    /// Copies the numbers that are missing before packets that wait, in order, as many as there is room
    /// for; how many they all are.
    pub fn missing(&self, to: &mut [u16]) -> Result<usize, PacketError> {
        let numbers = self.receiver.missing()?;
        Ok(copy_first(&numbers, to))
    }

    /// Copies the missing numbers that are to be asked for at this tick, in order, as many as there is
    /// room for, which count as asked for; how many they are.
    pub fn nacks(
        &mut self,
        now: u32,
        times: NackTimes,
        to: &mut [u16],
    ) -> Result<usize, PacketError> {
        let missing = self.receiver.missing()?;
        let asked = self.nacks.due(&missing, times, now, to.len())?;
        Ok(copy_first(&asked, to))
    }

    /// Says the number of the first packet of the stream; the answer is whether none came, no number
    /// was told before, and the stream hasn't ended.
    pub fn begin_at(&mut self, sequence: u16) -> bool {
        self.receiver.begin_at(sequence)
    }

    /// At the end of a stream: all that waits is due, and then the open access unit ends.
    pub fn finish(&mut self) {
        self.receiver.finish();
    }

    /// Drops all that waits or is open, and takes any number as the next: for another sender (SSRC).
    /// The access unit that had no room stays.
    pub fn restart(&mut self) {
        self.receiver.restart();
        self.nacks.clear();
    }
}
