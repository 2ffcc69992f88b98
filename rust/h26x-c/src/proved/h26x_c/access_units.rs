// Made from crates/h26x_c/src/access_units.rt by tools/to-rust.

//! The calls of a receiver of access units, of packets as a network brings them.

use crate::proved::h26x_access_units::{self, AccessUnitConfig};
use crate::proved::h26x_c::const_handle::ConstHandle;
use crate::proved::h26x_c::handle::Handle;
use crate::proved::h26x_c::place::{Place, put};
use crate::proved::h26x_codes::code::{OK, OUT_OF_MEMORY, OUT_OF_RANGE, WRONG_END};
use crate::proved::h26x_endpoint::endpoint::Endpoint;
use crate::proved::h26x_handles::access_units::{
    AccessUnitEndpoint, GivesUnits, UnitTold, code_of_next, numbers_of_push, units_codec_wanted,
};
use crate::proved::h26x_reorder::RtpPacket;
use core::mem::MaybeUninit;

/// What a caller sets.
#[repr(C)]
#[derive(Clone, Copy)]
pub struct Config {
    pub codec: u32,
    pub max_wait: u32,
    pub begin_wait: u32,
    pub window: u16,
    pub far_away: u16,
    pub far_behind: u16,
    pub numbers: bool,
    pub avc: bool,
    pub has_sets: bool,
    pub held_limit: usize,
    pub run_limit: usize,
    pub unit_limit: usize,
}

/// When missing numbers are asked for.
#[repr(C)]
#[derive(Clone, Copy)]
pub struct NackTimes {
    pub first: u32,
    pub again: u32,
    pub most: u8,
}

/// What was counted.
#[repr(C)]
#[derive(Clone, Copy, Hash)]
pub struct Counts {
    pub taken: u64,
    pub lost: u64,
    pub late: u64,
    pub twice: u64,
    pub stray: u64,
    pub refused: u64,
    pub skipped: u64,
    pub anew: u64,
    pub units: u64,
    pub whole: u64,
    pub units_given_up: u64,
    pub texts_given_up: u64,
    pub no_unit: u64,
    pub still: u64,
    pub unbelieved: u64,
}

/// The settings of a receiver.
pub fn settings(config: &Config) -> AccessUnitConfig {
    AccessUnitConfig {
        window: config.window,
        far: config.far_away,
        far_behind: config.far_behind,
        max_wait: config.max_wait,
        begin_wait: config.begin_wait,
        held_limit: config.held_limit,
        run_limit: config.run_limit,
        unit_limit: config.unit_limit,
        has_sets: config.has_sets,
    }
}

/// When a receiver asks for missing numbers.
pub fn nack_times(times: &NackTimes) -> crate::proved::h26x_access_units::NackTimes {
    crate::proved::h26x_access_units::NackTimes {
        first: times.first,
        again: times.again,
        most: times.most,
    }
}

/// What was counted, as C is told it.
pub fn counts_told(counts: crate::proved::h26x_access_units::Counts) -> Counts {
    Counts {
        taken: counts.taken,
        lost: counts.lost,
        late: counts.late,
        twice: counts.twice,
        stray: counts.stray,
        refused: counts.refused,
        skipped: counts.skipped,
        anew: counts.anew,
        units: counts.units,
        whole: counts.whole,
        units_given_up: counts.units_given_up,
        texts_given_up: counts.texts_given_up,
        no_unit: counts.no_unit,
        still: counts.still,
        unbelieved: counts.unbelieved,
    }
}

/// Makes a receiver that takes any sequence number as the first.
pub fn h26x_access_units_new(config: &Config, made: &mut MaybeUninit<Place>) -> u32 {
    match units_codec_wanted(config.codec, config.numbers, config.window) {
        Ok(codec) => put(
            Endpoint::AccessUnits(AccessUnitEndpoint::new(
                codec,
                config.numbers,
                config.avc,
                settings(config),
            )),
            made,
        ),
        Err(code) => code,
    }
}

/// Frees a receiver of access units.
pub fn h26x_access_units_free(u: Handle) {
    drop(u.into_box());
}

/// Has other settings from now on, but for its codec, and how packets and units are written.
pub fn h26x_access_units_set_config(u: &mut Handle, config: &Config) -> u32 {
    match u.get_mut() {
        Endpoint::AccessUnits(it) => match it.set_config(settings(config)) {
            true => OK,
            false => OUT_OF_RANGE,
        },
        _ => WRONG_END,
    }
}

/// Takes a packet that came at this tick.
pub fn h26x_access_units_push(
    u: &mut Handle,
    now: u32,
    sequence: u16,
    timestamp: u32,
    marker: bool,
    payload: &[u8],
    pushed: &mut MaybeUninit<u32>,
    behind: &mut MaybeUninit<u16>,
) -> u32 {
    let packet = RtpPacket {
        sequence,
        timestamp,
        marker,
        payload,
    };
    match u.get_mut() {
        Endpoint::AccessUnits(it) => match it.try_push(now, &packet) {
            Ok(what) => {
                {
                    let values = numbers_of_push(what);
                    pushed.write(values.0);
                    behind.write(values.1);
                }
                OK
            }
            Err(_) => OUT_OF_MEMORY,
        },
        _ => WRONG_END,
    }
}

/// Passes over a number that came at this tick and bears nothing of the stream.
pub fn h26x_access_units_skip(
    u: &mut Handle,
    now: u32,
    sequence: u16,
    pushed: &mut MaybeUninit<u32>,
    behind: &mut MaybeUninit<u16>,
) -> u32 {
    match u.get_mut() {
        Endpoint::AccessUnits(it) => match it.skip(now, sequence) {
            Ok(answer) => {
                {
                    let values = numbers_of_push(answer);
                    pushed.write(values.0);
                    behind.write(values.1);
                }
                OK
            }
            Err(_) => OUT_OF_MEMORY,
        },
        _ => WRONG_END,
    }
}

/// The next access unit, if one has ended at this tick.
pub fn h26x_access_units_next(
    u: &mut Handle,
    now: u32,
    to: &mut [u8],
    unit: &mut MaybeUninit<UnitTold>,
) -> u32 {
    match u.get_mut() {
        Endpoint::AccessUnits(it) => match it.next(now, to) {
            Ok(answer) => code_of_next(answer, unit),
            Err(_) => OUT_OF_MEMORY,
        },
        _ => WRONG_END,
    }
}

/// When to ask for the next access unit at the latest, if packets wait.
pub fn h26x_access_units_deadline(u: &ConstHandle, at: &mut MaybeUninit<u32>) -> bool {
    let deadline = match u.get() {
        Endpoint::AccessUnits(it) => it.deadline(),
        _ => None,
    };
    match deadline {
        Some(tick) => {
            at.write(tick);
            true
        }
        None => false,
    }
}

/// Copies the numbers that are missing before packets that wait, as many as there is room for.
pub fn h26x_access_units_missing(
    u: &ConstHandle,
    numbers: &mut [u16],
    count: &mut MaybeUninit<usize>,
) -> u32 {
    count.write(0);
    match u.get() {
        Endpoint::AccessUnits(it) => match it.missing(numbers) {
            Ok(all) => {
                count.write(all);
                OK
            }
            Err(_) => OUT_OF_MEMORY,
        },
        _ => WRONG_END,
    }
}

/// Copies the missing numbers that are to be asked for at this tick, as many as there is room for,
/// which count as asked for.
pub fn h26x_access_units_nacks(
    u: &mut Handle,
    now: u32,
    times: &NackTimes,
    numbers: &mut [u16],
    count: &mut MaybeUninit<usize>,
) -> u32 {
    count.write(0);
    match u.get_mut() {
        Endpoint::AccessUnits(it) => match it.nacks(now, nack_times(times), numbers) {
            Ok(asked) => {
                count.write(asked);
                OK
            }
            Err(_) => OUT_OF_MEMORY,
        },
        _ => WRONG_END,
    }
}

/// Says the number of the first packet of the stream.
pub fn h26x_access_units_begin_at(
    u: &mut Handle,
    sequence: u16,
    in_time: &mut MaybeUninit<u32>,
) -> u32 {
    match u.get_mut() {
        Endpoint::AccessUnits(it) => {
            in_time.write(u32::from(it.begin_at(sequence)));
            OK
        }
        _ => WRONG_END,
    }
}

/// At the end of a stream: all that waits is due, and then the open access unit ends.
pub fn h26x_access_units_finish(u: &mut Handle) -> u32 {
    match u.get_mut() {
        Endpoint::AccessUnits(it) => {
            it.finish();
            OK
        }
        _ => WRONG_END,
    }
}

/// Drops all that waits or is open, and takes any sequence number as the next.
pub fn h26x_access_units_restart(u: &mut Handle) -> u32 {
    match u.get_mut() {
        Endpoint::AccessUnits(it) => {
            it.restart();
            OK
        }
        _ => WRONG_END,
    }
}

/// What was counted.
pub fn h26x_access_units_count(u: &ConstHandle, counts: &mut MaybeUninit<Counts>) -> u32 {
    match u.get() {
        Endpoint::AccessUnits(it) => {
            counts.write(counts_told(it.counts()));
            OK
        }
        _ => WRONG_END,
    }
}
