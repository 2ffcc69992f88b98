//! The interfaces that a pcapng file describes.

use crate::captures::link::Link;
use crate::captures::order::{half, long, word};

/// How long the block of an interface is without options.
pub const SHORTEST: u32 = 20;
const END: u16 = 0;
const TIME_RESOLUTION: u16 = 9;
const TIME_OFFSET: u16 = 14;
const NANOS_A_SECOND: u64 = 1_000_000_000;

#[derive(Clone, Copy)]
pub struct Interface {
    /// Its number where it is none that is read.
    pub link: Result<Link, u32>,
    /// How many times a second the clock ticks.
    ticks: u64,
    /// Seconds to be added to each time.
    offset: u64,
    /// The longest packet; 0 where there is no limit.
    pub snap_len: u32,
}

impl Interface {
    /// Reads a whole block.
    pub fn of(block: &[u8], is_big_endian: bool) -> Self {
        let number = half(block, 8, is_big_endian).into();
        let mut interface = Interface {
            link: Link::of(number).map_err(|_| number),
            ticks: 1_000_000,
            offset: 0,
            snap_len: word(block, 12, is_big_endian),
        };
        let mut options = block.get(16..block.len() - 4).unwrap_or_default();
        while let [_, _, _, _, rest @ ..] = options {
            let len = usize::from(half(options, 2, is_big_endian));
            match (half(options, 0, is_big_endian), rest.get(..len)) {
                (END, _) | (_, None) => break,
                (TIME_RESOLUTION, Some([resolution, ..])) => interface.ticks = ticks(*resolution),
                (TIME_OFFSET, Some(value)) => interface.offset = long(value, 0, is_big_endian),
                _ => {}
            }
            options = rest.get(len.next_multiple_of(4)..).unwrap_or_default();
        }
        interface
    }

    /// Nanoseconds since the epoch, of a time that the interface's clock tells.
    pub fn time(&self, ticks: u64) -> u64 {
        let nanos = u128::from(ticks) * u128::from(NANOS_A_SECOND) / u128::from(self.ticks);
        let offset = self.offset.wrapping_mul(NANOS_A_SECOND);
        offset.wrapping_add(nanos as u64)
    }
}

/// How many times a second a clock ticks whose resolution is this number: a power of ten, or with the
/// highest bit of two.
fn ticks(resolution: u8) -> u64 {
    let exponent = u32::from(resolution & 0x7f);
    let base: u64 = if resolution & 0x80 == 0 { 10 } else { 2 };
    base.checked_pow(exponent).unwrap_or(u64::MAX)
}
