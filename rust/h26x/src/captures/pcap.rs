//! The file format pcap (LINKTYPE values: www.tcpdump.org/linktypes.html).

use crate::captures::capture::{Fault, Frame, LONGEST_FRAME, LONGEST_RECORD, Next};
use crate::captures::input::Input;
use crate::captures::link::Link;
use crate::captures::order::word;
use crate::errors::Failure;

/// The magic number, with times in microseconds and in nanoseconds.
const MICROSECONDS: u32 = 0xa1b2_c3d4;
const NANOSECONDS: u32 = 0xa1b2_3c4d;
const FILE_HEADER: usize = 24;
const RECORD_HEADER: usize = 16;

pub struct Pcap {
    link: Link,
    is_big_endian: bool,
    /// How many nanoseconds the smaller number of a time counts.
    unit: u64,
}

impl Pcap {
    pub fn open(input: &mut Input) -> Result<Self, Failure> {
        let path = input.path().to_owned();
        let Some(header) = input.take_array::<FILE_HEADER>()? else {
            let what = "too short for a capture; h26x reads pcap and pcapng, as tcpdump and \
                Wireshark save them";
            return Err(Failure::of(&path, what));
        };
        let magic = word(&header, 0, true);
        let (is_big_endian, unit) = match (magic, magic.swap_bytes()) {
            (MICROSECONDS, _) => (true, 1000),
            (NANOSECONDS, _) => (true, 1),
            (_, MICROSECONDS) => (false, 1000),
            (_, NANOSECONDS) => (false, 1),
            _ => {
                let what = "this is no capture; h26x reads pcap and pcapng, as tcpdump and \
                    Wireshark save them";
                return Err(Failure::of(&path, what));
            }
        };
        // The upper half tells of a frame check sequence, which lies behind what is read.
        let number = word(&header, 20, is_big_endian) & 0xffff;
        let link = Link::of(number).map_err(|what| Failure::of(&path, what))?;
        Ok(Pcap {
            link,
            is_big_endian,
            unit,
        })
    }

    /// Whether what was read holds the next record whole.
    pub fn is_ready(&self, buffered: &[u8]) -> bool {
        let len = word(buffered, 8, self.is_big_endian) as usize;
        buffered.len() >= RECORD_HEADER && buffered.len() - RECORD_HEADER >= len
    }

    pub fn next<'a>(&mut self, input: &'a mut Input) -> Result<Next<'a>, Failure> {
        let header = loop {
            input.begin_record();
            if input.peek(1)?.is_empty() {
                return Ok(Next::End);
            }
            let Some(header) = input.take_array::<RECORD_HEADER>()? else {
                return Ok(Next::Fault(Fault::Cut));
            };
            let len = word(&header, 8, self.is_big_endian);
            if len > LONGEST_RECORD {
                return Ok(Next::Fault(Fault::Damaged(len)));
            }
            if len <= LONGEST_FRAME {
                break header;
            }
            if !input.skip(len.into())? {
                return Ok(Next::Fault(Fault::Cut));
            }
        };
        let [seconds, rest, len] = [0, 4, 8].map(|at| word(&header, at, self.is_big_endian));
        let frame = input.take(len as usize)?.map(|bytes| Frame {
            time: u64::from(seconds) * 1_000_000_000 + u64::from(rest) * self.unit,
            link: self.link,
            bytes,
        });
        Ok(frame.map_or(Next::Fault(Fault::Cut), Next::Frame))
    }
}
