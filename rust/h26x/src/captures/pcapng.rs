//! The file format pcapng: sections of blocks. Those with packets and with interfaces are read.

use crate::captures::capture::{Fault, Frame, LONGEST_FRAME, LONGEST_RECORD, Next};
use crate::captures::input::Input;
use crate::captures::interface::{Interface, SHORTEST};
use crate::captures::order::{half, word};
use crate::errors::Failure;

const SECTION_HEADER: u32 = 0x0a0d_0d0a;
const INTERFACE: u32 = 1;
/// What older programs write in the place of an enhanced packet.
const PACKET: u32 = 2;
const SIMPLE_PACKET: u32 = 3;
const ENHANCED_PACKET: u32 = 6;
const BYTE_ORDER: u32 = 0x1a2b_3c4d;
/// A block's type and length, and the length again at its end.
const BLOCK_FRAME: u32 = 12;
/// Interfaces of a section; a file that has more is passed over from there on.
const MOST_INTERFACES: usize = 1 << 12;

#[derive(Default)]
pub struct Pcapng {
    is_big_endian: bool,
    interfaces: Vec<Interface>,
    /// What is left of the block whose frame was answered last.
    left: u64,
    /// The link type of packets that were passed over, since their frames aren't read.
    pub unread: Option<u32>,
}

/// Where the bytes of a packet stand in its block, and what is told of it.
struct Place {
    interface: Interface,
    ticks: u64,
    len: u32,
}

impl Pcapng {
    /// Whether what was read holds the next block whole, behind the rest of this one.
    pub fn is_ready(&self, buffered: &[u8]) -> bool {
        let next = usize::try_from(self.left)
            .ok()
            .and_then(|left| buffered.get(left..));
        next.is_some_and(|next| {
            let len = word(next, 4, self.is_big_endian) as usize;
            next.len() >= 8 && next.len() >= len
        })
    }

    pub fn next<'a>(&mut self, input: &'a mut Input) -> Result<Next<'a>, Failure> {
        let (link, place) = loop {
            if !input.skip(std::mem::take(&mut self.left))? {
                return Ok(Next::Fault(Fault::Cut));
            }
            input.begin_record();
            if input.peek(1)?.is_empty() {
                return Ok(Next::End);
            }
            let Some(front) = input.peek(12)?.first_chunk::<12>().copied() else {
                return Ok(Next::Fault(Fault::Cut));
            };
            match self.block(&front, input)? {
                Block::Packet(place) => match place.interface.link {
                    Ok(link) => break (link, place),
                    Err(number) => self.unread = Some(number),
                },
                Block::Other => {}
                Block::Fault(fault) => return Ok(Next::Fault(fault)),
            }
        };
        let Some(bytes) = input.take(place.len as usize)? else {
            return Ok(Next::Fault(Fault::Cut));
        };
        let time = place.interface.time(place.ticks);
        self.left -= u64::from(place.len);
        Ok(Next::Frame(Frame { time, link, bytes }))
    }

    /// Takes a block up to its packet's bytes, or whole.
    fn block(&mut self, front: &[u8; 12], input: &mut Input) -> Result<Block, Failure> {
        let kind = word(front, 0, self.is_big_endian);
        if kind == SECTION_HEADER {
            self.is_big_endian = word(front, 8, true) == BYTE_ORDER;
            self.interfaces.clear();
        }
        let len = word(front, 4, self.is_big_endian);
        if !(BLOCK_FRAME..=LONGEST_RECORD).contains(&len) || len % 4 != 0 {
            return Ok(Block::Fault(Fault::Damaged(len)));
        }
        self.left = u64::from(len);
        let place = match kind {
            INTERFACE => return self.interface(len, input),
            PACKET | ENHANCED_PACKET => self.enhanced(kind, input)?,
            SIMPLE_PACKET => self.simple(len, input)?,
            _ => return Ok(Block::Other),
        };
        let Some(place) = place else {
            return Ok(if self.left > 0 {
                Block::Other
            } else {
                Block::Fault(Fault::Cut)
            });
        };
        if u64::from(place.len) + 4 > self.left || place.len > LONGEST_FRAME {
            return Ok(Block::Other);
        }
        Ok(Block::Packet(place))
    }

    /// Reads the description of an interface.
    fn interface(&mut self, len: u32, input: &mut Input) -> Result<Block, Failure> {
        if !(SHORTEST..=LONGEST_FRAME).contains(&len) || self.interfaces.len() == MOST_INTERFACES {
            return Ok(Block::Other);
        }
        self.left = 0;
        let Some(block) = input.take(len as usize)? else {
            return Ok(Block::Fault(Fault::Cut));
        };
        self.interfaces
            .push(Interface::of(block, self.is_big_endian));
        Ok(Block::Other)
    }

    /// A packet with its interface, whose number an older one has in two bytes.
    fn enhanced(&mut self, kind: u32, input: &mut Input) -> Result<Option<Place>, Failure> {
        let Some(header) = self.header::<28>(input)? else {
            return Ok(None);
        };
        let [number, high, low, len] =
            [8, 12, 16, 20].map(|at| word(&header, at, self.is_big_endian));
        let number = match kind {
            PACKET => half(&header, 8, self.is_big_endian).into(),
            _ => number,
        };
        let interface = self.interfaces.get(number as usize);
        Ok(interface.map(|interface| Place {
            interface: *interface,
            ticks: u64::from(high) << 32 | u64::from(low),
            len,
        }))
    }

    /// A packet of the first interface, without a time.
    fn simple(&mut self, block_len: u32, input: &mut Input) -> Result<Option<Place>, Failure> {
        let Some(header) = self.header::<12>(input)? else {
            return Ok(None);
        };
        let original = word(&header, 8, self.is_big_endian);
        Ok(self.interfaces.first().map(|interface| {
            let snap_len = Some(interface.snap_len)
                .filter(|it| *it > 0)
                .unwrap_or(u32::MAX);
            Place {
                interface: *interface,
                ticks: 0,
                len: original.min(snap_len).min(block_len.saturating_sub(16)),
            }
        }))
    }

    /// Takes the front of a block; nothing where the file ends before, and then nothing is left.
    fn header<const N: usize>(&mut self, input: &mut Input) -> Result<Option<[u8; N]>, Failure> {
        if self.left < N as u64 + 4 {
            return Ok(None);
        }
        let header = input.take_array::<N>()?;
        self.left = header.map_or(0, |_| self.left - N as u64);
        Ok(header)
    }
}

enum Block {
    Packet(Place),
    Other,
    Fault(Fault),
}
