//! An input, which is read from the front.

use emupedestal::Codec;

/// What is left of an input.
pub struct Input<'a> {
    rest: &'a [u8],
}

impl<'a> Input<'a> {
    pub fn new(bytes: &'a [u8]) -> Self {
        Input { rest: bytes }
    }

    pub fn is_empty(&self) -> bool {
        self.rest.is_empty()
    }

    /// All that is left.
    pub fn rest(&mut self) -> &'a [u8] {
        self.front(self.rest.len())
    }

    pub fn byte(&mut self) -> u8 {
        self.front(1).first().copied().unwrap_or(0)
    }

    /// Two bytes, the high one first.
    pub fn word(&mut self) -> u16 {
        u16::from_be_bytes([self.byte(), self.byte()])
    }

    /// Bytes behind their length in two bytes; as many of them as there are.
    pub fn bytes(&mut self) -> &'a [u8] {
        let len = self.word();
        self.front(usize::from(len))
    }

    fn front(&mut self, len: usize) -> &'a [u8] {
        let (front, rest) = self.rest.split_at(len.min(self.rest.len()));
        self.rest = rest;
        front
    }
}

/// How ends are set up, by the first byte of an input: bits 0 and 1 are the codec, bit 2 whether packets bear
/// decoding order numbers, bit 3 whether units are written behind lengths; the rest is the target's.
#[derive(Clone, Copy)]
pub struct Settings {
    pub codec: Codec,
    pub donl: bool,
    pub avc: bool,
    pub more: u8,
}

impl Settings {
    pub fn read(input: &mut Input) -> Self {
        let byte = input.byte();
        let codec = match byte & 3 {
            1 => Codec::H265,
            2 => Codec::H266,
            _ => Codec::H264,
        };
        Settings {
            codec,
            donl: codec != Codec::H264 && byte & 4 != 0,
            avc: byte & 8 != 0,
            more: byte >> 4,
        }
    }
}
