//! What both crates answer, in one form.

pub use emupedestal::Codec;

/// What this tool knows of a codec.
pub trait Facts: Sized {
    const ALL: [Self; 3];

    /// How the program names it.
    fn name(self) -> &'static str;

    /// The bytes of a NAL unit's header.
    fn header_len(self) -> usize;

    /// The type that a header names, if it is whole.
    fn type_of(self, unit: &[u8]) -> Option<u8>;

    /// Whether units of a type are key units.
    fn is_key(&self, nalu_type: u8) -> bool;
}

impl Facts for Codec {
    const ALL: [Codec; 3] = [Codec::H264, Codec::H265, Codec::H266];

    fn name(self) -> &'static str {
        match self {
            Codec::H264 => "h264",
            Codec::H265 => "h265",
            Codec::H266 => "h266",
        }
    }

    fn header_len(self) -> usize {
        if self == Codec::H264 { 1 } else { 2 }
    }

    fn type_of(self, unit: &[u8]) -> Option<u8> {
        match (self, unit) {
            (Codec::H264, [first, ..]) => Some(first & 0x1f),
            (Codec::H265, [first, _, ..]) => Some(first >> 1 & 0x3f),
            (Codec::H266, [_, second, ..]) => Some(second >> 3),
            _ => None,
        }
    }

    fn is_key(&self, nalu_type: u8) -> bool {
        match self {
            Codec::H264 => nalu_type == 5,
            Codec::H265 => (16..=21).contains(&nalu_type),
            Codec::H266 => (7..=9).contains(&nalu_type),
        }
    }
}

/// Why a call is refused.
#[derive(Debug, Clone, Copy, PartialEq, Eq)]
pub enum Why {
    Short,
    NotHandled(u8),
    StapATooLong(usize, usize),
    Corrupted265,
    WrongType265,
    ExtensionTooLong,
    Corrupted266,
    /// Any other, of ours alone.
    Other,
    Panicked,
}

/// What was told of units: of a codec, and whether one is of a keyframe.
#[derive(Debug, Clone, Copy, PartialEq, Eq)]
pub enum Extra {
    None,
    Told(Codec, bool),
}

impl Extra {
    /// What is told after units of this codec, where `key` tells whether one is of a keyframe;
    /// nothing where no unit counts.
    pub fn after(self, codec: Codec, key: Option<bool>) -> Self {
        match key {
            None => self,
            Some(key) => Extra::Told(codec, key || self == Extra::Told(codec, true)),
        }
    }
}

/// A packet of H.265 by all that its calls answer, but for `tsci`.
#[derive(Debug, Clone, PartialEq, Eq)]
pub struct Shown {
    pub kind: &'static str,
    pub words: Vec<u32>,
    pub parts: Vec<Vec<u8>>,
    pub tsci: Option<u32>,
}

/// How a number is shown that is not there.
pub const NO_NUMBER: u32 = 65536;
