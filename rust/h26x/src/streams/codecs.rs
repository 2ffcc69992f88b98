//! The codecs: their names, and whether bytes make sense as one's.

use emupedestal::Codec;
use std::path::Path;

pub const CODECS: [Codec; 3] = [Codec::H264, Codec::H265, Codec::H266];

pub fn name(codec: Codec) -> &'static str {
    match codec {
        Codec::H264 => "H.264",
        Codec::H265 => "H.265",
        Codec::H266 => "H.266",
    }
}

/// What `--codec` calls it.
pub fn word(codec: Codec) -> &'static str {
    match codec {
        Codec::H264 => "h264",
        Codec::H265 => "h265",
        Codec::H266 => "h266",
    }
}

/// The codec that `--codec` names so.
pub fn named(word: &str) -> Option<Codec> {
    match word.to_ascii_lowercase().as_str() {
        "h264" | "h.264" | "avc" => Some(Codec::H264),
        "h265" | "h.265" | "hevc" => Some(Codec::H265),
        "h266" | "h.266" | "vvc" => Some(Codec::H266),
        _ => None,
    }
}

/// The codec that a file's ending tells.
pub fn of_path(path: &Path) -> Option<Codec> {
    match path.extension()?.to_str()?.to_ascii_lowercase().as_str() {
        "h264" | "264" => Some(Codec::H264),
        "h265" | "265" | "hevc" => Some(Codec::H265),
        "h266" | "266" | "vvc" => Some(Codec::H266),
        _ => None,
    }
}

/// Whether a packet, or a unit, has a header as one of this codec usually has: F clear, of H.265 and
/// H.266 the lowest layer and a temporal id, and a type that is in use.
pub fn is_usual(codec: Codec, packet: &[u8]) -> bool {
    match (codec, packet) {
        (Codec::H264, [0x1c | 0x3c | 0x5c | 0x7c, header, ..]) => is_usual_h264(header & 0x1f),
        (Codec::H264, [header, ..]) => header & 0x80 == 0 && is_usual_h264(header & 0x1f),
        (Codec::H265, [first, second, rest @ ..]) => {
            let is_lowest = first & 0x81 == 0 && second >> 3 == 0 && second & 7 != 0;
            is_lowest
                && match (first >> 1, rest) {
                    (49, [header, ..]) => is_usual_h265(header & 0x3f),
                    (other, _) => is_usual_h265(other) || matches!(other, 48 | 50),
                }
        }
        (Codec::H266, [first, second, rest @ ..]) => {
            let is_lowest = *first == 0 && second & 7 != 0;
            is_lowest
                && match (second >> 3, rest) {
                    (29, [header, ..]) => is_usual_h266(header & 0x1f),
                    (other, _) => is_usual_h266(other) || other == 28,
                }
        }
        _ => false,
    }
}

/// Types of slices without data partitions, of sets, SEI and what else encoders write, and STAP-A.
fn is_usual_h264(unit_type: u8) -> bool {
    matches!(unit_type, 1 | 5..=12 | 14 | 15 | 24)
}

fn is_usual_h265(unit_type: u8) -> bool {
    matches!(unit_type, 0..=9 | 16..=21 | 32..=40)
}

fn is_usual_h266(unit_type: u8) -> bool {
    matches!(unit_type, 0..=3 | 7..=10 | 12..=25)
}

/// How many packets, or units, look usual as each codec's.
#[derive(Default, Clone, Copy)]
pub struct Likeness {
    all: u64,
    usual: [u64; 3],
}

impl Likeness {
    pub fn add(&mut self, packet: &[u8]) {
        self.all += 1;
        for (codec, usual) in CODECS.into_iter().zip(&mut self.usual) {
            *usual += u64::from(is_usual(codec, packet));
        }
    }

    /// How many were looked at.
    pub fn all(&self) -> u64 {
        self.all
    }

    pub fn usual(&self, codec: Codec) -> u64 {
        let at = CODECS.iter().position(|it| *it == codec);
        at.map_or(0, |at| self.usual[at])
    }

    /// The codec as whose most look usual; nothing where less than three quarters do as any's.
    pub fn likeliest(&self) -> Option<Codec> {
        let best = CODECS
            .into_iter()
            .rev()
            .max_by_key(|codec| self.usual(*codec))?;
        (self.usual(best) * 4 >= self.all * 3 && self.all > 0).then_some(best)
    }

    /// Whether these may be this one's: no other is likelier, and a quarter looks usual.
    pub fn is_likely(&self, codec: Codec) -> bool {
        self.other_than(codec).is_none() && self.usual(codec) * 4 >= self.all && self.all > 0
    }

    /// The codec that these are of more likely than of this one, where less than half look usual as
    /// this one's.
    pub fn other_than(&self, codec: Codec) -> Option<Codec> {
        let is_likely = self.usual(codec) * 2 >= self.all;
        self.likeliest().filter(|it| !is_likely && *it != codec)
    }
}
