//! Parameter sets of a session description, which stand before the first picture where the stream has none there.

use crate::streams::chooser::counted;
use emupedestal::access_units::{is_slice_type, unit_type};
use emupedestal::{ANNEXB_NALUSTART_CODE, Codec, units};
use std::collections::HashSet;

/// So many bytes are looked through for a picture.
const FRONT: usize = 1 << 16;

/// Whether a decoder needs no others.
pub fn are_enough(codec: Codec, sets: &[Vec<u8>]) -> bool {
    let needed: &[u8] = match codec {
        Codec::H264 => &[7, 8],
        Codec::H265 => &[32, 33, 34],
        Codec::H266 => &[15, 16],
    };
    let is_there = |kind: &u8| sets.iter().any(|it| unit_type(codec, it) == Some(*kind));
    needed.iter().all(is_there)
}

pub struct Sets {
    codec: Codec,
    /// Those that aren't put anywhere yet.
    sets: Vec<Vec<u8>>,
    has_lengths: bool,
    /// How many bytes of what is written were looked through, and what is there: a unit, which types before the first
    /// picture, and that.
    looked: usize,
    has_unit: bool,
    before: HashSet<u8>,
    has_picture: bool,
    /// How many were put before the first picture.
    put: u64,
}

impl Sets {
    pub fn new(codec: Codec, sets: &[Vec<u8>], has_lengths: bool) -> Self {
        Sets {
            codec,
            sets: sets.to_vec(),
            has_lengths,
            looked: 0,
            has_unit: false,
            before: HashSet::new(),
            has_picture: false,
            put: 0,
        }
    }

    /// Puts them before the first units that are written, once a picture is among these. Whether that is done, so
    /// that the units may go. Until then only more units come behind what is written.
    pub fn are_put_into(&mut self, written: &mut Vec<u8>) -> bool {
        if self.sets.is_empty() {
            return true;
        }
        self.look(written);
        if self.has_picture || written.len() > FRONT {
            self.put_into(written);
        }
        self.sets.is_empty()
    }

    /// Puts those of each kind that isn't there before the first picture, before all that is written.
    pub fn put_into(&mut self, written: &mut Vec<u8>) {
        if self.sets.is_empty() {
            return;
        }
        self.look(written);
        let mut front = Vec::new();
        for set in self.sets.drain(..) {
            let is_there = |it: u8| self.before.contains(&it);
            if self.has_unit && !unit_type(self.codec, &set).is_some_and(is_there) {
                match self.has_lengths {
                    true => front.extend_from_slice(&(set.len() as u32).to_be_bytes()),
                    false => front.extend_from_slice(&ANNEXB_NALUSTART_CODE),
                }
                front.extend_from_slice(&set);
                self.put += 1;
            }
        }
        written.splice(..0, front);
    }

    /// Looks through what was written since the last look.
    fn look(&mut self, written: &[u8]) {
        for it in self.types(&written[self.looked..]) {
            self.has_unit = true;
            self.has_picture |= is_slice_type(self.codec, it);
            if !self.has_picture {
                self.before.insert(it);
            }
        }
        self.looked = written.len();
    }

    /// The types of units that are written.
    fn types(&self, written: &[u8]) -> Vec<u8> {
        let unit_type = |unit: &[u8]| unit_type(self.codec, unit);
        if !self.has_lengths {
            return units(self.codec, written).filter_map(unit_type).collect();
        }
        let (mut types, mut rest) = (Vec::new(), written);
        while let Some((len, behind)) = rest.split_first_chunk() {
            let len = u32::from_be_bytes(*len) as usize;
            let (unit, behind) = behind.split_at(len.min(behind.len()));
            types.extend(unit_type(unit));
            rest = behind;
        }
        types
    }

    /// Says that some were put there.
    pub fn told(&self) -> Option<String> {
        (self.put > 0).then(|| {
            let sets = counted(self.put, "parameter set");
            format!("{sets} of the session description written before the first picture")
        })
    }
}
