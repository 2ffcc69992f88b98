//! A recording as a fragmented MP4 file (ISO/IEC 14496-12, 8.8): each fragment begins with a keyframe where one
//! comes, and pictures have the times of their timestamps.

use crate::output::boxes::{put, put_full, words};
use crate::output::clock::Clock;
use crate::output::moov::{TIME_SCALE, Track};
use crate::streams::tally::is_keyframe;
use emupedestal::Codec;
use emupedestal::access_unit_receiver::ReceivedAccessUnit;
use emupedestal::access_units::{is_parameter_set_type, is_slice_type, unit_type};

/// A fragment that has so many bytes, or lasts so long, ends without a keyframe too.
const MOST_BYTES: usize = 32 << 20;
const MOST_TICKS: i64 = 10 * TIME_SCALE as i64;
/// How long a picture lasts where nothing tells it.
const USUAL: i64 = 3600;
const MOST_SETS: usize = 64;
const MOST_SAMPLES: usize = 1 << 16;
/// The type of a picture header of H.266 (7.4.2.2, table 5).
const PICTURE_HEADER: u8 = 19;
/// Flags of samples: one that depends on no other, and one that does and where nothing can begin (8.8.3).
const KEYFRAME: u32 = 0x0200_0000;
const OTHER: u32 = 0x0101_0000;

struct Sample {
    /// When it is shown, in ticks since the first one.
    shown: i64,
    len: u32,
    is_keyframe: bool,
}

/// What the first fragment says of times: when its first picture is shown, and how much later each picture of the
/// recording is shown so that none is before it is decoded.
#[derive(Clone, Copy, Default)]
struct Base {
    first: i64,
    delay: i64,
}

pub struct Mp4 {
    codec: Codec,
    /// Sets of a session description, and those that came before the front was written.
    described: Vec<Vec<u8>>,
    sets: Vec<Vec<u8>>,
    clock: Clock,
    samples: Vec<Sample>,
    data: Vec<u8>,
    fragments: u32,
    base: Option<Base>,
    /// How many sets there were when the front couldn't be written.
    tried: Option<usize>,
    /// When the last sample of the fragment before is decoded.
    decoded: i64,
}

impl Mp4 {
    pub fn new(codec: Codec, described: &[Vec<u8>]) -> Self {
        Mp4 {
            codec,
            described: described.to_vec(),
            sets: Vec::new(),
            clock: Clock::default(),
            samples: Vec::new(),
            data: Vec::new(),
            fragments: 0,
            base: None,
            tried: None,
            decoded: -1,
        }
    }

    pub fn begin_anew(&mut self) {
        self.clock.begin_anew();
    }

    /// Takes an access unit, whose units stand behind lengths, and which came at this time; appends what is to be
    /// written. False where there are no parameter sets, and no room to wait for them.
    pub fn take(&mut self, unit: &ReceivedAccessUnit, time: u64, to: &mut Vec<u8>) -> bool {
        if unit.bytes.is_empty() {
            return true;
        }
        let begins = self.look(&unit.bytes);
        let len = unit.bytes.len() as u32;
        let goes_on = unit.continues && !begins && self.data.len() < MOST_BYTES;
        if let Some(last) = self.samples.last_mut().filter(|_| goes_on) {
            last.len += len;
            self.data.extend_from_slice(&unit.bytes);
            return true;
        }
        let shown = self.clock.ticks(unit.timestamp, time);
        let is_keyframe = is_keyframe(unit.extra);
        let lasts = self.samples.first().map_or(0, |it| shown - it.shown);
        let is_full = self.data.len() >= MOST_BYTES
            || self.samples.len() >= MOST_SAMPLES
            || lasts >= MOST_TICKS;
        let is_done = !self.samples.is_empty() && (is_keyframe || is_full);
        if is_done && !self.write(Some(shown), to) && self.data.len() >= MOST_BYTES {
            return false;
        }
        self.samples.push(Sample {
            shown,
            len,
            is_keyframe,
        });
        self.data.extend_from_slice(&unit.bytes);
        true
    }

    /// Writes the rest; false where there is no front yet, for want of parameter sets.
    pub fn finish(&mut self, to: &mut Vec<u8>) -> bool {
        self.samples.is_empty() || self.write(None, to)
    }

    /// Keeps the parameter sets of an access unit, until the front is written. Whether a picture begins in it: a
    /// sender whose timestamps stand still has more than one of a timestamp.
    fn look(&mut self, bytes: &[u8]) -> bool {
        let mut begins = false;
        let mut rest = bytes;
        while let Some((len, behind)) = rest.split_first_chunk() {
            let len = u32::from_be_bytes(*len) as usize;
            let (unit, behind) = behind.split_at(len.min(behind.len()));
            let kind = unit_type(self.codec, unit);
            begins |= kind.is_some_and(|it| self.begins_picture(it, unit));
            let is_set = kind.is_some_and(|it| is_parameter_set_type(self.codec, it));
            if is_set && self.fragments == 0 {
                self.keep(unit);
            }
            rest = behind;
        }
        begins
    }

    fn keep(&mut self, set: &[u8]) {
        if self.sets.len() < MOST_SETS && !self.sets.iter().any(|it| it == set) {
            self.sets.push(set.to_vec());
        }
    }

    /// Whether a picture begins with a unit of a type: with its first slice (H.264, 7.3.3: first_mb_in_slice is 0;
    /// H.265, 7.3.6.1), or of H.266 with its header, which stands alone or in its only slice (7.3.7).
    fn begins_picture(&self, kind: u8, unit: &[u8]) -> bool {
        let place = if self.codec == Codec::H264 { 1 } else { 2 };
        let is_first = || unit.get(place).is_some_and(|it| it & 0x80 != 0);
        let is_header = self.codec == Codec::H266 && kind == PICTURE_HEADER;
        is_header || (is_slice_type(self.codec, kind) && is_first())
    }

    /// The front of the file, with those described sets of whose kind none came.
    fn front(&self) -> Option<Vec<u8>> {
        let kind = |it: &Vec<u8>| unit_type(self.codec, it);
        let is_new = |it: &&Vec<u8>| !self.sets.iter().any(|set| kind(set) == kind(it));
        let described = self.described.iter().filter(is_new);
        let sets: Vec<Vec<u8>> = described.chain(&self.sets).cloned().collect();
        Track {
            codec: self.codec,
            sets: &sets,
        }
        .front()
    }

    /// Writes a fragment, before a sample that is shown then; false where there is no front yet.
    fn write(&mut self, next: Option<i64>, to: &mut Vec<u8>) -> bool {
        if self.fragments == 0 {
            if self.tried == Some(self.sets.len()) {
                return false;
            }
            let Some(front) = self.front() else {
                self.tried = Some(self.sets.len());
                return false;
            };
            to.extend(front);
        }
        let decoded = self.decode_times();
        self.fragments += 1;
        let fragment = to.len();
        put(to, b"moof", |to| {
            put_full(to, b"mfhd", 0, 0, |to| words(to, &[self.fragments]));
            put(to, b"traf", |to| {
                put_full(to, b"tfhd", 0, 0x2_0000, |to| words(to, &[1]));
                let first = decoded.first().copied().unwrap_or_default();
                put_full(to, b"tfdt", 1, 0, |to| to.extend(first.to_be_bytes()));
                put_full(to, b"trun", 1, 0xf01, |to| self.run(to, &decoded, next));
            });
        });
        // The data begins behind this box and the header of the next (8.8.8).
        let place = fragment + RUN_PLACE;
        let begin = (to.len() - fragment + 8) as u32;
        to[place..place + 4].copy_from_slice(&begin.to_be_bytes());
        put(to, b"mdat", |to| to.extend_from_slice(&self.data));
        self.decoded = decoded.last().copied().unwrap_or(self.decoded);
        self.samples.clear();
        self.data.clear();
        true
    }

    /// When the samples are decoded, in their order: at the times at which they are shown, sorted, from 0 on.
    fn decode_times(&mut self) -> Vec<i64> {
        let mut times: Vec<i64> = self.samples.iter().map(|it| it.shown).collect();
        times.sort_unstable();
        let late = || {
            times
                .iter()
                .zip(&self.samples)
                .map(|(time, it)| time - it.shown)
        };
        let first = || times.first().copied().unwrap_or_default();
        let base = self.base.get_or_insert_with(|| Base {
            first: first(),
            delay: late().max().unwrap_or_default(),
        });
        let mut before = self.decoded;
        for time in &mut times {
            *time = (*time - base.first).max(before + 1);
            before = *time;
        }
        times
    }

    /// The table of samples: how long each lasts, its bytes, its flags, and how long after decoding it is shown.
    fn run(&self, to: &mut Vec<u8>, decoded: &[i64], next: Option<i64>) {
        // The place of the data is filled in later.
        words(to, &[self.samples.len() as u32, 0]);
        let Base { first, delay } = self.base.unwrap_or_default();
        let is_in_order = self.samples.is_sorted_by_key(|it| it.shown);
        let next = next.map(|it| it - first).filter(|_| is_in_order);
        let mut lasts = USUAL;
        for (at, sample) in self.samples.iter().enumerate() {
            let until = decoded.get(at + 1).copied().or(next);
            lasts = until
                .map_or(lasts, |it| it - decoded[at])
                .clamp(1, u32::MAX.into());
            let flags = if sample.is_keyframe { KEYFRAME } else { OTHER };
            let offset = sample.shown - first + delay - decoded[at];
            let offset = offset.clamp(i32::MIN.into(), i32::MAX.into()) as i32;
            words(to, &[lasts as u32, sample.len, flags, offset as u32]);
        }
    }
}

/// Where the place of the data stands in a fragment: behind the headers of moof, mfhd, traf, tfhd, tfdt and trun.
const RUN_PLACE: usize = 8 + 16 + 8 + 16 + 20 + 16;
