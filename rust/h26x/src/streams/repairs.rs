//! Which stream each stream of retransmissions sends again (RTX, RFC 4588, 5.3): by the SSRCs of the session description,
//! by its own SSRC, by names in header extensions (RFC 8852), or by what it sends again of what came.

use crate::captures::ip::Part;
use crate::captures::packets::{Captured, Source, Stream};
use crate::captures::rtp::Rtp;
use crate::streams::guesses::Types;
use emupedestal::rtp::RtxPayload;
use std::collections::HashMap;
use std::hash::{DefaultHasher, Hash, Hasher};

/// So many streams that may be sent again are followed, and so many that send others again.
const MOST: usize = 256;
/// So many of the last packets of a source are kept in mind.
const KEPT: usize = 4096;
/// A packet that is sent again is no further from the latest of its stream: in numbers, and in ticks.
const NEAR: u16 = 3000;
const NEAR_TICKS: u32 = 90_000 * 30;
/// So many numbers may be missing before it.
const GAP: u16 = 64;

/// What came of a source whose packets may be sent again.
#[derive(Clone)]
struct Media {
    /// Its name, once an extension said it.
    rid: Option<Vec<u8>>,
    sequence: u16,
    timestamp: u32,
    /// Its last packets, each where its number says: the number, and what it bears.
    came: Vec<Option<(u16, u64)>>,
    /// A bit for each payload type that it has.
    payload_types: u128,
}

/// What came of a stream that sends another one again.
#[derive(Default, Clone)]
struct Again {
    rid: Option<Vec<u8>>,
    tallies: HashMap<Source, Likely>,
}

/// How many packets that a stream sends again are as they came of a source, are missing there, and can't be of it.
#[derive(Default, Clone, Copy)]
struct Likely {
    same: u64,
    missing: u64,
    other: u64,
}

#[derive(Clone)]
pub struct Repairs {
    types: Types,
    media: HashMap<Source, Media>,
    again: HashMap<Stream, Again>,
}

impl Media {
    fn new() -> Self {
        Media {
            rid: None,
            sequence: 0,
            timestamp: 0,
            came: vec![None; KEPT],
            payload_types: 0,
        }
    }

    /// What a packet of this number that is sent again is to those that came; nothing where it tells nothing.
    fn fit(&self, sequence: u16, timestamp: u32, bears: u64) -> Option<Fit> {
        let behind = self.sequence.wrapping_sub(sequence) as i16;
        let ticks = timestamp.wrapping_sub(self.timestamp) as i32;
        if behind.unsigned_abs() >= NEAR || ticks.unsigned_abs() >= NEAR_TICKS {
            return Some(Fit::Other);
        }
        match self.at(sequence) {
            Some(it) if it == bears => Some(Fit::Same),
            Some(_) => Some(Fit::Other),
            // It is missing between others.
            None if behind > 0 => {
                let mut before = (1..=GAP).map(|it| self.at(sequence.wrapping_sub(it)));
                before.any(|it| it.is_some()).then_some(Fit::Missing)
            }
            None => None,
        }
    }

    /// What the packet of a number bears, where it came.
    fn at(&self, sequence: u16) -> Option<u64> {
        let came = self.came[usize::from(sequence) % KEPT];
        came.filter(|it| it.0 == sequence).map(|it| it.1)
    }
}

/// What a packet that is sent again is to those that came of a source.
enum Fit {
    /// As one that came.
    Same,
    /// One that is missing.
    Missing,
    /// None of that source.
    Other,
}

/// Stands for what a packet bears.
fn sum(timestamp: u32, payload: &[u8]) -> u64 {
    let mut hasher = DefaultHasher::new();
    (timestamp, payload).hash(&mut hasher);
    hasher.finish()
}

impl Repairs {
    pub fn new(types: &Types) -> Self {
        Repairs {
            types: types.clone(),
            media: HashMap::new(),
            again: HashMap::new(),
        }
    }

    /// Follows a packet, as it came.
    pub fn follow(&mut self, stream: &Stream, packet: &Captured<'_>) {
        if self.is_of_again(stream) {
            self.follow_again(stream, packet);
        } else if self.types.at(stream.to).has_rtx() {
            self.follow_media(stream, &packet.rtp);
        }
    }

    fn follow_media(&mut self, stream: &Stream, rtp: &Rtp<'_>) {
        let rid = self.types.at(stream.to).rid;
        let is_full = self.media.len() == MOST;
        if is_full && !self.media.contains_key(&stream.source()) {
            return;
        }
        let media = self.media.entry(stream.source()).or_insert_with(Media::new);
        (media.sequence, media.timestamp) = (rtp.sequence, rtp.timestamp);
        media.payload_types |= 1 << stream.payload_type;
        let bears = sum(rtp.timestamp, rtp.payload);
        media.came[usize::from(rtp.sequence) % KEPT] = Some((rtp.sequence, bears));
        if let Some(name) = element(rid, rtp) {
            media.rid = Some(name.into());
        }
    }

    fn follow_again(&mut self, stream: &Stream, packet: &Captured<'_>) {
        let (rtp, id) = (&packet.rtp, self.types.at(stream.to).repaired_rid);
        if self.again.len() == MOST && !self.again.contains_key(stream) {
            return;
        }
        let again = self.again.entry(*stream).or_default();
        if let Some(name) = element(id, rtp) {
            again.rid = Some(name.into());
        }
        let Some(of_packet) = RtxPayload::read(rtp.payload).filter(|_| packet.part == Part::Whole)
        else {
            return;
        };
        let bears = sum(rtp.timestamp, of_packet.payload);
        for (source, media) in self.media.iter().filter(|it| it.0.1 == stream.to) {
            let tally = again.tallies.entry(*source).or_default();
            match media.fit(of_packet.sequence, rtp.timestamp, bears) {
                Some(Fit::Same) => tally.same += 1,
                Some(Fit::Missing) => tally.missing += 1,
                Some(Fit::Other) => tally.other += 1,
                None => {}
            }
        }
    }

    /// Whether a stream is one of retransmissions.
    pub fn is_of_again(&self, stream: &Stream) -> bool {
        let types = self.types.at(stream.to);
        types.sent_again_by(stream.payload_type).is_some()
    }

    /// The source that this stream sends again; nothing where it isn't known, or it sends none again.
    pub fn repaired_by(&self, stream: &Stream) -> Option<Source> {
        let types = self.types.at(stream.to);
        let original = types.sent_again_by(stream.payload_type)?;
        let has_type = |it: &Media| it.payload_types >> original & 1 != 0;
        let of_type = self.media.iter().filter(|it| has_type(it.1));
        let with_ssrc = |ssrc: u32| of_type.clone().map(|it| *it.0).find(|it| it.0 == ssrc);
        if let Some(ssrc) = types.original_ssrc(stream.ssrc) {
            return with_ssrc(ssrc).or(Some((ssrc, stream.to)));
        }
        if let Some(same) = with_ssrc(stream.ssrc) {
            return Some(same);
        }
        let again = self.again.get(stream)?;
        let mut here = of_type.filter(|it| it.0.1 == stream.to);
        if again.rid.is_some() {
            return here.find(|it| it.1.rid == again.rid).map(|it| *it.0);
        }
        again.likely(here.map(|it| *it.0).collect())
    }
}

impl Again {
    /// The one of these sources that it sends again: the one that all its packets may be of, or of several the one of
    /// which some came.
    fn likely(&self, sources: Vec<Source>) -> Option<Source> {
        let tally = |source: &Source| self.tallies.get(source).copied().unwrap_or_default();
        let may_be = |it: &Source| {
            let it = tally(it);
            it.same > it.other || (it.other == 0 && it.missing > 0)
        };
        let of_all: Vec<Source> = sources.into_iter().filter(may_be).collect();
        let is_likely = |it: &&Source| of_all.len() == 1 || tally(it).same > 0;
        let mut likely = of_all.iter().filter(is_likely);
        let first = likely.next();
        first.filter(|_| likely.next().is_none()).copied()
    }
}

/// The bytes of an element of the header extension.
fn element<'a>(id: Option<u8>, rtp: &Rtp<'a>) -> Option<&'a [u8]> {
    let mut elements = rtp.extension?.elements();
    let id = id?;
    elements.find(|it| it.id == id).map(|it| it.bytes)
}
