//! Which of the streams that are looked at take a packet.

use crate::captures::packets::{Captured, Source, Stream};
use crate::streams::repairs::Repairs;
use std::collections::{HashMap, HashSet};

/// Which of the streams that are looked at packets are numbered with, or send again, by their places.
pub struct Takers {
    places: HashMap<Source, Vec<usize>>,
    /// Streams of the same sources that are none of theirs.
    apart: HashSet<(Stream, usize)>,
    /// Those of the last stream: most packets are of the same one as the packet before.
    last: Option<(Stream, Vec<usize>)>,
    repairs: Repairs,
    is_pipe: bool,
}

impl Takers {
    pub fn new(repairs: Repairs, is_pipe: bool) -> Self {
        Takers {
            places: HashMap::new(),
            apart: HashSet::new(),
            last: None,
            repairs,
            is_pipe,
        }
    }

    /// Adds one that is looked at, of this source, and the streams of that which are none of its packets.
    pub fn add(&mut self, at: usize, source: Source, apart: impl Iterator<Item = Stream>) {
        self.places.entry(source).or_default().push(at);
        self.apart.extend(apart.map(|it| (it, at)));
    }

    /// Those that take a packet, as it came.
    pub fn of(&mut self, stream: &Stream, packet: &Captured<'_>) -> &[usize] {
        if self.is_pipe {
            self.repairs.follow(stream, packet);
        }
        let is_known = self.last.as_ref().is_some_and(|it| it.0 == *stream);
        if !is_known || self.repairs.is_of_again(stream) {
            let source = self.repairs.repaired_by(stream);
            let places = self.places.get(&source.unwrap_or(stream.source()));
            let is_one = |at: &&usize| !self.apart.contains(&(*stream, **at));
            let places = places.into_iter().flatten().filter(is_one).copied();
            self.last = Some((*stream, places.collect()));
        }
        self.last.as_ref().map_or(&[], |it| &it.1)
    }
}
