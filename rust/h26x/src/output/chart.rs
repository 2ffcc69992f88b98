//! What came of a stream in each part of the time, as sums: as few as a picture can show, however long the
//! capture is.

use crate::captures::packets::Captured;
use crate::streams::payload::{fragment, is_aggregate};
use crate::streams::rates::Jitter;
use crate::streams::tally::is_keyframe;
use crate::streams::told::{Became, Fate, Told};
use emupedestal::Codec;
use emupedestal::access_unit_receiver::ReceivedAccessUnit;
use serde_json::{Value, json};

/// So many parts at most; where time goes on, two are made one.
const MOST: usize = 1024;
/// How long a part is at first, in nanoseconds.
const SHORTEST: u64 = 1_000_000;

/// A kind of packets, or what became of them.
#[derive(Clone, Copy)]
enum Of {
    Fragments,
    Single,
    Aggregates,
    Other,
    Lost,
    Repeated,
    Reordered,
    Recovered,
    Refused,
}
const COUNTS: [(&str, Of); 9] = [
    ("fragments", Of::Fragments),
    ("single", Of::Single),
    ("aggregates", Of::Aggregates),
    ("other", Of::Other),
    ("lost", Of::Lost),
    ("repeated", Of::Repeated),
    ("reordered", Of::Reordered),
    ("recovered", Of::Recovered),
    ("refused", Of::Refused),
];
/// Kinds of access units.
const UNITS: [&str; 4] = ["keyframe", "clean", "whole", "broken"];

/// What came in a part of the time.
#[derive(Default, Clone)]
struct Part {
    counts: [u64; COUNTS.len()],
    bytes: u64,
    /// How many access units of each kind, and how long the longest is.
    units: [u64; UNITS.len()],
    greatest: [u64; UNITS.len()],
    /// The greatest jitter, in seconds.
    jitter: Option<f64>,
    /// Nanoseconds between pictures: how many times, the sum, and the greatest.
    pauses: (u64, u64, u64),
}

impl Part {
    fn join(&mut self, other: &Part) {
        let sums = self.counts.iter_mut().zip(&other.counts);
        sums.for_each(|(it, more)| *it += more);
        self.bytes += other.bytes;
        let units = self.units.iter_mut().zip(&other.units);
        units.for_each(|(it, more)| *it += more);
        let greatest = self.greatest.iter_mut().zip(&other.greatest);
        greatest.for_each(|(it, more)| *it = (*it).max(*more));
        self.jitter = self.jitter.into_iter().chain(other.jitter).reduce(f64::max);
        let (count, sum, greatest) = other.pauses;
        self.pauses.0 += count;
        self.pauses.1 = self.pauses.1.saturating_add(sum);
        self.pauses.2 = self.pauses.2.max(greatest);
    }
}

pub struct Chart {
    codec: Codec,
    begin: Option<u64>,
    width: u64,
    parts: Vec<Part>,
    jitter: Jitter,
    /// When the last picture came, and its timestamp.
    picture: Option<(u64, u32)>,
    /// When the last packet came whose turn it was.
    time: u64,
}

impl Chart {
    pub fn new(codec: Codec) -> Self {
        Chart {
            codec,
            begin: None,
            width: SHORTEST,
            parts: Vec::new(),
            jitter: Jitter::default(),
            picture: None,
            time: 0,
        }
    }

    /// The part that a time is in; what is before the first packet is in the first.
    fn part(&mut self, time: u64) -> &mut Part {
        let since = time.saturating_sub(*self.begin.get_or_insert(time));
        while since / self.width >= MOST as u64 {
            self.halve();
        }
        let at = (since / self.width) as usize;
        if self.parts.len() <= at {
            self.parts.resize(at + 1, Part::default());
        }
        &mut self.parts[at]
    }

    fn halve(&mut self) {
        let pairs = self.parts.chunks(2).map(|pair| {
            let mut joined = pair[0].clone();
            pair[1..].iter().for_each(|it| joined.join(it));
            joined
        });
        self.parts = pairs.collect();
        self.width *= 2;
    }

    /// A packet came, in the order of the capture.
    fn come(&mut self, packet: &Captured<'_>) {
        self.jitter.come(packet);
        let jitter = self.jitter.seconds();
        let part = self.part(packet.time);
        part.jitter = Some(part.jitter.map_or(jitter, |it| it.max(jitter)));
    }

    pub fn tell(&mut self, told: &Told<'_>) {
        match told {
            Told::Came(packet) => self.come(packet),
            Told::Packet(packet, fate) => self.packet(packet, fate),
            Told::Unit(unit, time) => self.unit(unit, *time),
            Told::Twice(_) | Told::Again(_) => self.count(self.time, Of::Repeated, 1),
            Told::Stray(_) => self.count(self.time, Of::Other, 1),
            Told::Anew => (self.jitter, self.picture) = (Jitter::default(), None),
        }
    }

    fn count(&mut self, time: u64, of: Of, count: u64) {
        self.part(time).counts[of as usize] += count;
    }

    fn packet(&mut self, packet: &Captured<'_>, fate: &Fate) {
        self.time = packet.time;
        let payload = packet.rtp.payload;
        let kind = match fate.became {
            Became::Late(_) => Of::Repeated,
            Became::Refused(_) => Of::Refused,
            Became::Cut | Became::Padding => Of::Other,
            _ if fragment(self.codec, payload).is_some() => Of::Fragments,
            _ if is_aggregate(self.codec, payload) => Of::Aggregates,
            _ => Of::Single,
        };
        self.count(packet.time, kind, 1);
        self.count(packet.time, Of::Lost, fate.lost.into());
        self.count(packet.time, Of::Reordered, fate.is_moved.into());
        self.count(packet.time, Of::Recovered, packet.is_resent.into());
        self.part(packet.time).bytes += payload.len() as u64;
    }

    fn unit(&mut self, unit: &ReceivedAccessUnit, time: u64) {
        let before = self.picture.filter(|it| it.1 != unit.timestamp);
        if self.picture.is_none() || before.is_some() {
            self.picture = Some((time, unit.timestamp));
        }
        let kind = match unit {
            _ if unit.missing > 0 => 3,
            _ if is_keyframe(unit.extra) => 0,
            it if it.is_clean => 1,
            it if it.is_whole => 2,
            _ => 3,
        };
        let part = self.part(time);
        part.units[kind] += 1;
        part.greatest[kind] = part.greatest[kind].max(unit.bytes.len() as u64);
        if let Some((before, _)) = before {
            let pause = time.saturating_sub(before);
            part.pauses.0 += 1;
            part.pauses.1 = part.pauses.1.saturating_add(pause);
            part.pauses.2 = part.pauses.2.max(pause);
        }
    }

    /// The sums, a column each; times of jitter and between pictures are in milliseconds.
    pub fn columns(&self) -> Value {
        let of = |what: &dyn Fn(&Part) -> Value| -> Value { self.parts.iter().map(what).collect() };
        let mut columns = json!({
            "bytes": of(&|it| it.bytes.into()),
            "jitter": of(&|it| it.jitter.map(|it| rounded(it * 1e3)).into()),
            "pause": of(&|it| {
                let (count, sum, _) = it.pauses;
                (count > 0).then(|| rounded(sum as f64 / count as f64 / 1e6)).into()
            }),
            "pause_greatest": of(&|it| {
                let (count, _, greatest) = it.pauses;
                (count > 0).then(|| rounded(greatest as f64 / 1e6)).into()
            }),
        });
        for (name, at) in COUNTS {
            columns[name] = of(&|it| it.counts[at as usize].into());
        }
        for (at, name) in UNITS.into_iter().enumerate() {
            columns[name] = of(&|it| it.units[at].into());
            columns[format!("{name}_greatest")] = of(&|it| it.greatest[at].into());
        }
        columns
    }

    /// How many seconds a part has.
    pub fn width(&self) -> f64 {
        self.width as f64 / 1e9
    }

    pub fn seconds(&self) -> f64 {
        self.width() * self.parts.len() as f64
    }
}

/// A number with as many digits as a picture shows.
fn rounded(it: f64) -> f64 {
    (it * 1000.0).round() / 1000.0
}

#[cfg(test)]
mod tests {
    use super::*;

    /// Times of captures are what a stranger says: sums of them have an end.
    #[test]
    fn times_that_no_clock_tells() {
        let mut part = Part {
            pauses: (1, u64::MAX, u64::MAX),
            ..Part::default()
        };
        let other = part.clone();
        part.join(&other);
        assert_eq!(part.pauses, (2, u64::MAX, u64::MAX));
        let mut chart = Chart::new(Codec::H264);
        chart.part(0);
        chart.part(u64::MAX).bytes = 1;
        assert!(chart.parts.len() <= MOST);
        assert_eq!(chart.parts.last().map(|it| it.bytes), Some(1));
    }
}
