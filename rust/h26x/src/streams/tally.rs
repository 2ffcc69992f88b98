//! What is counted of a stream, and how it is said.

use crate::captures::packets::Captured;
use crate::streams::chooser::counted;
use crate::streams::diagnoses::Diagnoses;
use crate::streams::guises::Guise;
use crate::streams::rates::Rates;
use emupedestal::CodecExtra;
use emupedestal::access_unit_receiver::ReceivedAccessUnit;

/// How many losses, and how many kinds of refusals, are named.
const NAMED: usize = 20;
const CUT: &str = "not taken, with only a front in the capture (use a longer snap length)";

#[derive(Default)]
pub struct Tally {
    pub packets: u64,
    /// Of payloads.
    pub bytes: u64,
    pub late: u64,
    pub twice: u64,
    /// Packets that came by RTX first, and such that had come or were no longer waited for.
    pub recovered: u64,
    pub again: u64,
    /// Packets of forward error correction among those of the stream, and of other payload types.
    pub fec: u64,
    pub other: u64,
    /// Packets that came behind a later one, and were put before it.
    pub moved: u64,
    pub strays: u64,
    pub anew: u64,
    /// Packets of which the capture has only a front, and such that have padding alone.
    pub parts: u64,
    pub padding: u64,
    /// What to do, where the packets look as if it were the other way with --donl.
    pub advice: Option<&'static str>,
    pub given_up: u64,
    pub too_long: u64,
    pub access_units: u64,
    pub keyframes: u64,
    /// Access units that are known to be whole, and those that a decoder can show.
    pub whole: u64,
    pub clean: u64,
    pub rates: Rates,
    pub diagnoses: Diagnoses,
    /// What the stream is, where its payloads aren't those of a codec as they are.
    pub guise: Option<Guise>,
    /// What is to be said of its session.
    pub notes: Vec<String>,
    has_sets: bool,
    missing: u64,
    gaps: u64,
    /// The first gaps: how many packets before which number.
    first_gaps: Vec<(u32, u16)>,
    pub refused: u64,
    /// Those of them that bear nothing of the stream.
    pub no_unit: u64,
    /// The first kinds of refusals: why, how many, and the number of the first.
    reasons: Vec<(String, u64, u16)>,
}

impl Tally {
    /// `has_sets` tells that a session description has the parameter sets.
    pub fn new(has_sets: bool) -> Self {
        Tally {
            has_sets,
            ..Tally::default()
        }
    }

    /// Counts a packet that is of the stream.
    pub fn packet(&mut self, packet: &Captured<'_>) {
        self.packets += 1;
        self.bytes += packet.rtp.payload.len() as u64;
    }

    /// Counts an access unit.
    pub fn unit(&mut self, unit: &ReceivedAccessUnit) {
        self.access_units += 1;
        self.rates.unit(unit, is_keyframe(unit.extra));
        self.keyframes += u64::from(is_keyframe(unit.extra));
        self.whole += u64::from(unit.is_whole);
        self.clean += u64::from(unit.is_clean);
    }

    /// So many packets before this number are missing.
    pub fn miss(&mut self, sequence: u16, missing: u32) {
        if missing == 0 {
            return;
        }
        self.missing += u64::from(missing);
        self.gaps += 1;
        if self.first_gaps.len() < NAMED {
            self.first_gaps.push((missing, sequence));
        }
    }

    pub fn refuse(&mut self, sequence: u16, reason: &str, has_no_unit: bool) {
        self.refused += 1;
        self.no_unit += u64::from(has_no_unit);
        match self.reasons.iter().position(|it| it.0 == reason) {
            Some(known) => self.reasons[known].1 += 1,
            None if self.reasons.len() < NAMED => self.reasons.push((reason.into(), 1, sequence)),
            None => {}
        }
    }

    /// How many packets never came.
    pub fn missing(&self) -> u64 {
        self.missing
    }

    /// How many of a hundred packets that were sent never came.
    pub fn loss_percent(&self) -> f64 {
        let sent = (self.packets - self.late.min(self.packets)) + self.missing;
        100.0 * self.missing as f64 / sent.max(1) as f64
    }

    /// Whether all packets came and were taken, but for those that bear nothing. Where more than half come twice or too
    /// late, some of them came too late.
    pub fn is_whole(&self) -> bool {
        let late = if self.late * 2 > self.packets {
            self.late
        } else {
            0
        };
        let refused = self.refused - self.no_unit;
        let lost = self.missing + self.given_up + self.too_long + refused + late;
        lost + self.strays + self.parts == 0 && self.advice.is_none()
    }

    /// Why most packets were refused, where they were.
    pub fn refusal_of_most(&self) -> Option<&str> {
        let reason = self.reasons.iter().max_by_key(|it| it.1);
        reason
            .filter(|_| self.refused * 2 > self.packets)
            .map(|it| it.0.as_str())
    }

    /// What is lost, refused or otherwise odd, a sentence each.
    pub fn oddities(&self) -> Vec<String> {
        let counts = self.counts().into_iter().filter(|it| it.0 > 0);
        let counts = counts.map(|(count, word, what)| format!("{}: {what}", counted(count, word)));
        let refusals = self.reasons.iter().map(|(reason, count, first)| {
            let refused = counted(*count, "packet");
            format!("refused: {refused}, the first is {first}: {reason}")
        });
        let advice = self.advice.map(String::from);
        let guise = self
            .guise
            .map(|it| format!("odd: its payloads look as {it}: {}", it.advice()));
        let notes = self.notes.iter().cloned();
        notes
            .chain(advice)
            .chain(self.losses())
            .chain(counts)
            .chain(refusals)
            .chain(guise)
            .chain(self.diagnoses.told(self.has_sets, self.access_units))
            .collect()
    }

    /// How many packets are missing, and before which.
    fn losses(&self) -> Option<String> {
        let gaps = self.first_gaps.iter();
        let mut gaps: Vec<String> = gaps
            .map(|(count, before)| format!("{count} before {before}"))
            .collect();
        if self.gaps > NAMED as u64 {
            gaps.push(format!("and {} more gaps", self.gaps - NAMED as u64));
        }
        let lost = counted(self.missing, "packet");
        (self.missing > 0).then(|| format!("lost: {lost}: {}", gaps.join(", ")))
    }

    fn counts(&self) -> [(u64, &'static str, &'static str); 13] {
        [
            (self.recovered, "packet", "recovered by RTX (RFC 4588)"),
            (
                self.again,
                "packet",
                "passed over, sent again by RTX though they had come, or too late",
            ),
            (
                self.fec,
                "packet",
                "passed over, of forward error correction (FEC, RFC 5109)",
            ),
            (self.other, "packet", "passed over, of other payload types"),
            (self.given_up, "unit", "left out, for want of a packet"),
            (self.too_long, "unit", "left out, longer than --run-limit"),
            (self.parts, "packet", CUT),
            (
                self.late,
                "packet",
                "not taken, come twice or too late (--window)",
            ),
            (self.twice, "packet", "passed over, come twice"),
            (self.padding, "packet", "of padding alone (RFC 3550, 5.1)"),
            (self.moved, "packet", "put before those that came earlier"),
            (
                self.strays,
                "packet",
                "not taken, with a number far from all others",
            ),
            (
                self.anew,
                "time",
                "the sender began anew with another number",
            ),
        ]
    }

    /// What is known of the access units.
    pub fn known(&self) -> Vec<String> {
        let counts = [
            (self.whole, "known to be whole"),
            (self.clean, "clean: nothing that a decoder needs is missing"),
        ];
        let counts = counts.into_iter();
        counts
            .map(|(count, what)| format!("{}: {what}", counted(count, "access unit")))
            .collect()
    }

    /// What there is.
    pub fn totals(&self) -> String {
        format!(
            "{} of {}, {}, {}",
            counted(self.packets, "packet"),
            counted(self.bytes, "byte"),
            counted(self.access_units, "access unit"),
            counted(self.keyframes, "keyframe")
        )
    }
}

pub fn is_keyframe(extra: CodecExtra) -> bool {
    match extra {
        CodecExtra::H264(told) => told.is_keyframe,
        CodecExtra::H265(told) => told.is_keyframe,
        CodecExtra::H266(told) => told.is_keyframe,
        _ => false,
    }
}
