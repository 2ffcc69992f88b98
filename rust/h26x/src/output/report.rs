//! What `inspect` prints of a stream, line by line.

use crate::captures::packets::{Captured, Stream};
use crate::captures::seen::PassedOver;
use crate::commands::arguments::Inspect;
use crate::output::chart::Chart;
use crate::output::colors::{Look, Painter};
use crate::output::html::Page;
use crate::output::json;
use crate::output::statistics;
use crate::streams::chooser::counted;
use crate::streams::codecs::name;
use crate::streams::payload::{Description, describe};
use crate::streams::tally::{Tally, is_keyframe};
use crate::streams::told::{Became, Fate, Told};
use emupedestal::Codec;
use emupedestal::access_unit_receiver::ReceivedAccessUnit;
use std::io::{self, BufWriter, StdoutLock, Write};

const TITLES: &str = "  seq      seconds   timestamp M bytes  packet      units";

#[derive(Clone, Copy, PartialEq, Eq)]
pub enum Form {
    /// A line for each packet, and the summary.
    Lines,
    Summary,
    /// An object of JSON in each line.
    Json,
    /// The objects of JSON of the stream and of its totals alone.
    JsonSummary,
}

impl Form {
    pub fn is_summary(self) -> bool {
        matches!(self, Form::Summary | Form::JsonSummary)
    }
}

pub struct Report {
    form: Form,
    codec: Codec,
    has_donl: bool,
    painter: Painter,
    /// When the first packet was captured.
    begin: Option<u64>,
    /// What a page of pictures shows, where one is asked for.
    chart: Option<Chart>,
    to: BufWriter<StdoutLock<'static>>,
}

impl Report {
    pub fn new(asked: &Inspect, codec: Codec) -> Self {
        Report {
            form: asked.form,
            codec,
            has_donl: asked.looking.has_donl,
            painter: asked.color.painter(),
            begin: None,
            chart: asked.html.as_ref().map(|_| Chart::new(codec)),
            to: BufWriter::with_capacity(1 << 16, io::stdout().lock()),
        }
    }

    /// Says which stream it is, and which others there are, in words.
    pub fn front(&mut self, stream: &Stream, others: &str) -> io::Result<()> {
        if matches!(self.form, Form::Json | Form::JsonSummary) {
            return json::stream(&mut self.to, stream, self.codec);
        }
        writeln!(self.to, "stream: {stream} as {}", name(self.codec))?;
        if !others.is_empty() {
            writeln!(self.to, "passed over: {others}")?;
        }
        match self.form {
            Form::Lines => writeln!(self.to, "{}", self.painter.paint(Look::Title, TITLES)),
            _ => Ok(()),
        }
    }

    /// Says that two senders have one SSRC, as this has it.
    pub fn two_senders(&mut self, told: &str) -> io::Result<()> {
        match self.form {
            Form::Summary => Ok(()),
            Form::Json | Form::JsonSummary => json::two_senders(&mut self.to, told),
            Form::Lines => self.note(told),
        }
    }

    pub fn tell(&mut self, told: &Told<'_>) -> io::Result<()> {
        self.chart.iter_mut().for_each(|it| it.tell(told));
        match self.form {
            Form::Summary | Form::JsonSummary => return Ok(()),
            Form::Json => return self.tell_json(told),
            Form::Lines => {}
        }
        match told {
            Told::Came(_) => Ok(()),
            Told::Packet(packet, fate) => self.packet(packet, fate),
            Told::Unit(unit, _) => writeln!(self.to, "      = {}", about_unit(unit)),
            Told::Twice(sequence) => self.note(&format!("{sequence} came twice")),
            Told::Again(sequence) => self.note(&format!("{sequence} came again by RTX")),
            Told::Stray(sequence) => self.note(&format!("{sequence} is far from all others")),
            Told::Anew => self.note("the sender begins anew with another number"),
        }
    }

    fn tell_json(&mut self, told: &Told<'_>) -> io::Result<()> {
        match told {
            Told::Came(_) => Ok(()),
            Told::Packet(packet, fate) => {
                let begin = *self.begin.get_or_insert(packet.time);
                let about = describe(self.codec, self.has_donl, packet.rtp.payload);
                json::packet(&mut self.to, begin, packet, &about, fate)
            }
            Told::Unit(unit, time) => {
                json::unit(&mut self.to, self.begin.unwrap_or(*time), unit, *time)
            }
            Told::Twice(sequence) => json::number(&mut self.to, "twice", *sequence),
            Told::Again(sequence) => json::number(&mut self.to, "again", *sequence),
            Told::Stray(sequence) => json::number(&mut self.to, "stray", *sequence),
            Told::Anew => json::anew(&mut self.to),
        }
    }

    fn packet(&mut self, packet: &Captured<'_>, fate: &Fate) -> io::Result<()> {
        let begin = *self.begin.get_or_insert(packet.time);
        let about = describe(self.codec, self.has_donl, packet.rtp.payload);
        if fate.lost > 0 {
            let lost = counted(fate.lost.into(), "packet");
            self.note(&format!("lost: {lost} before {}", packet.rtp.sequence))?;
        }
        self.line(begin, packet, &about)?;
        if fate.is_moved {
            self.note("it came behind a later packet")?;
        }
        if packet.is_resent {
            self.note("recovered by RTX")?;
        }
        note_of(&fate.became).map_or(Ok(()), |note| self.note(&note))
    }

    fn line(&mut self, begin: u64, packet: &Captured<'_>, about: &Description) -> io::Result<()> {
        let rtp = &packet.rtp;
        let kind = match rtp.is_padding() {
            true => "padding".into(),
            false => format!("{} {}", about.kind, about.marks),
        };
        let key = if about.is_keyframe { "  keyframe" } else { "" };
        writeln!(
            self.to,
            "{:5} {:>12} {:11} {} {:5}  {kind:<10}  {}{}",
            rtp.sequence,
            seconds(begin, packet.time),
            rtp.timestamp,
            if rtp.marker { 'M' } else { ' ' },
            rtp.payload.len(),
            in_words(packet, about),
            self.painter.paint(Look::Keyframe, key),
        )
    }

    /// What is to be said of the packet above, or between two.
    fn note(&mut self, what: &str) -> io::Result<()> {
        let note = self.painter.paint(Look::Note, &format!("! {what}"));
        writeln!(self.to, "      {note}")
    }

    /// Prints what is there so far.
    pub fn pass_on(&mut self) -> io::Result<()> {
        self.to.flush()
    }

    /// Puts what there is on a page of pictures.
    pub fn draw(&self, page: &mut Page, stream: &Stream, tally: &Tally, passed: &PassedOver) {
        if let Some(chart) = &self.chart {
            page.add(stream, self.codec, chart, tally, &told(tally, passed));
        }
    }

    pub fn end(mut self, tally: &Tally, passed: &PassedOver) -> io::Result<()> {
        let mut end = told(tally, passed);
        match self.form {
            Form::Json | Form::JsonSummary => json::end(&mut self.to, tally, &end)?,
            _ => {
                end.extend(tally.known());
                end.extend(statistics::sentences(tally));
                end.push(tally.totals());
                writeln!(self.to, "{}", end.join("\n"))?;
            }
        }
        self.to.flush()
    }
}

/// What is odd, a sentence each.
fn told(tally: &Tally, passed: &PassedOver) -> Vec<String> {
    let mut told = tally.oddities();
    told.extend(passed.told());
    told
}

/// What became of a packet, where that is to be said.
fn note_of(became: &Became) -> Option<String> {
    Some(match became {
        Became::Taken { gave_up: true } => {
            "a unit is given up, of which a packet is missing".into()
        }
        Became::Taken { .. } | Became::Padding => return None,
        Became::TooLong => "its unit is given up, since it is longer than --run-limit".into(),
        Became::Late(behind) => format!("not taken: it came twice, or late, {behind} behind"),
        Became::Refused(reason) => format!("refused: {reason}"),
        Became::Cut => "not taken: the capture has only its front".into(),
    })
}

/// What the receiver tells of an access unit.
fn about_unit(unit: &ReceivedAccessUnit) -> String {
    let numbers = match unit.first == unit.last {
        true => format!("{}", unit.first),
        false => format!("{} to {}", unit.first, unit.last),
    };
    let missing = format!("{} missing", unit.missing);
    let facts = [
        (is_keyframe(unit.extra), "keyframe"),
        (unit.missing > 0, missing.as_str()),
        (unit.continues, "goes on with the one before"),
        (unit.is_whole, "whole"),
        (!unit.is_whole, "not known to be whole"),
        (unit.is_clean, "clean"),
        (unit.is_disposable, "disposable"),
    ];
    let facts = facts.into_iter().filter(|it| it.0).map(|it| it.1);
    let facts: Vec<&str> = facts.collect();
    let bytes = counted(unit.bytes.len() as u64, "byte");
    format!("access unit of {numbers}, {bytes}: {}", facts.join(", "))
}

/// A packet's units with their lengths, or how much padding it has alone.
fn in_words(packet: &Captured<'_>, about: &Description) -> String {
    if packet.rtp.is_padding() {
        return counted(packet.rtp.padding.into(), "byte");
    }
    let units = about.units.iter().map(|(name, len)| match len {
        Some(len) => format!("{name} {len}"),
        None => (*name).into(),
    });
    units.collect::<Vec<String>>().join(", ")
}

/// How long after the first packet another was captured, in seconds.
pub fn seconds(begin: u64, time: u64) -> String {
    let micros = time.abs_diff(begin) / 1000;
    let sign = if time < begin { "-" } else { "" };
    format!("{sign}{}.{:06}", micros / 1_000_000, micros % 1_000_000)
}
