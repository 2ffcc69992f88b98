//! Which streams a capture has, and which of them are looked at.

use crate::captures::capture::Capture;
use crate::captures::input::FRONT;
use crate::captures::packets::{Met, Source, Stream, each_packet};
use crate::captures::rtp::Rtp;
use crate::captures::seen::PassedOver;
use crate::commands::arguments::Looking;
use crate::errors::Failure;
use crate::streams::codecs::Likeness;
use crate::streams::guesses::Types;
use crate::streams::guises::{Guise, Looks};
use crate::streams::payload_types::PayloadTypes;
use crate::streams::repairs::Repairs;
use crate::streams::takers::Takers;
use crate::streams::undone::Session;
use emupedestal::Codec;
use emupedestal::rtp::RedPayload;
use std::cmp::Reverse;
use std::collections::{HashMap, HashSet};
use std::net::IpAddr;
use std::ops::ControlFlow;

/// How many streams are kept in mind; where there are more, those of one packet are forgotten.
const MOST: usize = 4096;
/// How many streams are looked at together.
pub const MOST_TOGETHER: usize = 64;
/// How many other streams are named.
const NAMED: usize = 8;
/// A sequence number that is further ahead follows none (RFC 3550, A.1).
const MAX_DROPOUT: u16 = 3000;
/// So many turns of two senders are no change of an address.
const FEW_TURNS: u64 = 8;
/// Of a pipe a stream is chosen once so many of its packets follow one another.
const ENOUGH: u64 = 64;

/// What the user asks for.
#[derive(Default, Clone, Copy)]
pub struct Choice {
    pub port: Option<u16>,
    pub payload_type: Option<u8>,
    pub ssrc: Option<u32>,
    pub codec: Option<Codec>,
    /// Whether all such streams are looked at, and not the first alone.
    pub is_all: bool,
}

impl Choice {
    fn takes(&self, stream: &Stream) -> bool {
        self.port.is_none_or(|it| it == stream.to.1)
            && self.payload_type.is_none_or(|it| it == stream.payload_type)
            && self.ssrc.is_none_or(|it| it == stream.ssrc)
    }

    /// Whether a stream is one that is asked for, and its packets look as those of the codec do.
    fn suits(&self, known: &Known) -> bool {
        let is_codec = match self.codec {
            Some(codec) => known.likeness.is_likely(codec),
            None => known.likeness.likeliest().is_some(),
        };
        let is_retransmission = || matches!(known.guise(), Some(Guise::Retransmission(_)));
        is_codec && self.takes(&known.stream) && !(self.is_any() && is_retransmission())
    }

    fn is_any(&self) -> bool {
        self.port.is_none() && self.payload_type.is_none() && self.ssrc.is_none()
    }

    /// The places of the streams that are to be looked at: those of the codec that is asked for, or
    /// where there is none the first.
    fn chosen(&self, known: &[Known]) -> Vec<usize> {
        // Where many have one packet each, none of them is RTP.
        let is_stream =
            |it: &Known| it.following > 1 || (!self.is_all && (known.len() == 1 || !self.is_any()));
        let places = |takes: &dyn Fn(&Known) -> bool, most: usize| -> Vec<usize> {
            let places = 0..known.len();
            let is_taken = |at: &usize| is_stream(&known[*at]) && takes(&known[*at]);
            places.filter(is_taken).take(most).collect()
        };
        if self.is_all {
            return places(&|it| self.suits(it), MOST_TOGETHER);
        }
        let suiting = places(&|it| self.suits(it), 1);
        match suiting[..] {
            [] => places(&|it| self.takes(&it.stream), 1),
            _ => suiting,
        }
    }
}

/// What is known of a stream.
pub struct Known {
    pub stream: Stream,
    /// The place of its source.
    source: Option<usize>,
    pub packets: u64,
    pub likeness: Likeness,
    looks: Looks,
    /// Whether packets of its source look encrypted.
    is_encrypted: bool,
    /// How many packets follow the one before them, by their numbers.
    following: u64,
    sequence: u16,
    /// How many of its packets come behind one of the same source and another payload type, and how
    /// many of these have the next number.
    switches: (u64, u64),
    /// Where its last packet came from, where those before that, and how many came from another place
    /// than the one before.
    from: (IpAddr, u16),
    from_before: (IpAddr, u16),
    turns: u64,
    /// The place of its first packet among those of all streams.
    place: u64,
}

impl Known {
    /// What it is, where its payloads aren't those of a codec as they are.
    pub fn guise(&self) -> Option<Guise> {
        match self.is_encrypted {
            true => Some(Guise::Encrypted),
            false => self.looks.guise(&self.likeness),
        }
    }

    /// What is to be said where two senders have its SSRC (RFC 3550, 8.2).
    pub fn two_senders(&self) -> Option<String> {
        let ((one, one_port), (other, other_port)) = (self.from_before, self.from);
        (self.turns >= FEW_TURNS && self.turns * 8 >= self.packets).then(|| {
            format!(
                "its packets come from {one} port {one_port} and {other} port {other_port} by turns: \
                 two senders have one SSRC, and what they send can't be told apart (RFC 3550, 8.2)"
            )
        })
    }

    /// Whether its packets, of the source of another stream, aren't numbered with those of that one, or are missing there:
    /// those of the same codec under another payload type may be of its units.
    fn is_apart_from(&self, other: &Known, types: &PayloadTypes) -> bool {
        let holds_the_same = || {
            let codec = other.likeness.likeliest();
            codec.is_some_and(|it| self.likeness.is_likely(it))
        };
        let payload_type = self.stream.payload_type;
        let is_said = types.is_red(payload_type) || types.is_fec(payload_type);
        self.stream != other.stream && !is_said && (!self.joins() || holds_the_same())
    }

    /// Whether its numbers go on from those of other payload types of its source.
    fn joins(&self) -> bool {
        let (switches, next) = self.switches;
        next * 2 > switches
    }
}

/// The streams of a capture, those first in which most packets follow one another.
pub struct Streams {
    known: Vec<Known>,
    /// The places of those that are looked at.
    chosen: Vec<usize>,
    types: Types,
    /// Which of them send others again, by all that the capture has; of a pipe by its front.
    repairs: Repairs,
    /// What is passed over of the session description.
    passed_over: Option<String>,
    is_pipe: bool,
}

impl Streams {
    /// Those that are looked at.
    pub fn chosen(&self) -> impl Iterator<Item = &Known> {
        self.chosen.iter().filter_map(|at| self.known.get(*at))
    }

    /// Those that are not looked at, in words.
    pub fn named_others(&self) -> String {
        let is_other = |at: &usize| !self.chosen.contains(at);
        named(
            (0..self.known.len())
                .filter(is_other)
                .map(|at| &self.known[at]),
        )
    }

    /// All but one, in words.
    pub fn named_beside(&self, stream: &Stream) -> String {
        named(self.known.iter().filter(|it| it.stream != *stream))
    }

    /// Which packets are of a stream.
    pub fn session(&self, stream: &Stream) -> Session {
        Session {
            types: self.types.at(stream.to).of_stream(stream.payload_type),
            ssrc: stream.ssrc,
        }
    }

    /// What is to be said of a stream's session: what is guessed of it, and passed over of its description.
    pub fn notes(&self, stream: &Stream) -> Vec<String> {
        let guessed = self.types.told(stream.to);
        guessed
            .into_iter()
            .chain(self.passed_over.clone())
            .collect()
    }

    pub fn takers(&self) -> Takers {
        let repairs = match self.is_pipe {
            true => Repairs::new(&self.types),
            false => self.repairs.clone(),
        };
        let mut takers = Takers::new(repairs, self.is_pipe);
        for (at, chosen) in self.chosen().enumerate() {
            let source = chosen.stream.source();
            let types = self.types.at(chosen.stream.to);
            let of_source = self.known.iter().filter(|it| it.stream.source() == source);
            let apart = of_source.filter(|it| it.is_apart_from(chosen, types));
            takers.add(at, source, apart.map(|it| it.stream));
        }
        takers
    }
}

/// The streams that were met so far.
#[derive(Default)]
struct MetStreams {
    known: Vec<Known>,
    places: HashMap<Stream, usize>,
    /// The place of the stream that the packet before is of: most are of the same one.
    last_place: usize,
    /// The payload type and the number of the last packet of each of the first `MOST` sources.
    last: Vec<(u8, u16)>,
    sources: HashMap<Source, usize>,
    /// What redundant payloads of each source look like.
    red: HashMap<Source, (Likeness, Looks)>,
    packets: u64,
    /// Whether no other stream is kept in mind any more.
    is_full: bool,
}

impl MetStreams {
    /// Adds a packet; answers what is known of its stream then.
    fn add(&mut self, stream: &Stream, from: (IpAddr, u16), packet: &Rtp<'_>) -> Option<&Known> {
        self.packets += 1;
        self.last_place = self.place_of(stream, from, packet)?;
        let it = &mut self.known[self.last_place];
        let of_it = (packet.payload_type, packet.sequence);
        let last = it
            .source
            .map(|at| std::mem::replace(&mut self.last[at], of_it));
        if it.from != from {
            (it.from_before, it.from) = (it.from, from);
            it.turns += 1;
        }
        let ahead = packet.sequence.wrapping_sub(it.sequence);
        it.following += u64::from(matches!(ahead, 1..=MAX_DROPOUT));
        it.sequence = packet.sequence;
        it.packets += 1;
        if !packet.is_padding() {
            it.likeness.add(packet.payload);
            it.looks.add(packet.payload);
        }
        if let Some((_, before)) = last.filter(|last| last.0 != packet.payload_type) {
            it.switches.0 += 1;
            it.switches.1 += u64::from(packet.sequence == before.wrapping_add(1));
        }
        Some(it)
    }

    /// The place of a stream; of a new one where there is room.
    fn place_of(
        &mut self,
        stream: &Stream,
        from: (IpAddr, u16),
        packet: &Rtp<'_>,
    ) -> Option<usize> {
        let last = self.known.get(self.last_place);
        if last.is_some_and(|it| it.stream == *stream) {
            return Some(self.last_place);
        }
        if let Some(place) = self.places.get(stream) {
            return Some(*place);
        }
        if self.known.len() >= MOST && !self.make_room() {
            return None;
        }
        let place = self.known.len();
        self.places.insert(*stream, place);
        let source = self.source_of(stream, packet);
        self.known.push(Known {
            stream: *stream,
            source,
            packets: 0,
            likeness: Likeness::default(),
            looks: Looks::default(),
            is_encrypted: false,
            following: 0,
            sequence: packet.sequence.wrapping_sub(1),
            switches: (0, 0),
            from,
            from_before: from,
            turns: 0,
            place: self.packets,
        });
        Some(place)
    }

    /// The place of a stream's source; of a new one where there is room.
    fn source_of(&mut self, stream: &Stream, packet: &Rtp<'_>) -> Option<usize> {
        let place = self.last.len();
        match self.sources.get(&stream.source()) {
            Some(place) => Some(*place),
            None if place >= MOST => None,
            None => {
                self.sources.insert(stream.source(), place);
                self.last.push((packet.payload_type, packet.sequence));
                Some(place)
            }
        }
    }

    /// Forgets streams of one packet; whether there is room for another then.
    fn make_room(&mut self) -> bool {
        if !self.is_full {
            self.known.retain(|it| it.packets > 1);
            let places = self.known.iter().enumerate();
            self.places = places.map(|(place, it)| (it.stream, place)).collect();
            self.is_full = self.known.len() >= MOST / 2;
        }
        self.known.len() < MOST
    }

    /// Looks at a redundant payload as it is.
    fn add_red(&mut self, source: Source, payload: &[u8]) {
        if self.red.len() < MOST || self.red.contains_key(&source) {
            let (likeness, looks) = self.red.entry(source).or_default();
            likeness.add(payload);
            looks.add(payload);
        }
    }

    /// All of them, those first in which most packets follow one another.
    fn in_order(self) -> Vec<Known> {
        let mut known = self.known;
        let is_encrypted = |guise: Option<Guise>| guise == Some(Guise::Encrypted);
        let of_red = self
            .red
            .iter()
            .filter(|it| is_encrypted(it.1.1.guise(&it.1.0)));
        let of_known = known.iter().filter(|it| is_encrypted(it.guise()));
        let sources = of_known.map(|it| it.stream.source());
        let encrypted: HashSet<Source> = sources.chain(of_red.map(|it| *it.0)).collect();
        for it in &mut known {
            it.is_encrypted = encrypted.contains(&it.stream.source());
        }
        known.sort_by_key(|it| (Reverse(it.following), it.place));
        known
    }
}

/// Reads a capture, or the front of a pipe, and chooses the streams that are looked at; then the capture begins again.
pub fn choose(capture: &mut Capture, looking: &mut Looking) -> Result<Streams, Failure> {
    let mut types = Types::said(&looking.types);
    let mut looked = look(capture, looking, &types)?;
    if types.guess(&looked.known, &looking.choice) {
        capture.rewind()?;
        looked = look(capture, looking, &types)?;
    }
    let Looked {
        known,
        passed,
        repairs,
    } = looked;
    looking.choose_described(|payload_type| {
        let is_it = |it: &Known| it.stream.payload_type == payload_type && it.following > 1;
        known.iter().any(is_it)
    });
    let choice = &looking.choice;
    let chosen = choice.chosen(&known);
    if chosen.is_empty() {
        return Err(none(capture, choice, &known, &passed));
    }
    capture.rewind()?;
    Ok(Streams {
        known,
        chosen,
        types,
        repairs,
        passed_over: looking.passed_over.clone(),
        is_pipe: capture.is_pipe(),
    })
}

/// What a look at a capture told.
struct Looked {
    known: Vec<Known>,
    passed: PassedOver,
    repairs: Repairs,
}

fn look(capture: &mut Capture, looking: &Looking, types: &Types) -> Result<Looked, Failure> {
    let others = looking.others.iter().map(|it| Choice {
        payload_type: Some(it.payload_type),
        ..looking.choice
    });
    let choices: Vec<Choice> = std::iter::once(looking.choice).chain(others).collect();
    let mut met = MetStreams::default();
    let mut repairs = Repairs::new(types);
    let is_soon = capture.is_pipe() && !looking.choice.is_all;
    let passed = each_packet(capture, Some("looking for streams"), |it| {
        let Met::Packet(stream, from, packet) = it else {
            return Ok(ControlFlow::Continue(()));
        };
        repairs.follow(stream, packet);
        if types.at(stream.to).is_red(stream.payload_type) {
            met.add_red(stream.source(), packet.rtp.payload);
        }
        let (stream, rtp) = primary(types.at(stream.to), stream, &packet.rtp);
        let known = met.add(&stream, from, &rtp);
        let is_clear = |it: &Known| {
            let suits = choices.iter().any(|choice| choice.suits(it));
            it.following >= ENOUGH && suits && !repairs.is_of_again(&it.stream)
        };
        Ok(match known.is_some_and(|it| is_soon && is_clear(it)) {
            true => ControlFlow::Break(()),
            false => ControlFlow::Continue(()),
        })
    })?;
    let mut known = met.in_order();
    known.retain(|it| repairs.repaired_by(&it.stream).is_none());
    Ok(Looked {
        known,
        passed,
        repairs,
    })
}

/// The primary block of a packet of RED, and its stream; of any other the packet itself.
pub fn primary<'a>(types: &PayloadTypes, stream: &Stream, rtp: &Rtp<'a>) -> (Stream, Rtp<'a>) {
    let is_red = types.is_red(stream.payload_type);
    let Some(red) = RedPayload::read(rtp.payload).ok().filter(|_| is_red) else {
        return (*stream, *rtp);
    };
    let payload_type = red.payload_type;
    let of_it = Stream {
        payload_type,
        ..*stream
    };
    let primary = Rtp {
        payload_type,
        payload: red.primary,
        ..*rtp
    };
    (of_it, primary)
}

/// Says that there is no stream, and what there is.
fn none(capture: &Capture, choice: &Choice, known: &[Known], passed: &PassedOver) -> Failure {
    let is_there = |it: &&Known| it.following > 1;
    let said = if !choice.is_any() && !known.is_empty() {
        format!(
            "none of its RTP streams is the one asked for; it has {}",
            named(known)
        )
    } else if choice.is_all && known.iter().any(|it| is_there(&it)) {
        format!(
            "none of its RTP streams looks as one that is asked for; it has {}",
            named(known.iter().filter(is_there))
        )
    } else {
        format!("there is no RTP stream in it{}", passed.why_none())
    };
    let and = match capture.is_front_full() {
        true => format!(
            "\nOf this pipe the first {} MiB were looked at; save the capture in a file first",
            FRONT >> 20
        ),
        false => String::new(),
    };
    Failure::of(capture.path(), said + &and)
}

/// Streams in words; nothing of none.
fn named<'a>(known: impl IntoIterator<Item = &'a Known>) -> String {
    let said = known.into_iter().map(|it| {
        let guise = it.guise().map(|guise| format!(", which look as {guise}"));
        let packets = counted(it.packets, "packet");
        format!("{} ({packets}{})", it.stream, guise.unwrap_or_default())
    });
    let mut said: Vec<String> = said.collect();
    if said.len() > NAMED {
        let more = said.len() - NAMED;
        said.truncate(NAMED);
        said.push(format!("and {more} more"));
    }
    said.join("; ")
}

/// A number with its word, which has an `s` where it isn't one.
pub fn counted(count: u64, word: &str) -> String {
    let s = if count == 1 { "" } else { "s" };
    format!("{count} {word}{s}")
}
