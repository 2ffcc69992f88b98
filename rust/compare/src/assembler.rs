//! `AccessUnitAssembler` and `ReorderBuffer`, which the library has no calls of, beside plain models of them, the
//! former over the library's receiver: what a window of packets gives out, and the access units.

#[cfg(feature = "library")]
use crate::c;
use crate::log::{Log, became, code, told};
#[cfg(feature = "library")]
use crate::log::{Outcome, Received, number};
use crate::making::Making;
use crate::random::Random;
use crate::runs::beside;
use emupedestal::{AccessUnitAssembler, Codec, ReorderBuffer, RtpPacket};

/// A packet: its number, its timestamp, its marker and its payload.
type Rtp = (u16, u32, bool, Vec<u8>);

/// An access unit that the model below has open or gave out.
#[cfg(feature = "library")]
#[derive(Debug, Clone)]
struct Unit {
    timestamp: u32,
    bytes: Vec<u8>,
    extra: u8,
    is_whole: bool,
}

/// Packets of some pictures: fragments, units and what strangers send, with losses and repeats.
fn drawn(m: &mut Making) -> Vec<Rtp> {
    let mut sequence = m.random.word() as u16;
    let mut timestamp = m.random.word();
    let mut packets: Vec<Rtp> = Vec::new();
    for _ in 0..m.random.between(2, 40) {
        let marker = m.random.one_in(4);
        let packet = m.packet();
        if !m.random.one_in(10) {
            packets.push((sequence, timestamp, marker, packet));
        }
        sequence = match m.random.below(60) {
            0 => sequence.wrapping_add(0x7ffe + m.random.below(6) as u16),
            _ => sequence.wrapping_add(1),
        };
        if marker && !m.random.one_in(6) || m.random.one_in(12) {
            timestamp = timestamp.wrapping_add(3000);
        }
    }
    for i in 1..packets.len() {
        if m.random.one_in(5) {
            let j = i - m.random.below(i.min(4) + 1);
            packets.swap(i, j);
        }
        if m.random.one_in(12) {
            packets[i] = packets[i - 1].clone();
        }
    }
    packets
}

/// What is due, in the order in which a buffer gives it out.
fn in_order(packets: &[Rtp], window: u16, ours: &mut Log, theirs: &mut Log) -> Vec<Rtp> {
    let mut buffer = ReorderBuffer::new(window);
    let mut model_buffer = ModelBuffer::new(window);
    let mut due: Vec<Rtp> = Vec::new();
    for packet in packets {
        ours.say(
            "push",
            buffer.push(&rtp(packet)).map(|it| format!("{it:?}")),
        );
        theirs.say("push", Ok::<_, ()>(model_buffer.push(packet)));
        loop {
            let popped = buffer
                .pop()
                .map(|it| (it.sequence, it.timestamp, it.marker, it.payload));
            ours.say("pop", &popped);
            theirs.say("pop", model_buffer.pop());
            match popped {
                Some(it) => due.push(it),
                None => break,
            }
        }
        ours.say("len", buffer.len());
        theirs.say("len", model_buffer.held.len());
    }
    while let Some(it) = buffer.pop_first() {
        due.push((it.sequence, it.timestamp, it.marker, it.payload));
        ours.say("first", due.last());
        theirs.say("first", model_buffer.pop_first().as_ref());
    }
    due
}

pub fn assembled(seed: u64, case: u64, ours: &mut Log, theirs: &mut Log) {
    let mut m = Making::new(seed ^ 0xf7a3e5, case);
    let codec = [Codec::H264, Codec::H265, Codec::H266][m.codec];
    let unit_limit = m.random.of(&[0, 6, 12, 40, 1000, usize::MAX]);
    let window = m.random.of(&[1, 2, 3, 8, 64]);
    let mut assembler = AccessUnitAssembler::new(codec, usize::MAX, unit_limit);
    let avc = m.random.one_in(4);
    assembler.set_avc(avc);
    assembler.with_donl(m.has_donl);
    let packets = drawn(&mut m);
    #[cfg(feature = "library")]
    let mut model = Model {
        codec,
        packets: c::receiver(number(codec), m.has_donl, avc, usize::MAX),
        expected: None,
        open: None,
        closed: None,
        given: Vec::new(),
        unit_limit,
    };
    let due = in_order(&packets, window, ours, theirs);
    let mut units = Vec::new();
    for packet in &due {
        let received = assembler.receive(&rtp(packet), &mut units);
        ours.say("receive", received.map(became).map_err(code));
        ours.say("open", assembler.unit_len());
        beside! {
            theirs.say("receive", model.receive(packet));
            theirs.say("open", model.open.as_ref().map_or(0, |unit| unit.bytes.len()));
        }
        if m.random.one_in(8) {
            let copy = assembler.clone();
            ours.say("same", copy == assembler);
            theirs.say("same", true);
            assembler = copy;
        }
    }
    ours.say("end", assembler.finish(&mut units).is_ok());
    theirs.say("end", true);
    for unit in &units {
        ours.say(
            "unit",
            (
                unit.timestamp,
                &unit.bytes,
                told(codec, unit.extra),
                unit.is_whole,
            ),
        );
    }
    beside! {
        model.end(false);
        for unit in &model.given {
            theirs.say("unit", (unit.timestamp, &unit.bytes, unit.extra, unit.is_whole));
        }
    }
}

fn rtp(packet: &Rtp) -> RtpPacket<'_> {
    let (sequence, timestamp, marker, payload) = packet;
    RtpPacket {
        sequence: *sequence,
        timestamp: *timestamp,
        marker: *marker,
        payload,
    }
}

/// A packet at one of the places, which goes on, or stays the one of before.
fn at_a_place(random: &mut Random, places: &mut [(u16, bool)], place: &mut usize) -> Rtp {
    if random.one_in(6) {
        *place = random.below(places.len());
    }
    let (number, goes_up) = &mut places[*place];
    let step = if random.one_in(8) {
        random.below(40) as u16
    } else {
        1
    };
    *number = if *goes_up {
        number.wrapping_add(step)
    } else {
        number.wrapping_sub(step)
    };
    (
        *number,
        random.word(),
        random.one_in(2),
        vec![random.byte()],
    )
}

/// Many packets held at once, which come again and again at a few places among the others, as a buffer
/// parts its list there.
pub fn reordered(seed: u64, case: u64, ours: &mut Log, theirs: &mut Log) {
    let mut random = Making::new(seed ^ 0x9d2c56, case).random;
    let window = random.of(&[40, 100, 300, 1000, 1 << 14]);
    let mut buffer = ReorderBuffer::new(window);
    let mut model = ModelBuffer::new(window);
    let start = random.word() as u16;
    // Where packets come, and whether they go up from there or down.
    let mut places: Vec<(u16, bool)> = (0..random.between(1, 4))
        .map(|_| {
            (
                start.wrapping_add(random.below(usize::from(window)) as u16),
                random.one_in(2),
            )
        })
        .collect();
    let mut place = 0;
    for _ in 0..random.between(50, 600) {
        let packet = at_a_place(&mut random, &mut places, &mut place);
        ours.say(
            "push",
            buffer.push(&rtp(&packet)).map(|it| format!("{it:?}")),
        );
        theirs.say("push", Ok::<_, ()>(model.push(&packet)));
        if random.one_in(300) {
            buffer.restart();
            model = ModelBuffer::new(window);
        }
        let takes_any = random.one_in(20);
        for _ in 0..random.below(4) {
            let popped = if takes_any {
                buffer.pop_first()
            } else {
                buffer.pop()
            };
            let first = if takes_any {
                model.pop_first()
            } else {
                model.pop()
            };
            let popped = popped.map(|it| (it.sequence, it.timestamp, it.marker, it.payload));
            ours.say("pop", popped);
            theirs.say("pop", first);
        }
        ours.say("len", (buffer.len(), buffer.is_empty()));
        theirs.say("len", (model.held.len(), model.held.is_empty()));
    }
    while let Some(it) = buffer.pop_first() {
        ours.say(
            "first",
            Some((it.sequence, it.timestamp, it.marker, it.payload)),
        );
        theirs.say("first", model.pop_first());
    }
    ours.say("left", 0);
    theirs.say("left", model.held.len());
}

/// A plain model of a buffer: packets by their distance from the number that is due.
struct ModelBuffer {
    window: u16,
    due: Option<u16>,
    held: Vec<Rtp>,
}

impl ModelBuffer {
    fn new(window: u16) -> Self {
        ModelBuffer {
            window,
            due: None,
            held: Vec::new(),
        }
    }

    fn push(&mut self, packet: &Rtp) -> String {
        let first_due = packet.0.wrapping_add(1).wrapping_sub(self.window);
        let due = self.due.unwrap_or(first_due);
        let ahead = packet.0.wrapping_sub(due);
        if ahead >= 0x8000 {
            return format!("Late({})", due.wrapping_sub(packet.0));
        }
        let place = self
            .held
            .partition_point(|it| it.0.wrapping_sub(due) < ahead);
        if self.held.get(place).is_some_and(|it| it.0 == packet.0) {
            return "Twice".into();
        }
        self.due = Some(due);
        self.held.insert(place, packet.clone());
        "Held".into()
    }

    fn pop(&mut self) -> Option<Rtp> {
        let (first, last) = (self.held.first()?, self.held.last()?);
        let due = self.due.expect("a number that is due");
        let ahead = |it: &Rtp| u32::from(it.0.wrapping_sub(due));
        let is_ready =
            ahead(first) == 0 || ahead(last) - ahead(first) + 1 >= u32::from(self.window);
        if is_ready { self.pop_first() } else { None }
    }

    fn pop_first(&mut self) -> Option<Rtp> {
        let first = (!self.held.is_empty()).then(|| self.held.remove(0))?;
        self.due = Some(first.0.wrapping_add(1));
        Some(first)
    }
}

/// Whether a packet that is taken is a fragment with S set.
#[cfg(feature = "library")]
fn starts(codec: Codec, packet: &[u8]) -> bool {
    match codec {
        Codec::H264 => packet[0] & 31 == 28 && packet[1] & 0x80 != 0,
        Codec::H265 => packet[0] >> 1 & 63 == 49 && packet[2] & 0x80 != 0,
        Codec::H266 => packet[1] >> 3 == 29 && packet[2] & 0x80 != 0,
    }
}

/// A plain model of an assembler of access units, over one of packets.
#[cfg(feature = "library")]
struct Model {
    codec: Codec,
    packets: c::End,
    expected: Option<u16>,
    open: Option<Unit>,
    /// The timestamp of the access unit that the marker of the last packet ended.
    closed: Option<u32>,
    given: Vec<Unit>,
    unit_limit: usize,
}

#[cfg(feature = "library")]
impl Model {
    fn receive(
        &mut self,
        (sequence, timestamp, marker, payload): &Rtp,
    ) -> Result<Received, Outcome> {
        let (sequence, timestamp, marker) = (*sequence, *timestamp, *marker);
        let missing = self.expected.map_or(0, |it| sequence.wrapping_sub(it));
        if missing >= 0x8000 {
            let behind = self.expected.expect("it is late").wrapping_sub(sequence);
            return Ok((3, behind));
        }
        let is_next = self.expected == Some(sequence);
        let follows = is_next && self.closed != Some(timestamp);
        let is_same = self
            .open
            .as_ref()
            .is_some_and(|unit| unit.timestamp == timestamp);
        let mut packets = self.packets.receiver_again();
        if !is_same {
            packets.restart();
        }
        let mut unit = match &self.open {
            Some(unit) if is_same => unit.clone(),
            _ => Unit {
                timestamp,
                bytes: Vec::new(),
                extra: 0,
                is_whole: true,
            },
        };
        let before = unit.bytes.len();
        let had_run = is_same && self.packets.run_len() > 0;
        packets.receive(sequence, payload, &mut unit.bytes, &mut unit.extra)?;
        if !is_same {
            self.end(follows);
        }
        self.packets = packets;
        self.expected = Some(sequence.wrapping_add(1));
        let has_run = self.packets.run_len() > 0;
        let is_dropped = unit.bytes.len() == before && !has_run;
        let is_given_up = had_run && starts(self.codec, payload);
        unit.is_whole &= follows && !is_dropped && !is_given_up;
        self.closed = marker.then_some(timestamp);
        if marker {
            self.open = None;
            unit.is_whole &= !has_run;
            self.given.push(unit);
        } else {
            if unit.bytes.len() > self.unit_limit {
                unit = Unit {
                    bytes: Vec::new(),
                    extra: 0,
                    is_whole: false,
                    ..unit
                };
            }
            self.open = Some(unit);
        }
        Ok((u32::from(missing > 0), missing))
    }

    fn end(&mut self, follows: bool) {
        if let Some(mut unit) = self.open.take() {
            unit.is_whole &= follows && self.packets.run_len() == 0;
            self.given.push(unit);
        }
    }
}
