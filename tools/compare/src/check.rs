//! Gives both crates the calls of a case, and compares what they answer.

use crate::answers::{Codec, Extra, Shown, Why};
use crate::case::{Case, Step, hex};
use crate::depacketizer::{DepacketizerModel, Expected, detects_h264};
use crate::packetizer::PacketizerModel;
use crate::pair::{Pair, ours, theirs};
use crate::rules::{self, Rule, Rules};
use crate::str0m::h265::H265PACIPacket;
use std::cell::Cell;
use std::fmt::Debug;
use std::panic::{AssertUnwindSafe, catch_unwind};

/// What stands in `out` before each packet.
const BEFORE: [u8; 3] = [0, 0, 1];

/// What a case came to where no difference is outside the rules.
#[derive(Debug, Default)]
pub struct Checked {
    /// How many answers were compared.
    pub answers: u64,
    /// The rules under which answers differ.
    pub fired: Rules,
}

/// A difference under no rule, or one where ours is not what the rules ask for.
#[derive(Debug)]
pub struct Difference {
    /// The step, counted from 0.
    pub step: usize,
    pub of: &'static str,
    pub theirs: String,
    pub ours: String,
    /// What is asked of ours, where the tool works it out.
    pub expected: Option<String>,
}

/// The pairs of both crates in the middle of a case.
struct Check {
    codec: Codec,
    theirs: Box<dyn Pair>,
    ours: Box<dyn Pair>,
    packetizer: PacketizerModel,
    depacketizer: DepacketizerModel,
    extra: Extra,
    checked: Checked,
}

/// Makes the calls of a case, and compares what both crates answer.
pub fn check(case: &Case) -> Result<Checked, Difference> {
    let mut check = Check {
        codec: case.codec,
        theirs: theirs(case.codec),
        ours: ours(case.codec),
        packetizer: PacketizerModel::new(case.codec),
        depacketizer: DepacketizerModel::new(case.codec),
        extra: Extra::None,
        checked: Checked::default(),
    };
    for (i, step) in case.steps.iter().enumerate() {
        check.step(step).map_err(|difference| Difference {
            step: i,
            ..difference
        })?;
    }
    Ok(check.checked)
}

thread_local! {
    /// Whether this thread is in a call whose panics are answers.
    static IS_GUARDED: Cell<bool> = const { Cell::new(false) };
}

/// Makes a call whose panic is an answer.
fn guarded<T>(call: impl FnOnce() -> Result<T, Why>) -> Result<T, Why> {
    IS_GUARDED.set(true);
    let answer = catch_unwind(AssertUnwindSafe(call)).unwrap_or(Err(Why::Panicked));
    IS_GUARDED.set(false);
    answer
}

/// Has panics that are answers say nothing.
pub fn silence_panics() {
    let usual = std::panic::take_hook();
    std::panic::set_hook(Box::new(move |panic| {
        if !IS_GUARDED.get() {
            usual(panic);
        }
    }));
}

impl Check {
    fn step(&mut self, step: &Step) -> Result<(), Difference> {
        match step {
            Step::Pack { limit, payload } => drop(self.pack(*limit, payload)?),
            Step::Carry { limit, payload } => {
                for packet in self.pack(*limit, payload)? {
                    self.unpack(&packet)?;
                }
            }
            Step::Unpack(packet) => self.unpack(packet)?,
            Step::Same => self.same()?,
            Step::Paci { unit, extension } => self.paci(unit, extension)?,
            Step::Told(extra) => self.extra = *extra,
            Step::Donl(has_donl) => {
                self.both(|pair| pair.with_donl(*has_donl));
                self.packetizer.with_donl(*has_donl);
                self.depacketizer.with_donl(*has_donl);
            }
            Step::Avc(is_avc) => {
                self.both(|pair| pair.set_avc(*is_avc));
                self.depacketizer.set_avc(*is_avc);
            }
            Step::MaxPacketSize(size) => {
                self.ours.with_max_packet_size(*size);
                self.packetizer.with_max_packet_size(*size);
            }
            Step::GiveUp => {
                self.ours.give_up_run();
                self.depacketizer.give_up_run();
            }
            Step::Copy => self.both(|pair| pair.copy()),
        }
        Ok(())
    }

    fn both(&mut self, call: impl Fn(&mut dyn Pair)) {
        call(&mut *self.theirs);
        call(&mut *self.ours);
    }

    /// Compares answers that no rule lets differ.
    fn equal<T: Debug + PartialEq>(
        &mut self,
        of: &'static str,
        theirs: T,
        ours: T,
    ) -> Result<(), Difference> {
        self.judge(of, theirs, ours, None)
    }

    /// Compares two answers with what is asked of ours, which where no rule holds is str0m's too.
    fn compare<T: Debug + PartialEq>(
        &mut self,
        of: &'static str,
        theirs: T,
        ours: T,
        rules: Rules,
        expected: T,
    ) -> Result<(), Difference> {
        self.judge(of, theirs, ours, Some((rules, expected)))
    }

    fn judge<T: Debug + PartialEq>(
        &mut self,
        of: &'static str,
        theirs: T,
        ours: T,
        asked: Option<(Rules, T)>,
    ) -> Result<(), Difference> {
        self.checked.answers += 1;
        let is_same = theirs == ours;
        let is_right = asked.as_ref().map_or(is_same, |(rules, expected)| {
            ours == *expected && (is_same || !rules.is_empty())
        });
        if !is_right {
            return Err(Difference {
                step: 0,
                of,
                theirs: format!("{theirs:?}"),
                ours: format!("{ours:?}"),
                expected: asked.map(|(_, expected)| format!("{expected:?}")),
            });
        }
        if let (false, Some((rules, _))) = (is_same, asked) {
            self.checked.fired.add(rules);
        }
        Ok(())
    }

    /// Packetizes a payload; the packets that ours makes.
    fn pack(&mut self, limit: usize, payload: &[u8]) -> Result<Vec<Vec<u8>>, Difference> {
        let their_limit = self.packetizer.their_mtu(limit);
        let as_they_are = self.packetizer.sends_as_they_are(limit, payload);
        let (expected, rules) = self.packetizer.send(limit, payload);
        let theirs = guarded(|| self.theirs.packetize(their_limit, payload).map(Packets));
        let ours = guarded(|| self.ours.packetize(limit, payload).map(Packets));
        if as_they_are {
            let units = emupedestal::units(self.codec, payload);
            let units = units.filter(|unit| self.packetizer.is_sent(unit));
            let units = Ok(Packets(units.map(<[u8]>::to_vec).collect()));
            self.equal("units of a payload, which are packets", &theirs, &units)?;
        }
        let packets = ours.as_ref().map_or(Vec::new(), |ours| ours.0.clone());
        self.compare("packets", theirs, ours, rules, Ok(Packets(expected)))?;
        let last = packets.last().map_or(payload, Vec::as_slice);
        for (previous, is_last) in [(None, true), (Some(payload), false)] {
            let [theirs, ours] = [&mut self.theirs, &mut self.ours]
                .map(|pair| pair.is_marker(last, previous, is_last));
            self.equal("marker", theirs, ours)?;
        }
        Ok(packets)
    }

    fn unpack(&mut self, packet: &[u8]) -> Result<(), Difference> {
        let Expected {
            taken,
            written,
            extra,
            rules,
        } = self.depacketizer.take(packet, self.extra);
        let [theirs, ours] = [&mut self.theirs, &mut self.ours].map(|pair| {
            let (mut out, mut extra) = (BEFORE.to_vec(), self.extra);
            let taken = guarded(|| pair.depacketize(packet, &mut out, &mut extra));
            (taken, Bytes(out), extra)
        });
        self.extra = ours.2;
        self.compare(
            "outcome, out, extra",
            theirs,
            ours,
            rules,
            (taken, Bytes([&BEFORE[..], &written].concat()), extra),
        )?;
        self.look(packet)?;
        self.show()
    }

    /// Asks what can be asked of a packet without its being taken.
    fn look(&mut self, packet: &[u8]) -> Result<(), Difference> {
        let [theirs, ours] = [&self.theirs, &self.ours].map(|pair| {
            let tails = [true, false].map(|marker| pair.is_tail(marker, packet));
            let len = packet.len();
            let hints = [len, 1200 * len + 1199, usize::MAX - len].map(|len| pair.hint(len));
            (pair.is_head(packet), tails, hints)
        });
        self.equal("head, tail with a marker and without, hints", theirs, ours)?;
        let (theirs, ours) = detect(self.codec, packet);
        if self.codec != Codec::H264 {
            return self.equal("keyframe detected", theirs, ours);
        }
        let (expected, rules) = detects_h264(packet, 5);
        self.compare("keyframe detected", theirs, ours, rules, expected)?;
        self.detect_types(packet)
    }

    /// Looks for the types of H.264 that the packet's first bytes name, and for some more.
    fn detect_types(&mut self, packet: &[u8]) -> Result<(), Difference> {
        let named = packet.iter().take(4).map(|byte| byte & 0x1f);
        for nalu_type in named.chain([0, 1, 7, 24, 28, 0x25, 0xe5]) {
            let theirs = crate::str0m::h264::detect_h264_nalu(packet, nalu_type);
            let ours = emupedestal::detect_h264_nalu(packet, nalu_type);
            let (expected, rules) = detects_h264(packet, nalu_type);
            self.compare("type detected", theirs, ours, rules, expected)?;
        }
        Ok(())
    }

    /// Compares what is shown of the packet that was accepted last.
    fn show(&mut self) -> Result<(), Difference> {
        let (Some(mut theirs), Some(mut ours)) = (self.theirs.shown(), self.ours.shown()) else {
            return Ok(());
        };
        let tsci = [&mut theirs, &mut ours].map(|shown| shown.tsci.take());
        let (rules, expected) = expected_tsci(&ours);
        self.equal("what is shown", theirs, ours)?;
        self.compare("tsci", tsci[0], tsci[1], rules, expected)
    }

    fn same(&mut self) -> Result<(), Difference> {
        let Some(packets) = self.depacketizer.last() else {
            return Ok(());
        };
        let (has_donl, is_avc) = self.depacketizer.settings();
        let theirs = self.theirs.is_same_as(has_donl, is_avc, &packets);
        let ours = self.ours.is_same_as(has_donl, is_avc, &packets);
        let (Some(theirs), Some(ours)) = (theirs, ours) else {
            return Ok(());
        };
        let (expected, rules) = self.depacketizer.is_same_as(&packets);
        self.compare("==", theirs, ours, rules, expected)
    }

    fn paci(&mut self, unit: &[u8], extension: &[u8]) -> Result<(), Difference> {
        let (mut their_buf, mut buf) = (BEFORE.to_vec(), BEFORE.to_vec());
        let theirs = guarded(|| {
            H265PACIPacket::packetize(unit, extension, &mut their_buf)
                .map_err(crate::pair::their_why)
        });
        let ours = guarded(|| {
            emupedestal::H265PACIPacket::packetize(unit, extension, &mut buf)
                .map_err(crate::pair::our_why)
        });
        let mut rules = Rules::default();
        rules.add_if(rules::paci_unit_is_short(unit.len()), Rule::PaciShortUnit);
        rules.add_if(rules::panics(unit.len(), extension.len()), Rule::Panics);
        let theirs = (theirs.map(Bytes), Bytes(their_buf));
        let ours = (ours.map(Bytes), Bytes(buf));
        if rules.is_empty() {
            return self.equal("PACI packet, buffer", theirs, ours);
        }
        let refused = (Err(Why::Short), Bytes(BEFORE.to_vec()));
        self.compare("PACI packet, buffer", theirs, ours, rules, refused)
    }
}

/// Whether each crate detects a keyframe.
fn detect(codec: Codec, packet: &[u8]) -> (bool, bool) {
    use crate::str0m::{h264, h265, h266};
    match codec {
        Codec::H264 => (
            h264::detect_h264_keyframe(packet),
            emupedestal::detect_h264_keyframe(packet),
        ),
        Codec::H265 => (
            h265::detect_h265_keyframe(packet),
            emupedestal::detect_h265_keyframe(packet),
        ),
        Codec::H266 => (
            h266::detect_h266_keyframe(packet),
            emupedestal::detect_h266_keyframe(packet),
        ),
    }
}

/// What ours has to show as `tsci` of a packet, which is shown but for that, and the rules of which
/// a predicate holds.
fn expected_tsci(shown: &Shown) -> (Rules, Option<u32>) {
    let mut rules = Rules::default();
    if shown.kind != "paci" {
        return (rules, None);
    }
    // The bits of a PACI packet are shown as A, F0, F1, F2 and Y, behind three words.
    let extension = &shown.parts[0];
    let has = rules::has_tsci(shown.words[4] == 1, extension);
    rules.add_if(has, Rule::Tsci);
    let word = || u32::from_be_bytes([extension[0], extension[1], extension[2], 0]);
    (rules, has.then(word))
}

/// Bytes as digits; of long ones the first and the last.
fn short_hex(bytes: &[u8]) -> String {
    let len = bytes.len();
    if len <= 64 {
        return hex(bytes);
    }
    let (first, last) = (hex(&bytes[..32]), hex(&bytes[len - 16..]));
    format!("{first}..{last} ({len} bytes)")
}

/// Bytes that are shown as digits.
#[derive(PartialEq)]
struct Bytes(Vec<u8>);

impl Debug for Bytes {
    fn fmt(&self, f: &mut std::fmt::Formatter<'_>) -> std::fmt::Result {
        f.write_str(&short_hex(&self.0))
    }
}

/// Packets that are shown as digits.
#[derive(PartialEq)]
struct Packets(Vec<Vec<u8>>);

impl Debug for Packets {
    fn fmt(&self, f: &mut std::fmt::Formatter<'_>) -> std::fmt::Result {
        let each: Vec<String> = self.0.iter().map(|packet| short_hex(packet)).collect();
        write!(f, "[{}]", each.join(" "))
    }
}
