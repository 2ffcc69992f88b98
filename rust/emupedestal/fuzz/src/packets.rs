//! Packets, any whatever, through a depacketizer, a receiver of packets with their sequence numbers, and a buffer
//! with a receiver of access units.
//!
//! A byte of [`Settings`], whose further bits choose the limit on a run; a byte that chooses the window (bits 0 to
//! 4) and the limit on an access unit; and then, for each packet, a byte of [`Step`] and the packet.

use crate::assembler::Assemblers;
use crate::ends::Taking;
use crate::input::{Input, Settings};
use crate::receivers::Receiver;
use crate::shown;
use crate::text::{
    Kind, aggregated, fragment_data, header_len, is_key_type, kind_of, paci_unit, text_of,
    told_after, type_of, units_behind_lengths,
};
use emupedestal::{Codec, CodecExtra, PacketError};
use emupedestal::{H264Depacketizer, H265Depacketizer, H266Depacketizer};

/// The limits of which the settings choose one.
pub const LIMITS: [usize; 8] = [0, 1, 4, 16, 64, 1000, 4096, 1 << 20];

/// What happens before a packet, and how its RTP header goes on from the packet before.
pub struct Step(pub u8);

impl Step {
    /// The sequence number, of which some are missing, late or the same.
    pub fn sequence(&self, before: u16) -> u16 {
        const STEPS: [u16; 8] = [1, 1, 2, 0, 0xffff, 3, 0x8000, 0xffd8];
        before.wrapping_add(STEPS[usize::from(self.0 & 7)])
    }

    pub fn has_marker(&self) -> bool {
        self.0 & 8 != 0
    }

    pub fn is_new_time(&self) -> bool {
        self.0 & 16 != 0
    }

    /// Whether the other form is set, lengths or start codes.
    pub fn turns_form(&self) -> bool {
        self.0 & 32 != 0
    }

    /// Whether the open unit is given up, and receivers begin anew.
    pub fn restarts(&self) -> bool {
        self.0 & 64 != 0
    }

    /// Whether decoding order numbers are turned on or off.
    pub fn turns_numbers(&self) -> bool {
        self.0 & 128 != 0
    }
}

/// What an output holds already.
pub const FRONT: [u8; 3] = [7, 0, 1];

pub fn run(data: &[u8]) {
    let mut input = Input::new(data);
    let settings = Settings::read(&mut input);
    match settings.codec {
        Codec::H264 => run_of::<H264Depacketizer>(settings, input),
        Codec::H265 => run_of::<H265Depacketizer>(settings, input),
        Codec::H266 => run_of::<H266Depacketizer>(settings, input),
    }
}

fn run_of<D: Taking>(settings: Settings, mut input: Input) {
    let run_limit = LIMITS[usize::from(settings.more & 7)];
    let windows = input.byte();
    let (mut donl, mut avc) = (settings.donl, settings.avc);
    let mut plain = D::with_settings(donl, avc);
    let mut receiver = Receiver::<D>::new(donl, avc, run_limit);
    let mut assemblers = Assemblers::new(settings, run_limit, windows);
    let (mut told, mut sequence, mut timestamp) = (CodecExtra::None, 65530_u16, 0_u32);
    while !input.is_empty() {
        let step = Step(input.byte());
        let packet = input.bytes();
        if step.turns_form() {
            avc = !avc;
            plain.set_avc(avc);
            receiver.set_avc(avc);
        }
        if step.turns_numbers() && D::CODEC != Codec::H264 {
            donl = !donl;
            plain.set_donl(donl);
            receiver.set_donl(donl);
            assemblers.set_donl(donl);
        }
        if step.restarts() {
            plain.give_up();
            assert_eq!(plain.run(), 0);
            receiver.restart();
            assemblers.restart();
        }
        sequence = step.sequence(sequence);
        if step.is_new_time() {
            timestamp = timestamp.wrapping_add(3000);
        }
        take(&mut plain, donl, avc, packet, &mut told);
        receiver.receive(sequence, packet);
        assemblers.receive(sequence, timestamp, step.has_marker(), packet);
    }
    assemblers.end();
}

/// Gives a packet to a depacketizer.
fn take<D: Taking>(end: &mut D, donl: bool, avc: bool, packet: &[u8], told: &mut CodecExtra) {
    let (before, told_before) = (end.clone(), *told);
    let mut out = FRONT.to_vec();
    let answer = end.depacketize(packet, &mut out, told);
    check_other_depacketizers(&before, end, donl, packet, answer);
    match answer {
        Err(error) => {
            assert_ne!(error, PacketError::OutOfMemory);
            assert!(!error.to_string().is_empty());
            assert_eq!(
                (&out[..], *told),
                (&FRONT[..], told_before),
                "a refusal leaves all"
            );
            assert!(*end == before, "a refusal leaves the depacketizer");
        }
        Ok(()) => {
            let written = out.strip_prefix(&FRONT).expect("what stood there stays");
            let run_before = before.run();
            check_sizes(run_before, end.run(), packet, written);
            let mut other = before;
            other.set_avc(!avc);
            let (mut other_text, mut other_told) = (Vec::new(), told_before);
            assert_eq!(
                other.depacketize(packet, &mut other_text, &mut other_told),
                Ok(())
            );
            assert_eq!(other_told, *told);
            other.set_avc(avc);
            assert!(other == *end, "the form is that of the text alone");
            let (codes, lengths) = match avc {
                true => (&other_text[..], written),
                false => (written, &other_text[..]),
            };
            let units = units_behind_lengths(lengths);
            assert_eq!(codes, text_of(false, &units));
            assert_eq!(*told, told_after(D::CODEC, told_before, &units));
            check_units::<D>(donl, packet, &units, run_before, end.run());
            if let Some(it) = end.shown() {
                shown::check(donl, packet, &units, it);
            }
        }
    }
    check_questions(end, packet);
}

/// A packet is refused for what it is, whatever came before it; and one that is no fragment brings the same.
fn check_other_depacketizers<D: Taking>(
    before: &D,
    end: &D,
    donl: bool,
    packet: &[u8],
    answer: Result<(), PacketError>,
) {
    let mut fresh = D::with_settings(donl, false);
    let (mut text, mut told) = (Vec::new(), CodecExtra::None);
    assert_eq!(fresh.depacketize(packet, &mut text, &mut told), answer);
    if answer.is_ok() && !matches!(kind_of(D::CODEC, packet), Kind::Fragment(..)) {
        assert_eq!(end.run(), before.run(), "the open unit stays");
        let mut again = before.clone();
        again.set_avc(false);
        let (mut same, mut same_told) = (Vec::new(), CodecExtra::None);
        assert_eq!(again.depacketize(packet, &mut same, &mut same_told), Ok(()));
        assert_eq!((text, told), (same, same_told));
    }
}

/// A packet adds no more than its own length to the open unit, and writes no more than twice its length and the
/// open unit, with a header and the four bytes before it.
fn check_sizes(run_before: usize, run: usize, packet: &[u8], written: &[u8]) {
    assert!(run <= run_before + packet.len());
    assert!(written.len() <= 2 * packet.len() + run_before + 6);
}

/// The units that an accepted packet completed are those of its bytes; and the open unit goes on by a fragment.
fn check_units<D: Taking>(
    donl: bool,
    packet: &[u8],
    units: &[&[u8]],
    run_before: usize,
    run: usize,
) {
    let is_key = |unit: &&[u8]| type_of(D::CODEC, unit).is_some_and(|it| is_key_type(D::CODEC, it));
    let has_key = units.iter().any(is_key);
    match kind_of(D::CODEC, packet) {
        Kind::Single => {
            let (header, data) = packet.split_at(packet.len().min(2));
            let data = if donl { &data[2..] } else { data };
            assert_eq!(units, [[header, data].concat()]);
            assert!(donl || D::detects(packet) == has_key);
        }
        Kind::Aggregate => {
            assert_eq!(units, aggregated(D::CODEC, donl, packet));
            assert!(donl || !D::detects(packet) || has_key);
        }
        Kind::Paci => assert_eq!(units, [paci_unit(packet)]),
        Kind::Fragment(marks) => {
            let data = fragment_data(D::CODEC, donl, marks.starts, packet);
            let before = if marks.starts { 0 } else { run_before };
            // Without a start there may be an open unit of which no data came.
            let is_open = marks.starts || run_before > 0;
            assert!(units.len() <= usize::from(marks.ends));
            assert!(!(marks.ends && is_open) || units.len() == 1);
            for unit in units {
                assert_eq!(unit.len(), header_len(D::CODEC) + before + data.len());
                assert!(unit.ends_with(data));
                assert_eq!(type_of(D::CODEC, unit), Some(marks.unit_type));
            }
            assert!(!marks.ends || run == 0);
            assert!(marks.ends || !is_open || run == before + data.len());
            assert_eq!(
                D::detects(packet),
                marks.starts && is_key_type(D::CODEC, marks.unit_type)
            );
        }
    }
}

/// What is asked of a packet alone, whatever it is.
fn check_questions<D: Taking>(end: &D, packet: &[u8]) {
    let is_short = packet.len() < 2;
    assert!(!(is_short && end.is_partition_head(packet)));
    assert!(!(is_short && D::detects(packet) && D::CODEC != Codec::H264));
    if D::CODEC == Codec::H264 {
        assert!(end.is_partition_tail(true, packet) && !end.is_partition_tail(false, packet));
    }
    let hint = packet.len() + 4 + packet.len() / 1200 * 4;
    assert_eq!(end.out_size_hint(packet.len()), Some(hint));
}
