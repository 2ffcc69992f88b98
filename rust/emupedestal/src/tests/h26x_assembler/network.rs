//! Access units through a network that loses, repeats and reorders packets: by a small generator of numbers, against
//! what came of what was sent.

use crate::proved::h26x_assembler::{AccessUnit, AccessUnitAssembler, assemble_all};
use crate::proved::h26x_core::Packetizer;
use crate::proved::h26x_depacketizer::RunDepacketizer;
use crate::proved::h26x_receiver::SequencedDepacketizer;
use crate::proved::h26x_reorder::RtpPacket;
use crate::proved::h264_payload::{H264Depacketizer, H264Packetizer};
use crate::proved::h265_payload::{H265Depacketizer, H265Packetizer};
use crate::proved::h266_payload::{H266Depacketizer, H266Packetizer};

/// Numbers of a linear congruence, by the constants of MMIX (Knuth).
struct Draws {
    state: u64,
}

impl Draws {
    /// A number below this one.
    fn below(&mut self, count: u64) -> u64 {
        self.state = self
            .state
            .wrapping_mul(6_364_136_223_846_793_005)
            .wrapping_add(1_442_695_040_888_963_407);
        (self.state >> 33) % count
    }
}

/// A packet that was sent.
struct Sent {
    sequence: u16,
    timestamp: u32,
    marker: bool,
    payload: Vec<u8>,
    came: bool,
}

/// A unit and its packets.
struct Unit {
    bytes: Vec<u8>,
    packets: Vec<Sent>,
}

/// The units of an access unit.
struct Picture {
    timestamp: u32,
    units: Vec<Unit>,
}

/// A unit with this header and some bytes more, none of which make a start code.
fn draw_unit(draws: &mut Draws, header: &[u8]) -> Vec<u8> {
    let mut unit = header.to_vec();
    for _ in 0..draws.below(60) {
        unit.push(0x80 + draws.below(128) as u8);
    }
    unit.push(0x80);
    unit
}

/// Sends some units of one timestamp: the last packet bears the marker.
fn send_picture<P: Packetizer>(
    draws: &mut Draws,
    packetizer: &mut P,
    header: &[u8],
    timestamp: u32,
    sequence: &mut u16,
) -> Picture {
    let mut units = Vec::new();
    let count = draws.below(3);
    for place in 0..=count {
        let bytes = draw_unit(draws, header);
        let mut packets = Vec::new();
        for payload in packetizer.packetize(20, &bytes).expect("memory") {
            packets.push(Sent {
                sequence: *sequence,
                timestamp,
                marker: false,
                payload,
                came: draws.below(8) != 0,
            });
            *sequence = sequence.wrapping_add(1);
        }
        packets.last_mut().expect("a packet").marker = place == count;
        units.push(Unit { bytes, packets });
    }
    Picture { timestamp, units }
}

/// Sends pictures with this header.
fn send<P: Packetizer>(draws: &mut Draws, mut packetizer: P, header: &[u8]) -> Vec<Picture> {
    let mut sequence = 65500;
    (1..=20)
        .map(|place| send_picture(draws, &mut packetizer, header, place * 3000, &mut sequence))
        .collect()
}

/// The packets that came, some of them behind later ones, and some twice.
fn bring<'a>(draws: &mut Draws, pictures: &'a [Picture]) -> Vec<&'a Sent> {
    let mut brought = Vec::new();
    let mut held = None;
    let units = pictures.iter().flat_map(|picture| &picture.units);
    let packets = units.flat_map(|unit| &unit.packets);
    for sent in packets.filter(|sent| sent.came) {
        if held.is_none() && draws.below(4) == 0 {
            held = Some(sent);
            continue;
        }
        brought.push(sent);
        if draws.below(8) == 0 {
            brought.push(sent);
        }
        if draws.below(2) == 0 {
            brought.extend(held.take());
        }
    }
    brought.extend(held);
    brought
}

/// Brings the packets of pictures, and receives them: none is refused.
fn receive<D: RunDepacketizer>(
    draws: &mut Draws,
    depacketizer: D,
    pictures: &[Picture],
) -> Vec<AccessUnit> {
    let packets: Vec<RtpPacket<'_>> = bring(draws, pictures)
        .into_iter()
        .map(|sent| RtpPacket {
            sequence: sent.sequence,
            timestamp: sent.timestamp,
            marker: sent.marker,
            payload: &sent.payload,
        })
        .collect();
    let sequenced = SequencedDepacketizer::new(depacketizer, 4_000_000);
    let mut receiver = AccessUnitAssembler::new(sequenced, 8_000_000);
    let mut given = Vec::new();
    let answers = assemble_all(&mut receiver, 16, &packets, &mut given).expect("memory");
    assert!(answers.iter().all(|answer| answer.is_ok()));
    receiver.finish(&mut given).expect("memory");
    given
}

/// Compares access units with what came of pictures: those of which a packet came, in order, the text of their whole
/// units, and whether all of it came, and the packet before it.
#[track_caller]
fn compare(pictures: &[Picture], given: &[AccessUnit]) {
    let mut given = given.iter();
    let mut before = false;
    for picture in pictures {
        let mut text = Vec::new();
        let mut is_whole = true;
        for unit in &picture.units {
            if unit.packets.iter().all(|sent| sent.came) {
                text.extend_from_slice(&[0, 0, 0, 1]);
                text.extend_from_slice(&unit.bytes);
            } else {
                is_whole = false;
            }
        }
        let mut packets = picture.units.iter().flat_map(|unit| &unit.packets);
        if packets.clone().any(|sent| sent.came) {
            let unit = given.next().expect("an access unit is missing");
            assert_eq!(unit.timestamp, picture.timestamp);
            assert_eq!(unit.bytes, text);
            assert_eq!(unit.is_whole, before && is_whole);
        }
        before = packets.next_back().is_some_and(|last| last.came);
    }
    assert!(given.next().is_none());
}

/// Sends pictures, receives their packets and compares what is given out.
#[track_caller]
fn simulate<P: Packetizer, D: RunDepacketizer>(
    packetizer: P,
    depacketizer: D,
    header: &[u8],
    seed: u64,
) {
    let mut draws = Draws { state: seed };
    let pictures = send(&mut draws, packetizer, header);
    let given = receive(&mut draws, depacketizer, &pictures);
    compare(&pictures, &given);
}

#[test]
fn access_units_through_a_network() {
    for seed in 0..40 {
        simulate(
            H264Packetizer::new(),
            H264Depacketizer::new(),
            &[0x65],
            seed,
        );
        simulate(
            H265Packetizer::new(),
            H265Depacketizer::new(),
            &[0x26, 1],
            seed,
        );
        simulate(
            H266Packetizer::new(),
            H266Depacketizer::new(),
            &[0, 0x39],
            seed,
        );
    }
}
