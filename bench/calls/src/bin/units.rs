//! Times what a packet costs through an `AccessUnitReceiver`, by turns: one copy of each payload into kept memory
//! (the bound), packets by reference, and packets by value, with access units and payloads given back.
//!
//! ```text
//! units [TURNS]             prints a line for each case: medians in nanoseconds a packet
//! units --write FOLDER      writes the packets of each case, as they come, for programs in C and Go
//! units --count CASE ROUNDS takes the packets of one case so many times by reference, for callgrind
//! units --datagrams CASE ROUNDS   the same packets as datagrams, by an `RtpReceiver`
//! ```
//!
//! How the packets come into memory of their own isn't in the times.

#[path = "../network.rs"]
mod network;

use emupedestal::access_unit_receiver::{AccessUnitConfig, AccessUnitReceiver};
use emupedestal::rtp::{RtpDatagram, RtpHeader};
use emupedestal::rtp_receiver::{RtpPayloadTypes, RtpReceiver};
use emupedestal::{Codec, HeldPacket};
use network::{Network, Random, Sent, bound, each, median, packets_of};
use std::hint::black_box;
use std::time::Instant;
use std::{env, fs};

struct Case {
    codec: Codec,
    is_large: bool,
    lost: u64,
    window: u16,
}

impl Case {
    fn name(&self) -> String {
        let size = if self.is_large { "large" } else { "small" };
        format!("{:?}-{size}-{}-{}", self.codec, self.lost, self.window)
    }

    fn config(&self) -> AccessUnitConfig {
        AccessUnitConfig {
            window: self.window,
            ..AccessUnitConfig::default()
        }
    }

    fn packets(&self) -> Vec<Sent> {
        let mut random = Random(88_172_645_463_325_252);
        let sent = packets_of(self.codec, self.is_large, &mut random);
        let network = Network {
            lost: self.lost,
            twice: 0,
            delayed: 5,
        };
        let order = network.arrivals(sent.len(), &mut random);
        order.into_iter().map(|place| sent[place].clone()).collect()
    }
}

fn cases() -> Vec<Case> {
    let mut cases = Vec::new();
    for codec in [Codec::H264, Codec::H265, Codec::H266] {
        for is_large in [true, false] {
            for lost in [0, 1, 10] {
                for window in [64, 512] {
                    cases.push(Case {
                        codec,
                        is_large,
                        lost,
                        window,
                    });
                }
            }
        }
    }
    cases
}

fn by_reference(case: &Case, came: &[&Sent]) -> f64 {
    let mut receiver = AccessUnitReceiver::new(case.codec, case.config());
    let then = Instant::now();
    for packet in came {
        let _ = black_box(receiver.push(0, &packet.packet()));
        while let Ok(Some(unit)) = receiver.next(0) {
            receiver.give_back(black_box(unit));
        }
    }
    each(then, came.len())
}

fn by_value(case: &Case, came: &[&Sent]) -> f64 {
    let mut receiver = AccessUnitReceiver::new(case.codec, case.config());
    let owned: Vec<HeldPacket> = came
        .iter()
        .map(|it| HeldPacket::new(it.sequence, it.timestamp, it.marker, it.payload.clone()))
        .collect();
    let then = Instant::now();
    for packet in owned {
        let _ = black_box(receiver.push_held(0, packet));
        while let Ok(Some(unit)) = receiver.next(0) {
            receiver.give_back(black_box(unit));
        }
    }
    each(then, came.len())
}

/// A packet as a datagram of payload type 96 and SSRC 1, with a header of 12 bytes.
fn datagram(packet: &Sent) -> Vec<u8> {
    let header = RtpHeader {
        marker: packet.marker,
        payload_type: 96,
        sequence: packet.sequence,
        timestamp: packet.timestamp,
        ssrc: 1,
        csrcs: &[],
        extension: None,
    };
    let datagram = RtpDatagram {
        header,
        payload: &packet.payload,
        padding: &[],
    };
    let mut bytes = vec![0; 12 + packet.payload.len()];
    datagram.write(&mut bytes).unwrap();
    bytes
}

fn by_datagrams(case: &Case, came: &[Vec<u8>]) {
    let types = RtpPayloadTypes {
        media: 96,
        rtx: Some(97),
        red: None,
        rtx_of_red: None,
        fec: None,
    };
    let mut receiver = RtpReceiver::new(case.codec, types, case.config());
    for datagram in came {
        let _ = black_box(receiver.push(0, 0, datagram));
        while let Ok(Some(unit)) = receiver.next(0) {
            receiver.give_back(black_box(unit));
        }
    }
}

/// For each packet its number, timestamp, marker and length, the lowest byte first, and its payload.
fn write(case: &Case, folder: &str) {
    let mut bytes = Vec::new();
    for packet in case.packets() {
        bytes.extend(packet.sequence.to_le_bytes());
        bytes.extend(packet.timestamp.to_le_bytes());
        bytes.extend([packet.marker as u8, 0]);
        bytes.extend((packet.payload.len() as u32).to_le_bytes());
        bytes.extend(&packet.payload);
    }
    fs::write(format!("{folder}/{}", case.name()), bytes).unwrap();
}

fn time(turns: usize) {
    for case in cases() {
        let packets = case.packets();
        let came: Vec<&Sent> = packets.iter().collect();
        let mut times = [const { Vec::new() }; 3];
        for _ in 0..turns {
            times[0].push(bound(&came));
            times[1].push(by_reference(&case, &came));
            times[2].push(by_value(&case, &came));
        }
        let [bound, reference, value] = times.each_mut().map(|it| median(it));
        println!("{} {bound:.0} {reference:.0} {value:.0}", case.name());
    }
}

fn case_of(name: &str) -> Case {
    cases().into_iter().find(|it| it.name() == name).unwrap()
}

fn count(name: &str, rounds: usize) {
    let case = case_of(name);
    let packets = case.packets();
    let came: Vec<&Sent> = packets.iter().collect();
    for _ in 0..rounds {
        by_reference(&case, &came);
    }
    println!("{}", came.len());
}

fn count_datagrams(name: &str, rounds: usize) {
    let case = case_of(name);
    let came: Vec<Vec<u8>> = case.packets().iter().map(datagram).collect();
    for _ in 0..rounds {
        by_datagrams(&case, &came);
    }
    println!("{}", came.len());
}

fn main() {
    let words: Vec<String> = env::args().skip(1).collect();
    match words.iter().map(String::as_str).collect::<Vec<_>>()[..] {
        [] => time(31),
        ["--write", folder] => cases().iter().for_each(|case| write(case, folder)),
        ["--count", name, rounds] => count(name, rounds.parse().unwrap()),
        ["--datagrams", name, rounds] => count_datagrams(name, rounds.parse().unwrap()),
        [turns] => time(turns.parse().unwrap()),
        _ => panic!("units [TURNS], or units --write FOLDER, --count or --datagrams CASE ROUNDS"),
    }
}
