//! Times what a packet costs from the network to its access unit, by turns: one copy of each payload into kept
//! memory (the bound), packets by reference, and packets by value with all memory given back.
//!
//! ```text
//! receive [TURNS]
//! ```
//!
//! It prints the medians in nanoseconds a packet. 1 % of the packets are lost, 1 % come twice, 5 % up to 15 places
//! late; the window is 300. How the packets come into memory of their own isn't in the times.

#[path = "../network.rs"]
mod network;

use emupedestal::{AccessUnit, AccessUnitAssembler, Codec, HeldPacket, ReorderBuffer};
use network::{Network, Random, Sent, bound, each, median, packets_of};
use std::env;
use std::hint::black_box;
use std::time::Instant;

const WINDOW: u16 = 300;
const RUN_LIMIT: usize = 1_000_000;
const UNIT_LIMIT: usize = 4_000_000;
const NETWORK: Network = Network {
    lost: 1,
    twice: 1,
    delayed: 5,
};

fn by_reference(codec: Codec, came: &[&Sent]) -> f64 {
    let mut buffer = ReorderBuffer::new(WINDOW);
    let mut assembler = AccessUnitAssembler::new(codec, RUN_LIMIT, UNIT_LIMIT);
    let mut units: Vec<AccessUnit> = Vec::new();
    let then = Instant::now();
    for packet in came {
        let _ = buffer.push(&packet.packet());
        while let Some(held) = buffer.pop() {
            let _ = black_box(assembler.receive(&held.packet(), &mut units));
        }
        black_box(units.as_slice());
        units.clear();
    }
    each(then, came.len())
}

#[cfg(not(feature = "by_reference_alone"))]
fn by_value(codec: Codec, came: &[&Sent]) -> f64 {
    let mut buffer = ReorderBuffer::new(WINDOW);
    let mut assembler = AccessUnitAssembler::new(codec, RUN_LIMIT, UNIT_LIMIT);
    let mut units: Vec<AccessUnit> = Vec::new();
    let mut memories = Vec::with_capacity(came.len());
    let owned: Vec<HeldPacket> = came
        .iter()
        .map(|it| HeldPacket::new(it.sequence, it.timestamp, it.marker, it.payload.clone()))
        .collect();
    let then = Instant::now();
    for packet in owned {
        if let Err(not_held) = buffer.push_held(packet) {
            memories.push(not_held.packet.into_payload());
        }
        while let Some(held) = buffer.pop() {
            let _ = black_box(assembler.receive(&held.packet(), &mut units));
            memories.push(held.into_payload());
        }
        for unit in units.drain(..) {
            assembler.give_back(black_box(unit));
        }
    }
    each(then, came.len())
}

fn main() {
    let turns = env::args().nth(1).map_or(31, |it| it.parse().unwrap());
    println!("codec packets: ns a packet: bound, by reference, by value");
    for codec in [Codec::H264, Codec::H265, Codec::H266] {
        for is_large in [true, false] {
            let mut random = Random(88_172_645_463_325_252);
            let sent = packets_of(codec, is_large, &mut random);
            let order = NETWORK.arrivals(sent.len(), &mut random);
            let came: Vec<&Sent> = order.iter().map(|place| &sent[*place]).collect();
            let mut times = [const { Vec::new() }; 3];
            for _ in 0..turns {
                times[0].push(bound(&came));
                times[1].push(by_reference(codec, &came));
                #[cfg(not(feature = "by_reference_alone"))]
                times[2].push(by_value(codec, &came));
                #[cfg(feature = "by_reference_alone")]
                times[2].push(0.0);
            }
            let [bound, reference, value] = times.each_mut().map(|it| median(it));
            let name = if is_large { "large" } else { "small" };
            println!("{codec:?} {name}: {bound:.0} {reference:.0} {value:.0}");
        }
    }
}
