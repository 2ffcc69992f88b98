//! Calls of the Rust crate on drawn payloads, for a program that counts instructions: `bench/cost` builds and runs it.
//!
//! ```text
//! calls JOB FORMAT ROUNDS [TIMES]
//! ```
//!
//! A job is `packetize`, `units`, `into`, `take`, `aggregates`, `sequenced` or `assembled`, and a format `h264`, `h265` or
//! `h266`. Each round does the same: a frame of 8 kB, fifty units of 100 bytes and fifty of 20 are packetized, or their
//! packets are taken; or ten aggregates of eleven units are. With TIMES the frame is so many times as long, and there
//! are so many times as many units and aggregates.

use emupedestal::{
    AccessUnitAssembler, Codec, CodecDepacketizer, CodecExtra, CodecPacketizer, Depacketizer,
    Packetizer, Packets, Packing, ReorderBuffer, RtpPacket, SequencedDepacketizer,
};
use std::env;
use std::hint::black_box;

/// The largest packet, in bytes.
const LIMIT: usize = 1200;

/// The payloads: how many units each has, and how long they are.
const PAYLOADS: [(usize, usize); 3] = [(1, 8_000), (50, 100), (50, 20)];

/// How many packets the buffer of `assembled` waits for.
const WINDOW: u16 = 16;

/// Far over what the open unit of any payload takes.
const BOUND: usize = 1 << 20;

/// The header of a slice that is no keyframe's.
fn slice_header(codec: Codec) -> &'static [u8] {
    match codec {
        Codec::H264 => &[0x61],
        Codec::H265 => &[0x02, 0x01],
        Codec::H266 => &[0x00, 0x09],
    }
}

/// The header of an aggregate.
fn aggregate_header(codec: Codec) -> &'static [u8] {
    match codec {
        Codec::H264 => &[0x78],
        Codec::H265 => &[0x60, 0x01],
        Codec::H266 => &[0x00, 0xe1],
    }
}

/// Numbers that are the same in each run (xorshift).
struct Random(u64);

impl Random {
    fn next(&mut self) -> u64 {
        self.0 ^= self.0 << 13;
        self.0 ^= self.0 >> 7;
        self.0 ^= self.0 << 17;
        self.0
    }

    /// A unit of this codec, so long. No byte of it is under 4, so that it holds no start code.
    fn unit(&mut self, codec: Codec, len: usize) -> Vec<u8> {
        let mut unit = slice_header(codec).to_vec();
        unit.resize_with(len, || (self.next() >> 32) as u8 | 4);
        unit
    }
}

/// What the jobs are given.
struct Inputs {
    codec: Codec,
    payloads: Vec<Vec<u8>>,
    /// Of each payload.
    packets: Vec<Vec<Vec<u8>>>,
    aggregate: Vec<u8>,
    aggregates: usize,
}

impl Inputs {
    fn new(codec: Codec, times: usize) -> Self {
        let mut random = Random(88_172_645_463_325_252);
        let payloads = PAYLOADS.map(|(count, len)| {
            let (count, len) = match count {
                1 => (1, len * times),
                _ => (count * times, len),
            };
            let units =
                (0..count).flat_map(|_| [vec![0, 0, 0, 1], random.unit(codec, len)].concat());
            units.collect::<Vec<u8>>()
        });
        let mut packetizer = CodecPacketizer::new(codec);
        let packets = payloads
            .iter()
            .map(|payload| packetizer.packetize(LIMIT, payload).expect("memory"));
        let packets = packets.collect();
        let mut aggregate = aggregate_header(codec).to_vec();
        for _ in 0..11 {
            aggregate.extend([0, 100]);
            aggregate.extend(random.unit(codec, 100));
        }
        Inputs {
            codec,
            payloads: payloads.to_vec(),
            packets,
            aggregate,
            aggregates: 10 * times,
        }
    }

    fn packetize(&self, packetizer: &mut dyn Packetizer) {
        for payload in &self.payloads {
            black_box(
                packetizer
                    .packetize(LIMIT, black_box(payload))
                    .expect("memory"),
            );
        }
    }

    /// Every unit, in the fewest packets.
    fn packetize_access_units(&self, packetizer: &mut CodecPacketizer) {
        for payload in &self.payloads {
            black_box(
                packetizer
                    .packetize_access_unit(Packing::Together, LIMIT, black_box(payload))
                    .expect("memory"),
            );
        }
    }

    fn packetize_into(&self, packetizer: &mut CodecPacketizer, packets: &mut Packets) {
        for payload in &self.payloads {
            packetizer
                .packetize_into(LIMIT, black_box(payload), packets)
                .expect("memory");
            black_box(&packets);
        }
    }

    fn take(&self, depacketizer: &mut dyn Depacketizer, out: &mut Vec<u8>) {
        for packets in &self.packets {
            take(depacketizer, packets, out);
        }
    }

    fn take_aggregates(&self, depacketizer: &mut dyn Depacketizer, out: &mut Vec<u8>) {
        for _ in 0..self.aggregates {
            take(depacketizer, std::slice::from_ref(&self.aggregate), out);
        }
    }

    /// Takes packets by their numbers; every eighth is lost.
    fn receive(
        &self,
        depacketizer: &mut SequencedDepacketizer,
        number: &mut u16,
        out: &mut Vec<u8>,
    ) {
        let mut extra = CodecExtra::None;
        out.clear();
        for packet in self.packets.iter().flatten() {
            *number = number.wrapping_add(1);
            if *number % 8 != 0 {
                black_box(depacketizer.receive(*number, packet, out, &mut extra))
                    .expect("a packet");
            }
        }
        black_box(&out);
    }

    /// Takes packets of which each two neighbours are exchanged; a payload is a picture.
    fn assemble_all(
        &self,
        buffer: &mut ReorderBuffer,
        receiver: &mut AccessUnitAssembler,
        number: &mut u16,
    ) {
        let mut units = Vec::new();
        for packets in &self.packets {
            let timestamp = u32::from(*number);
            for i in 0..packets.len() {
                let at = if i ^ 1 < packets.len() { i ^ 1 } else { i };
                let packet = RtpPacket {
                    sequence: number.wrapping_add(at as u16),
                    timestamp,
                    marker: at + 1 == packets.len(),
                    payload: &packets[at],
                };
                buffer.push(&packet).expect("memory");
                while let Some(held) = buffer.pop() {
                    receiver
                        .receive(&held.packet(), &mut units)
                        .expect("a packet");
                }
            }
            *number = number.wrapping_add(packets.len() as u16);
        }
        black_box(&units);
    }
}

/// Takes packets into `out`, in the place of what stands there.
fn take(depacketizer: &mut dyn Depacketizer, packets: &[Vec<u8>], out: &mut Vec<u8>) {
    let mut extra = CodecExtra::None;
    out.clear();
    for packet in black_box(packets) {
        depacketizer
            .depacketize(packet, out, &mut extra)
            .expect("a packet");
    }
    black_box(&out);
}

/// Does a job so many times; whether there is one of this name.
fn run(job: &str, inputs: &Inputs, rounds: u32) -> bool {
    let codec = inputs.codec;
    let (mut packetizer, mut depacketizer) =
        (CodecPacketizer::new(codec), CodecDepacketizer::new(codec));
    let (mut packets, mut out, mut number) = (Packets::default(), Vec::new(), 0);
    let mut sequenced = SequencedDepacketizer::new(codec, BOUND);
    let mut buffer = ReorderBuffer::new(WINDOW);
    let mut assembled = AccessUnitAssembler::new(codec, BOUND, BOUND);
    for _ in 0..rounds {
        match job {
            "packetize" => inputs.packetize(&mut packetizer),
            "units" => inputs.packetize_access_units(&mut packetizer),
            "into" => inputs.packetize_into(&mut packetizer, &mut packets),
            "take" => inputs.take(&mut depacketizer, &mut out),
            "aggregates" => inputs.take_aggregates(&mut depacketizer, &mut out),
            "sequenced" => inputs.receive(&mut sequenced, &mut number, &mut out),
            "assembled" => inputs.assemble_all(&mut buffer, &mut assembled, &mut number),
            _ => return false,
        }
    }
    true
}

fn main() {
    let words: Vec<String> = env::args().skip(1).collect();
    let (job, format, rounds, times) = match &words[..] {
        [job, format, rounds] => (job, format, rounds, "1"),
        [job, format, rounds, times] => (job, format, rounds, times.as_str()),
        _ => panic!("calls JOB FORMAT ROUNDS [TIMES]"),
    };
    let codec = match format.as_str() {
        "h264" => Codec::H264,
        "h265" => Codec::H265,
        "h266" => Codec::H266,
        other => panic!("{other} is no format"),
    };
    let rounds = rounds.parse().expect("a number of rounds");
    let times = times.parse().expect("a number of times");
    let is_job = run(job, &Inputs::new(codec, times), rounds);
    assert!(is_job, "{job} is no job");
}
