//! Packets of pictures, and the order in which a network brings them.

use emupedestal::{Codec, CodecPacketizer, Packetizer, RtpPacket};
use std::time::Instant;

/// Numbers that are the same in each run (xorshift).
pub struct Random(pub u64);

impl Random {
    fn below(&mut self, count: u64) -> u64 {
        self.0 ^= self.0 << 13;
        self.0 ^= self.0 >> 7;
        self.0 ^= self.0 << 17;
        (self.0 >> 16) % count
    }

    /// Appends a unit behind a start code. No byte of its data is under 4, so that it holds no start code.
    fn push_unit(&mut self, header: &[u8], len: usize, to: &mut Vec<u8>) {
        to.extend_from_slice(&[0, 0, 0, 1]);
        to.extend_from_slice(header);
        to.extend((0..len).map(|_| self.below(256) as u8 | 4));
    }
}

fn slice_header(codec: Codec) -> &'static [u8] {
    match codec {
        Codec::H264 => &[0x61],
        Codec::H265 => &[0x02, 0x01],
        Codec::H266 => &[0x00, 0x01],
    }
}

/// A packet as it was sent.
#[derive(Clone)]
pub struct Sent {
    pub sequence: u16,
    pub timestamp: u32,
    pub marker: bool,
    pub payload: Vec<u8>,
}

impl Sent {
    pub fn packet(&self) -> RtpPacket<'_> {
        RtpPacket {
            sequence: self.sequence,
            timestamp: self.timestamp,
            marker: self.marker,
            payload: &self.payload,
        }
    }
}

/// The packets of pictures: large ones of one to eight slices of 2 to 20 kB, or small ones of 60 to 360 bytes.
pub fn packets_of(codec: Codec, is_large: bool, random: &mut Random) -> Vec<Sent> {
    let mut packetizer = CodecPacketizer::new(codec);
    let mut sent: Vec<Sent> = Vec::new();
    let (count, mut timestamp) = (if is_large { 240 } else { 9_600 }, 0_u32);
    for _ in 0..count {
        let mut picture = Vec::new();
        let slices = if is_large { 1 + random.below(8) } else { 1 };
        for _ in 0..slices {
            let len = if is_large {
                2_000 + random.below(18_000)
            } else {
                60 + random.below(300)
            };
            random.push_unit(slice_header(codec), len as usize, &mut picture);
        }
        for payload in packetizer.packetize(1200, &picture).unwrap() {
            let sequence = sent.len() as u16;
            sent.push(Sent {
                sequence,
                timestamp,
                marker: false,
                payload,
            });
        }
        sent.last_mut().unwrap().marker = true;
        timestamp = timestamp.wrapping_add(3_000);
    }
    sent
}

/// What a network does, in parts of 100 packets.
#[derive(Clone, Copy)]
pub struct Network {
    pub lost: u64,
    pub twice: u64,
    /// These come up to 15 places late.
    pub delayed: u64,
}

impl Network {
    /// The places of the packets, as they come.
    pub fn arrivals(self, count: usize, random: &mut Random) -> Vec<usize> {
        let mut order: Vec<(u64, usize)> = Vec::new();
        let twice = self.lost + self.twice;
        for place in 0..count {
            let (number, drawn) = (place as u64, random.below(100));
            if drawn < self.lost {
                continue;
            } else if drawn < twice {
                order.extend([(number, place); 2]);
            } else if drawn < twice + self.delayed {
                order.push((number + random.below(16), place));
            } else {
                order.push((number, place));
            }
        }
        order.sort_by_key(|it| it.0);
        order.into_iter().map(|it| it.1).collect()
    }
}

/// Nanoseconds since then, for each of so many.
pub fn each(then: Instant, count: usize) -> f64 {
    then.elapsed().as_nanos() as f64 / count as f64
}

/// The bound: one copy of each payload into kept memory.
pub fn bound(came: &[&Sent]) -> f64 {
    let mut text = Vec::with_capacity(2_000_000);
    let then = Instant::now();
    for packet in came {
        text.extend_from_slice(&packet.payload);
        if packet.marker {
            std::hint::black_box(text.as_slice());
            text.clear();
        }
    }
    each(then, came.len())
}

pub fn median(times: &mut [f64]) -> f64 {
    times.sort_by(f64::total_cmp);
    times[times.len() / 2]
}
