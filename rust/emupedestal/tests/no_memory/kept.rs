//! Buffers that are kept for what comes later, which then takes no memory, and the one that is freed.

use crate::ends::{Receiver, fragment, longer_fragment};
use crate::proved::h26x_core::{CodecExtra, Depacketizer};
use crate::proved::h26x_receiver::SequencedDepacketizer;
use crate::proved::h264_payload::H264Depacketizer;
use crate::proved::h265_payload::H265Depacketizer;
use crate::proved::h266_payload::H266Depacketizer;
use crate::refusing::{some_refused, without_memory};

/// Takes these packets, one after the other, into room that was there.
fn take<D: Depacketizer>(it: &mut Receiver<D>, packets: &[&[u8]]) {
    it.out.clear();
    for packet in packets {
        it.take_once(packet).expect("a packet that is taken");
    }
}

/// Takes the same packets three times: what is kept since two times takes the third.
#[track_caller]
fn take_the_same<D: Depacketizer>(depacketizer: D, packets: &[&[u8]]) {
    let mut it = Receiver::new(depacketizer);
    take(&mut it, packets);
    take(&mut it, packets);
    without_memory(|| take(&mut it, packets));
}

#[test]
fn fragments_into_kept_buffers() {
    let start = fragment(&[0x7c, 0x85, 1], 9);
    let middle = longer_fragment(&[0x7c, 0x05, 1], 8);
    take_the_same(
        H264Depacketizer::new(),
        &[&start, &middle, &[0x7c, 0x45, 2]],
    );
    let start = fragment(&[0x62, 1, 0x93], 9);
    let middle = longer_fragment(&[0x62, 1, 0x13], 8);
    let packets: [&[u8]; 4] = [&start, &middle, &[0x62, 1, 0x53, 2], &[0x26, 1, 0xaa]];
    take_the_same(H265Depacketizer::new(), &packets);
    let start = fragment(&[0, 0xe9, 0x87], 9);
    let middle = longer_fragment(&[0, 0xe9, 0x07], 8);
    take_the_same(
        H266Depacketizer::new(),
        &[&start, &middle, &[0, 0xe9, 0x47, 2]],
    );
}

/// An aggregate of H.265 of three units, the second of them the longest.
const THREE: [u8; 20] = [
    0x60, 1, 0, 3, 2, 1, 7, 0, 6, 2, 1, 7, 7, 7, 7, 0, 3, 2, 1, 7,
];

/// One of four.
const FOUR: [u8; 23] = [
    0x60, 1, 0, 3, 2, 1, 7, 0, 3, 2, 1, 7, 0, 4, 2, 1, 7, 7, 0, 3, 2, 1, 7,
];

/// One of two.
const TWO: [u8; 12] = [0x60, 1, 0, 3, 2, 1, 7, 0, 3, 2, 1, 7];

/// One alone, several of more and fewer units, and some between others.
#[test]
fn aggregates_into_kept_buffers() {
    let single: &[u8] = &[0x26, 1, 0xaa];
    let paci: &[u8] = &[0x64, 1, 2, 0, 0xdd];
    let rows: [&[&[u8]]; 3] = [
        &[&THREE],
        &[&FOUR, &THREE, &TWO, &TWO, &THREE, &FOUR],
        &[&THREE, &THREE, single, &TWO, paci, single],
    ];
    for packets in rows {
        take_the_same(H265Depacketizer::new(), packets);
    }
}

/// Takes a packet twice, and once more: what is kept since doesn't do.
#[track_caller]
fn take_with_new_memory(packet: &[u8]) {
    let mut it = Receiver::new(H265Depacketizer::new());
    take(&mut it, &[packet]);
    take(&mut it, &[packet]);
    it.out.clear();
    some_refused(|| it.take(packet));
}

/// Two units of three bytes and one of 1600: too long to be kept.
#[test]
fn an_aggregate_with_a_long_unit() {
    let mut packet = [7; 1614];
    packet[..14].copy_from_slice(&[0x60, 1, 0, 3, 2, 1, 7, 0, 3, 2, 1, 7, 6, 0x40]);
    take_with_new_memory(&packet);
}

/// Forty units of three bytes: more than are kept.
#[test]
fn an_aggregate_of_many_units() {
    let mut packet = [0; 202];
    packet[..2].copy_from_slice(&[0x60, 1]);
    for unit in 0..40 {
        packet[3 + unit * 5] = 3;
    }
    take_with_new_memory(&packet);
}

/// An aggregate behind a run that is given up, with which the memory of those before it goes.
#[test]
fn an_aggregate_behind_a_run_given_up() {
    let mut it = Receiver::new(H265Depacketizer::new());
    take(&mut it, &[&THREE]);
    take(&mut it, &[&THREE]);
    it.depacketizer.give_up_run();
    it.out.clear();
    some_refused(|| it.take(&THREE));
}

/// Units in fragments, with packets missing between one and the next.
#[test]
fn fragments_behind_gaps_into_kept_buffers() {
    let mut it = SequencedDepacketizer::new(H264Depacketizer::new(), 1000);
    let mut out = Vec::new();
    let start = fragment(&[0x7c, 0x85, 1], 9);
    let middle = longer_fragment(&[0x7c, 0x05, 1], 8);
    let packets: [&[u8]; 3] = [&start, &middle, &[0x7c, 0x45, 2]];
    let mut take = |first: u16| {
        out.clear();
        for (sequence, packet) in (first..).zip(packets) {
            it.receive(sequence, packet, &mut out, &mut CodecExtra::None)
                .expect("a packet that is taken");
        }
    };
    take(10);
    take(20);
    without_memory(|| take(30));
}

/// A run behind one that was given up needs a buffer again.
#[test]
fn a_run_behind_one_given_up() {
    let mut it = Receiver::new(H264Depacketizer::new());
    let start = fragment(&[0x7c, 0x85, 1], 9);
    take(&mut it, &[&start]);
    it.depacketizer.give_up_run();
    some_refused(|| it.take(&start));
}
