//! The packet that a depacketizer of H.265 shows, by its accessors, and PACI packets made here.

use super::row::{Words, bytes};
use super::said::Said;
use crate::proved::h265_packets::{
    H265AggregationPacket, H265FragmentationUnitPacket, H265PACIPacket, H265Payload,
    H265SingleNALUnitPacket,
};

/// Says a packet's kind and its parts.
pub(super) fn say(said: &mut Said, shown: &H265Payload) {
    match shown {
        H265Payload::H265SingleNALUnitPacket(it) => say_single(said, it),
        H265Payload::H265FragmentationUnitPacket(it) => say_fragment(said, it),
        H265Payload::H265AggregationPacket(it) => say_aggregate(said, it),
        H265Payload::H265PACIPacket(it) => say_paci(said, it),
    }
}

/// The header, the number if there is one, and the payload.
fn say_single(said: &mut Said, it: &H265SingleNALUnitPacket) {
    said.word("single");
    say_word(said, it.payload_header().0);
    said.number(it.donl());
    said.bytes(it.payload());
}

/// The header, the fragment's header, the number if there is one, and the payload.
fn say_fragment(said: &mut Said, it: &H265FragmentationUnitPacket) {
    said.word("fragment");
    say_word(said, it.payload_header().0);
    said.bytes(&[it.fu_header().0]);
    said.number(it.donl());
    said.bytes(it.payload());
}

/// Of each unit the number or the difference if there is one, the length and the bytes.
fn say_aggregate(said: &mut Said, it: &H265AggregationPacket) {
    said.word("aggregate");
    if let Some(first) = it.first_unit() {
        said.number(first.donl());
        said.value(first.nalu_size());
        said.bytes(first.nal_unit());
    }
    for other in it.other_units() {
        said.number(other.dond());
        said.value(other.nalu_size());
        said.bytes(other.nal_unit());
    }
}

/// The header, A, cType, PHSsize, F0, F1, F2 and Y, the extension, the payload, and TSCI if there is.
fn say_paci(said: &mut Said, it: &H265PACIPacket) {
    said.word("paci");
    say_word(said, it.payload_header().0);
    said.fact(it.a());
    said.value(it.ctype());
    said.value(it.phs_size());
    for flag in [it.f0(), it.f1(), it.f2(), it.y()] {
        said.fact(flag);
    }
    said.bytes(it.phes());
    said.bytes(it.payload());
    match it.tsci() {
        Some(tsci) => said.bytes(&tsci.0.to_be_bytes()),
        None => said.word("no-tsci"),
    }
}

fn say_word(said: &mut Said, word: u16) {
    said.bytes(&word.to_be_bytes());
}

/// Says the units of an aggregate.
pub(super) fn say_units(said: &mut Said, shown: &H265Payload) {
    let H265Payload::H265AggregationPacket(it) = shown else {
        panic!("no aggregate is shown: {shown:?}");
    };
    for unit in it.try_nal_units().expect("memory") {
        said.bytes(unit);
    }
}

/// Whether a copy of what is shown equals it.
pub(super) fn is_copied(shown: &H265Payload) -> bool {
    shown.try_clone().expect("memory") == *shown
}

/// Packs a unit and an extension into a buffer that holds something before; what is packed then stands in it, and a
/// refusal leaves it.
pub(super) fn pack(words: &mut Words<'_>, said: &mut Said) {
    let (unit, phes) = (bytes(words), bytes(words));
    let mut buf = vec![1, 2];
    match H265PACIPacket::packetize(&unit, &phes, &mut buf) {
        Ok(packet) => said.bytes(&packet),
        Err(error) => said.refused(error),
    }
    said.bytes(&buf);
}
