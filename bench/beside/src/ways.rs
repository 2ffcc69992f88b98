//! The ways in which a case is done. Before any is timed, all have to give the same bytes.

use crate::format::Format;
use crate::payload::Payload;
use crate::turns::Way;
use crate::{library, objects, str0m};
use emupedestal::{CodecExtra, Packets};
use std::hint::black_box;

/// The largest packet, in bytes.
pub const LIMIT: usize = 1200;

// The names of the ways. These are calls:
pub const STR0M: &str = "str0m";
pub const LIBRARY: &str = "library";
pub const LIBRARY_INTO: &str = "library into";
pub const UNIT_INTO: &str = "packetize_unit_into";
pub const INTO: &str = "packetize_into";
pub const CRATE: &str = "crate";
// And these are floors: an allocation and a copy a packet, or an append a packet; one copy of all bytes.
pub const PIECES: &str = "pieces";
pub const MEMCPY: &str = "memcpy";

/// Our packets of a payload.
pub fn packets(format: Format, payload: &[u8]) -> Vec<Vec<u8>> {
    objects::packetizer(format)
        .packetize(LIMIT, payload)
        .expect("memory")
}

/// Packetizing a payload whose packets are these.
pub fn packetizing<'a>(
    format: Format,
    payload: &'a Payload,
    packets: &'a [Vec<u8>],
) -> Result<Vec<Way<'a>>, String> {
    same_packets(format, payload, packets)?;
    let bytes = &payload.bytes;
    let mut theirs = objects::their_packetizer(format);
    let mut pieces = Vec::with_capacity(packets.len());
    let mut ways = Vec::new();
    ways.extend(packetizing_by_library(format, bytes));
    ways.extend(payload.unit().map(|unit| packetizing_unit(format, unit)));
    ways.extend(packetizing_by_crate(format, bytes));
    ways.extend([
        Way::new(STR0M, move || {
            black_box(theirs.packetize(LIMIT, black_box(bytes)).expect("packets"));
        }),
        Way::new(PIECES, move || {
            pieces.clear();
            pieces.extend(black_box(packets).iter().map(|packet| packet.to_vec()));
            black_box(&pieces);
        }),
        memcpy(bytes.to_vec()),
    ]);
    Ok(ways)
}

/// Packetizing by the calls of C, which leave packets behind their handle, or make them in memory of
/// the caller's.
fn packetizing_by_library(format: Format, payload: &[u8]) -> [Way<'_>; 2] {
    let mut behind = library::Packetizer::new(format);
    let mut into = library::Packetizer::new(format);
    let mut memory = library::Memory::default();
    [
        Way::new(LIBRARY, move || {
            black_box(behind.packetize(LIMIT, black_box(payload)));
        }),
        Way::new(LIBRARY_INTO, move || {
            into.packetize_into(LIMIT, black_box(payload), &mut memory);
            black_box(&memory);
        }),
    ]
}

/// Packetizing a unit as it is, in which no start code is looked for.
fn packetizing_unit(format: Format, unit: &[u8]) -> Way<'_> {
    let mut ours = objects::packetizer(format);
    let mut joined = Packets::default();
    Way::new(UNIT_INTO, move || {
        let made = ours.make_unit_into(LIMIT, black_box(unit), &mut joined);
        made.expect("memory");
        black_box(&joined);
    })
}

/// Packetizing by the crate, into one buffer, and into a `Vec` each.
fn packetizing_by_crate(format: Format, payload: &[u8]) -> [Way<'_>; 2] {
    let mut joining = objects::packetizer(format);
    let mut ours = objects::packetizer(format);
    let mut joined = Packets::default();
    [
        Way::new(INTO, move || {
            let made = joining.make_into(LIMIT, black_box(payload), &mut joined);
            made.expect("memory");
            black_box(&joined);
        }),
        Way::new(CRATE, move || {
            black_box(ours.packetize(LIMIT, black_box(payload)).expect("memory"));
        }),
    ]
}

/// Taking packets, which complete units.
pub fn taking(format: Format, packets: &[Vec<u8>]) -> Result<Vec<Way<'_>>, String> {
    let units = same_units(format, packets)?;
    let mut library = library::Depacketizer::new(format);
    let mut ours = objects::depacketizer(format);
    let mut theirs = objects::their_depacketizer(format);
    let mut to = units.clone();
    let (mut out, mut their_out, mut pieces) = (Vec::new(), Vec::new(), Vec::new());
    Ok(vec![
        Way::new(LIBRARY, move || {
            black_box(take_by_library(&mut library, black_box(packets), &mut to));
        }),
        Way::new(STR0M, move || {
            take_by_str0m(&mut *theirs, black_box(packets), &mut their_out).expect("units");
            black_box(&their_out);
        }),
        Way::new(CRATE, move || {
            take_by_crate(&mut *ours, black_box(packets), &mut out);
            black_box(&out);
        }),
        Way::new(PIECES, move || {
            pieces.clear();
            for packet in black_box(packets) {
                pieces.extend_from_slice(packet);
            }
            black_box(&pieces);
        }),
        memcpy(units),
    ])
}

/// One copy of all bytes.
fn memcpy<'a>(bytes: Vec<u8>) -> Way<'a> {
    let mut to = bytes.clone();
    Way::new(MEMCPY, move || {
        to.copy_from_slice(black_box(&bytes));
        black_box(&to);
    })
}

/// Puts the units into `to`, which has room for them; how many bytes they are.
fn take_by_library(
    depacketizer: &mut library::Depacketizer,
    packets: &[Vec<u8>],
    to: &mut [u8],
) -> usize {
    let (mut len, mut extra) = (0, 0);
    for packet in packets {
        len += depacketizer.depacketize(packet, &mut to[len..], &mut extra);
    }
    len
}

/// Puts the units into `out`, in the place of what stands there.
fn take_by_crate(
    depacketizer: &mut dyn emupedestal::Depacketizer,
    packets: &[Vec<u8>],
    out: &mut Vec<u8>,
) {
    out.clear();
    let mut extra = CodecExtra::None;
    for packet in packets {
        depacketizer
            .depacketize(packet, out, &mut extra)
            .expect("a packet");
    }
}

/// The same by str0m, which may refuse a packet.
fn take_by_str0m(
    depacketizer: &mut dyn str0m::Depacketizer,
    packets: &[Vec<u8>],
    out: &mut Vec<u8>,
) -> Result<(), str0m::PacketError> {
    out.clear();
    let mut extra = str0m::CodecExtra::None;
    for packet in packets {
        depacketizer.depacketize(packet, out, &mut extra)?;
    }
    Ok(())
}

/// Whether all ways to make packets make these.
fn same_packets(format: Format, payload: &Payload, packets: &[Vec<u8>]) -> Result<(), String> {
    same_packets_of_crate(format, payload, packets);
    same_packets_of_library(format, &payload.bytes, packets);
    match objects::their_packetizer(format).packetize(LIMIT, &payload.bytes) {
        Ok(theirs) if theirs == packets => Ok(()),
        Ok(_) => Err("str0m makes other packets".into()),
        Err(why) => Err(format!("str0m refuses it: {why:?}")),
    }
}

fn same_packets_of_crate(format: Format, payload: &Payload, packets: &[Vec<u8>]) {
    let mut joined = Packets::default();
    let made = objects::packetizer(format).make_into(LIMIT, &payload.bytes, &mut joined);
    made.expect("memory");
    assert!(
        joined.iter().eq(packets),
        "packetize_into makes the packets of packetize"
    );
    if let Some(unit) = payload.unit() {
        let made = objects::packetizer(format).make_unit_into(LIMIT, unit, &mut joined);
        made.expect("memory");
        assert!(
            joined.iter().eq(packets),
            "packetize_unit_into makes the packets of packetize"
        );
    }
}

fn same_packets_of_library(format: Format, payload: &[u8], packets: &[Vec<u8>]) {
    let mut library = library::Packetizer::new(format);
    let count = library.packetize(LIMIT, payload);
    let behind = (0..count).map(|i| library.packet(i));
    assert!(
        behind.eq(packets.iter().cloned()),
        "the library makes the packets of the crate"
    );
    let mut memory = library::Memory::default();
    library::Packetizer::new(format).packetize_into(LIMIT, payload, &mut memory);
    assert!(
        memory.packets().eq(packets),
        "h26x_packetize_into makes the packets of h26x_packetize"
    );
}

/// The units of packets, where all ways to take them give the same.
fn same_units(format: Format, packets: &[Vec<u8>]) -> Result<Vec<u8>, String> {
    let mut units = Vec::new();
    take_by_crate(&mut *objects::depacketizer(format), packets, &mut units);
    let mut to = vec![0; units.len()];
    take_by_library(&mut library::Depacketizer::new(format), packets, &mut to);
    assert!(to == units, "the library writes the units of the crate");
    let mut theirs = Vec::new();
    match take_by_str0m(
        &mut *objects::their_depacketizer(format),
        packets,
        &mut theirs,
    ) {
        Ok(()) if theirs == units => Ok(units),
        Ok(()) => Err("str0m writes other units".into()),
        Err(why) => Err(format!("str0m refuses a packet: {why:?}")),
    }
}
