//! What `inspect --json` prints: an object of JSON in each line. The manual page says what each has.

use crate::captures::packets::{Captured, Stream};
use crate::output::report::seconds;
use crate::output::statistics;
use crate::streams::codecs::word;
use crate::streams::payload::Description;
use crate::streams::tally::{Tally, is_keyframe};
use crate::streams::told::{Became, Fate};
use emupedestal::Codec;
use emupedestal::access_unit_receiver::ReceivedAccessUnit;
use serde_json::{Value, json};
use std::io::{self, Write};

fn print(to: &mut impl Write, object: &Value) -> io::Result<()> {
    writeln!(to, "{object}")
}

/// The stream that is inspected.
pub fn stream(to: &mut impl Write, stream: &Stream, codec: Codec) -> io::Result<()> {
    let (address, port) = stream.to;
    print(
        to,
        &json!({
            "is": "stream",
            "ssrc": stream.ssrc,
            "payload_type": stream.payload_type,
            "address": address.to_string(),
            "port": port,
            "codec": word(codec),
        }),
    )
}

/// A packet, and what became of it.
pub fn packet(
    to: &mut impl Write,
    begin: u64,
    packet: &Captured<'_>,
    about: &Description,
    fate: &Fate,
) -> io::Result<()> {
    let rtp = &packet.rtp;
    let mut object = json!({
        "is": "packet",
        "sequence": rtp.sequence,
        "seconds": number_of(&seconds(begin, packet.time)),
        "timestamp": rtp.timestamp,
        "marker": rtp.marker,
        "bytes": rtp.payload.len(),
        "padding": rtp.padding,
        "moved": fate.is_moved,
        "recovered": packet.is_resent,
    });
    if !rtp.is_padding() {
        object["packet"] = about.kind.into();
        object["units"] = about.units.iter().map(|it| unit_of(about, it)).collect();
        object["keyframe"] = about.is_keyframe.into();
    }
    object["became"] = outcome(&fate.became).into();
    object["lost_before"] = fate.lost.into();
    match &fate.became {
        Became::Taken { gave_up, .. } => object["gave_up"] = (*gave_up).into(),
        Became::Refused(reason) => object["reason"] = reason.as_str().into(),
        _ => {}
    }
    print(to, &object)
}

fn number_of(seconds: &str) -> f64 {
    seconds.parse().unwrap_or(0.0)
}

/// A unit of a packet, or the one that it is a fragment of.
fn unit_of(about: &Description, (name, len): &(&'static str, Option<usize>)) -> Value {
    match len {
        Some(len) => json!({"type": name, "bytes": len}),
        None => json!({
            "type": name,
            "first": about.marks.contains('S'),
            "last": about.marks.contains('E'),
        }),
    }
}

/// What became of a packet.
fn outcome(became: &Became) -> &'static str {
    match became {
        Became::Taken { .. } => "taken",
        Became::TooLong => "too long",
        Became::Late(_) => "late",
        Became::Refused(_) => "refused",
        Became::Cut => "cut",
        Became::Padding => "padding",
    }
}

/// An access unit, and what the receiver tells of it.
pub fn unit(
    to: &mut impl Write,
    begin: u64,
    unit: &ReceivedAccessUnit,
    time: u64,
) -> io::Result<()> {
    print(
        to,
        &json!({
            "is": "access unit",
            "seconds": number_of(&seconds(begin, time)),
            "timestamp": unit.timestamp,
            "bytes": unit.bytes.len(),
            "keyframe": is_keyframe(unit.extra),
            "first": unit.first,
            "last": unit.last,
            "missing": unit.missing,
            "continues": unit.continues,
            "whole": unit.is_whole,
            "clean": unit.is_clean,
            "disposable": unit.is_disposable,
        }),
    )
}

/// A packet with this number that came twice, or again by RTX, or is a stray.
pub fn number(to: &mut impl Write, is: &str, sequence: u16) -> io::Result<()> {
    print(to, &json!({"is": is, "sequence": sequence}))
}

pub fn anew(to: &mut impl Write) -> io::Result<()> {
    print(to, &json!({"is": "anew"}))
}

pub fn two_senders(to: &mut impl Write, told: &str) -> io::Result<()> {
    print(to, &json!({"is": "two senders", "told": told}))
}

/// The totals, and what is lost, refused or otherwise odd, a sentence each.
pub fn end(to: &mut impl Write, tally: &Tally, told: &[String]) -> io::Result<()> {
    print(to, &totals(tally, told))
}

pub fn totals(tally: &Tally, told: &[String]) -> Value {
    let mut totals = json!({
            "is": "totals",
            "packets": tally.packets,
            "bytes": tally.bytes,
            "access_units": tally.access_units,
            "keyframes": tally.keyframes,
            "whole": tally.whole,
            "clean": tally.clean,
            "lost": tally.missing(),
            "refused": tally.refused,
            "no_unit": tally.no_unit,
            "late": tally.late,
            "twice": tally.twice,
            "recovered": tally.recovered,
            "again": tally.again,
            "fec": tally.fec,
            "other": tally.other,
            "moved": tally.moved,
            "strays": tally.strays,
            "anew": tally.anew,
            "cut": tally.parts,
            "padding": tally.padding,
            "units_given_up": tally.given_up,
            "units_too_long": tally.too_long,
            "told": told,
    });
    if let (Value::Object(totals), Value::Object(rates)) = (&mut totals, statistics::object(tally))
    {
        totals.extend(rates);
    }
    totals
}
