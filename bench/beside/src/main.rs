//! Times emupedestal beside str0m's files, in turns in one process, and writes a table of it.
//! `bench/beside-str0m` builds and runs it.

// str0m's files name these crates; what they take of them stands in `util`.
extern crate self as arrayvec;
extern crate self as tracing;

mod format;
mod library;
mod lines;
mod objects;
mod payload;
#[path = "../../../tools/str0m/str0m.rs"]
#[allow(dead_code)]
mod str0m;
mod table;
mod turns;
#[path = "../../../tools/str0m/util.rs"]
#[allow(dead_code)]
mod util;
mod ways;

use format::Format;
use lines::{LEFT_OUT, Line};
use payload::Payload;
use std::process::ExitCode;
use std::time::Duration;
use turns::{Plan, Way, measure};

pub use util::ArrayVec;

const AGGREGATE: &str = "an aggregate of eleven units of 100 bytes";
const USAGE: &str = "usage: beside measure TURNS MILLISECONDS [TEXT]\n       beside table|summary FILE...\n       beside count packetize|take FORMAT PAYLOAD WAY CALLS";

fn main() -> ExitCode {
    let words: Vec<String> = std::env::args().skip(1).collect();
    let words: Vec<&str> = words.iter().map(String::as_str).collect();
    let done = match words[..] {
        ["measure", turns, batch] => measure_all(turns, batch, ""),
        ["measure", turns, batch, only] => measure_all(turns, batch, only),
        ["count", call, format, payload, way, calls] => count(call, format, payload, way, calls),
        ["table", ref files @ ..] if !files.is_empty() => print_table(files),
        ["summary", ref files @ ..] if !files.is_empty() => print_summary(files),
        _ => Err(USAGE.into()),
    };
    match done {
        Ok(()) => ExitCode::SUCCESS,
        Err(why) => {
            eprintln!("{why}");
            ExitCode::FAILURE
        }
    }
}

/// Prints a line for each way to do each case whose name has this text.
fn measure_all(turns: &str, batch: &str, only: &str) -> Result<(), String> {
    let turns = turns.parse().ok().filter(|turns| *turns > 0).ok_or(USAGE)?;
    let batch = Duration::from_millis(batch.parse().map_err(|_| USAGE)?);
    let plan = Plan { turns, batch };
    for format in Format::ALL {
        let payloads = payload::payloads(format).into_iter();
        payloads
            .filter(|payload| payload.name.contains(only))
            .for_each(|payload| measure_payload(&payload, format, &plan));
        if AGGREGATE.contains(only) {
            let packet = [payload::aggregate(format, 11, 100)];
            tell(
                "take",
                AGGREGATE,
                format,
                ways::taking(format, &packet),
                &plan,
            );
        }
    }
    Ok(())
}

/// Packetizing a payload, and taking its packets where there are any.
fn measure_payload(payload: &Payload, format: Format, plan: &Plan) {
    let packets = ways::packets(format, &payload.bytes);
    let making = ways::packetizing(format, payload, &packets);
    tell("packetize", payload.name, format, making, plan);
    if !packets.is_empty() {
        let taking = ways::taking(format, &packets);
        tell("take", payload.name, format, taking, plan);
    }
}

/// Times a case, and prints what came of each way; or says why it is left out.
fn tell(call: &str, payload: &str, format: Format, ways: Result<Vec<Way>, String>, plan: &Plan) {
    match ways {
        Ok(mut ways) => {
            for told in measure(&mut ways, ways::STR0M, plan) {
                println!("{}", Line::text(call, payload, format.name, &told));
            }
        }
        Err(why) => println!("{LEFT_OUT}{call}, {payload}, {}: {why}", format.name),
    }
}

/// Makes so many calls in one way, for a program that counts instructions. A payload that is none of the
/// cases is an aggregate of eleven units of 100 bytes.
fn count(call: &str, format: &str, name: &str, way: &str, calls: &str) -> Result<(), String> {
    let format = Format::ALL.iter().find(|it| it.name == format);
    let format = *format.ok_or("no such format")?;
    let payloads = payload::payloads(format);
    let aggregate = [payload::aggregate(format, 11, 100)];
    let payload = payloads.iter().find(|it| it.name == name);
    let packets = payload.map(|it| ways::packets(format, &it.bytes));
    let packets = packets.as_deref().unwrap_or(&aggregate);
    let ways = match (call, payload) {
        ("packetize", Some(payload)) => ways::packetizing(format, payload, packets)?,
        _ => ways::taking(format, packets)?,
    };
    let way = ways.into_iter().find(|it| it.name == way);
    let mut way = way.ok_or("no such way")?;
    let calls: u32 = calls.parse().map_err(|_| USAGE)?;
    (0..calls).for_each(|_| (way.call)());
    Ok(())
}

/// Prints the table of what builds of this program measured.
fn print_table(files: &[&str]) -> Result<(), String> {
    let texts = texts(files)?;
    print!("{}", table::table(&builds(&texts)?));
    // All builds leave out the same.
    lines::left_out(&texts[0]).for_each(|line| println!("\n{line}"));
    Ok(())
}

/// Prints a short table.
fn print_summary(files: &[&str]) -> Result<(), String> {
    println!("{}", table::summary(&builds(&texts(files)?)?));
    Ok(())
}

fn texts(files: &[&str]) -> Result<Vec<String>, String> {
    let read = |file: &&str| std::fs::read_to_string(file).map_err(|why| format!("{file}: {why}"));
    files.iter().map(read).collect()
}

/// What each build measured.
fn builds(texts: &[String]) -> Result<Vec<Vec<Line<'_>>>, String> {
    texts.iter().map(|text| lines::measures(text)).collect()
}
