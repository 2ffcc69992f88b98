//! Drawn texts of SDP: what is read is written and read as the same, and what is refused has its place.
//!
//! `DRAWN_TEXTS=1000000000 cargo test --release --features sdp --test drawn_texts` draws so many, and
//! `DRAWN_SECONDS=600` ends after so many seconds; `DRAWN_THREADS` says how many threads do so, from `DRAWN_SEED` on.
#![cfg(feature = "sdp")]

use emupedestal::sdp::*;
use std::env;
use std::fmt::Write;
use std::sync::atomic::{AtomicBool, Ordering};
use std::thread;
use std::time::{Duration, Instant};

/// Numbers that follow one another as drawn (Marsaglia, Xorshift RNGs).
struct Drawn(u64);

impl Drawn {
    fn new(seed: u64) -> Self {
        Drawn((seed + 1).wrapping_mul(0x9e37_79b9_7f4a_7c15))
    }

    fn below(&mut self, most: usize) -> usize {
        self.0 ^= self.0 << 13;
        self.0 ^= self.0 >> 7;
        self.0 ^= self.0 << 17;
        (((self.0 >> 32) * most as u64) >> 32) as usize
    }

    fn one<'a>(&mut self, of: &[&'a str]) -> &'a str {
        of[self.below(of.len())]
    }
}

/// What stands where an end would write a `;`, a `=`, a value, or the name of no parameter of the codec.
const BETWEEN: [&str; 8] = [";", ";", ";", "; ", ";;", " ;\r\n\t", ",", ""];
const EQUALS: [&str; 6] = ["=", "=", "=", " = ", "", "=="];
const VALUES: [&str; 30] = [
    "0",
    "1",
    "2",
    "3",
    "6",
    "7",
    "15",
    "16",
    "93",
    "255",
    "256",
    "32767",
    "32768",
    "4294967295",
    "4294967296",
    "18446744073709551615",
    "18446744073709551616",
    "-1",
    "+1",
    "0x1",
    "42e01f",
    "640C1F",
    "B00000000000",
    "SRST",
    "MRMT",
    "{w:8;level-id=93}",
    "{",
    "}",
    "Z0IACpZTBYmI,aMljiA==",
    "",
];
const NAMES: [&str; 5] = ["x-google-start-bitrate", "a", "", "packetisation-mode", "ä"];
/// Any characters, those of the grammar among them.
const ANY: [&str; 16] = [
    ";", "=", "{", "}", ",", " ", "\t", "\r", "\n", "a", "A", "0", "/", "+", "\0", "\u{20ac}",
];

/// Parameters whose values have a grammar of their own.
const OWN_GRAMMAR: [&str; 2] = ["dec-parallel-cap", "interop-constraints"];
/// Parts of `dec-parallel-cap`: what stands before a point's limits, the limits, and what may stand between.
const HEADS: [&str; 16] = [
    "w:8", "t:8", "w:1", "t:4095", "W:77", "T:0012", "w : 9", "t:100", "w:3", "t:0", "w:4096", "t",
    "x:8", "", "w:8:9", "w8",
];
const LIMITS: [&str; 11] = [
    "tier-flag",
    "level-id",
    "max-lsr",
    "max-lps",
    "max-br",
    "level-id",
    "max-lps",
    "Level-ID",
    "max-cpb",
    " max-br ",
    "",
];
const BETWEEN_LIMITS: [&str; 7] = [";", ";", ";", "; ", ";;", "", ":"];
const BETWEEN_POINTS: [&str; 6] = [",", ",", ",", " , ", ",,", "},{"];

/// Draws the value of `dec-parallel-cap`.
fn draw_points(drawn: &mut Drawn, text: &mut String) {
    text.push('{');
    for point in 0..drawn.below(4) {
        if point > 0 {
            text.push_str(drawn.one(&BETWEEN_POINTS));
        }
        text.push_str(drawn.one(&HEADS));
        for _ in 0..drawn.below(4) {
            text.push_str(drawn.one(&BETWEEN_LIMITS));
            text.push_str(drawn.one(&LIMITS));
            text.push_str(drawn.one(&EQUALS));
            match drawn.below(3) {
                0 => text.push_str(drawn.one(&VALUES)),
                1 => write!(text, "{}", drawn.below(2)).expect("memory"),
                _ => write!(text, "{}", drawn.below(256)).expect("memory"),
            }
        }
    }
    text.push('}');
}

/// Draws the value of `interop-constraints`: base64 of bytes, of which the first ones matter, or twelve digits.
fn draw_constraints(drawn: &mut Drawn, text: &mut String) {
    if drawn.below(4) == 0 {
        write!(
            text,
            "{:06x}{:06x}",
            drawn.below(1 << 24),
            drawn.below(1 << 24)
        )
        .expect("memory");
        return;
    }
    const DIGITS: &[u8] = b"ABCDEFGHIJKLMNOPQRSTUVWXYZabcdefghijklmnopqrstuvwxyz0123456789+/";
    let bytes = [1, 1, 11, 11, 12, 13, 2, 16][drawn.below(8)];
    let bits = bytes * 8;
    for digit in 0..(bits + 5) / 6 {
        let filled = (bits - digit * 6).min(6); // the last digit ends with bits of 0
        let value = drawn.below(1 << filled) << (6 - filled);
        text.push(char::from(DIGITS[value]));
    }
    (0..(3 - bytes % 3) % 3).for_each(|_| text.push('='));
}

/// Draws a text into this one: parameters with their values, some of them of the other kind, and now and then any
/// character.
fn draw<P: Parameter>(drawn: &mut Drawn, text: &mut String) {
    text.clear();
    for _ in 0..drawn.below(6) {
        match drawn.below(8) {
            0 => text.push_str(drawn.one(&NAMES)),
            2 => text.push_str(drawn.one(&OWN_GRAMMAR)),
            1 => text.extend(
                P::all()[drawn.below(P::all().len())]
                    .name()
                    .chars()
                    .map(|c| c.to_ascii_uppercase()),
            ),
            _ => text.push_str(P::all()[drawn.below(P::all().len())].name()),
        }
        text.push_str(drawn.one(&EQUALS));
        match drawn.below(4) {
            0 => write!(text, "{}", drawn.below(1 << 20)).expect("memory"),
            _ if text.ends_with("dec-parallel-cap=") => draw_points(drawn, text),
            _ if text.ends_with("interop-constraints=") => draw_constraints(drawn, text),
            _ => text.push_str(drawn.one(&VALUES)),
        }
        if drawn.below(24) == 0 {
            (0..drawn.below(8)).for_each(|_| text.push_str(drawn.one(&ANY)));
        }
        text.push_str(drawn.one(&BETWEEN));
    }
}

/// Reads a value with a grammar of its own; whether it is taken.
fn check_value(name: &str, value: &str) -> bool {
    match name {
        "dec-parallel-cap" => match read_capability_points(value) {
            Ok(points) => {
                let written = write_capability_points(&points).expect("memory");
                assert_eq!(read_capability_points(&written), Ok(points), "{value:?}");
                true
            }
            Err(CapabilityPointsError::NoBraces) => {
                assert!(!value.starts_with('{') || !value.ends_with('}'));
                false
            }
            Err(
                CapabilityPointsError::NoTool { place }
                | CapabilityPointsError::Segmentation { place, .. }
                | CapabilityPointsError::Limits { place, .. }
                | CapabilityPointsError::NoLimit { place },
            ) => {
                assert!(place <= value.matches(',').count(), "{value:?}");
                false
            }
            Err(error) => panic!("{error} of {value:?}"),
        },
        "interop-constraints" => match value.parse::<InteropConstraints>() {
            Ok(it) => {
                assert_eq!(it.to_string(), value);
                true
            }
            Err(error) => {
                assert_ne!(error, ConstraintsError::OutOfMemory);
                false
            }
        },
        _ => false,
    }
}

/// Reads a text; whether it is taken, and how many of its values that have a grammar of their own.
fn check<P: Parameter>(text: &str) -> (bool, u64) {
    match text.parse::<CodecParameters<P>>() {
        Ok(format) => {
            let written = format.to_string();
            assert_eq!(written.parse().as_ref(), Ok(&format), "{text:?}");
            assert!(
                written.len() <= text.len() + format.iter().count(),
                "{text:?}"
            );
            let mut values = 0;
            for (name, value) in format.iter() {
                values += u64::from(check_value(name, value));
                let Some(parameter) = P::of_name(name) else {
                    break; // the others stand behind
                };
                let units = format.units(parameter).unwrap_or_default();
                let is_written = || write_units(&units).as_deref() == Ok(value);
                assert!(units.is_empty() || is_written(), "{text:?}");
            }
            (true, values)
        }
        Err(ParametersError::Refused { place, .. }) => {
            assert!(place <= text.matches(';').count(), "{text:?}");
            (false, 0)
        }
        Err(error) => {
            assert_eq!(error, ParametersError::OpenBrace, "{text:?}");
            assert!(text.contains('{'), "{text:?}");
            (false, 0)
        }
    }
}

/// Draws a value with a grammar of its own, in no text; whether it is taken.
fn draw_value(drawn: &mut Drawn, value: &mut String) -> bool {
    value.clear();
    let name = drawn.one(&OWN_GRAMMAR);
    match name {
        "dec-parallel-cap" => draw_points(drawn, value),
        _ => draw_constraints(drawn, value),
    }
    check_value(name, value)
}

/// Draws texts of one codec after the other; answers how many, how many were taken, their bytes, and how many values
/// with a grammar of their own were taken.
fn run(seed: u64, most: u64, is_over: &AtomicBool) -> [u64; 4] {
    let (mut drawn, mut text, mut counts) = (Drawn::new(seed), String::new(), [0; 4]);
    let mut value = String::new();
    while counts[0] < most && !(counts[0] % 1024 == 0 && is_over.load(Ordering::Relaxed)) {
        let (is_taken, mut values) = match counts[0] % 3 {
            0 => {
                draw::<H264Parameter>(&mut drawn, &mut text);
                check::<H264Parameter>(&text)
            }
            1 => {
                draw::<H265Parameter>(&mut drawn, &mut text);
                check::<H265Parameter>(&text)
            }
            _ => {
                draw::<H266Parameter>(&mut drawn, &mut text);
                check::<H266Parameter>(&text)
            }
        };
        if counts[0] % 4 == 0 {
            values += u64::from(draw_value(&mut drawn, &mut value));
        }
        let _ = text.parse::<RtpMap>();
        let _ = text.parse::<RepairMap>();
        let _ = text.parse::<RtxFormat>();
        let _ = read_units(&text);
        counts = [
            counts[0] + 1,
            counts[1] + u64::from(is_taken),
            counts[2] + text.len() as u64,
            counts[3] + values,
        ];
    }
    counts
}

fn number(name: &str, otherwise: u64) -> u64 {
    env::var(name)
        .ok()
        .and_then(|it| it.parse().ok())
        .unwrap_or(otherwise)
}

#[test]
fn drawn_texts() {
    let threads = number("DRAWN_THREADS", 1);
    let first = number("DRAWN_SEED", 0);
    let most = number("DRAWN_TEXTS", 30_000).div_ceil(threads);
    let seconds = number("DRAWN_SECONDS", 3600);
    let (begin, is_over) = (Instant::now(), AtomicBool::new(false));
    let counts = thread::scope(|scope| {
        let runs: Vec<_> = (0..threads)
            .map(|seed| {
                scope.spawn({
                    let is_over = &is_over;
                    move || run(first + seed, most, is_over)
                })
            })
            .collect();
        while runs.iter().any(|it| !it.is_finished()) {
            is_over.store(
                begin.elapsed() > Duration::from_secs(seconds),
                Ordering::Relaxed,
            );
            thread::sleep(Duration::from_millis(5));
        }
        let counts = runs.into_iter().map(|it| it.join().expect("no finding"));
        counts.fold([0; 4], |sum, of| [0, 1, 2, 3].map(|i| sum[i] + of[i]))
    });
    let [texts, taken, bytes, values] = counts;
    println!(
        "{texts} texts of {bytes} bytes, {taken} taken, {values} values of their own grammar, {:.1} s",
        begin.elapsed().as_secs_f64()
    );
    assert!(
        taken * 10 > texts && taken < texts && values > 0,
        "some are taken, and some are not"
    );
}

/// How long texts of growing length take, each way that they are read: run by hand, since it looks at the time.
#[test]
#[ignore = "it looks at the time"]
fn time_is_linear() {
    let forms: [(&str, &dyn Fn(usize) -> String); 7] = [
        ("points", &|n| {
            "dec-parallel-cap={".to_string() + &"w:8;max-br=1,".repeat(n / 13) + "t:1;level-id=1}"
        }),
        ("one value", &|n| "x=".to_string() + &"a".repeat(n)),
        ("others", &|n| "a=1;".repeat(n / 4)),
        ("blank parts", &|n| ";".repeat(n)),
        ("white space", &|n| " ".repeat(n) + "a"),
        ("braces", &|n| "{}".repeat(n / 2)),
        ("units", &|n| {
            "sprop-parameter-sets=".to_string() + &"AAAA,".repeat(n / 5) + "AAAA"
        }),
    ];
    for (name, form) in forms {
        print!("{name}:");
        for len in [1 << 16, 1 << 18, 1 << 20, 1 << 22] {
            let text = form(len);
            let begin = Instant::now();
            let format: H264Parameters = text.parse().expect("it is taken");
            let read = begin.elapsed();
            let points = format
                .iter()
                .next()
                .map(|(_, it)| read_capability_points(it));
            assert!(name != "points" || points.is_some_and(|it| it.is_ok()));
            let units = format.sprop_parameter_sets().map(|units| units.len());
            let written = format.to_string().len();
            let all = begin.elapsed();
            let each = |time: Duration| time.as_nanos() as f64 / text.len() as f64;
            print!(" {len}: {:.2} {:.2} ns a byte", each(read), each(all));
            assert!(written > 0 || name == "blank parts" || units.is_err());
        }
        println!();
    }
}
