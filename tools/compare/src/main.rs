//! Gives str0m's files and emupedestal the same calls, and compares every answer. A difference has
//! to be one of docs/DIFFERENCES.md.

// str0m's files name these crates; what they take of them stands in `util`.
extern crate self as arrayvec;
extern crate self as tracing;

mod answers;
mod case;
mod check;
mod count;
mod depacketizer;
mod document;
mod exhaust;
mod generate;
mod packetizer;
mod pair;
mod profiles;
mod random;
mod rules;
mod shrink;
#[path = "../../str0m/str0m.rs"]
#[allow(dead_code)]
mod str0m;
#[path = "../../str0m/util.rs"]
mod util;

use answers::{Codec, Facts};
use case::Case;
use count::{Counts, Numbered};
use random::Random;
use rules::Rule;
use std::process::ExitCode;
use std::time::Instant;

pub use util::ArrayVec;

/// From so many random cases on each rule has to have fired.
const EACH_RULE_FROM: u64 = 1_000_000;

/// What the command line asks for.
struct Asked {
    seed: u64,
    cases: u64,
}

fn main() -> ExitCode {
    check::silence_panics();
    match asked(std::env::args().skip(1)).and_then(|asked| compare(&asked)) {
        Ok(()) => ExitCode::SUCCESS,
        Err(said) => {
            println!("{said}");
            ExitCode::FAILURE
        }
    }
}

fn asked(mut words: impl Iterator<Item = String>) -> Result<Asked, String> {
    let mut asked = Asked {
        seed: 1,
        cases: 2_000_000,
    };
    while let Some(word) = words.next() {
        let value = words.next().and_then(|value| value.parse().ok());
        match (word.as_str(), value) {
            ("--seed", Some(seed)) => asked.seed = seed,
            ("--cases", Some(cases)) => asked.cases = cases,
            _ => return Err("usage: compare-with-str0m DIR [--seed N] [--cases N]".into()),
        }
    }
    Ok(asked)
}

/// Compares everything, and says what came of it.
fn compare(asked: &Asked) -> Result<(), String> {
    failed(document::complaints())?;
    let begun = Instant::now();
    let mut counts = Counts::default();
    all_numbers(asked, &mut counts)?;
    random_cases(asked, &mut counts)?;
    for codec in Codec::ALL {
        for has_donl in [false, true] {
            if codec != Codec::H264 || !has_donl {
                payloads(codec, has_donl, &mut counts)?;
                packets(codec, has_donl, &mut counts)?;
            }
        }
    }
    table(&counts);
    println!(
        "{} cases of calls with {} answers, and {} numbers of profiles and headers, compared in {} s \
         (seed {}): no difference outside the list",
        counts.cases,
        counts.answers,
        counts.numbers,
        begun.elapsed().as_secs(),
        asked.seed,
    );
    let came = |rule: &Rule| counts.fired[*rule as usize] > 0;
    let (came, never): (Vec<Rule>, Vec<Rule>) = Rule::ALL.iter().partition(|rule| came(rule));
    println!("{} of {} rows came", came.len(), Rule::ALL.len());
    if asked.cases < EACH_RULE_FROM {
        return Ok(());
    }
    let said = |rule: Rule| format!("this row never came: {}", rule.row().0);
    failed(never.into_iter().map(said).collect())
}

/// Fails where there is a complaint.
fn failed(complaints: Vec<String>) -> Result<(), String> {
    if complaints.is_empty() {
        return Ok(());
    }
    Err(format!("FAILED: {}", complaints.join("\nFAILED: ")))
}

/// Profiles, tiers, levels and header words, each number one case.
fn all_numbers(asked: &Asked, counts: &mut Counts) -> Result<(), String> {
    let random = &mut Random::of_case(asked.seed, u64::MAX);
    numbers("profiles of H.264", profiles::h264(), counts)?;
    numbers("profiles of H.265", profiles::h265(random), counts)?;
    numbers("profiles of H.266", profiles::h266(random), counts)?;
    numbers(
        "header words of H.265",
        profiles::words_h265(random),
        counts,
    )
}

/// Counts what was compared, and says how many numbers they were.
fn numbers(name: &str, answer: profiles::Answer, counts: &mut Counts) -> Result<(), String> {
    let compared = answer.map_err(|said| format!("a difference outside the list:\n{said}"))?;
    counts.numbers += compared.answers;
    counts.fired[profiles::RULE as usize] += compared.level_1b;
    println!("{name}: {} numbers", compared.answers);
    Ok(())
}

fn random_cases(asked: &Asked, counts: &mut Counts) -> Result<(), String> {
    let numbered = Numbered {
        name: "random calls",
        count: asked.cases,
        cases: &|number| vec![generate::case(asked.seed, number)],
    };
    run(&numbered, counts)
}

/// Every payload of up to 7 bytes at every limit, and of up to 5 where an SPS and a PPS wait.
fn payloads(codec: Codec, has_donl: bool, counts: &mut Counts) -> Result<(), String> {
    for (most, sets_wait) in [(7, false), (5, true)] {
        let words = exhaust::Words::payloads(codec, most);
        let behind = if sets_wait { " behind sets" } else { "" };
        let name = codec.name();
        let name = format!(
            "{name} payloads of up to {most} bytes{behind}{}",
            with(has_donl)
        );
        let numbered = Numbered {
            name: &name,
            count: words.count(),
            cases: &|number| {
                let payload = words.word(number);
                vec![exhaust::payload_case(codec, has_donl, sets_wait, &payload)]
            },
        };
        run(&numbered, counts)?;
    }
    Ok(())
}

/// Every packet of up to 5 bytes over another alphabet, with a run open or not.
fn packets(codec: Codec, has_donl: bool, counts: &mut Counts) -> Result<(), String> {
    let most = 5;
    let words = exhaust::Words::packets(codec, most);
    let name = format!(
        "{} packets of up to {most} bytes{}",
        codec.name(),
        with(has_donl)
    );
    let numbered = Numbered {
        name: &name,
        count: words.count(),
        cases: &|number| {
            let packet = words.word(number);
            exhaust::packet_cases(codec, has_donl, &packet).into()
        },
    };
    run(&numbered, counts)
}

fn with(has_donl: bool) -> &'static str {
    if has_donl { ", with DONL" } else { "" }
}

/// Runs cases, and says how many they were; the smallest lines that show a difference.
fn run(numbered: &Numbered, counts: &mut Counts) -> Result<(), String> {
    let before = counts.cases;
    count::run(numbered, counts).map_err(|case| difference(&case))?;
    println!("{}: {} cases", numbered.name, counts.cases - before);
    Ok(())
}

/// What a case shows, shrunk.
fn difference(case: &Case) -> String {
    let case = shrink::shrink(case, |case| check::check(case).is_err());
    let Err(found) = check::check(&case) else {
        return "a difference that doesn't come again".into();
    };
    let asked = found
        .expected
        .map(|expected| format!("asked: {expected}\n"));
    format!(
        "a difference outside the list, of {} at line {}:\n\n{}\nstr0m: {}\nours:  {}\n{}",
        found.of,
        found.step + 2,
        case.lines(),
        found.theirs,
        found.ours,
        asked.unwrap_or_default(),
    )
}

/// How many cases show each row.
fn table(counts: &Counts) {
    println!("\n{:>12}  row of docs/DIFFERENCES.md", "cases");
    for rule in Rule::ALL {
        println!("{:>12}  {}", counts.fired[*rule as usize], rule.row().0);
    }
    println!();
}
