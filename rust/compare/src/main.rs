//! Gives the Rust crate and the proved library the same drawn calls, and compares every answer:
//!
//! ```text
//! compare [--seed N] [--cases N | --seconds N] [--threads N]
//! compare [--seed N] [--threads N] --pairs N --texts N
//! ```
//!
//! It ends at the first case in which an answer differs, and prints it; at the end stands how many calls there were and a
//! sum of the crate's answers, which a seed and a number of cases give on every machine. The status is 1 where an answer differs.
//! The second form draws pairs of an offer and a format of one's own, and texts of SDP, beside a plain reading of the RFCs
//! (`sdp.rs`), and stops at the first that differs.

mod assembler;
#[cfg(feature = "library")]
mod c;
mod log;
mod making;
mod network;
mod random;
mod runs;
mod sdp;

use std::env;
use std::process::ExitCode;
use std::sync::atomic::{AtomicU64, Ordering};
use std::thread;
use std::time::{Duration, Instant};

/// What is asked for on the command line.
struct Asked {
    seed: u64,
    cases: u64,
    time: Duration,
    threads: u64,
    pairs: u64,
    texts: u64,
}

impl Asked {
    fn read() -> Self {
        let mut asked = Asked {
            seed: 1,
            cases: 20_000,
            time: Duration::MAX,
            threads: 1,
            pairs: 0,
            texts: 0,
        };
        let words: Vec<String> = env::args().skip(1).collect();
        for pair in words.chunks(2) {
            let value: u64 = pair
                .get(1)
                .and_then(|it| it.parse().ok())
                .expect("a number");
            match pair[0].as_str() {
                "--seed" => asked.seed = value,
                "--cases" => asked.cases = value,
                "--seconds" => {
                    asked.cases = u64::MAX;
                    asked.time = Duration::from_secs(value);
                }
                "--threads" => asked.threads = value.max(1),
                "--pairs" => asked.pairs = value,
                "--texts" => asked.texts = value,
                other => panic!(
                    "{other} is none of --seed, --cases, --seconds, --threads, --pairs and --texts"
                ),
            }
        }
        asked
    }
}

/// What came of the cases so far.
#[derive(Default)]
struct Found {
    cases: AtomicU64,
    calls: AtomicU64,
    differences: AtomicU64,
    sum: AtomicU64,
}

impl Found {
    /// Runs a case on both sides, and compares them.
    fn take(&self, seed: u64, case: u64) {
        let (ours, theirs) = runs::all(seed, case);
        self.cases.fetch_add(1, Ordering::Relaxed);
        self.calls.fetch_add(ours.calls, Ordering::Relaxed);
        self.sum.fetch_add(ours.sum(), Ordering::Relaxed);
        if cfg!(feature = "library") && ours != theirs {
            self.differences.fetch_add(1, Ordering::Relaxed);
            println!("case {case} of seed {seed}: {}", ours.difference(&theirs));
        }
    }
}

fn main() -> ExitCode {
    let asked = Asked::read();
    let (seed, started) = (asked.seed, Instant::now());
    if asked.pairs + asked.texts > 0 {
        sdp::run(seed, [asked.pairs, asked.texts], asked.threads);
        return ExitCode::SUCCESS;
    }
    runs::numbers();
    let found = Found::default();
    thread::scope(|scope| {
        for first in 0..asked.threads {
            let (found, asked) = (&found, &asked);
            scope.spawn(move || {
                let mut case = first;
                let goes_on = |case| case < asked.cases && started.elapsed() < asked.time;
                while goes_on(case) && found.differences.load(Ordering::Relaxed) == 0 {
                    found.take(seed, case);
                    case += asked.threads;
                }
            });
        }
    });
    let cases = found.cases.into_inner();
    let (calls, sum) = (found.calls.into_inner(), found.sum.into_inner());
    let differences = found.differences.into_inner();
    println!(
        "seed {seed}: {cases} cases, {calls} calls of each, sum {sum:016x}, {differences} differences"
    );
    ExitCode::from(u8::from(differences != 0))
}
