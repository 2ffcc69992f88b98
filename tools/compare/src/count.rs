//! Runs numbered cases on all processors, counts, and says how far it is.

use crate::case::Case;
use crate::check::{Checked, check};
use crate::rules::Rule;
use std::io::{IsTerminal, Write};
use std::sync::Mutex;
use std::sync::atomic::{AtomicU64, Ordering};
use std::thread;
use std::time::{Duration, Instant};

/// How many numbers a thread takes at once.
const AT_ONCE: u64 = 256;

/// What was compared so far.
#[derive(Debug, Default, Clone)]
pub struct Counts {
    pub cases: u64,
    pub answers: u64,
    /// Numbers of profiles and of header words, each compared once.
    pub numbers: u64,
    /// In how many cases answers differ under each rule.
    pub fired: [u64; Rule::ALL.len()],
}

impl Counts {
    pub fn add(&mut self, other: &Counts) {
        self.cases += other.cases;
        self.answers += other.answers;
        self.numbers += other.numbers;
        for (sum, n) in self.fired.iter_mut().zip(other.fired) {
            *sum += n;
        }
    }

    fn add_case(&mut self, checked: &Checked) {
        self.cases += 1;
        self.answers += checked.answers;
        for rule in Rule::ALL {
            self.fired[*rule as usize] += u64::from(checked.fired.has(*rule));
        }
    }
}

/// The cases that a number stands for.
pub type Cases<'a> = &'a (dyn Fn(u64) -> Vec<Case> + Sync);

/// Cases by number, from 0.
pub struct Numbered<'a> {
    pub name: &'a str,
    /// How many numbers there are.
    pub count: u64,
    pub cases: Cases<'a>,
}

/// What the threads share.
struct Shared {
    next: AtomicU64,
    /// The least number of which a case shows a difference.
    found: Mutex<Option<(u64, Case)>>,
    least: AtomicU64,
}

/// Runs all cases; the first one, by its number, that shows a difference.
pub fn run(numbered: &Numbered, counts: &mut Counts) -> Result<(), Case> {
    let shared = Shared {
        next: AtomicU64::new(0),
        found: Mutex::new(None),
        least: AtomicU64::new(u64::MAX),
    };
    let threads = thread::available_parallelism().map_or(1, |n| n.get());
    thread::scope(|scope| {
        let workers: Vec<_> = (0..threads)
            .map(|_| scope.spawn(|| work(numbered, &shared)))
            .collect();
        watch(numbered, &shared, || {
            workers.iter().all(|worker| worker.is_finished())
        });
        for worker in workers {
            counts.add(&worker.join().expect("a thread ends"));
        }
    });
    match shared.found.into_inner().expect("no thread panics") {
        Some((_, case)) => Err(case),
        None => Ok(()),
    }
}

/// Takes numbers until there are no more, or one below them shows a difference.
fn work(numbered: &Numbered, shared: &Shared) -> Counts {
    let mut counts = Counts::default();
    loop {
        let first = shared.next.fetch_add(AT_ONCE, Ordering::Relaxed);
        let end = numbered.count.min(first.saturating_add(AT_ONCE));
        for number in first..end {
            if number >= shared.least.load(Ordering::Relaxed) {
                return counts;
            }
            for case in (numbered.cases)(number) {
                match check(&case) {
                    Ok(checked) => counts.add_case(&checked),
                    Err(_) => report(shared, number, case),
                }
            }
        }
        if first >= numbered.count {
            return counts;
        }
    }
}

fn report(shared: &Shared, number: u64, case: Case) {
    let mut found = shared.found.lock().expect("no thread panics");
    if found.as_ref().is_none_or(|(least, _)| number < *least) {
        shared.least.fetch_min(number, Ordering::Relaxed);
        *found = Some((number, case));
    }
}

/// Says how far the threads are: in place on a terminal, else a line now and then.
fn watch(numbered: &Numbered, shared: &Shared, is_done: impl Fn() -> bool) {
    let terminal = std::io::stderr().is_terminal();
    let between = Duration::from_millis(if terminal { 300 } else { 15_000 });
    let mut last = Instant::now();
    while !is_done() {
        thread::sleep(Duration::from_millis(20));
        if last.elapsed() >= between {
            last = Instant::now();
            let done = shared.next.load(Ordering::Relaxed).min(numbered.count);
            let percent = done * 100 / numbered.count.max(1);
            let line = format!("{}: {percent} % of {}", numbered.name, numbered.count);
            if terminal {
                eprint!("\r{line}   ");
            } else {
                eprintln!("{line}");
            }
            std::io::stderr().flush().unwrap_or(());
        }
    }
    if terminal {
        eprint!("\r{:60}\r", "");
    }
}
