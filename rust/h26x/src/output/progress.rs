//! A bar on standard error, where that is a terminal and the work takes a while.

use std::io::{self, IsTerminal, Write};
use std::time::{Duration, Instant};

const WIDTH: u64 = 30;
/// How many bytes are done between two looks at the clock.
const STEP: u64 = 1 << 20;
/// How long it is between two drawings, and before the first.
const PAUSE: Duration = Duration::from_millis(250);

pub struct Progress {
    what: &'static str,
    /// Nothing where nobody knows it, as of a pipe.
    total: Option<u64>,
    /// Where to look at the clock next; never where nobody looks.
    next: u64,
    begin: Instant,
    drawn: Option<Instant>,
}

impl Progress {
    /// A bar for the work of this name; none where it has no name.
    pub fn new(what: Option<&'static str>, total: Option<u64>) -> Self {
        let is_seen = what.is_some() && io::stderr().is_terminal();
        Progress {
            what: what.unwrap_or_default(),
            total,
            next: if is_seen { STEP } else { u64::MAX },
            begin: Instant::now(),
            drawn: None,
        }
    }

    /// So many bytes of all are done.
    pub fn at(&mut self, done: u64) {
        if done >= self.next {
            self.next = done + STEP;
            self.look(done);
        }
    }

    fn look(&mut self, done: u64) {
        if self.drawn.unwrap_or(self.begin).elapsed() < PAUSE {
            return;
        }
        self.drawn = Some(Instant::now());
        let rate = done as f64 / self.begin.elapsed().as_secs_f64() / 1e6;
        let line = match self.total {
            Some(total) => {
                let share = |of: u64| done.min(total) * of / total.max(1);
                let full = "#".repeat(share(WIDTH) as usize);
                let percent = share(100);
                format!(
                    "\r{} [{full:<30}] {percent:3} %, {rate:.0} MB/s ",
                    self.what
                )
            }
            None => format!("\r{}: {} MB, {rate:.0} MB/s ", self.what, done / 1_000_000),
        };
        // Where it can't be drawn, the work goes on.
        let _ = io::stderr().write_all(line.as_bytes());
    }
}

/// The bar goes, so that what is said next stands alone.
impl Drop for Progress {
    fn drop(&mut self) {
        if self.drawn.is_some() {
            let _ = write!(io::stderr(), "\r{:70}\r", "");
        }
    }
}
