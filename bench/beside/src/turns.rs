//! Timing in turns.

use std::time::{Duration, Instant};

/// One way to do a case: its name, and a call that does it once.
pub struct Way<'a> {
    pub name: &'static str,
    pub call: Box<dyn FnMut() + 'a>,
}

impl<'a> Way<'a> {
    pub fn new(name: &'static str, call: impl FnMut() + 'a) -> Self {
        let call = Box::new(call);
        Way { name, call }
    }

    /// How long so many calls take.
    fn time(&mut self, calls: u32) -> Duration {
        let begun = Instant::now();
        (0..calls).for_each(|_| (self.call)());
        begun.elapsed()
    }

    /// How many calls take as long as a batch, or up to twice that.
    fn calls_of(&mut self, batch: Duration) -> u32 {
        let mut calls = 1;
        while self.time(calls) < batch {
            calls *= 2;
        }
        calls
    }
}

/// How often, and how long.
pub struct Plan {
    pub turns: usize,
    pub batch: Duration,
}

/// What came of one way: medians over the turns.
pub struct Told {
    pub name: &'static str,
    /// Of one call.
    pub nanoseconds: f64,
    /// Of its time to that of the way that all are compared with, in the same turn.
    pub ratio: f64,
}

/// Times a batch of each way in each turn, and compares all with the way of this name.
pub fn measure(ways: &mut [Way], with: &str, plan: &Plan) -> Vec<Told> {
    let calls: Vec<u32> = ways
        .iter_mut()
        .map(|way| way.calls_of(plan.batch))
        .collect();
    let turns: Vec<Vec<f64>> = (0..plan.turns)
        .map(|number| turn(ways, &calls, number % 2 == 1))
        .collect();
    let at = ways
        .iter()
        .position(|way| way.name == with)
        .expect("it is one of them");
    let told = |(i, way): (usize, &Way)| Told {
        name: way.name,
        nanoseconds: median(turns.iter().map(|times| times[i])),
        ratio: median(turns.iter().map(|times| times[i] / times[at])),
    };
    ways.iter().enumerate().map(told).collect()
}

/// Times so many calls of each way, from the first way to the last or back; the nanoseconds of a call
/// of each.
fn turn(ways: &mut [Way], calls: &[u32], back: bool) -> Vec<f64> {
    let mut times = vec![0.0; ways.len()];
    for step in 0..ways.len() {
        let i = if back { ways.len() - 1 - step } else { step };
        times[i] = ways[i].time(calls[i]).as_secs_f64() * 1e9 / f64::from(calls[i]);
    }
    times
}

/// The middle one, or the mean of the two in the middle.
fn median(numbers: impl Iterator<Item = f64>) -> f64 {
    let mut sorted: Vec<f64> = numbers.collect();
    sorted.sort_by(f64::total_cmp);
    let middle = sorted.len() / 2;
    if sorted.len() % 2 == 1 {
        sorted[middle]
    } else {
        (sorted[middle - 1] + sorted[middle]) / 2.0
    }
}
