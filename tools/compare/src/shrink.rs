//! Makes a case that shows a difference smaller, as long as it shows one.

use crate::case::{Case, Step};

/// The smallest case that was found that still `shows` a difference.
pub fn shrink(case: &Case, shows: impl Fn(&Case) -> bool) -> Case {
    let mut case = case.clone();
    loop {
        let found = smaller(&case).find(|smaller| shows(smaller));
        match found {
            Some(smaller) => case = smaller,
            None => return case,
        }
    }
}

/// Cases that are a little smaller: the larger steps first.
fn smaller(case: &Case) -> impl Iterator<Item = Case> + '_ {
    let count = case.steps.len();
    let fewer = (0..count)
        .rev()
        .map(move |i| case.with(i..i + 1, Vec::new()));
    let half = [count / 2, count / 4].into_iter().filter(|n| *n > 1);
    let halves = half.flat_map(move |n| {
        let fronts = (0..count - n).step_by(n);
        fronts.map(move |i| case.with(i..i + n, Vec::new()))
    });
    let simpler = (0..count).flat_map(move |i| {
        let steps = simpler(&case.steps[i]);
        steps.map(move |step| case.with(i..i + 1, vec![step]))
    });
    halves.chain(fewer).chain(simpler)
}

impl Case {
    /// The same with other steps in the place of some.
    fn with(&self, range: std::ops::Range<usize>, steps: Vec<Step>) -> Case {
        let mut case = self.clone();
        case.steps.splice(range, steps);
        case
    }
}

/// Steps that are simpler.
fn simpler(step: &Step) -> Box<dyn Iterator<Item = Step> + '_> {
    match step {
        Step::Pack { limit, payload } => simpler_call(*limit, payload, |limit, payload| {
            Step::Pack { limit, payload }
        }),
        Step::Carry { limit, payload } => simpler_call(*limit, payload, |limit, payload| {
            Step::Carry { limit, payload }
        }),
        Step::Unpack(packet) => Box::new(shorter(packet).map(Step::Unpack)),
        Step::Paci { unit, extension } => {
            let units = shorter(unit).map(|unit| Step::Paci {
                unit,
                extension: extension.clone(),
            });
            let extensions = shorter(extension).map(|extension| Step::Paci {
                unit: unit.clone(),
                extension,
            });
            Box::new(units.chain(extensions))
        }
        _ => Box::new(std::iter::empty()),
    }
}

/// Calls with a shorter payload, then with a lower limit.
fn simpler_call(
    limit: usize,
    payload: &[u8],
    call: fn(usize, Vec<u8>) -> Step,
) -> Box<dyn Iterator<Item = Step> + '_> {
    let limits = [limit / 2, limit.saturating_sub(1)].into_iter();
    let limits = limits.filter(move |less| *less < limit);
    let lower = limits.map(move |less| call(less, payload.to_vec()));
    let shorter = shorter(payload).map(move |payload| call(limit, payload));
    Box::new(shorter.chain(lower))
}

/// Bytes with some left out, then alike from a place on, then with one that is simpler. Of long ones
/// only some are tried.
fn shorter(bytes: &[u8]) -> impl Iterator<Item = Vec<u8>> + '_ {
    let lens = [1024, 128, 16, 4, 2, 1].into_iter();
    let lens = lens.filter(|len| *len <= bytes.len());
    let left_out = lens.flat_map(move |len| {
        let places = (0..=bytes.len() - len).rev().step_by(len);
        places.map(move |i| [&bytes[..i], &bytes[i + len..]].concat())
    });
    let places = [2, 3, 6, 12].into_iter();
    let unlike = places.filter(|i| bytes.len() > *i && bytes[*i..].iter().any(|byte| *byte != 2));
    let alike = unlike.map(|i| [&bytes[..i], &vec![2; bytes.len() - i]].concat());
    left_out.chain(alike).chain(simple(bytes))
}

/// Bytes of which one of the first is simpler.
fn simple(bytes: &[u8]) -> impl Iterator<Item = Vec<u8>> + '_ {
    (0..bytes.len().min(32)).flat_map(move |i| {
        let values = [0, 1, bytes[i] & 0x7f, bytes[i] & 0x3f].into_iter();
        let values = values.filter(move |value| *value < bytes[i] && bytes[i] != 2);
        values.map(move |value| {
            let mut simpler = bytes.to_vec();
            simpler[i] = value;
            simpler
        })
    })
}
