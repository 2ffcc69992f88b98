//! The rates of a stream: in sentences, and as an object of JSON.

use crate::streams::chooser::counted;
use crate::streams::rates::TICKS_A_SECOND;
use crate::streams::spread::{Ends, Spread};
use crate::streams::tally::Tally;
use serde_json::{Value, json};

/// Sentences: time, losses, sizes and keyframes.
pub fn sentences(tally: &Tally) -> Vec<String> {
    let rates = &tally.rates;
    let a_second = match (rates.a_second(tally.packets), rates.a_second(tally.bytes)) {
        (Some(packets), Some(bytes)) => {
            let kilobits = bytes * 8.0 / 1000.0;
            format!("; {packets:.1} packets and {kilobits:.1} kbit of payload a second")
        }
        _ => String::new(),
    };
    vec![
        format!("duration: {:.6} s{a_second}", rates.seconds()),
        format!(
            "loss: {:.2} %; jitter: {:.3} ms, {:.3} ms at most (RFC 3550, A.8); reordered: {}",
            tally.loss_percent(),
            rates.jitter.seconds() * 1000.0,
            rates.jitter.greatest() * 1000.0,
            counted(tally.moved, "packet"),
        ),
        sizes(&rates.sizes),
        intervals(&rates.intervals),
    ]
}

fn sizes(sizes: &Spread) -> String {
    match sizes.ends() {
        None => "access unit size: none".into(),
        Some(it) => format!(
            "access unit size: {} bytes at least, {} in the middle, {} at most",
            it.least, it.middle, it.greatest
        ),
    }
}

fn intervals(intervals: &Spread) -> String {
    match intervals.ends().map(seconds) {
        None => "keyframe interval: none, of fewer than two keyframes".into(),
        Some([least, middle, greatest]) => format!(
            "keyframe interval: {least:.3} s at least, {middle:.3} in the middle, {greatest:.3} at most"
        ),
    }
}

fn seconds(ticks: Ends) -> [f64; 3] {
    [ticks.least, ticks.middle, ticks.greatest].map(|it| it as f64 / TICKS_A_SECOND)
}

/// The same as an object; what isn't known is null.
pub fn object(tally: &Tally) -> Value {
    let rates = &tally.rates;
    let sizes = rates.sizes.ends();
    let intervals = rates.intervals.ends().map(seconds);
    json!({
        "seconds": rates.seconds(),
        "packets_a_second": rates.a_second(tally.packets),
        "bits_a_second": rates.a_second(tally.bytes).map(|it| it * 8.0),
        "loss_percent": tally.loss_percent(),
        "jitter_seconds": rates.jitter.seconds(),
        "jitter_seconds_at_most": rates.jitter.greatest(),
        "access_unit_bytes": sizes.map(|it| spread(it.least, it.middle, it.greatest)),
        "keyframe_seconds": intervals.map(|[least, middle, greatest]| spread(least, middle, greatest)),
    })
}

fn spread(least: impl Into<Value>, middle: impl Into<Value>, greatest: impl Into<Value>) -> Value {
    json!({"least": least.into(), "middle": middle.into(), "greatest": greatest.into()})
}
