//! The drawn calls of `compare` where a program can neither read nor print: `tools/check-rust-elsewhere` asks the module
//! for their sum.

#[path = "../../src/assembler.rs"]
mod assembler;
#[allow(dead_code)]
#[path = "../../src/log.rs"]
mod log;
#[path = "../../src/making.rs"]
mod making;
#[path = "../../src/network.rs"]
mod network;
#[path = "../../src/random.rs"]
mod random;
#[path = "../../src/runs.rs"]
mod runs;

/// The sum of the answers of so many cases, which `compare` prints of them too.
#[unsafe(no_mangle)]
pub extern "C" fn sum(seed: u64, cases: u64) -> u64 {
    runs::numbers();
    (0..cases).fold(0, |sum: u64, case| {
        sum.wrapping_add(runs::all(seed, case).0.sum())
    })
}
