//! What is drawn where the user gives nothing (RFC 3550, 5.1: the SSRC and the first sequence number are
//! random).

use std::collections::hash_map::RandomState;
use std::hash::BuildHasher;

pub struct Drawn {
    pub ssrc: u32,
    pub sequence: u16,
}

impl Drawn {
    /// Draws from a seed; without one from what the system gives.
    pub fn of(seed: Option<u64>) -> Self {
        // The system's random numbers, by which the keys of hash maps are drawn.
        let mut state = seed.unwrap_or_else(|| RandomState::new().hash_one(0));
        Drawn {
            ssrc: next(&mut state) as u32,
            sequence: next(&mut state) as u16,
        }
    }
}

/// The next number of SplitMix64 (Steele, Lea and Flood, 2014).
fn next(state: &mut u64) -> u64 {
    *state = state.wrapping_add(0x9e37_79b9_7f4a_7c15);
    let mut z = *state;
    z = (z ^ (z >> 30)).wrapping_mul(0xbf58_476d_1ce4_e5b9);
    z = (z ^ (z >> 27)).wrapping_mul(0x94d0_49bb_1331_11eb);
    z ^ (z >> 31)
}
