#![no_main]

use emupedestal_fuzz::program;
use libfuzzer_sys::fuzz_target;

fuzz_target!(|data: &[u8]| program::run(data));
