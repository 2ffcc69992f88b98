#![no_main]

use emupedestal_fuzz::texts;
use libfuzzer_sys::fuzz_target;

fuzz_target!(|data: &[u8]| texts::run(data));
