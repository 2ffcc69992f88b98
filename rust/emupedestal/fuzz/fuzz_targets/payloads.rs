#![no_main]

use emupedestal_fuzz::payloads;
use libfuzzer_sys::fuzz_target;

fuzz_target!(|data: &[u8]| payloads::run(data));
