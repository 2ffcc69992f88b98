#![no_main]

use emupedestal_fuzz::packets;
use libfuzzer_sys::fuzz_target;

fuzz_target!(|data: &[u8]| packets::run(data));
