//! What the fuzz targets do with an input: they make the crate's calls by it, and look whether each answers what
//! its documents say. A panic is a finding.
//!
//! An input is a script. Numbers of one byte or two (the high one first) say how ends are set up, and then each
//! call takes its own; bytes stand behind their length in two bytes. Where an input ends, numbers are 0 and bytes
//! are none. The programs `bindings/c/fuzz_packets.c` and `fuzz_payloads.c` read the same inputs.

pub mod assembler;
pub mod ends;
pub mod held;
pub mod input;
pub mod packets;
pub mod payloads;
pub mod plan;
pub mod profiles;
pub mod program;
pub mod receivers;
pub mod sdp;
pub mod shown;
pub mod streams;
pub mod text;
pub mod texts;
